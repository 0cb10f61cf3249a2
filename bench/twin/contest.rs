//! What the stations of a run hold, and when it goes out.
use crate::contention::{HeldFrames, Rule, contends_for, is_copy};
use crate::packets::read_frame;
use crate::station::{Entry, Event, What, Why, World};
use std::cmp::Reverse;
use std::collections::BinaryHeap;

/// What a station did with the frames that it holds.
pub enum Wait {
    Nothing,
    /// It holds the frame that it would send.
    Holds,
    /// Copies cancelled so many.
    Cancels(usize),
}

/// A frame that goes out now.
pub struct Released {
    pub moment: u64,
    pub frame: usize,
    pub station: usize,
}

pub struct Contest {
    rule: Rule,
    stations: Vec<HeldFrames<usize>>,
    /// When each frame is due, its number and its station. Some of them are held no more.
    due: BinaryHeap<Reverse<(u64, usize, usize)>>,
}

impl Contest {
    pub fn new(rule: Rule, stations: usize) -> Contest {
        let held = (0..stations).map(|_| HeldFrames::new()).collect();
        Contest { rule, stations: held, due: BinaryHeap::new() }
    }

    pub fn take(&mut self, world: &World, event: &Event, entry: &Entry) -> Wait {
        let What::Deliver(received) = event.what else { return Wait::Nothing };
        match entry {
            Entry::Accepted { sent: Some(sent), .. } => self.hold(world, event, received, *sent),
            Entry::Ignored(Why::Duplicate) => self.hear(world, event.station, received),
            _ => Wait::Nothing,
        }
    }

    fn hold(&mut self, world: &World, event: &Event, received: usize, sent: usize) -> Wait {
        let station = &world.stations[event.station];
        let frame = read_frame(world.frame(received)).ok().expect("a frame");
        let held = &mut self.stations[event.station];
        if !contends_for(station, &frame) || !held.has_room() {
            return Wait::Nothing;
        }
        let due = event.moment + self.rule.wait(station, event.moment, &frame);
        held.hold(sent, due);
        self.due.push(Reverse((due, sent, event.station)));
        Wait::Holds
    }

    fn hear(&mut self, world: &World, station: usize, received: usize) -> Wait {
        let octets = world.frame(received);
        let frame = read_frame(octets).ok().expect("a frame");
        let own = world.stations[station].mid();
        let is_copy = |held: &usize| is_copy(world.frame(*held), octets, own);
        match self.stations[station].hear(frame.from, self.rule.copies, is_copy) {
            0 => Wait::Nothing,
            cancelled => Wait::Cancels(cancelled),
        }
    }

    /// Takes out the frame that goes out next, if it does so before a moment.
    pub fn release(&mut self, before: u64) -> Option<Released> {
        while let Some(Reverse((moment, frame, station))) = self.due.peek().copied() {
            if moment >= before {
                return None;
            }
            self.due.pop();
            if self.stations[station].take(frame) {
                return Some(Released { moment, frame, station });
            }
        }
        None
    }
}
