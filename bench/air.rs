//! An air of many stations, in plain Rust: `air road STATIONS SECONDS` prints the scenario of a
//! road for `geostation sim`, `air run FILE` runs a scenario of such a road or of a town
//! (`town.py`) and prints its summary, and on standard error how many frames were received.
#![allow(dead_code)]
#[path = "twin/common.rs"]
mod common;
#[path = "twin/contention.rs"]
mod contention;
#[path = "twin/contest.rs"]
mod contest;
#[path = "twin/geometry.rs"]
mod geometry;
#[path = "twin/grid.rs"]
mod grid;
#[path = "twin/packets.rs"]
mod packets;
#[path = "twin/scenario.rs"]
mod scenario;
#[path = "twin/station.rs"]
mod station;
#[path = "twin/table.rs"]
mod table;

use common::{DELAY, Draws, Tally, print_road};
use contest::{Contest, Wait};
use geometry::Place;
use grid::Grid;
use scenario::Scenario;
use station::{Entry, Event, Station, What, World};
use std::cmp::Reverse;
use std::collections::{BinaryHeap, VecDeque};

#[derive(PartialEq, Eq, PartialOrd, Ord)]
enum Own {
    Tick(u16),
    Send(usize),
}

/// What waits on the heap: moment, place, station, and what it does.
type Waiting = (u64, u64, usize, Own);

/// A delivery, which waits in line.
struct Delivery {
    moment: u64,
    place: u64,
    station: usize,
    frame: usize,
}

/// The air that goes on by itself.
struct Air {
    scenario: Scenario,
    world: World,
    grid: Grid,
    draws: Draws,
    /// Ticks and sends, the first on top.
    heap: BinaryHeap<Reverse<Waiting>>,
    /// Deliveries, which come in the order in which they were put, the first in front.
    line: VecDeque<Delivery>,
    /// What the stations hold, if they contend.
    contest: Option<Contest>,
    placed: u64,
    found: Vec<usize>,
}

impl Air {
    fn new(mut scenario: Scenario) -> Air {
        let contest = scenario.rule.take().map(|rule| Contest::new(rule, scenario.stations.len()));
        let at = |spot: &scenario::Spot| Station::new(spot.address, spot.place, spot.capacity, 8);
        let world = World::new(scenario.stations.iter().map(at).collect());
        let places: Vec<Place> = scenario.stations.iter().map(|spot| spot.place).collect();
        let grid = Grid::new(scenario.range, &places);
        let draws = Draws::new(scenario.seed);
        let (heap, line) = (BinaryHeap::new(), VecDeque::new());
        let found = Vec::new();
        let mut air = Air { scenario, world, grid, draws, heap, line, contest, placed: 0, found };
        for station in 0..places.len() {
            if air.scenario.beacons {
                air.put_tick(0, 0, station);
            }
        }
        for number in 0..air.scenario.every.len() {
            for station in 0..places.len() {
                let moment = air.draws.next() % air.scenario.every[number].period;
                air.put(moment, station, Own::Send(number));
            }
        }
        air
    }

    fn put(&mut self, moment: u64, station: usize, own: Own) {
        self.heap.push(Reverse((moment, self.placed, station, own)));
        self.placed += 1;
    }

    fn put_delivery(&mut self, moment: u64, station: usize, frame: usize) {
        self.line.push_back(Delivery { moment, place: self.placed, station, frame });
        self.placed += 1;
    }

    /// Whether the first of the air's own is a delivery.
    fn is_line_first(&self) -> bool {
        match (self.line.front(), self.heap.peek()) {
            (Some(in_line), Some(Reverse(on_heap))) => {
                (in_line.moment, in_line.place) < (on_heap.0, on_heap.1)
            }
            (in_line, _) => in_line.is_some(),
        }
    }

    /// The moment of the first of the air's own.
    fn next_moment(&self) -> Option<u64> {
        let on_heap = self.heap.peek().map(|Reverse(waiting)| waiting.0);
        let in_line = self.line.front().map(|delivery| delivery.moment);
        on_heap.into_iter().chain(in_line).min()
    }

    /// Takes the first of the air's own: its event, and the traffic that it is of.
    fn pop(&mut self) -> Option<(Event, Option<usize>)> {
        if self.is_line_first() {
            let Delivery { moment, station, frame, .. } = self.line.pop_front()?;
            return Some((Event { station, moment, what: What::Deliver(frame) }, None));
        }
        let Reverse((moment, _, station, own)) = self.heap.pop()?;
        let (what, sent) = self.what_of(own);
        Some((Event { station, moment, what }, sent))
    }

    fn put_tick(&mut self, moment: u64, due: u64, station: usize) {
        let jitter = (self.draws.next() % 751) as u16;
        self.put(moment.max(due + u64::from(jitter)), station, Own::Tick(jitter));
    }

    /// Of an event of the air's own, what it does, and the traffic that it is of.
    fn what_of(&self, own: Own) -> (What, Option<usize>) {
        match own {
            Own::Tick(jitter) => (What::Tick(jitter), None),
            Own::Send(number) => {
                let every = self.scenario.every[number];
                let payload = vec![0; every.octets];
                (What::SendShb { port: every.port, payload }, Some(number))
            }
        }
    }

    /// What a station holds or cancels at an event, counted.
    fn contend(&mut self, event: &Event, entry: &Entry, tally: &mut Tally) -> bool {
        let Some(contest) = &mut self.contest else { return false };
        match contest.take(&self.world, event, entry) {
            Wait::Nothing => false,
            Wait::Holds => {
                tally.hold();
                true
            }
            Wait::Cancels(count) => {
                tally.cancel(count);
                false
            }
        }
    }

    /// Releases a frame that is due before the next event, and returns whether there was one.
    fn release(&mut self, next: Option<u64>, tally: &mut Tally) -> bool {
        let before = next.unwrap_or(u64::MAX).min(self.scenario.until + 1);
        let released = self.contest.as_mut().and_then(|contest| contest.release(before));
        if let Some(released) = &released {
            tally.release(released.frame);
            self.send(released.moment, released.station, released.frame);
        }
        released.is_some()
    }

    /// Deliveries of a frame that a station sends.
    fn send(&mut self, moment: u64, station: usize, frame: usize) {
        let from = self.world.stations[station].place();
        let mut found = std::mem::take(&mut self.found);
        self.grid.hearers(station, from, &mut found);
        for station in &found {
            // No frame is lost, but each has its draw.
            let _ = self.draws.next();
            self.put_delivery(moment + DELAY, *station, frame);
        }
        self.found = found;
    }

    /// What follows an event: deliveries of what it gave, the next tick, the next send.
    fn follow(&mut self, event: &Event, entry: &Entry, sent: Option<usize>, is_held: bool) {
        let given = match entry {
            Entry::Sent(frame) => Some(*frame),
            Entry::Accepted { sent, .. } if !is_held => *sent,
            _ => None,
        };
        if let Some(frame) = given {
            self.send(event.moment, event.station, frame);
        }
        if let What::Tick(_) = event.what {
            let due = self.world.stations[event.station].beacon_from();
            self.put_tick(event.moment, due, event.station);
        }
        if let Some(number) = sent {
            let period = self.scenario.every[number].period;
            self.put(event.moment + period, event.station, Own::Send(number));
        }
    }
}

fn run(mut scenario: Scenario) -> Tally {
    let until = scenario.until;
    let mut file = std::mem::take(&mut scenario.events);
    file.sort_by_key(|event| event.moment);
    let mut file = file.into_iter().peekable();
    let mut air = Air::new(scenario);
    let mut tally = if air.contest.is_some() { Tally::of_contention() } else { Tally::default() };
    loop {
        let own = air.next_moment();
        let filed = file.peek().map(|event| event.moment);
        if air.release(own.into_iter().chain(filed).min(), &mut tally) {
            continue;
        }
        let (event, sent) = match (filed, own) {
            (None, None) => break,
            (Some(f), o) if o.is_none_or(|o| f <= o) => (file.next().unwrap(), None),
            _ => {
                let Some(taken) = air.pop() else { break };
                taken
            }
        };
        if event.moment > until {
            break;
        }
        let entry = air.world.step(&event);
        tally.count(&air.world, &event, &entry);
        let is_held = air.contend(&event, &entry, &mut tally);
        air.follow(&event, &entry, sent, is_held);
    }
    tally
}

fn main() {
    let words: Vec<String> = std::env::args().skip(1).collect();
    let words: Vec<&str> = words.iter().map(String::as_str).collect();
    match words.as_slice() {
        ["road", stations, seconds] => {
            print_road(stations.parse().unwrap(), seconds.parse().unwrap());
        }
        ["run", file] => {
            let tally = run(Scenario::read(&std::fs::read_to_string(file).unwrap()));
            tally.print();
            eprintln!("{}", tally.receptions);
        }
        _ => panic!("air road STATIONS SECONDS, or air run FILE"),
    }
}
