//! An air of many stations, in plain Rust, as fast as we can make it: a frame is read once, its
//! receivers wait in line as one entry, and they look its source up side by side. Else as air.rs: `air road STATIONS SECONDS` prints the scenario of a
//! road for `geostation sim`, `air run FILE` runs a scenario of such a road or of a town
//! (`town.py`) and prints its summary, and on standard error how many frames were received.
#![allow(dead_code)]
#[path = "twin/common.rs"]
mod common;
#[path = "twin/contention.rs"]
mod contention;
#[path = "twin/geometry.rs"]
mod geometry;
#[path = "twin/grid.rs"]
mod grid;
#[path = "twin/packets.rs"]
mod packets;
#[path = "twin/scenario.rs"]
mod scenario;
#[path = "twin/station.rs"]
mod station;
#[path = "twin/table.rs"]
mod table;

use common::{DELAY, Draws, Tally, print_road};
use geometry::Place;
use grid::Grid;
use scenario::Scenario;
use station::{CHUNK, Entry, Event, Station, What, World};
use std::cmp::Reverse;
use std::collections::{BinaryHeap, VecDeque};

#[derive(PartialEq, Eq, PartialOrd, Ord)]
enum Own {
    Tick(u16),
    Send(usize),
}

/// What waits on the heap: moment, place, station, and what it does.
type Waiting = (u64, u64, usize, Own);

/// The deliveries of a frame, which wait in line.
struct Batch {
    moment: u64,
    place: u64,
    frame: usize,
    receivers: Vec<u32>,
}

/// The air that goes on by itself.
struct Air {
    scenario: Scenario,
    world: World,
    grid: Grid,
    draws: Draws,
    /// Ticks and sends, the first on top.
    heap: BinaryHeap<Reverse<Waiting>>,
    /// Deliveries, which come in the order in which they were put, the first in front.
    line: VecDeque<Batch>,
    /// The memory of receivers that were taken.
    spare: Vec<Vec<u32>>,
    placed: u64,
    found: Vec<usize>,
}

impl Air {
    fn new(scenario: Scenario) -> Air {
        let at = |spot: &scenario::Spot| Station::new(spot.address, spot.place, spot.capacity, 8);
        let world = World::new(scenario.stations.iter().map(at).collect());
        let places: Vec<Place> = scenario.stations.iter().map(|spot| spot.place).collect();
        let grid = Grid::new(scenario.range, &places);
        let draws = Draws::new(scenario.seed);
        let (heap, line, spare, found) = (BinaryHeap::new(), VecDeque::new(), vec![], vec![]);
        let mut air = Air { scenario, world, grid, draws, heap, line, spare, placed: 0, found };
        for station in 0..places.len() {
            if air.scenario.beacons {
                air.put_tick(0, 0, station);
            }
        }
        for number in 0..air.scenario.every.len() {
            for station in 0..places.len() {
                let moment = air.draws.next() % air.scenario.every[number].period;
                air.put(moment, station, Own::Send(number));
            }
        }
        air
    }

    fn put(&mut self, moment: u64, station: usize, own: Own) {
        self.heap.push(Reverse((moment, self.placed, station, own)));
        self.placed += 1;
    }

    /// Whether the first of the air's own is a delivery.
    fn is_line_first(&self) -> bool {
        match (self.line.front(), self.heap.peek()) {
            (Some(in_line), Some(Reverse(on_heap))) => {
                (in_line.moment, in_line.place) < (on_heap.0, on_heap.1)
            }
            (in_line, _) => in_line.is_some(),
        }
    }

    /// The moment of the first of the air's own.
    fn next_moment(&self) -> Option<u64> {
        let on_heap = self.heap.peek().map(|Reverse(waiting)| waiting.0);
        let in_line = self.line.front().map(|delivery| delivery.moment);
        on_heap.into_iter().chain(in_line).min()
    }

    /// Takes the first of the air's own: its event, and the traffic that it is of.
    fn pop(&mut self) -> Option<(Event, Option<usize>)> {
        let Reverse((moment, _, station, own)) = self.heap.pop()?;
        let (what, sent) = self.what_of(own);
        Some((Event { station, moment, what }, sent))
    }

    fn put_tick(&mut self, moment: u64, due: u64, station: usize) {
        let jitter = (self.draws.next() % 751) as u16;
        self.put(moment.max(due + u64::from(jitter)), station, Own::Tick(jitter));
    }

    /// Of an event of the air's own, what it does, and the traffic that it is of.
    fn what_of(&self, own: Own) -> (What, Option<usize>) {
        match own {
            Own::Tick(jitter) => (What::Tick(jitter), None),
            Own::Send(number) => {
                let every = self.scenario.every[number];
                let payload = vec![0; every.octets];
                (What::SendShb { port: every.port, payload }, Some(number))
            }
        }
    }

    /// What follows an event: deliveries of what it gave, the next tick, the next send.
    fn follow(&mut self, event: &Event, entry: &Entry, sent: Option<usize>) {
        let given = match entry {
            Entry::Sent(frame) => Some(*frame),
            Entry::Accepted { sent, .. } => *sent,
            _ => None,
        };
        if let Some(frame) = given {
            let from = self.world.stations[event.station].place();
            let mut found = std::mem::take(&mut self.found);
            self.grid.hearers(event.station, from, &mut found);
            let mut receivers = self.spare.pop().unwrap_or_default();
            receivers.clear();
            for station in &found {
                // No frame is lost, but each has its draw.
                let _ = self.draws.next();
                receivers.push(*station as u32);
            }
            if !receivers.is_empty() {
                let place = self.placed;
                self.placed += receivers.len() as u64;
                self.line.push_back(Batch { moment: event.moment + DELAY, place, frame, receivers });
            }
            self.found = found;
        }
        if let What::Tick(_) = event.what {
            let due = self.world.stations[event.station].beacon_from();
            self.put_tick(event.moment, due, event.station);
        }
        if let Some(number) = sent {
            let period = self.scenario.every[number].period;
            self.put(event.moment + period, event.station, Own::Send(number));
        }
    }
}

/// Delivers a frame to all its receivers.
fn deliver(air: &mut Air, batch: Batch, tally: &mut Tally) {
    let octets = air.world.take_frame(batch.frame);
    let view = packets::read_frame(&octets).ok().expect("a station sent it");
    for part in batch.receivers.chunks(CHUNK) {
        let found = air.world.look_up(part, view.packet.vector.address);
        for (station, found) in part.iter().zip(found) {
            let (station, moment) = (*station as usize, batch.moment);
            let event = Event { station, moment, what: What::Deliver(batch.frame) };
            let entry = air.world.deliver_found(station, moment, &view, found);
            tally.count(&air.world, &event, &entry);
            air.follow(&event, &entry, None);
            if let Entry::Accepted { handed: Some(handed), .. } = entry {
                air.world.room = handed.payload;
            }
        }
    }
    air.world.put_frame(batch.frame, octets);
    air.spare.push(batch.receivers);
}

fn run(mut scenario: Scenario) -> Tally {
    let until = scenario.until;
    let mut file = std::mem::take(&mut scenario.events);
    file.sort_by_key(|event| event.moment);
    let mut file = file.into_iter().peekable();
    let mut air = Air::new(scenario);
    let mut tally = Tally::default();
    loop {
        let own = air.next_moment();
        let filed = file.peek().map(|event| event.moment);
        let (event, sent) = match (filed, own) {
            (None, None) => break,
            (Some(f), o) if o.is_none_or(|o| f <= o) => (file.next().unwrap(), None),
            _ if air.is_line_first() => {
                let Some(batch) = air.line.pop_front() else { break };
                if batch.moment > until {
                    break;
                }
                deliver(&mut air, batch, &mut tally);
                continue;
            }
            _ => {
                let Some(taken) = air.pop() else { break };
                taken
            }
        };
        if event.moment > until {
            break;
        }
        let entry = air.world.step(&event);
        tally.count(&air.world, &event, &entry);
        air.follow(&event, &entry, sent);
    }
    tally
}

fn main() {
    let words: Vec<String> = std::env::args().skip(1).collect();
    let words: Vec<&str> = words.iter().map(String::as_str).collect();
    match words.as_slice() {
        ["road", stations, seconds] => {
            print_road(stations.parse().unwrap(), seconds.parse().unwrap());
        }
        ["run", file] => {
            let tally = run(Scenario::read(&std::fs::read_to_string(file).unwrap()));
            tally.print();
            eprintln!("{}", tally.receptions);
        }
        _ => panic!("air road STATIONS SECONDS, or air run FILE"),
    }
}
