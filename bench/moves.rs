//! Vehicles that move by the rows of a file, in plain Rust: `moves VEHICLES SECONDS rows` prints the
//! file for `geostation sim --moves`, ten rows per second of each vehicle. `moves run` reads it from
//! standard input, moves a station per row and prints the totals. With `moves sends` each vehicle
//! also sends a single-hop message of 50 octets per second.
#![allow(dead_code)]
#[path = "twin/common.rs"]
mod common;
#[path = "twin/geometry.rs"]
mod geometry;
#[path = "twin/packets.rs"]
mod packets;
#[path = "twin/station.rs"]
mod station;
#[path = "twin/table.rs"]
mod table;

use common::{DELAY, Draws, Tally};
use geometry::{Place, offset, scale};
use station::{Entry, Event, Station, What, World};
use std::cmp::Reverse;
use std::collections::{BinaryHeap, HashMap, VecDeque};
use std::io::{BufRead, BufWriter, Write};

const GONE: u64 = 1000;
const AFTER: u64 = 10_000;
const CAPACITY: usize = 256;
const REMEMBER: usize = 8;
const FIRST: u64 = 0x1400_0201_0000_0001;
const STEP: u64 = 100;
const RANGE: u64 = 400;
const SEED: u64 = 1;
const PERIOD: u64 = 1000;
const PORT: u16 = 2002;
const OCTETS: usize = 50;
/// The side of a cell in which vehicles are looked for, in tenths of a microdegree: no less than
/// the range to the north.
const CELL: i32 = 36_000;

struct Row {
    at: u64,
    id: String,
    place: Place,
    speed: i16,
    heading: u16,
}

fn whole(text: &str, least: i64, most: i64) -> Option<i64> {
    let digits = text.strip_prefix('-').unwrap_or(text);
    if digits.is_empty() || digits.len() > 19 || !digits.bytes().all(|b| b.is_ascii_digit()) {
        return None;
    }
    text.parse().ok().filter(|number| (least..=most).contains(number))
}

/// The row of a line: `at,id,lat,lon,speed,heading`.
fn read(line: &str) -> Option<Row> {
    let mut fields = line.split(',');
    let at = whole(fields.next()?, 0, 1 << 62)? as u64;
    let id = fields.next()?;
    if id.is_empty() || id.len() > 64 || id.chars().any(char::is_control) {
        return None;
    }
    let lat = whole(fields.next()?, -900_000_000, 900_000_000)? as i32;
    let lon = whole(fields.next()?, -1_800_000_000, 1_800_000_000)? as i32;
    let speed = whole(fields.next()?, -16384, 16383)? as i16;
    let heading = whole(fields.next()?, 0, 3600)? as u16 % 3600;
    let id = id.to_string();
    fields.next().is_none().then_some(Row { at, id, place: Place { lat, lon }, speed, heading })
}

fn cell(place: Place) -> (i32, i32) {
    (place.lat.div_euclid(CELL), place.lon.div_euclid(CELL))
}

/// The vehicles by cells.
#[derive(Default)]
struct Cells(HashMap<(i32, i32), Vec<usize>>);

impl Cells {
    fn add(&mut self, number: usize, place: Place) {
        self.0.entry(cell(place)).or_default().push(number);
    }

    fn follow(&mut self, number: usize, from: (i32, i32), to: (i32, i32)) {
        if from != to {
            let there = self.0.entry(from).or_default();
            if let Some(place) = there.iter().position(|other| *other == number) {
                there.swap_remove(place);
            }
            self.0.entry(to).or_default().push(number);
        }
    }

    /// Who is present and hears what a vehicle sends, in order.
    fn hearers(&self, sender: usize, town: &Vehicles, found: &mut Vec<usize>) {
        found.clear();
        let place = town.places[sender];
        let k = scale(place.lat);
        let reach = (100 * RANGE) * (100 * RANGE);
        let (row, column) = cell(place);
        let beside = (10_000 / k.max(1) + 1) as i32;
        for row in row - 1..=row + 1 {
            for column in column - beside..=column + beside {
                for number in self.0.get(&(row, column)).into_iter().flatten() {
                    let (north, east) = offset(place, k, town.places[*number]);
                    let near = (north * north + east * east) as u64 <= reach;
                    if near && *number != sender && town.present[*number] {
                        found.push(*number);
                    }
                }
            }
        }
        found.sort_unstable();
    }
}

/// What is known of each vehicle, by its number.
#[derive(Default)]
struct Vehicles {
    ids: HashMap<String, usize>,
    places: Vec<Place>,
    last_rows: Vec<u64>,
    present: Vec<bool>,
    /// Whether a send of it waits.
    sending: Vec<bool>,
}

/// A delivery, which waits in line.
struct Delivery {
    moment: u64,
    place: u64,
    station: usize,
    frame: usize,
}

struct Town {
    sends: bool,
    vehicles: Vehicles,
    world: World,
    leaves: VecDeque<(u64, usize)>,
    cells: Cells,
    draws: Draws,
    tally: Tally,
    /// Sends: moment, place and station, the first on top.
    heap: BinaryHeap<Reverse<(u64, u64, usize)>>,
    /// Deliveries, which come in the order in which they were put, the first in front.
    line: VecDeque<Delivery>,
    placed: u64,
    found: Vec<usize>,
}

impl Town {
    fn new(sends: bool) -> Town {
        Town {
            sends,
            vehicles: Vehicles::default(),
            world: World::new(Vec::new()),
            leaves: VecDeque::new(),
            cells: Cells::default(),
            draws: Draws::new(SEED),
            tally: Tally::default(),
            heap: BinaryHeap::new(),
            line: VecDeque::new(),
            placed: 0,
            found: Vec::new(),
        }
    }

    /// Does what comes before a moment: those leave that had no row for a while, then sends and
    /// deliveries.
    fn go_on_to(&mut self, moment: u64) {
        loop {
            let leaving = self.leaves.front().map_or(u64::MAX, |(due, _)| *due);
            let in_line = self.line.front().map_or((u64::MAX, 0), |it| (it.moment, it.place));
            let on_heap = self
                .heap
                .peek()
                .map_or((u64::MAX, 0), |Reverse((moment, place, _))| (*moment, *place));
            let own = in_line.min(on_heap);
            if leaving.min(own.0) >= moment {
                break;
            }
            if leaving <= own.0 {
                self.leave();
            } else if in_line < on_heap {
                self.deliver();
            } else {
                self.send();
            }
        }
    }

    fn leave(&mut self) {
        if let Some((due, station)) = self.leaves.pop_front() {
            if self.vehicles.last_rows[station] + GONE == due {
                self.vehicles.present[station] = false;
            }
        }
    }

    fn deliver(&mut self) {
        if let Some(Delivery { moment, station, frame, .. }) = self.line.pop_front() {
            let event = Event { station, moment, what: What::Deliver(frame) };
            let entry = self.world.step(&event);
            self.tally.count(&self.world, &event, &entry);
        }
    }

    fn send(&mut self) {
        let Some(Reverse((moment, _, station))) = self.heap.pop() else { return };
        if !self.vehicles.present[station] {
            self.vehicles.sending[station] = false;
            return;
        }
        let what = What::SendShb { port: PORT, payload: vec![0; OCTETS] };
        let event = Event { station, moment, what };
        let entry = self.world.step(&event);
        self.tally.count(&self.world, &event, &entry);
        if let Entry::Sent(frame) = entry {
            self.spread(moment, station, frame);
        }
        self.put_send(moment + PERIOD, station);
    }

    /// Puts the deliveries of a frame.
    fn spread(&mut self, moment: u64, station: usize, frame: usize) {
        let mut found = std::mem::take(&mut self.found);
        self.cells.hearers(station, &self.vehicles, &mut found);
        for station in &found {
            // No frame is lost, but each has its draw.
            let _ = self.draws.next();
            let (moment, place, station) = (moment + DELAY, self.placed, *station);
            self.line.push_back(Delivery { moment, place, station, frame });
            self.placed += 1;
        }
        self.found = found;
    }

    fn put_send(&mut self, moment: u64, station: usize) {
        self.heap.push(Reverse((moment, self.placed, station)));
        self.placed += 1;
    }

    fn take(&mut self, row: Row) {
        self.go_on_to(row.at);
        let known = self.vehicles.ids.get(&row.id).copied();
        let number = known.unwrap_or_else(|| self.make(row.id, row.place));
        let stood = cell(self.vehicles.places[number]);
        let (at, place) = (row.at, row.place);
        let _ = self.world.stations[number].move_to(at, place, row.speed, row.heading);
        self.tally.count_move();
        self.cells.follow(number, stood, cell(place));
        self.vehicles.places[number] = place;
        self.vehicles.last_rows[number] = at;
        self.leaves.push_back((at + GONE, number));
        if known.is_none() && self.sends {
            let event = Event { station: number, moment: at, what: What::Open(PORT) };
            let entry = self.world.step(&event);
            self.tally.count(&self.world, &event, &entry);
        }
        if !std::mem::replace(&mut self.vehicles.present[number], true) {
            self.come(at, number);
        }
    }

    /// A vehicle that comes begins to send, if no send of it waits.
    fn come(&mut self, moment: u64, number: usize) {
        if self.sends && !std::mem::replace(&mut self.vehicles.sending[number], true) {
            let moment = moment + self.draws.next() % PERIOD;
            self.put_send(moment, number);
        }
    }

    fn make(&mut self, id: String, place: Place) -> usize {
        let number = self.world.stations.len();
        self.vehicles.ids.insert(id, number);
        self.vehicles.places.push(place);
        self.vehicles.last_rows.push(0);
        self.vehicles.present.push(false);
        self.vehicles.sending.push(false);
        let address = FIRST + number as u64;
        self.world.stations.push(Station::new(address, place, CAPACITY, REMEMBER));
        self.cells.add(number, place);
        number
    }
}

fn run(sends: bool) -> std::io::Result<()> {
    let (mut town, mut line) = (Town::new(sends), String::new());
    let (mut input, mut last) = (std::io::stdin().lock(), 0);
    input.read_line(&mut line)?;
    for number in 2.. {
        line.clear();
        if input.read_line(&mut line)? == 0 {
            break;
        }
        match read(line.trim_end()) {
            Some(row) => {
                last = row.at;
                town.take(row);
            }
            None => panic!("line {number}"),
        }
    }
    town.go_on_to(last + AFTER + 1);
    town.tally.print();
    eprintln!("{}", town.tally.receptions);
    Ok(())
}

/// The scenario for geostation of such a run.
fn print_scenario(sends: bool) {
    println!("[air]\nrange = {RANGE}\nseed = {SEED}");
    println!("[moves]\ncapacity = {CAPACITY}");
    if sends {
        println!("ports = [{PORT}]");
        println!(
            "[[every]]\nperiod = {PERIOD}\nport = {PORT}\ninfo = 0\ntc = 0\noctets = {OCTETS}"
        );
    }
}

/// Streets of ten kilometres to the north, some 100 m apart, one for each hundred vehicles.
fn rows(vehicles: u64, seconds: u64) -> std::io::Result<()> {
    let mut out = BufWriter::new(std::io::stdout().lock());
    writeln!(out, "at,id,lat,lon,speed,heading")?;
    for at in (0..seconds * 1000).step_by(STEP as usize) {
        for vehicle in 0..vehicles {
            let (street, start) = (vehicle / 100, vehicle % 100 * 9000);
            let lat = 480_000_000 + (start + at / STEP * 14) % 900_000;
            writeln!(out, "{at},car{vehicle},{lat},{},1400,0", 115_000_000 + street * 13_400)?;
        }
    }
    out.flush()
}

fn main() -> std::io::Result<()> {
    let words: Vec<String> = std::env::args().skip(1).collect();
    let words: Vec<&str> = words.iter().map(String::as_str).collect();
    let number = |word: &str| word.parse().expect("a whole number");
    match words.as_slice() {
        ["run"] => run(false),
        ["sends"] => run(true),
        ["scenario", of] => {
            print_scenario(*of == "sends");
            Ok(())
        }
        [vehicles, seconds, "rows"] => rows(number(vehicles), number(seconds)),
        _ => panic!(
            "moves VEHICLES SECONDS rows, moves scenario run|sends, moves run, or moves sends"
        ),
    }
}
