//! What both runs of an air share: the scenario of a road, the draws, and the summary.
use crate::geometry::{Place, contains};
use crate::station::{Entry, Event, Station, What, Why, World};
use std::collections::HashSet;

const RANGE: u64 = 500;
pub const DELAY: u64 = 1;
const SEED: u64 = 1;
const PORT: u16 = 2002;
const CAPACITY: usize = 256;
const FIRST: u64 = 0x1400_0200_0000_0001;
const WARNINGS: usize = 10;

/// The generator of the scenario's draws: xoshiro256++, its state filled by splitmix64.
pub struct Draws([u64; 4]);

impl Draws {
    pub fn new(seed: u64) -> Draws {
        let mut x = seed;
        Draws(std::array::from_fn(|_| {
            x = x.wrapping_add(0x9e37_79b9_7f4a_7c15);
            let mut z = x;
            z = (z ^ (z >> 30)).wrapping_mul(0xbf58_476d_1ce4_e5b9);
            z = (z ^ (z >> 27)).wrapping_mul(0x94d0_49bb_1331_11eb);
            z ^ (z >> 31)
        }))
    }

    pub fn next(&mut self) -> u64 {
        let s = &mut self.0;
        let result = s[0].wrapping_add(s[3]).rotate_left(23).wrapping_add(s[0]);
        let t = s[1] << 17;
        s[2] ^= s[0];
        s[3] ^= s[1];
        s[1] ^= s[2];
        s[0] ^= s[3];
        s[2] ^= t;
        s[3] = s[3].rotate_left(45);
        result
    }
}

/// Ten kilometres of road along the equator, at equal distances. Where ROAD is `north`, a road to
/// the north, ten metres from one spot to the next.
fn place(spot: usize, stations: usize) -> Place {
    if std::env::var_os("ROAD").is_some_and(|road| road == "north") {
        return Place { lat: (spot * 898) as i32, lon: 0 };
    }
    Place { lat: 0, lon: (spot * 898_315 / stations) as i32 }
}

/// On which spot the station of each number stands: in disorder.
fn spots(stations: usize) -> Vec<usize> {
    let mut spots: Vec<usize> = (0..stations).collect();
    let mut draws = Draws::new(2);
    for i in (1..stations).rev() {
        spots.swap(i, (draws.next() % (i as u64 + 1)) as usize);
    }
    spots
}

/// Each station sends once a second, in the order of their numbers, at a moment of its own; the one
/// at the near end sends ten warnings for the far end.
pub fn print_road(stations: usize, seconds: usize) {
    let spots = spots(stations);
    let until = 1000 * seconds - 1;
    println!("[air]\nrange = {RANGE}\nseed = {SEED}\nbeacons = true\nuntil = {until}");
    for (s, spot) in spots.iter().enumerate() {
        let Place { lat, lon } = place(*spot, stations);
        println!("[[station]]\naddress = \"{:016x}\"", FIRST + s as u64);
        println!("lat = {lat}\nlon = {lon}\ncapacity = {CAPACITY}");
    }
    for s in 0..stations {
        println!("[[event]]\nstation = {s}\nat = 0\ndo = \"open\"\nport = {PORT}");
    }
    let near = spots.iter().position(|spot| *spot == 0).unwrap();
    let Place { lat, lon } = place(stations - 1, stations);
    for second in 0..seconds {
        for s in 0..stations {
            let moment = 1000 * second + s * 1000 / stations;
            println!("[[event]]\nstation = {s}\nat = {moment}\ndo = \"shb\"\nport = {PORT}");
            println!("info = 0\ntc = 0\npayload = \"6869\"");
        }
        if second >= 2 && second < 2 + WARNINGS {
            let moment = 1000 * second + 999;
            println!("[[event]]\nstation = {near}\nat = {moment}\ndo = \"gbc\"\nport = {PORT}");
            println!("info = 0\ntc = 0\nlt = 26\nhops = 200\nshape = \"circle\"");
            println!("alat = {lat}\nalon = {lon}\na = 300\nb = 0\nangle = 0");
            println!("payload = \"696365\"");
        }
    }
}

#[derive(Clone, Copy)]
struct Carried {
    send: usize,
    depth: usize,
}

#[derive(Default)]
struct Send {
    event: u64,
    moment: u64,
    station: usize,
    port: u16,
    inside: usize,
    delivered: usize,
    frames: usize,
    hops: usize,
    last: u64,
}

#[derive(Default)]
pub struct Tally {
    sends: Vec<Send>,
    carried: Vec<Option<Carried>>,
    delivered: HashSet<(usize, usize)>,
    events: u64,
    pub receptions: u64,
    deliveries: u64,
    duplicates: u64,
    ignored: u64,
    refused: u64,
    contention: Option<Held>,
}

/// The frames that stations held: all of them, those that went out, and those that copies cancelled.
#[derive(Clone, Copy, Default)]
struct Held {
    all: usize,
    released: usize,
    cancelled: usize,
}

impl Tally {
    /// Of a run in which stations contend.
    pub fn of_contention() -> Tally {
        Tally { contention: Some(Held::default()), ..Tally::default() }
    }

    fn held(&mut self) -> &mut Held {
        self.contention.get_or_insert_default()
    }

    fn send_of(&mut self, frame: usize) -> Option<&mut Send> {
        self.carried[frame].map(|carried| &mut self.sends[carried.send])
    }

    /// Counts the frame that was given last as one that is held.
    pub fn hold(&mut self) {
        self.held().all += 1;
        if let Some(send) = self.send_of(self.carried.len() - 1) {
            send.frames -= 1;
        }
    }

    pub fn release(&mut self, frame: usize) {
        self.held().released += 1;
        if let Some(send) = self.send_of(frame) {
            send.frames += 1;
        }
    }

    pub fn cancel(&mut self, count: usize) {
        self.held().cancelled += count;
    }


    pub fn count(&mut self, world: &World, event: &Event, entry: &Entry) {
        let number = self.events;
        self.events += 1;
        let carried = match &event.what {
            What::Deliver(frame) => {
                self.receptions += 1;
                self.carried[*frame]
            }
            _ => None,
        };
        match entry {
            Entry::Sent(_) => {
                let carried = match &event.what {
                    What::SendGeobroadcast { port, area, .. } => {
                        let inside = |(s, it): &(usize, &Station)| {
                            *s != event.station && contains(area, it.place()) && it.is_open(*port)
                        };
                        let inside = world.stations.iter().enumerate().filter(inside).count();
                        self.sends.push(Send {
                            event: number,
                            moment: event.moment,
                            station: event.station,
                            port: *port,
                            inside,
                            frames: 1,
                            ..Default::default()
                        });
                        Some(Carried { send: self.sends.len() - 1, depth: 0 })
                    }
                    _ => None,
                };
                self.carried.push(carried);
            }
            Entry::Accepted { handed, sent } => {
                if handed.is_some() {
                    self.deliveries += 1;
                    if let Some(Carried { send, depth }) = carried {
                        let first = self.delivered.insert((send, event.station));
                        let send = &mut self.sends[send];
                        send.hops = send.hops.max(depth + 1);
                        if first {
                            send.delivered += 1;
                            send.last = send.last.max(event.moment - send.moment);
                        }
                    }
                }
                if sent.is_some() {
                    let further = carried.map(|Carried { send, depth }| {
                        self.sends[send].frames += 1;
                        Carried { send, depth: depth + 1 }
                    });
                    self.carried.push(further);
                }
            }
            Entry::Ignored(Why::Duplicate) => self.duplicates += 1,
            Entry::Ignored(_) => self.ignored += 1,
            Entry::Refused(_) | Entry::NoSuchFrame | Entry::NoSuchStation => self.refused += 1,
            Entry::Opened | Entry::Quiet => {}
        }
    }

    /// Counts a move.
    pub fn count_move(&mut self) {
        self.events += 1;
    }

    pub fn print(&self) {
        for send in &self.sends {
            let Send { event, moment, station, port, inside, .. } = send;
            let Send { delivered, frames, hops, last, .. } = send;
            print!("send {event} {moment} {station} gbc port {port} inside {inside} ");
            println!("delivered {delivered} frames {frames} hops {hops} last {last}");
        }
        let Tally { events, deliveries, duplicates, ignored, refused, .. } = self;
        let held = self.contention.unwrap_or_default();
        let frames = self.carried.len() - held.all + held.released;
        print!("total events {events} frames {frames} deliveries {deliveries} ");
        print!("duplicates {duplicates} ignored {ignored} refused {refused}");
        if self.contention.is_some() {
            print!(" held {} cancelled {}", held.all, held.cancelled);
        }
        println!();
    }
}
