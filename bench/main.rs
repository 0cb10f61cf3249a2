//! The hot calls beside the same algorithms in plain Rust: a row for each, by interleaved rounds.
//! `./bench WORD` measures the rows whose name has the word.
#![allow(dead_code)]
#[path = "twin/contending.rs"]
mod contending;
#[path = "twin/contention.rs"]
mod contention;
#[path = "twin/geometry.rs"]
mod geometry;
#[path = "twin/lines.rs"]
mod lines;
#[path = "twin/packets.rs"]
mod packets;
#[path = "twin/station.rs"]
mod station;
#[path = "twin/table.rs"]
mod table;

use contending::{Contending, Reaction};
use contention::Rule;
use geometry::{Area, Place, Shape, contains, distance2, nearest};
use packets::{Kind, LongPv, Packet, View, be16, encode_into, read, read_frame, relay_frame};
use station::{Entry, Event, Outcome, Station, What, World};
use std::hint::black_box;
use table::{Choice, Heard, Table, Verdict, choose};

#[link(name = "its_bench", kind = "static")]
unsafe extern "C" {
    fn bench_read(p: *const u8, n: usize, stride: usize) -> u64;
    fn bench_fields(p: *const u8, n: usize, stride: usize) -> u64;
    fn bench_read_frame(p: *const u8, n: usize, stride: usize) -> u64;
    fn bench_relay_frame(p: *const u8, n: usize, stride: usize) -> u64;
    fn bench_encode(p: *const u8, n: usize, s: usize, r: u64, out: *mut u8, m: usize) -> u64;
    fn bench_contains(a: *const u8, n: usize, p: *const u8, m: usize, shape: u8, r: u64) -> u64;
    fn bench_distance(a: *const u8, n: usize, p: *const u8, m: usize, r: u64) -> u64;
    fn bench_nearest(a: *const u8, n: usize, p: *const u8, m: usize, r: u64) -> u64;
    fn bench_accept(p: *const u64, n: usize, r: u32, direct: bool) -> u64;
    fn bench_turnover(p: *const u64, n: usize, live: u32, r: u32) -> u64;
    fn bench_junction(
        p: *const u64,
        n: usize,
        b: *const u64,
        l: usize,
        q: *const u64,
        m: usize,
        capacity: u16,
    ) -> u64;
    fn bench_fill(p: *const u64, n: usize, r: u32) -> u64;
    fn bench_lookup(p: *const u64, n: usize, r: u32) -> u64;
    fn bench_remembers(p: *const u64, n: usize, r: u32) -> u64;
    fn bench_by_mid(p: *const u64, n: usize, q: *const u64, m: usize, r: u32) -> u64;
    fn bench_walk(p: *const u64, n: usize, r: u32) -> u64;
    fn bench_choose(
        p: *const u64,
        n: usize,
        q: *const u8,
        m: usize,
        e: *const u8,
        l: usize,
        r: u32,
    ) -> u64;
    fn bench_receive(b: *const u8, n: usize, p: *const u8, m: usize, stride: usize, r: u32) -> u64;
    fn bench_contend(
        b: *const u8,
        n: usize,
        f: *const u8,
        l: usize,
        p: *const u8,
        m: usize,
        stride: usize,
        part: usize,
        copies: u8,
        keeps: bool,
        r: u32,
    ) -> u64;
    fn bench_world(w: *const u64, n: usize, runs: u32) -> u64;
    fn bench_simulate(w: *const u64, n: usize, runs: u32) -> u64;
}

// ---- rows

type Call<'a> = Box<dyn FnMut(u32) -> u64 + 'a>;

/// Times of one side, in nanoseconds: of its work, and of what it costs with none.
#[derive(Default)]
struct Times {
    work: Vec<f64>,
    base: Vec<f64>,
}

impl Times {
    /// The low percentile of the work, without that of the rest.
    fn low(&mut self) -> f64 {
        let low = |times: &mut Vec<f64>| {
            times.sort_by(f64::total_cmp);
            times.get(times.len() / 10).copied().unwrap_or(0.0)
        };
        low(&mut self.work) - low(&mut self.base)
    }
}

#[repr(C)]
#[derive(Default)]
struct Timespec {
    seconds: i64,
    nanoseconds: i64,
}

unsafe extern "C" {
    fn clock_gettime(clock: i32, time: *mut Timespec) -> i32;
}

/// The time that this thread has had of a processor, in nanoseconds: others on the machine don't
/// count.
fn processor_time() -> f64 {
    const THREAD: i32 = 3;
    let mut time = Timespec::default();
    unsafe { clock_gettime(THREAD, &mut time) };
    time.seconds as f64 * 1e9 + time.nanoseconds as f64
}

fn time(call: &mut Call<'_>, work: u32) -> f64 {
    let start = processor_time();
    black_box(call(black_box(work)));
    processor_time() - start
}

/// Prints nanoseconds a call of both sides, and their ratio, by rounds that take turns. What a side
/// costs with no work is taken off where `base` is set.
fn row(name: &str, calls: usize, rounds: usize, work: u32, base: bool, sides: [Call<'_>; 2]) {
    if std::env::args().nth(1).is_some_and(|word| !name.contains(&word)) {
        return;
    }
    let [mut ours, mut plain] = sides;
    let same = ours(work) == plain(work);
    let mut times = [Times::default(), Times::default()];
    for _ in 0..rounds {
        for (times, call) in times.iter_mut().zip([&mut ours, &mut plain]) {
            times.work.push(time(call, work));
            if base {
                times.base.push(time(call, 0));
            }
        }
    }
    let [a, b] = times.map(|mut times| times.low() / calls as f64);
    let mark = if same { "" } else { "  (sums differ)" };
    println!("{name:52} {a:9.1} {b:9.1} {:6.2}{mark}", a / b);
}

macro_rules! row {
    (
        $name:expr, $calls:expr, $rounds:expr, $work:expr, $base:expr,
        |$r:ident| $ours:expr, $theirs:expr
    ) => {
        row(
            &$name,
            $calls,
            $rounds,
            $work,
            $base,
            [Box::new(|$r| unsafe { $ours }), Box::new(|$r| $theirs)],
        )
    };
}

fn repeated(rounds: u32, mut call: impl FnMut() -> u64) -> u64 {
    (0..rounds).map(|_| call()).fold(0, u64::wrapping_add)
}

struct Random(u64);

impl Random {
    fn next(&mut self) -> u64 {
        self.0 ^= self.0 << 13;
        self.0 ^= self.0 >> 7;
        self.0 ^= self.0 << 17;
        self.0.wrapping_mul(0x2545_f491_4f6c_dd1d) >> 11
    }

    fn below(&mut self, n: u64) -> u64 {
        self.next() % n
    }

    fn shuffle<T>(&mut self, items: &mut [T]) {
        for i in (1..items.len()).rev() {
            items.swap(i, self.below(i as u64 + 1) as usize);
        }
    }
}

// ---- packets

const BEACON: u8 = 1;
const GAC: u8 = 3;
const GBC: u8 = 4;
const SHB: u8 = 5;

/// A packet of a source, with a number and for a circle where it is for an area.
fn packet(kind: u8, source: u64, number: u16, centre: (i32, i32), payload: usize) -> Vec<u8> {
    let for_area = kind == GBC || kind == GAC;
    let (next, max) = if kind == BEACON { (0, 1u8) } else { (0x20, 10) };
    let left = if for_area { 2 + (source % 9) as u8 } else { 1 };
    let sub_type = if for_area { 2 } else { 0 };
    let mut w = vec![0x11, 0, 0x1a, left, next, kind << 4 | sub_type, 2, 0x80];
    w.extend((if kind == BEACON { 0 } else { payload as u16 }).to_be_bytes());
    w.extend([max, 0]);
    if for_area {
        w.extend(number.to_be_bytes());
        w.extend([0, 0]);
    }
    w.extend(source.to_be_bytes());
    w.extend((source as u32).wrapping_mul(7).to_be_bytes());
    w.extend((450_000_000 + (source % 1000) as i32).to_be_bytes());
    w.extend((70_000_000 + 3 * (source % 1000) as i32).to_be_bytes());
    w.extend([0x84, source as u8, 3, 4]);
    if for_area {
        w.extend(centre.0.to_be_bytes());
        w.extend(centre.1.to_be_bytes());
        w.extend([1, 44, 0, 200, 0, 33, 0, 0]);
    }
    if kind == SHB {
        w.extend([0; 4]);
    }
    if kind != BEACON {
        w.extend([7, 0xd2, 0, 0]);
        w.extend((4..payload).map(|x| x as u8));
    }
    w
}

fn frame_of(source: u64, packet: Vec<u8>) -> Vec<u8> {
    let mut w = vec![0xff; 6];
    w.extend_from_slice(&source.to_be_bytes()[2..]);
    w.extend([0x89, 0x47]);
    w.extend(packet);
    w
}

fn sum_vector(v: &LongPv) -> u64 {
    [v.tst as u64, v.place.lat as u32 as u64, v.place.lon as u32 as u64, v.pai as u64]
        .into_iter()
        .chain([v.speed as u16 as u64, v.heading as u64])
        .fold(v.address, u64::wrapping_add)
}

fn sum_area(a: &Area) -> u64 {
    [a.centre.lon as u32 as u64, a.a as u64, a.b as u64, a.angle as u64, a.shape as u64]
        .into_iter()
        .fold(a.centre.lat as u32 as u64, u64::wrapping_add)
}

fn sum_view(v: &View<'_>) -> u64 {
    let kind = match v.kind {
        Kind::Beacon => 0,
        Kind::Shb(_) => 1,
        Kind::Gbc(..) => 2,
        Kind::Gac(..) => 3,
    };
    [v.left, v.max, v.lifetime, v.class, v.mobile as u8, kind]
        .into_iter()
        .map(u64::from)
        .chain([v.payload.len() as u64])
        .chain(v.number().map(u64::from))
        .chain(v.area().map(sum_area))
        .fold(sum_vector(&v.vector), u64::wrapping_add)
}

/// The sum over all parts of so many octets that are read.
#[inline(always)]
fn over<'a, T>(
    octets: &'a [u8],
    stride: usize,
    read: impl Fn(&'a [u8]) -> Option<T>,
    sum: impl Fn(T) -> u64,
) -> u64 {
    octets.chunks_exact(stride).filter_map(read).map(sum).fold(0, u64::wrapping_add)
}

#[inline(never)]
fn twin_read(octets: &[u8], stride: usize) -> u64 {
    over(octets, stride, |w| read(w).ok(), |(v, n)| n as u64 + v.left as u64)
}

#[inline(never)]
fn twin_fields(octets: &[u8], stride: usize) -> u64 {
    over(octets, stride, |w| read(w).ok(), |(v, n)| (n as u64).wrapping_add(sum_view(&v)))
}

#[inline(never)]
fn twin_read_frame(octets: &[u8], stride: usize) -> u64 {
    over(octets, stride, |w| read_frame(w).ok(), |f| (f.to == f.from) as u64 + f.packet.left as u64)
}

#[inline(never)]
fn twin_relay_frame(octets: &[u8], stride: usize) -> u64 {
    over(
        octets,
        stride,
        |w| read_frame(w).ok().filter(|f| f.packet.left >= 2),
        |f| black_box(relay_frame(f.from, f.to, &f)).get(17).map_or(0, |x| *x as u64),
    )
}

#[inline(never)]
fn twin_encode(octets: &[u8], stride: usize, rounds: u32, out: &mut [u8]) -> u64 {
    let packets: Vec<Packet> = octets
        .chunks_exact(stride)
        .filter_map(|w| read(w).ok())
        .map(|(v, _)| packets::to_packet(&v))
        .collect();
    repeated(rounds, || {
        packets.iter().filter_map(|p| encode_into(p, out)).fold(0, |sum, n| sum + n as u64)
    })
}

fn packet_rows() {
    let n = 256;
    for (kind, name) in [(BEACON, "beacon"), (SHB, "shb"), (GBC, "gbc"), (GAC, "gac")] {
        let centre = (450_000_100, 70_000_000);
        let made = |i: u64| packet(kind, 0x1400_0200_0000_0001 + i, i as u16, centre, 34);
        let all: Vec<u8> = (0..n).flat_map(made).collect();
        let frames: Vec<u8> = (0..n).flat_map(|i| frame_of(i, made(i))).collect();
        let s = all.len() / n as usize;
        let (p, l, f, fl, fs) = (all.as_ptr(), all.len(), frames.as_ptr(), frames.len(), s + 14);
        let (calls, k) = (n as usize * 400, 400);
        row!(
            format!("read {name}"),
            calls,
            60,
            k,
            false,
            |r| repeated(r, || bench_read(p, l, s)),
            repeated(r, || twin_read(black_box(&all), s))
        );
        row!(
            format!("read {name}, all fields"),
            calls,
            60,
            k,
            false,
            |r| repeated(r, || bench_fields(p, l, s)),
            repeated(r, || twin_fields(black_box(&all), s))
        );
        row!(
            format!("read_frame {name}"),
            calls,
            60,
            k,
            false,
            |r| repeated(r, || bench_read_frame(f, fl, fs)),
            repeated(r, || twin_read_frame(black_box(&frames), fs))
        );
        if kind == GBC {
            row!(
                "read_frame and relay_frame gbc",
                calls,
                60,
                k,
                false,
                |r| repeated(r, || bench_relay_frame(f, fl, fs)),
                repeated(r, || twin_relay_frame(black_box(&frames), fs))
            );
        }
        let (mut a, mut b) = (vec![0u8; 1500], vec![0u8; 1500]);
        row!(
            format!("encode_into {name}"),
            calls,
            60,
            k,
            false,
            |r| bench_encode(p, l, s, r as u64, a.as_mut_ptr(), 1500),
            twin_encode(black_box(&all), s, r, &mut b)
        );
        assert!(a == b);
    }
}

// ---- geometry

fn spelled(places: &[(i32, i32)]) -> Vec<u8> {
    places.iter().flat_map(|(a, b)| [a.to_be_bytes(), b.to_be_bytes()].concat()).collect()
}

fn places_of(octets: &[u8]) -> Vec<Place> {
    let i32_at = |w: &[u8]| i32::from_be_bytes([w[0], w[1], w[2], w[3]]);
    octets.chunks_exact(8).map(|w| Place { lat: i32_at(w), lon: i32_at(&w[4..]) }).collect()
}

fn areas_of(octets: &[u8], shape: u8) -> Vec<Area> {
    let of = |w: &[u8]| Area {
        shape: [Shape::Circle, Shape::Rectangle, Shape::Ellipse][shape as usize],
        centre: places_of(&w[..8])[0],
        a: be16(w, 8),
        b: if shape == 0 { 0 } else { be16(w, 10) },
        angle: if shape == 0 { 0 } else { be16(w, 12) },
    };
    octets.chunks_exact(14).map(of).collect()
}

#[inline(never)]
fn twin_contains(areas: &[u8], places: &[u8], shape: u8, rounds: u32) -> u64 {
    let (areas, places) = (areas_of(areas, shape), places_of(places));
    repeated(rounds, || {
        let pairs = black_box(&areas).iter().zip(&places);
        pairs.map(|(area, place)| contains(area, *place) as u64).sum()
    })
}

#[inline(never)]
fn twin_distance(centres: &[u8], places: &[u8], rounds: u32) -> u64 {
    let (centres, places) = (places_of(centres), places_of(places));
    repeated(rounds, || {
        let pairs = black_box(&centres).iter().zip(&places);
        pairs.map(|(centre, place)| distance2(*centre, *place)).fold(0, u64::wrapping_add)
    })
}

#[inline(never)]
fn twin_nearest(centres: &[u8], places: &[u8], rounds: u32) -> u64 {
    let (centres, places) = (places_of(centres), places_of(places));
    repeated(rounds, || {
        centres.iter().filter_map(|c| nearest(*c, black_box(&places))).sum::<usize>() as u64
    })
}

fn place_near(random: &mut Random, spread: i32) -> (i32, i32) {
    let mut one = |middle: i32| middle + random.below(2 * spread as u64) as i32 - spread;
    (one(450_000_000), one(70_000_000))
}

fn farness(place: &(i32, i32)) -> u64 {
    let at = |p: (i32, i32)| Place { lat: p.0, lon: p.1 };
    distance2(at((450_000_000, 70_000_000)), at(*place))
}

fn geometry_rows() {
    let mut random = Random(88172645463325252);
    let n = 1024;
    let centres: Vec<_> = (0..n).map(|_| place_near(&mut random, 20_000)).collect();
    let places: Vec<_> = (0..n).map(|_| place_near(&mut random, 20_000)).collect();
    let (c, p) = (spelled(&centres), spelled(&places));
    for (shape, name) in [(0u8, "circle"), (1, "rectangle"), (2, "ellipse")] {
        let area = |(i, centre): (usize, &(i32, i32))| {
            let mut w = spelled(&[*centre]);
            w.extend((500 + i as u16).to_be_bytes());
            w.extend((200 + i as u16).to_be_bytes());
            w.extend(((i % 360) as u16).to_be_bytes());
            w
        };
        let a: Vec<u8> = centres.iter().enumerate().flat_map(area).collect();
        row!(
            format!("contains {name}"),
            n * 100,
            60,
            100,
            true,
            |r| bench_contains(a.as_ptr(), a.len(), p.as_ptr(), p.len(), shape, r as u64),
            twin_contains(&a, &p, shape, r)
        );
    }
    row!(
        "distance2",
        n * 100,
        60,
        100,
        true,
        |r| bench_distance(c.as_ptr(), c.len(), p.as_ptr(), p.len(), r as u64),
        twin_distance(&c, &p, r)
    );
    for count in [32usize, 64, 1024, 4096] {
        for case in ["near", "farthest first"] {
            let mut places: Vec<_> = (0..count).map(|_| place_near(&mut random, 200_000)).collect();
            let mut centres: Vec<_> = (0..16).map(|_| place_near(&mut random, 200_000)).collect();
            if case == "farthest first" {
                places.sort_by_key(|place| std::cmp::Reverse(farness(place)));
                centres = vec![(450_000_000, 70_000_000); 16];
            }
            let (c, p) = (spelled(&centres), spelled(&places));
            let k = (50_000 / count) as u32;
            row!(
                format!("nearest of {count}, {case}"),
                16 * k as usize,
                40,
                k,
                true,
                |r| bench_nearest(c.as_ptr(), c.len(), p.as_ptr(), p.len(), r as u64),
                twin_nearest(&c, &p, r)
            );
        }
    }
}

// ---- the location table

fn vectors_of(addresses: &[u64]) -> Vec<LongPv> {
    let place = Place { lat: 450_000_000, lon: 70_000_000 };
    let of = |a: &u64| LongPv { address: *a, tst: 0, place, pai: true, speed: 0, heading: 0 };
    addresses.iter().map(of).collect()
}

fn heard(vector: &LongPv, tst: u32, number: Option<u16>) -> Heard {
    Heard { vector: LongPv { tst, ..*vector }, number }
}

fn verdict_code(verdict: Verdict) -> u64 {
    match verdict {
        Verdict::Accepted => 1,
        Verdict::Duplicate => 2,
        Verdict::Full => 4,
    }
}

fn accept_all(table: &mut Table, vectors: &[LongPv], now: u64, number: Option<u16>) -> u64 {
    vectors.iter().map(|v| verdict_code(table.accept(now, &heard(v, 0, number)))).sum()
}

fn filled(vectors: &[LongPv]) -> Table {
    let mut table = Table::new(4096, 8);
    accept_all(&mut table, vectors, 0, None);
    table
}

#[inline(never)]
fn twin_accept(addresses: &[u64], rounds: u32, direct: bool) -> u64 {
    let vectors = vectors_of(addresses);
    let mut table = filled(&vectors);
    let mut sum = 0;
    for round in 0..rounds {
        let mut count = round.wrapping_mul((vectors.len() % 65536) as u32);
        for vector in &vectors {
            count = count.wrapping_add(1);
            let number = (!direct).then_some((count % 65536) as u16);
            sum += verdict_code(table.accept(5, &heard(vector, count, number)));
        }
    }
    sum
}

#[inline(never)]
fn twin_turnover(addresses: &[u64], live: u32, rounds: u32) -> u64 {
    let vectors = vectors_of(addresses);
    let mut table = Table::new(4096, 8);
    let (mut now, mut sum, step) = (0, 0, 20_000_000 / live as u64);
    for _ in 0..rounds {
        for vector in &vectors {
            now += step;
            sum += verdict_code(table.accept(now / 1000, &heard(vector, 0, None)));
        }
    }
    sum
}

#[inline(never)]
fn twin_fill(addresses: &[u64], rounds: u32) -> u64 {
    let vectors = vectors_of(addresses);
    let mut table = filled(&[]);
    repeated(rounds, || {
        let sum = accept_all(&mut table, &vectors, 0, None);
        table.clear();
        sum
    })
}

#[inline(never)]
fn twin_lookup(addresses: &[u64], rounds: u32) -> u64 {
    let vectors = vectors_of(addresses);
    let table = filled(&vectors);
    (0..rounds)
        .map(|round| {
            let now = (round % 8) as u64;
            let found = vectors.iter().filter_map(|v| table.lookup(now, v.address));
            found.map(|slot| slot.vector.tst as u64 + 1).sum::<u64>()
        })
        .sum()
}

#[inline(never)]
fn twin_remembers(addresses: &[u64], rounds: u32) -> u64 {
    let vectors = vectors_of(addresses);
    let mut table = filled(&vectors);
    for number in 0..8 {
        accept_all(&mut table, &vectors, 0, Some(number));
    }
    (0..rounds)
        .map(|round| {
            let number = (round % 16) as u16;
            vectors.iter().map(|v| table.remembers(5, v.address, number) as u64).sum::<u64>()
        })
        .sum()
}

#[inline(never)]
fn twin_by_mid(addresses: &[u64], picks: &[u64], rounds: u32) -> u64 {
    let vectors = vectors_of(addresses);
    let wanted = vectors_of(picks);
    let table = filled(&vectors);
    (0..rounds)
        .map(|round| {
            let now = (round % 8) as u64;
            let found =
                wanted.iter().filter_map(|v| table.by_mid(now, v.address & 0xffff_ffff_ffff));
            found.map(|slot| slot.vector.tst as u64 + 1).sum::<u64>()
        })
        .sum()
}

#[inline(never)]
fn twin_walk(addresses: &[u64], rounds: u32) -> u64 {
    let vectors = vectors_of(addresses);
    let table = filled(&vectors);
    (0..rounds)
        .map(|round| {
            let slots = black_box(&table).neighbours((round % 8) as u64);
            slots.map(|slot| slot.vector.place.lat as u32 as u64 + 1).fold(0, u64::wrapping_add)
        })
        .fold(0, u64::wrapping_add)
}

/// Addresses in a random order.
fn sources(count: usize) -> Vec<u64> {
    let of = |i: u64| 0x1400_0200_0000_0001 + (i * 0x9e37_79b9 & 0xff_ffff);
    let mut all: Vec<u64> = (0..count as u64).map(of).collect();
    Random(99 + count as u64).shuffle(&mut all);
    all
}

fn table_rows(count: usize) {
    let all = sources(count);
    let mut random = Random(7);
    let mut picks = all.clone();
    picks.extend((0..16384).map(|_| all[random.below(count as u64) as usize]));
    let (p, l, u, ul) = (picks.as_ptr(), picks.len(), all.as_ptr(), all.len());
    row!(
        format!("accept a beacon, {count} sources"),
        l * 6,
        30,
        6,
        true,
        |r| bench_accept(p, l, r, true),
        twin_accept(&picks, r, true)
    );
    row!(
        format!("accept a gbc, {count} sources"),
        l * 6,
        30,
        6,
        true,
        |r| bench_accept(p, l, r, false),
        twin_accept(&picks, r, false)
    );
    row!(
        format!("lookup, {count} sources"),
        l * 24,
        20,
        24,
        true,
        |r| bench_lookup(p, l, r),
        twin_lookup(&picks, r)
    );
    row!(
        format!("remembers, {count} sources"),
        l * 32,
        20,
        32,
        true,
        |r| bench_remembers(p, l, r),
        twin_remembers(&picks, r)
    );
    let some = &all[..count.min(256)];
    let (q, ql) = (some.as_ptr(), some.len());
    let k = (200_000 / (count * ql)).max(2) as u32;
    row!(
        format!("by_mid, {count} sources"),
        ql * k as usize,
        20,
        k,
        true,
        |r| bench_by_mid(u, ul, q, ql, r),
        twin_by_mid(&all, some, r)
    );
    let k = (16384 / count) as u32;
    row!(
        format!("accept a new source, up to {count}"),
        count * k as usize,
        20,
        k,
        true,
        |r| bench_fill(u, ul, r),
        twin_fill(&all, r)
    );
    let k = (2_000_000 / count) as u32;
    row!(
        format!("a step of a walk, {count} neighbours"),
        count * k as usize,
        20,
        k,
        true,
        |r| bench_walk(u, ul, r),
        twin_walk(&all, r)
    );
    if count <= 1024 {
        let many = sources(4 * count);
        let (m, ml) = (many.as_ptr(), many.len());
        row!(
            format!("a new source as one expires, {count} live"),
            ml * 2,
            15,
            2,
            true,
            |r| bench_turnover(m, ml, count as u32, r),
            twin_turnover(&many, count as u32, r)
        );
    }
}

// ---- the location table at a busy junction

/// How long a vehicle is in range, in milliseconds: 600 m at 15 m/s.
const STAY: u64 = 40_000;
/// How long an entry is live after the last message of its source, in milliseconds.
const ENTRY_LIFE: u64 = 20_000;
/// From this time on, as many entries expire as are made.
const STEADY: u64 = STAY + ENTRY_LIFE;

/// Single-hop messages, in the order of their times. The upper half of each is its time in
/// milliseconds, the lower half is the index of its source.
struct Traffic {
    sources: Vec<u64>,
    /// The messages of the 20 s before, which make the entries that are live at first.
    before: Vec<u64>,
    messages: Vec<u64>,
}

/// A time and a source as one message.
fn message(time: u64, source: u64) -> u64 {
    time << 32 | source
}

/// Addresses that are random in 40 bits.
fn random_sources(count: usize, random: &mut Random) -> Vec<u64> {
    (0..count).map(|_| 0x1400_0200_0000_0000 | random.next() & 0xff_ffff_ffff).collect()
}

/// Vehicles come and go, so that `vehicles` are in range at any time. Each stays for `STAY` and
/// sends `rate` messages per second, each at a random time of its period. Each is a new source.
fn junction(vehicles: u64, rate: u64) -> Traffic {
    let (count, period) = (120_000, 1000 / rate);
    let end = STEADY + count * 1000 / (vehicles * rate);
    let arrivals = end * vehicles / STAY;
    let mut random = Random(21);
    let mut all = Vec::new();
    for vehicle in 0..arrivals {
        let arrival = vehicle * STAY / vehicles + random.below(1000);
        for start in (arrival..arrival + STAY).step_by(period as usize) {
            all.push(message(start + random.below(period), vehicle));
        }
    }
    all.sort();
    let [first, from, to] = [STEADY - ENTRY_LIFE, STEADY, end]
        .map(|time| all.partition_point(|one| *one < message(time, 0)));
    Traffic {
        sources: random_sources(arrivals as usize, &mut random),
        before: all[first..from].to_vec(),
        messages: all[from..to].to_vec(),
    }
}

/// As many messages at the same times, from as many live sources. None of them is new: `vehicles`
/// stay for good. Half as many others send one message per 15 seconds, so that they stay live.
fn junction_of_known(vehicles: u64, rate: u64) -> Traffic {
    let mut traffic = junction(vehicles, rate);
    let (others, pause) = (vehicles * ENTRY_LIFE / STAY, 15 * rate * STAY / ENTRY_LIFE);
    let mut count = 0;
    for one in traffic.before.iter_mut().chain(&mut traffic.messages) {
        let (time, vehicle) = (*one >> 32, *one & 0xffff_ffff);
        count += 1;
        *one = message(time, vehicle % vehicles);
        if count % pause == 0 {
            *one = message(time, vehicles + count / pause % others);
        }
    }
    traffic.sources.truncate((vehicles + others) as usize);
    traffic
}

fn accept_messages(table: &mut Table, vectors: &[LongPv], messages: &[u64]) -> u64 {
    let mut sum = 0;
    for message in messages {
        let (now, source) = (*message >> 32, *message & 0xffff_ffff);
        if let Some(vector) = vectors.get(source as usize) {
            sum += verdict_code(table.accept(now, &heard(vector, now as u32, None)));
        }
    }
    sum
}

#[inline(never)]
fn twin_junction(sources: &[u64], before: &[u64], messages: &[u64], capacity: usize) -> u64 {
    let vectors = vectors_of(sources);
    let mut table = Table::new(capacity, 8);
    let sum = accept_messages(&mut table, &vectors, before);
    sum + accept_messages(&mut table, &vectors, messages)
}

fn junction_row(name: &str, traffic: &Traffic, capacity: u16) {
    let Traffic { sources, before, messages } = traffic;
    let (p, n) = (sources.as_ptr(), sources.len());
    let (b, l) = (before.as_ptr(), before.len());
    let (q, m) = (messages.as_ptr(), messages.len());
    row!(
        name,
        m,
        150,
        1,
        true,
        |r| bench_junction(p, n, b, l, q, m * r as usize, capacity),
        twin_junction(sources, before, &messages[..m * r as usize], capacity as usize)
    );
}

fn junction_rows() {
    let crowd = [(300, 10, 1024), (300, 10, 4096), (300, 4, 1024), (300, 1, 1024), (1200, 1, 4096)];
    for (vehicles, rate, capacity) in crowd {
        let name = format!("accept, junction of {vehicles}, {rate}/s, up to {capacity}");
        junction_row(&name, &junction(vehicles, rate), capacity);
        let name = format!("{name}, none new");
        junction_row(&name, &junction_of_known(vehicles, rate), capacity);
    }
}

// ---- forwarding

#[inline(never)]
fn twin_choose(addresses: &[u64], places: &[u8], ends: &[u8], rounds: u32) -> u64 {
    let mut table = Table::new(4096, 8);
    for (vector, place) in vectors_of(addresses).iter().zip(places_of(places)) {
        table.accept(0, &Heard { vector: LongPv { place, ..*vector }, number: None });
    }
    let ends = places_of(ends);
    let area = Area { shape: Shape::Circle, centre: ends[0], a: 10, b: 0, angle: 0 };
    (0..rounds)
        .map(|round| match choose(black_box(&table), (round % 8) as u64, ends[1], &area, None) {
            Choice::Broadcast => 1,
            Choice::Drop => 2,
            Choice::To(mid) => 3 + (mid & 0xffff),
        })
        .sum()
}

fn choose_rows(count: usize) {
    let mut random = Random(5);
    let mut addresses = sources(count);
    addresses.sort();
    for case in ["any order", "nearest first", "none nearer", "all equal", "farthest first"] {
        let mut places: Vec<_> = (0..count).map(|_| place_near(&mut random, 200_000)).collect();
        let mut own = (450_900_000, 70_900_000);
        match case {
            "nearest first" => places.sort_by_key(farness),
            "farthest first" => places.sort_by_key(|place| std::cmp::Reverse(farness(place))),
            "all equal" => places = vec![(450_100_000, 70_100_000); count],
            "none nearer" => {
                own = (450_003_000, 70_003_000);
                places.iter_mut().for_each(|place| place.0 += 400_000);
            }
            _ => {}
        }
        let (p, e) = (spelled(&places), spelled(&[(450_000_000, 70_000_000), own]));
        let (a, q, l) = (addresses.as_ptr(), p.as_ptr(), e.as_ptr());
        let k = (1_000_000 / count) as u32;
        row!(
            format!("choose of {count}, {case}"),
            k as usize,
            20,
            k,
            true,
            |r| bench_choose(a, count, q, p.len(), l, 16, r),
            twin_choose(&addresses, &p, &e, r)
        );
    }
}

// ---- the station

fn outcome_code(outcome: Result<Outcome<'_>, station::Refused>) -> u64 {
    match outcome {
        Ok(Outcome::Ignored(_)) => 1,
        Ok(Outcome::Accepted { handed, sent }) => {
            let payload = handed.map_or(0, |handed| 1 + handed.payload.len() as u64);
            2 + payload + black_box(sent).map_or(0, |frame| frame.len() as u64)
        }
        Err(_) => 5,
    }
}

#[inline(never)]
fn twin_receive(beacons: &[u8], frames: &[u8], stride: usize, rounds: u32) -> u64 {
    let place = Place { lat: 450_000_000, lon: 70_000_000 };
    let mut station = Station::new(0x1400_0200_00ff_ffff, place, 4096, 8);
    let _ = station.open(0, 2002);
    let mut all = |frames: &[u8], stride: usize| -> u64 {
        frames.chunks_exact(stride).map(|frame| outcome_code(station.receive(5, frame))).sum()
    };
    all(beacons, 50);
    repeated(rounds, || all(frames, stride))
}

fn receive_rows(count: usize) {
    let all = sources(count);
    let (inside, outside) = ((450_000_100, 70_000_000), (450_900_000, 70_000_000));
    let frames = |kind: u8, numbers: u16, centre: (i32, i32), most: usize| -> Vec<u8> {
        let one = |number: u16, a: &u64| frame_of(*a, packet(kind, *a, number, centre, 34));
        let sources = &all[..most.min(count)];
        (0..numbers).flat_map(|n| sources.iter().flat_map(move |a| one(n, a))).collect()
    };
    let beacons = frames(BEACON, 1, inside, count);
    let (b, bl) = (beacons.as_ptr(), beacons.len());
    let cases = [
        ("a beacon", beacons.clone(), 50, 100_000),
        // sixteen numbers of each source in turn, of which it remembers eight
        ("inside, delivered and relayed", frames(GBC, 16, inside, count), 104, 65_536),
        ("outside, sent on", frames(GBC, 16, outside, 16), 104, 20_000_000 / count),
        ("a duplicate", frames(GBC, 1, inside, count), 104, 100_000),
        ("junk", frames(GBC, 1, (910_000_000, 0), count), 104, 400_000),
    ];
    for (name, octets, stride, wanted) in cases {
        let calls = octets.len() / stride;
        let k = wanted.div_ceil(calls) as u32;
        let (f, fl) = (octets.as_ptr(), octets.len());
        row!(
            format!("receive {name}, {count} sources"),
            calls * k as usize,
            20,
            k,
            true,
            |r| bench_receive(b, bl, f, fl, stride, r),
            twin_receive(&beacons, black_box(&octets), stride, r)
        );
    }
}

// ---- contention

/// How many frames a station may hold.
const PLACES: usize = 64;
const STRIDE: usize = 104;

/// What a contending station receives: beacons, frames before the measured ones, and those. Without
/// `keeps` the held frames are dropped after each 64 frames. With no copies it is a simple station.
#[derive(Clone, Copy)]
struct Contest<'a> {
    beacons: &'a [u8],
    first: &'a [u8],
    frames: &'a [u8],
    copies: u8,
    keeps: bool,
}

impl Contest<'_> {
    fn ours(&self, rounds: u32) -> u64 {
        let Contest { beacons, first, frames, copies, keeps } = *self;
        unsafe {
            bench_contend(
                beacons.as_ptr(),
                beacons.len(),
                first.as_ptr(),
                first.len(),
                frames.as_ptr(),
                frames.len(),
                STRIDE,
                PLACES * STRIDE,
                copies,
                keeps,
                rounds,
            )
        }
    }

    #[inline(never)]
    fn twin(&self, rounds: u32) -> u64 {
        let place = Place { lat: 450_000_000, lon: 70_000_000 };
        let mut station = Station::new(0x1400_0200_00ff_ffff, place, 4096, 8);
        let _ = station.open(0, 2002);
        self.beacons.chunks_exact(50).for_each(|frame| drop(station.receive(5, frame)));
        let (min_wait, max_wait, range, copies) = (1, 100, 1000, self.copies.into());
        let rule = (copies > 0).then_some(Rule { min_wait, max_wait, range, copies });
        let mut station = Contending::new(station, rule);
        part_code(&mut station, self.first, self.keeps);
        let parts = self.frames.chunks_exact(PLACES * STRIDE);
        let mut all = || parts.clone().map(|part| part_code(&mut station, part, self.keeps)).sum();
        repeated(rounds, &mut all)
    }

    /// How many rounds there are, and how many times that many frames are received in them.
    fn rounds(&self, frames: usize) -> (u32, usize) {
        let count = self.frames.len() / STRIDE;
        let k = 400_000_usize.div_ceil(count);
        (k as u32, count * k / frames)
    }

    fn row(&self, name: &str, frames: usize) {
        let (k, calls) = self.rounds(frames);
        let sides: [Call<'_>; 2] = [Box::new(|r| self.ours(r)), Box::new(|r| self.twin(r))];
        row(&format!("receive {name}"), calls, 20, k, true, sides);
    }
}

fn part_code(station: &mut Contending, frames: &[u8], keeps: bool) -> u64 {
    let sum = frames
        .chunks_exact(STRIDE)
        .map(|frame| reaction_code(station.receive(5, frame)))
        .fold(0, u64::wrapping_add);
    let released = if keeps { None } else { station.release(9000) };
    sum.wrapping_add(released.map_or(0, |frame| frame.len() as u64))
}

fn reaction_code(reaction: Result<Reaction<'_>, station::Refused>) -> u64 {
    match reaction {
        Ok(Reaction { outcome, due, cancelled }) => {
            outcome_code(Ok(outcome)) + due.unwrap_or(0) + u64::from(cancelled)
        }
        Err(refused) => outcome_code(Err(refused)),
    }
}

/// The frame in which another station forwards a packet.
fn copy_of(frame: &[u8]) -> Vec<u8> {
    let frame = read_frame(frame).ok().expect("a frame");
    relay_frame(station::BROADCAST, 0x0200_00aa_0000, &frame)
}

fn contention_rows() {
    let all = sources(PLACES);
    let inside = (450_000_100, 70_000_000);
    let frame = |a: u64, number: u16| frame_of(a, packet(GBC, a, number, inside, 34));
    let beacons: Vec<u8> =
        all.iter().flat_map(|a| frame_of(*a, packet(BEACON, *a, 0, inside, 34))).collect();
    // Sixteen numbers of each source in turn, of which it remembers eight.
    let numbered = |n: u16| -> Vec<u8> { all.iter().flat_map(|a| frame(*a, n)).collect() };
    let (new, once): (Vec<u8>, _) = ((0..16).flat_map(numbered).collect(), numbered(0));
    let most = &once[STRIDE..];
    let pair = |number: u16| {
        let new = frame(all[0], number);
        let copy = copy_of(&new);
        new.into_iter().chain(copy)
    };
    let pairs: Vec<u8> = (0..32).flat_map(pair).collect();
    let none = Contest { beacons: &beacons, first: &[], frames: &new, copies: 1, keeps: false };
    none.row("inside, held", 1);
    Contest { first: most, frames: &pairs, keeps: true, ..none }
        .row("inside, held, and a copy that cancels it, 63 held", 2);
    Contest { first: &once, frames: &once, keeps: true, ..none }.row("a duplicate, 64 held", 1);
    let duplicates = Contest { first: &once, frames: &once, ..none };
    duplicates.row("a duplicate, none held", 1);
    let simple = Contest { copies: 0, ..duplicates };
    let (k, calls) = duplicates.rounds(1);
    let sides: [Call<'_>; 2] = [Box::new(|r| duplicates.ours(r)), Box::new(|r| simple.ours(r))];
    row("receive a duplicate, none held, beside a simple unit", calls, 20, k, true, sides);
}

// ---- worlds and lines

const STATIONS: u64 = 10;

/// Four words an event: station, moment, kind, argument. Each frame goes to every other station.
fn schedule(count: usize) -> Vec<u64> {
    let mut random = Random(3);
    let mut words: Vec<u64> = (0..STATIONS).flat_map(|station| [station, 0, 0, 0]).collect();
    let (mut moment, mut frames) = (0, 0);
    while words.len() < 4 * count {
        moment += 1 + random.below(20);
        let station = random.below(STATIONS);
        words.extend([station, moment, 2 + random.below(2), 0]);
        for other in (0..STATIONS).filter(|other| *other != station) {
            moment += 1;
            words.extend([other, moment, 4, frames]);
        }
        frames += 1 + random.below(3);
    }
    words.truncate(4 * count);
    words
}

fn events_of(words: &[u64]) -> Vec<Event> {
    let (payload, centre) = (vec![7; 30], Place { lat: 450_000_000, lon: 70_000_000 });
    let area = Area { shape: Shape::Circle, centre, a: 1000, b: 0, angle: 0 };
    let what = |kind: u64, argument: u64| match kind {
        0 => What::Open(2002),
        1 => What::Tick(0),
        2 => What::SendShb { port: 2002, payload: payload.clone() },
        3 => What::SendGeobroadcast { port: 2002, hops: 5, area, payload: payload.clone() },
        _ => What::Deliver(argument as usize),
    };
    let event = |w: &[u64]| Event { station: w[0] as usize, moment: w[1], what: what(w[2], w[3]) };
    words.chunks_exact(4).map(event).collect()
}

fn world() -> World {
    let station = |number: u64| {
        let place = Place { lat: 450_000_000, lon: 70_000_000 + number as i32 };
        Station::new(0x1400_0200_0000_0001 + number, place, 64, 8)
    };
    World::new((0..STATIONS).map(station).collect())
}

fn entry_code(entry: &Entry) -> u64 {
    match entry {
        Entry::Opened | Entry::Quiet => 1,
        Entry::Sent(_) => 2,
        Entry::Ignored(_) => 3,
        Entry::Accepted { handed, sent } => 4 + handed.is_some() as u64 + 2 * sent.is_some() as u64,
        Entry::Refused(_) | Entry::NoSuchStation | Entry::NoSuchFrame => 8,
    }
}

#[inline(never)]
fn twin_world(words: &[u64], runs: u32) -> u64 {
    let (mut world, events) = (world(), events_of(words));
    if runs == 0 {
        return 0;
    }
    world.run(&events).iter().map(entry_code).sum()
}

#[inline(never)]
fn twin_simulate(words: &[u64], runs: u32) -> u64 {
    let (mut world, events) = (world(), events_of(words));
    if runs == 0 {
        return 0;
    }
    lines::simulate(&mut world, &events).map_or(0, |out| out.len() as u64)
}

fn world_rows() {
    let words = schedule(100_000);
    let (w, n) = (words.as_ptr(), words.len());
    row!(
        "World::run, an event of 100000",
        100_000,
        15,
        1,
        true,
        |r| bench_world(w, n, r),
        twin_world(&words, r)
    );
    row!(
        "sim without TOML, an event of 100000",
        100_000,
        15,
        1,
        true,
        |r| bench_simulate(w, n, r),
        twin_simulate(&words, r)
    );
}

fn main() {
    println!("{:52} {:>9} {:>9} {:>6}", "ns a call", "ours", "plain", "ratio");
    packet_rows();
    geometry_rows();
    for count in [64, 1024, 4096] {
        table_rows(count);
    }
    junction_rows();
    for count in [64, 1024, 4096] {
        choose_rows(count);
        receive_rows(count);
    }
    contention_rows();
    world_rows();
}
