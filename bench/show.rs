//! The lines of a capture, in plain Rust: `show make COUNT FILE` writes a capture of so many frames,
//! a BEACON, an SHB, a GBC and a GAC in turn. `show write FILE` prints its lines by `write!`, `show
//! hand FILE` by a line that is put together by hand.
#![allow(dead_code)]
#[path = "twin/geometry.rs"]
mod geometry;
#[path = "twin/lines.rs"]
mod lines;
#[path = "twin/packets.rs"]
mod packets;
#[path = "twin/station.rs"]
mod station;
#[path = "twin/table.rs"]
mod table;

use geometry::{Area, Place, Shape};
use packets::{Kind, LongPv, Packet, write_frame};
use std::fs;
use std::io::{BufWriter, Result, Write};

fn kind_of(number: u64) -> Kind {
    let centre = Place { lat: 450_000_100, lon: 70_000_000 };
    let area = Area { shape: Shape::Circle, centre, a: 300, b: 0, angle: 0 };
    match number % 4 {
        0 => Kind::Beacon,
        1 => Kind::Shb([0; 4]),
        2 => Kind::Gbc(number as u16, area),
        _ => Kind::Gac(number as u16, area),
    }
}

fn frame_of(number: u64) -> Vec<u8> {
    let address = 0x1400_0200_0000_0001 + number;
    let place = Place { lat: 450_000_000, lon: 70_000_000 + (number % 1000) as i32 };
    let tst = (number as u32).wrapping_mul(7);
    let vector = LongPv { address, tst, place, pai: true, speed: 1200, heading: 900 };
    let kind = kind_of(number);
    let (hops, payload) = match kind {
        Kind::Beacon => (1, vec![]),
        Kind::Shb(_) => (1, (0..34).collect()),
        _ => (10, (0..34).collect()),
    };
    let (left, max, lifetime, class) = (hops, hops, 0x1a, 2);
    let packet = Packet { left, max, lifetime, class, mobile: true, vector, kind, payload };
    write_frame(0xffff_ffff_ffff, address & 0xffff_ffff_ffff, &packet)
}

fn make(count: u64, sink: &mut impl Write) -> Result<()> {
    for number in 0..count {
        let frame = frame_of(number);
        sink.write_all(&(1000 * number).to_be_bytes())?;
        sink.write_all(&(frame.len() as u16).to_be_bytes())?;
        sink.write_all(&frame)?;
    }
    sink.flush()
}

fn main() -> Result<()> {
    let words: Vec<String> = std::env::args().skip(1).collect();
    let words: Vec<&str> = words.iter().map(String::as_str).collect();
    match words.as_slice() {
        ["make", count, file] => {
            make(count.parse().expect("a count"), &mut BufWriter::new(fs::File::create(file)?))
        }
        ["write", file] => std::io::stdout().write_all(&lines::show(&fs::read(file)?)?),
        ["hand", file] => std::io::stdout().write_all(&lines::show_by_hand(&fs::read(file)?)),
        _ => panic!("show make COUNT FILE, show write FILE, or show hand FILE"),
    }
}
