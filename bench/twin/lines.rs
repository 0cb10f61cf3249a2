//! The lines of a capture and of a run: by `write!`, and by hand into one buffer.
use crate::geometry::Shape;
use crate::packets::{Frame, FrameFault, Kind, be16, read_frame};
use crate::station::{Entry, Event, Refused, Why, World};
use std::io::{Result, Write};

/// The records of a capture: a moment, a length, a frame.
fn records(mut capture: &[u8]) -> impl Iterator<Item = (u64, &[u8])> {
    std::iter::from_fn(move || {
        let (head, rest) = capture.split_first_chunk::<10>()?;
        let moment = u64::from_be_bytes(head[..8].try_into().ok()?);
        let (frame, rest) = rest.split_at_checked(be16(head, 8) as usize)?;
        capture = rest;
        Some((moment, frame))
    })
}

fn word(kind: &Kind) -> &'static str {
    match kind {
        Kind::Beacon => "beacon",
        Kind::Shb(_) => "shb",
        Kind::Gbc(..) => "gbc",
        Kind::Gac(..) => "gac",
    }
}

fn shape_word(shape: Shape) -> &'static str {
    match shape {
        Shape::Circle => "circle",
        Shape::Rectangle => "rectangle",
        Shape::Ellipse => "ellipse",
    }
}

fn write_hex<W: Write>(out: &mut W, octets: &[u8]) -> Result<()> {
    if octets.is_empty() {
        return out.write_all(b"-");
    }
    for octet in octets {
        write!(out, "{octet:02x}")?;
    }
    Ok(())
}

fn write_frame<W: Write>(out: &mut W, moment: u64, frame: &Frame<'_>) -> Result<()> {
    let (view, vector) = (&frame.packet, &frame.packet.vector);
    write!(
        out,
        "{moment} {:012x} {:012x} {} {:016x} tst {} lat {} lon {} pai {} speed {} heading {} \
         lt {:02x} tc {:02x} mobile {} hops {}/{}",
        frame.from,
        frame.to,
        word(&view.kind),
        vector.address,
        vector.tst,
        vector.place.lat,
        vector.place.lon,
        vector.pai as u8,
        vector.speed,
        vector.heading,
        view.lifetime,
        view.class,
        view.mobile as u8,
        view.left,
        view.max
    )?;
    if let (Some(number), Some(area)) = (view.number(), view.area()) {
        let (shape, centre) = (shape_word(area.shape), area.centre);
        write!(out, " number {number} {shape} {} {}", centre.lat, centre.lon)?;
        write!(out, " {} {} {}", area.a, area.b, area.angle)?;
    }
    if let Some((head, rest)) = view.payload.split_first_chunk::<4>() {
        write!(out, " port {} info {} ", be16(head, 0), be16(head, 2))?;
        write_hex(out, rest)?;
    }
    writeln!(out)
}

/// `show`, by `write!`.
pub fn show(capture: &[u8]) -> Result<Vec<u8>> {
    let mut out = Vec::new();
    for (moment, octets) in records(capture) {
        let octets = octets.to_vec();
        match read_frame(&octets) {
            Ok(frame) => write_frame(&mut out, moment, &frame)?,
            Err(fault) => writeln!(out, "{moment} refused {fault:?}")?,
        }
    }
    Ok(out)
}

const PAIRS: [[u8; 2]; 100] = {
    let mut t = [[0; 2]; 100];
    let mut i = 0;
    while i < 100 {
        t[i] = [b'0' + (i / 10) as u8, b'0' + (i % 10) as u8];
        i += 1;
    }
    t
};
const HEX: [[u8; 2]; 256] = {
    let d = b"0123456789abcdef";
    let mut t = [[0; 2]; 256];
    let mut i = 0;
    while i < 256 {
        t[i] = [d[i >> 4], d[i & 15]];
        i += 1;
    }
    t
};

/// Text by hand: digits in pairs, hexadecimal by a table.
struct Text(Vec<u8>);

impl Text {
    fn s(&mut self, s: &str) {
        self.0.extend_from_slice(s.as_bytes());
    }

    fn u(&mut self, mut n: u64) {
        let mut d = [0u8; 20];
        let mut at = 20;
        while n >= 100 {
            at -= 2;
            d[at..at + 2].copy_from_slice(&PAIRS[(n % 100) as usize]);
            n /= 100;
        }
        if n >= 10 {
            at -= 2;
            d[at..at + 2].copy_from_slice(&PAIRS[n as usize]);
        } else {
            at -= 1;
            d[at] = b'0' + n as u8;
        }
        self.0.extend_from_slice(&d[at..]);
    }

    fn i(&mut self, n: i64) {
        if n < 0 {
            self.0.push(b'-');
        }
        self.u(n.unsigned_abs());
    }

    fn h(&mut self, octets: &[u8]) {
        let at = self.0.len();
        self.0.resize(at + 2 * octets.len(), 0);
        for (d, b) in self.0[at..].chunks_exact_mut(2).zip(octets) {
            d.copy_from_slice(&HEX[*b as usize]);
        }
    }

    fn named(&mut self, name: &str, n: u64) {
        self.s(name);
        self.u(n);
    }

    fn frame(&mut self, moment: u64, frame: &Frame<'_>) {
        let (view, vector) = (&frame.packet, &frame.packet.vector);
        self.u(moment);
        self.s(" ");
        self.h(&frame.octets[6..12]);
        self.s(" ");
        self.h(&frame.octets[..6]);
        self.s(" ");
        self.s(word(&view.kind));
        self.s(" ");
        self.h(&vector.address.to_be_bytes());
        self.named(" tst ", vector.tst.into());
        self.s(" lat ");
        self.i(vector.place.lat.into());
        self.s(" lon ");
        self.i(vector.place.lon.into());
        self.named(" pai ", vector.pai.into());
        self.s(" speed ");
        self.i(vector.speed.into());
        self.named(" heading ", vector.heading.into());
        self.s(" lt ");
        self.h(&[view.lifetime]);
        self.s(" tc ");
        self.h(&[view.class]);
        self.named(" mobile ", view.mobile.into());
        self.named(" hops ", view.left.into());
        self.named("/", view.max.into());
        if let (Some(number), Some(area)) = (view.number(), view.area()) {
            self.named(" number ", number.into());
            self.s(" ");
            self.s(shape_word(area.shape));
            self.s(" ");
            self.i(area.centre.lat.into());
            self.s(" ");
            self.i(area.centre.lon.into());
            self.named(" ", area.a.into());
            self.named(" ", area.b.into());
            self.named(" ", area.angle.into());
        }
        if let Some((head, rest)) = view.payload.split_first_chunk::<4>() {
            self.named(" port ", be16(head, 0).into());
            self.named(" info ", be16(head, 2).into());
            self.s(" ");
            if rest.is_empty() { self.s("-") } else { self.h(rest) }
        }
        self.s("\n");
    }
}

/// `show`, by hand.
pub fn show_by_hand(capture: &[u8]) -> Vec<u8> {
    let mut text = Text(Vec::new());
    for (moment, octets) in records(capture) {
        match read_frame(octets) {
            Ok(frame) => text.frame(moment, &frame),
            Err(_) => {
                text.u(moment);
                text.s(" refused\n");
            }
        }
    }
    text.0
}

fn why_word(why: Why) -> &'static str {
    match why {
        Why::NotForMe => "not-for-me",
        Why::OwnSource => "own-source",
        Why::SenderMismatch => "sender-mismatch",
        Why::Duplicate => "duplicate",
    }
}

fn refusal_word(refused: &Refused) -> &'static str {
    match refused {
        Refused::Moment => "S1",
        Refused::Frame(FrameFault::Short) => "S3 L1",
        Refused::Frame(_) => "S3",
        Refused::TableFull => "S4",
        Refused::Port => "S8",
        Refused::Payload => "S6",
        Refused::Hops => "S7",
    }
}

fn write_entry<W: Write>(out: &mut W, entry: &Entry) -> Result<()> {
    match entry {
        Entry::Opened => write!(out, "opened"),
        Entry::Quiet => write!(out, "quiet"),
        Entry::Sent(frame) => write!(out, "sent {frame}"),
        Entry::Ignored(why) => write!(out, "ignored {}", why_word(*why)),
        Entry::Accepted { handed, sent } => {
            write!(out, "accepted")?;
            if let Some(delivery) = handed {
                write!(out, " port {} info {} ", delivery.port, delivery.info)?;
                write_hex(out, &delivery.payload)?;
            }
            match sent {
                Some(frame) => write!(out, " sent {frame}"),
                None => Ok(()),
            }
        }
        Entry::Refused(refused) => write!(out, "refused {}", refusal_word(refused)),
        Entry::NoSuchStation => write!(out, "refused M4"),
        Entry::NoSuchFrame => write!(out, "refused M3"),
    }
}

/// A run of 256 events at a time, with a line for each.
pub fn simulate(world: &mut World, events: &[Event]) -> Result<Vec<u8>> {
    let mut out = Vec::new();
    let mut number = 0;
    for piece in events.chunks(256) {
        let log = world.run(piece);
        for (event, entry) in piece.iter().zip(&log) {
            write!(out, "{number} {} {} ", event.moment, event.station)?;
            write_entry(&mut out, entry)?;
            writeln!(out)?;
            number += 1;
        }
    }
    Ok(out)
}
