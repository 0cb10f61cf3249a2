//! Packets and frames.
use crate::geometry::{Area, Place, Shape};
#[derive(Clone, Copy, PartialEq, Debug)]
pub struct LongPv {
    pub address: u64,
    pub tst: u32,
    pub place: Place,
    pub pai: bool,
    pub speed: i16,
    pub heading: u16,
}
#[derive(Clone, Copy, Debug)]
pub enum Kind {
    Beacon,
    Shb([u8; 4]),
    Gbc(u16, Area),
    Gac(u16, Area),
}
impl Kind {
    /// The length of all that comes before the payload.
    fn headers(&self) -> usize {
        match self {
            Kind::Beacon => 36,
            Kind::Shb(_) => 40,
            Kind::Gbc(..) | Kind::Gac(..) => 56,
        }
    }
}
#[derive(Clone, Copy, Debug)]
pub struct Parts<P> {
    pub left: u8,
    pub max: u8,
    pub lifetime: u8,
    pub class: u8,
    pub mobile: bool,
    pub vector: LongPv,
    pub kind: Kind,
    pub payload: P,
}
pub type View<'a> = Parts<&'a [u8]>;
pub type Packet = Parts<Vec<u8>>;
#[derive(Clone, Copy, Debug, PartialEq)]
pub enum G {
    Truncated = 1,
    Version,
    BasicNext,
    Reserved,
    HopZero,
    CommonNext,
    HeaderType,
    SubType,
    HopAboveMax,
    PayloadLength,
    Position,
    Area,
}
pub type Fault = (G, usize);
#[inline(always)]
pub fn be16(w: &[u8], at: usize) -> u16 {
    u16::from_be_bytes([w[at], w[at + 1]])
}
#[inline(always)]
fn be32(w: &[u8], at: usize) -> i32 {
    i32::from_be_bytes(w[at..at + 4].try_into().unwrap())
}
#[inline(always)]
fn need(w: &[u8], n: usize) -> Result<(), Fault> {
    if w.len() < n { Err((G::Truncated, w.len())) } else { Ok(()) }
}
#[inline(always)]
fn vector(w: &[u8], p: usize) -> Result<LongPv, Fault> {
    need(w, p + 8)?;
    let address = u64::from_be_bytes(w[p..p + 8].try_into().unwrap());
    if address >> 40 & 1 == 1 {
        return Err((G::Position, p));
    }
    need(w, p + 16)?;
    let lat = be32(w, p + 12);
    if !(-900_000_000..=900_000_000).contains(&lat) {
        return Err((G::Position, p + 12));
    }
    need(w, p + 20)?;
    let lon = be32(w, p + 16);
    if !(-1_800_000_000..=1_800_000_000).contains(&lon) {
        return Err((G::Position, p + 16));
    }
    need(w, p + 24)?;
    let ps = be16(w, p + 20);
    Ok(LongPv {
        address,
        tst: be32(w, p + 8) as u32,
        place: Place { lat, lon },
        pai: ps >> 15 == 1,
        speed: ((ps << 1) as i16) >> 1,
        heading: be16(w, p + 22),
    })
}
#[inline(always)]
fn check(w: &[u8]) -> Result<(View<'_>, usize), Fault> {
    need(w, 1)?;
    if w[0] >> 4 != 1 {
        return Err((G::Version, 0));
    }
    if w[0] & 15 != 1 {
        return Err((G::BasicNext, 0));
    }
    need(w, 2)?;
    if w[1] != 0 {
        return Err((G::Reserved, 1));
    }
    need(w, 4)?;
    if w[3] == 0 {
        return Err((G::HopZero, 3));
    }
    need(w, 5)?;
    let nh = w[4] >> 4;
    if nh != 0 && nh != 2 {
        return Err((G::CommonNext, 4));
    }
    if w[4] & 15 != 0 {
        return Err((G::Reserved, 4));
    }
    need(w, 6)?;
    let (ht, hst) = (w[5] >> 4, w[5] & 15);
    if !(if nh == 0 { ht == 1 } else { ht == 3 || ht == 4 || ht == 5 }) {
        return Err((G::HeaderType, 5));
    }
    if hst > if ht == 3 || ht == 4 { 2 } else { 0 } {
        return Err((G::SubType, 5));
    }
    need(w, 8)?;
    if w[7] & 0x7f != 0 {
        return Err((G::Reserved, 7));
    }
    need(w, 10)?;
    let pl = be16(w, 8) as usize;
    if if ht == 1 { pl != 0 } else { !(4..=1398).contains(&pl) } {
        return Err((G::PayloadLength, 8));
    }
    need(w, 11)?;
    if w[10] < w[3] {
        return Err((G::HopAboveMax, 10));
    }
    need(w, 12)?;
    if w[11] != 0 {
        return Err((G::Reserved, 11));
    }
    let (kind, vector, at) = match ht {
        1 => (Kind::Beacon, vector(w, 12)?, 36),
        5 => {
            let v = vector(w, 12)?;
            need(w, 40)?;
            (Kind::Shb(w[36..40].try_into().unwrap()), v, 40)
        }
        _ => {
            need(w, 16)?;
            if be16(w, 14) != 0 {
                return Err((G::Reserved, 14));
            }
            let v = vector(w, 16)?;
            need(w, 44)?;
            let lat = be32(w, 40);
            if !(-900_000_000..=900_000_000).contains(&lat) {
                return Err((G::Area, 40));
            }
            need(w, 48)?;
            let lon = be32(w, 44);
            if !(-1_800_000_000..=1_800_000_000).contains(&lon) {
                return Err((G::Area, 44));
            }
            need(w, 50)?;
            let a = be16(w, 48);
            if a == 0 {
                return Err((G::Area, 48));
            }
            need(w, 52)?;
            let b = be16(w, 50);
            if (hst == 0) != (b == 0) {
                return Err((G::Area, 50));
            }
            need(w, 54)?;
            let angle = be16(w, 52);
            if angle > 359 || hst == 0 && angle != 0 {
                return Err((G::Area, 52));
            }
            need(w, 56)?;
            if be16(w, 54) != 0 {
                return Err((G::Reserved, 54));
            }
            let shape = match hst {
                0 => Shape::Circle,
                1 => Shape::Rectangle,
                _ => Shape::Ellipse,
            };
            let area = Area { shape, centre: Place { lat, lon }, a, b, angle };
            (
                if ht == 3 { Kind::Gac(be16(w, 12), area) } else { Kind::Gbc(be16(w, 12), area) },
                v,
                56,
            )
        }
    };
    need(w, at + pl)?;
    Ok((
        View {
            left: w[3],
            max: w[10],
            lifetime: w[2],
            class: w[6],
            mobile: w[7] >> 7 == 1,
            vector,
            kind,
            payload: &w[at..at + pl],
        },
        at + pl,
    ))
}
/// A whole header is read with one length test; a short one is checked step by step.
#[inline]
pub fn read(w: &[u8]) -> Result<(View<'_>, usize), Fault> {
    let Some(h) = w.first_chunk::<36>() else { return check(w) };
    if h[0] != 0x11
        || h[1] != 0
        || h[3] == 0
        || h[4] & 15 != 0
        || h[7] & 0x7f != 0
        || h[10] < h[3]
        || h[11] != 0
    {
        return cold(w);
    }
    let pl = be16(h, 8) as usize;
    let (kind, vector, at) = match (h[4] >> 4, h[5]) {
        (0, 0x10) if pl == 0 => (Kind::Beacon, vector(h, 12)?, 36),
        (2, 0x50) if (4..=1398).contains(&pl) => {
            let Some(h) = w.first_chunk::<40>() else { return cold(w) };
            (Kind::Shb([h[36], h[37], h[38], h[39]]), vector(h, 12)?, 40)
        }
        (2, t @ (0x30..=0x32 | 0x40..=0x42)) if (4..=1398).contains(&pl) => {
            let Some(h) = w.first_chunk::<56>() else { return cold(w) };
            if be16(h, 14) != 0 {
                return cold(w);
            }
            let v = vector(h, 16)?;
            let (lat, lon, a, b, angle) =
                (be32(h, 40), be32(h, 44), be16(h, 48), be16(h, 50), be16(h, 52));
            if !(-900_000_000..=900_000_000).contains(&lat)
                || !(-1_800_000_000..=1_800_000_000).contains(&lon)
                || a == 0
                || (t & 15 == 0) != (b == 0)
                || angle > 359
                || t & 15 == 0 && angle != 0
                || be16(h, 54) != 0
            {
                return cold(w);
            }
            let shape = match t & 15 {
                0 => Shape::Circle,
                1 => Shape::Rectangle,
                _ => Shape::Ellipse,
            };
            let area = Area { shape, centre: Place { lat, lon }, a, b, angle };
            (
                if t < 0x40 { Kind::Gac(be16(h, 12), area) } else { Kind::Gbc(be16(h, 12), area) },
                v,
                56,
            )
        }
        _ => return cold(w),
    };
    let Some(payload) = w[at..].get(..pl) else { return cold(w) };
    Ok((
        View {
            left: h[3],
            max: h[10],
            lifetime: h[2],
            class: h[6],
            mobile: h[7] >> 7 == 1,
            vector,
            kind,
            payload,
        },
        at + pl,
    ))
}
#[cold]
#[inline(never)]
fn cold(w: &[u8]) -> Result<(View<'_>, usize), Fault> {
    check(w)
}

#[derive(Clone, Copy, Debug)]
#[allow(dead_code)]
pub enum FrameFault {
    Short,
    EtherType,
    TooLong,
    Trailing,
    Packet(Fault),
}
pub struct Frame<'a> {
    pub octets: &'a [u8],
    pub to: u64,
    pub from: u64,
    pub packet: View<'a>,
}
#[inline(always)]
pub fn mac(m: &[u8]) -> u64 {
    (be32(m, 0) as u32 as u64) << 16 | be16(m, 4) as u64
}
#[inline]
pub fn read_frame(f: &[u8]) -> Result<Frame<'_>, FrameFault> {
    let Some((head, rest)) = f.split_first_chunk::<14>() else { return Err(FrameFault::Short) };
    if head[12..14] != [0x89, 0x47] {
        return Err(FrameFault::EtherType);
    }
    if f.len() > 1468 {
        return Err(FrameFault::TooLong);
    }
    let (packet, n) = read(rest).map_err(FrameFault::Packet)?;
    if n != rest.len() {
        return Err(FrameFault::Trailing);
    }
    Ok(Frame { octets: f, to: mac(&head[..6]), from: mac(&head[6..12]), packet })
}
pub fn relay_frame(to: u64, from: u64, frame: &Frame<'_>) -> Vec<u8> {
    let mut w = frame.octets.to_vec();
    w[..6].copy_from_slice(&to.to_be_bytes()[2..]);
    w[6..12].copy_from_slice(&from.to_be_bytes()[2..]);
    w[17] -= 1;
    w
}
pub fn to_packet(v: &View<'_>) -> Packet {
    Packet {
        left: v.left,
        max: v.max,
        lifetime: v.lifetime,
        class: v.class,
        mobile: v.mobile,
        vector: v.vector,
        kind: v.kind,
        payload: v.payload.to_vec(),
    }
}
#[inline(always)]
fn put_vector(out: &mut [u8; 24], v: &LongPv) {
    out[0..8].copy_from_slice(&v.address.to_be_bytes());
    out[8..12].copy_from_slice(&v.tst.to_be_bytes());
    out[12..16].copy_from_slice(&v.place.lat.to_be_bytes());
    out[16..20].copy_from_slice(&v.place.lon.to_be_bytes());
    out[20..22].copy_from_slice(&((v.pai as u16) << 15 | v.speed as u16 & 0x7fff).to_be_bytes());
    out[22..24].copy_from_slice(&v.heading.to_be_bytes());
}
#[inline]
pub fn encode_into(p: &Packet, out: &mut [u8]) -> Option<usize> {
    let head = p.kind.headers();
    let n = head + p.payload.len();
    let out = out.get_mut(..n)?;
    let (nh, ht) = match &p.kind {
        Kind::Beacon => (0, 0x10),
        Kind::Shb(_) => (0x20, 0x50),
        Kind::Gbc(_, a) => (0x20, 0x40 + a.shape as u8),
        Kind::Gac(_, a) => (0x20, 0x30 + a.shape as u8),
    };
    let [high, low] = (p.payload.len() as u16).to_be_bytes();
    out[..12].copy_from_slice(&[
        0x11,
        0,
        p.lifetime,
        p.left,
        nh,
        ht,
        p.class,
        (p.mobile as u8) << 7,
        high,
        low,
        p.max,
        0,
    ]);
    match &p.kind {
        Kind::Beacon => put_vector((&mut out[12..36]).try_into().unwrap(), &p.vector),
        Kind::Shb(m) => {
            put_vector((&mut out[12..36]).try_into().unwrap(), &p.vector);
            out[36..40].copy_from_slice(m);
        }
        Kind::Gbc(number, a) | Kind::Gac(number, a) => {
            out[12..14].copy_from_slice(&number.to_be_bytes());
            out[14..16].copy_from_slice(&[0; 2]);
            put_vector((&mut out[16..40]).try_into().unwrap(), &p.vector);
            out[40..44].copy_from_slice(&a.centre.lat.to_be_bytes());
            out[44..48].copy_from_slice(&a.centre.lon.to_be_bytes());
            out[48..50].copy_from_slice(&a.a.to_be_bytes());
            out[50..52].copy_from_slice(&a.b.to_be_bytes());
            out[52..54].copy_from_slice(&a.angle.to_be_bytes());
            out[54..56].copy_from_slice(&[0; 2]);
        }
    }
    out[head..].copy_from_slice(&p.payload);
    Some(n)
}

impl View<'_> {
    pub fn number(&self) -> Option<u16> {
        match self.kind {
            Kind::Gbc(number, _) | Kind::Gac(number, _) => Some(number),
            _ => None,
        }
    }
    pub fn area(&self) -> Option<&Area> {
        match &self.kind {
            Kind::Gbc(_, area) | Kind::Gac(_, area) => Some(area),
            _ => None,
        }
    }
}
/// A frame of a packet of one's own.
pub fn write_frame(to: u64, from: u64, packet: &Packet) -> Vec<u8> {
    let mut w = vec![0; 14 + packet.kind.headers() + packet.payload.len()];
    w[..6].copy_from_slice(&to.to_be_bytes()[2..]);
    w[6..12].copy_from_slice(&from.to_be_bytes()[2..]);
    w[12..14].copy_from_slice(&[0x89, 0x47]);
    encode_into(packet, &mut w[14..]);
    w
}
