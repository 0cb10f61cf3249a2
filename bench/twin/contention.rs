//! What a station holds that contends: a frame that it would forward inside an area waits, and copies
//! of it by others cancel it.
use crate::geometry::{contains, distance2};
use crate::packets::{Frame, Kind, mac};
use crate::station::{BROADCAST, Station};

/// How many frames may wait.
const PLACES: usize = 64;
/// How many senders of copies are distinguished at most.
const SENDERS: usize = 2;
/// Where the link sender and the lifetime of a frame are, which copies may differ in.
const SENDER: std::ops::Range<usize> = 6..12;
const LIFETIME: usize = 16;

pub struct Rule {
    pub min_wait: u64,
    pub max_wait: u64,
    pub range: u64,
    pub copies: usize,
}

impl Rule {
    /// How long a station waits before it forwards a frame.
    pub fn wait(&self, station: &Station, now: u64, frame: &Frame<'_>) -> u64 {
        let span = self.max_wait - self.min_wait;
        let sender = station.table().by_mid(now, frame.from);
        let shorter = match sender.filter(|known| known.vector.pai) {
            Some(known) => {
                let distance = u128::from(distance2(station.place(), known.vector.place));
                let (span, reach) = (u128::from(span), 100 * u128::from(self.range));
                span.min((span * span * distance / (reach * reach)).isqrt()) as u64
            }
            None => {
                let number = u64::from(frame.packet.number().unwrap_or(0));
                (station.mid() + number) % (span / 2 + 1)
            }
        };
        self.max_wait - shorter
    }
}

/// A frame that waits, with its key.
pub struct Waiting {
    pub octets: Vec<u8>,
    key: u64,
}

impl Waiting {
    pub fn new(octets: Vec<u8>) -> Waiting {
        let key = key_of(&octets);
        Waiting { octets, key }
    }

    /// Whether octets that came with this key are a copy of it.
    pub fn is_copied(&self, key: u64, frame: &[u8], own: u64) -> bool {
        self.key == key && is_copy(&self.octets, frame, own)
    }
}

/// A number that copies of a frame share, of its sequence number, source and last octets.
pub fn key_of(frame: &[u8]) -> u64 {
    if frame.len() < LIFETIME + 1 + 21 {
        return 0;
    }
    let word = |at: usize| u64::from_be_bytes(frame[at..at + 8].try_into().expect("eight octets"));
    let [number, address, last] = [LIFETIME + 10, LIFETIME + 14, frame.len() - 8].map(word);
    number.wrapping_add(address).wrapping_add(last)
}

/// Whether a station contends for what it forwards of a frame: it is inside the area.
pub fn contends_for(station: &Station, frame: &Frame<'_>) -> bool {
    match &frame.packet.kind {
        Kind::Gbc(_, area) => contains(area, station.place()),
        _ => false,
    }
}

/// Whether a frame is what the station with this MID holds, as another one sends it.
pub fn is_copy(held: &[u8], frame: &[u8], own: u64) -> bool {
    held.len() == frame.len()
        && mac(&frame[..6]) == BROADCAST
        && mac(&frame[SENDER]) != own
        && held[..SENDER.start] == frame[..SENDER.start]
        && held[SENDER.end..LIFETIME] == frame[SENDER.end..LIFETIME]
        && held[LIFETIME + 1..] == frame[LIFETIME + 1..]
}

struct Held<F> {
    frame: F,
    due: u64,
    senders: [u64; SENDERS],
    count: usize,
}

impl<F> Held<F> {
    /// Counts a sender of a copy, and returns whether the frame still waits.
    fn note(&mut self, sender: u64, copies: usize) -> bool {
        if self.senders[..self.count].contains(&sender) {
            return true;
        }
        if self.count + 1 < copies {
            self.senders[self.count] = sender;
            self.count += 1;
            return true;
        }
        false
    }
}

/// The frames that a station holds, or their numbers.
pub struct HeldFrames<F>(Vec<Held<F>>);

impl<F> HeldFrames<F> {
    pub fn new() -> HeldFrames<F> {
        HeldFrames(Vec::with_capacity(PLACES))
    }

    pub fn has_room(&self) -> bool {
        self.0.len() < PLACES
    }

    pub fn is_empty(&self) -> bool {
        self.0.is_empty()
    }

    pub fn hold(&mut self, frame: F, due: u64) {
        self.0.push(Held { frame, due, senders: [0; SENDERS], count: 0 });
    }

    /// Counts a sender of copies, and returns how many frames that cancels.
    pub fn hear(&mut self, sender: u64, copies: usize, is_copy: impl Fn(&F) -> bool) -> usize {
        let before = self.0.len();
        self.0.retain_mut(|it| !is_copy(&it.frame) || it.note(sender, copies));
        before - self.0.len()
    }

    /// Drops the frames that are so late, and takes out the one that is due first.
    pub fn release(&mut self, now: u64, late: u64) -> Option<F> {
        self.0.retain(|it| now <= it.due + late);
        let due = self.0.iter().map(|it| it.due).min().filter(|due| *due <= now)?;
        let place = self.0.iter().position(|it| it.due == due)?;
        Some(self.0.remove(place).frame)
    }
}

impl HeldFrames<usize> {
    /// Takes out the frame of this number, and returns whether it was held.
    pub fn take(&mut self, frame: usize) -> bool {
        let place = self.0.iter().position(|it| it.frame == frame);
        place.map(|place| self.0.remove(place)).is_some()
    }
}
