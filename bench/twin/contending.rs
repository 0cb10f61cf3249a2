//! A station that contends, as `Unit` is one.
use crate::contention::{HeldFrames, Rule, Waiting, contends_for, key_of};
use crate::packets::read_frame;
use crate::station::{Outcome, Refused, Station, Why};

/// How long after it was due a frame may be released, in milliseconds.
const LATE: u64 = 1000;

pub struct Reaction<'a> {
    pub outcome: Outcome<'a>,
    pub due: Option<u64>,
    pub cancelled: bool,
}

/// Without a rule it forwards at once.
pub struct Contending {
    station: Station,
    rule: Option<Rule>,
    held: HeldFrames<Waiting>,
}

impl Contending {
    pub fn new(station: Station, rule: Option<Rule>) -> Contending {
        Contending { station, rule, held: HeldFrames::new() }
    }

    pub fn receive<'a>(&mut self, now: u64, octets: &'a [u8]) -> Result<Reaction<'a>, Refused> {
        let frame = read_frame(octets).map_err(Refused::Frame)?;
        let outcome = self.station.receive_read(now, &frame)?;
        let (mut due, mut cancelled) = (None, false);
        let outcome = match (outcome, &self.rule) {
            (Outcome::Ignored(Why::Duplicate), Some(rule)) if !self.held.is_empty() => {
                let own = self.station.mid();
                let key = key_of(octets);
                let is_copy = |held: &Waiting| held.is_copied(key, octets, own);
                cancelled = self.held.hear(frame.from, rule.copies, is_copy) > 0;
                Outcome::Ignored(Why::Duplicate)
            }
            (Outcome::Accepted { handed, sent: Some(relay) }, Some(rule))
                if self.held.has_room() && contends_for(&self.station, &frame) =>
            {
                let at = now + rule.wait(&self.station, now, &frame);
                self.held.hold(Waiting::new(relay), at);
                due = Some(at);
                Outcome::Accepted { handed, sent: None }
            }
            (outcome, _) => outcome,
        };
        Ok(Reaction { outcome, due, cancelled })
    }

    /// Drops late frames, and takes out the one that is due first.
    pub fn release(&mut self, now: u64) -> Option<Vec<u8>> {
        self.held.release(now, LATE).map(|frame| frame.octets)
    }
}
