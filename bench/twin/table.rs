//! The location table in ascending order of addresses, and the choice of a next hop over it.
use crate::geometry::{Area, Place, contains, offset, scale};
use crate::packets::LongPv;

const ENTRY_LIFE: u64 = 20_000;
const MID: u64 = 0xffff_ffff_ffff;

#[derive(Clone, Copy)]
pub struct Heard {
    pub vector: LongPv,
    pub number: Option<u16>,
}

#[derive(Clone, Copy, PartialEq, Debug)]
pub enum Verdict {
    Accepted,
    Duplicate,
    Full,
}

/// What is kept of a source: in a row that doesn't move while the source has it.
#[derive(Clone, Copy)]
pub struct Slot {
    pub vector: LongPv,
    pub until: u64,
    pub neighbour: bool,
    count: u8,
    next: u8,
}

fn newer(a: u32, b: u32) -> bool {
    a.wrapping_sub(b).wrapping_sub(1) < 0x7fff_ffff
}

impl Slot {
    fn first(now: u64, heard: &Heard) -> Slot {
        Slot {
            vector: heard.vector,
            until: now + ENTRY_LIFE,
            neighbour: heard.number.is_none(),
            count: 0,
            next: 0,
        }
    }
}

/// The addresses stand in ascending order in a column of their own, beside each the row of its
/// source. The numbers of all sources are one flat vector. All memory is taken when it is made.
pub struct Table {
    addresses: Vec<u64>,
    rows: Vec<u16>,
    slots: Vec<Slot>,
    numbers: Vec<u16>,
    free: Vec<u16>,
    remembered: usize,
    first_end: u64,
}

impl Table {
    pub fn new(capacity: usize, remembered: usize) -> Table {
        Table {
            addresses: Vec::with_capacity(capacity),
            rows: Vec::with_capacity(capacity),
            slots: Vec::with_capacity(capacity),
            numbers: vec![0; capacity * remembered],
            free: Vec::with_capacity(capacity),
            remembered,
            first_end: u64::MAX,
        }
    }

    pub fn clear(&mut self) {
        self.addresses.clear();
        self.rows.clear();
        self.slots.clear();
        self.free.clear();
        self.first_end = u64::MAX;
    }

    pub fn find(&self, address: u64) -> Result<usize, usize> {
        self.addresses.binary_search(&address)
    }

    /// The addresses, in ascending order.
    pub fn column(&self) -> &[u64] {
        &self.addresses
    }

    /// What `find` returns, by the index of the last address that is not above this one. The slot is
    /// read, so that it is in a cache.
    pub fn found_at(&self, last: usize, address: u64) -> Result<usize, usize> {
        match self.addresses.get(last) {
            Some(found) if *found == address => {
                std::hint::black_box(self.slot_at(last).until);
                Ok(last)
            }
            Some(found) if *found < address => Err(last + 1),
            _ => Err(last),
        }
    }

    fn slot_at(&self, place: usize) -> &Slot {
        &self.slots[self.rows[place] as usize]
    }

    fn holds(&self, place: usize, number: u16) -> bool {
        let row = self.rows[place] as usize;
        let start = row * self.remembered;
        self.numbers[start..start + self.slots[row].count as usize].contains(&number)
    }

    fn note(&mut self, row: usize, number: u16) {
        let slot = &mut self.slots[row];
        let next = slot.next as usize;
        self.numbers[row * self.remembered + next] = number;
        slot.next = if next + 1 == self.remembered { 0 } else { slot.next + 1 };
        if (slot.count as usize) < self.remembered {
            slot.count += 1;
        }
    }

    pub fn lookup(&self, now: u64, address: u64) -> Option<&Slot> {
        self.find(address).ok().map(|i| self.slot_at(i)).filter(|slot| now < slot.until)
    }

    pub fn remembers(&self, now: u64, address: u64, number: u16) -> bool {
        self.remembers_at(now, self.find(address), number)
    }

    pub fn remembers_at(&self, now: u64, found: Result<usize, usize>, number: u16) -> bool {
        found.is_ok_and(|i| now < self.slot_at(i).until && self.holds(i, number))
    }

    pub fn has_room_at(&self, now: u64, found: Result<usize, usize>) -> bool {
        found.is_ok_and(|i| now < self.slot_at(i).until)
            || self.addresses.len() < self.addresses.capacity()
            || self.first_end <= now && self.rows.iter().any(|r| self.slots[*r as usize].until <= now)
    }

    fn sweep_if_due(&mut self, now: u64) {
        if self.first_end > now {
            return;
        }
        let mut end = u64::MAX;
        let mut kept = 0;
        for i in 0..self.addresses.len() {
            let row = self.rows[i];
            let until = self.slots[row as usize].until;
            if now < until {
                end = end.min(until);
                if kept != i {
                    self.addresses[kept] = self.addresses[i];
                    self.rows[kept] = row;
                }
                kept += 1;
            } else {
                self.free.push(row);
            }
        }
        self.addresses.truncate(kept);
        self.rows.truncate(kept);
        self.first_end = end;
    }

    pub fn accept(&mut self, now: u64, heard: &Heard) -> Verdict {
        self.accept_at(now, self.find(heard.vector.address), heard)
    }

    pub fn accept_at(&mut self, now: u64, found: Result<usize, usize>, heard: &Heard) -> Verdict {
        match found {
            Ok(i) => self.hear_again(now, i, heard),
            Err(gap) => self.hear_first(now, gap, heard),
        }
    }

    fn hear_again(&mut self, now: u64, place: usize, heard: &Heard) -> Verdict {
        let row = self.rows[place] as usize;
        let live = now < self.slots[row].until;
        if live && heard.number.is_some_and(|n| self.holds(place, n)) {
            return Verdict::Duplicate;
        }
        let slot = &mut self.slots[row];
        if live {
            if newer(heard.vector.tst, slot.vector.tst) {
                slot.vector = heard.vector;
            }
            slot.neighbour |= heard.number.is_none();
            slot.until = now + ENTRY_LIFE;
        } else {
            *slot = Slot::first(now, heard);
        }
        if let Some(number) = heard.number {
            self.note(row, number);
        }
        self.first_end = self.first_end.min(now + ENTRY_LIFE);
        self.sweep_if_due(now);
        Verdict::Accepted
    }

    fn hear_first(&mut self, now: u64, gap: usize, heard: &Heard) -> Verdict {
        let mut gap = gap;
        if self.first_end <= now {
            self.sweep_if_due(now);
            gap = self.find(heard.vector.address).unwrap_or_else(|i| i);
        }
        let slot = Slot::first(now, heard);
        let row = if let Some(row) = self.free.pop() {
            self.slots[row as usize] = slot;
            row
        } else if self.slots.len() < self.slots.capacity() {
            self.slots.push(slot);
            (self.slots.len() - 1) as u16
        } else {
            return Verdict::Full;
        };
        if let Some(number) = heard.number {
            self.note(row as usize, number);
        }
        self.first_end = self.first_end.min(now + ENTRY_LIFE);
        self.addresses.insert(gap, heard.vector.address);
        self.rows.insert(gap, row);
        Verdict::Accepted
    }

    pub fn neighbours(&self, now: u64) -> impl Iterator<Item = &Slot> {
        let slots = self.rows.iter().map(|row| &self.slots[*row as usize]);
        slots.filter(move |slot| now < slot.until && slot.neighbour)
    }

    pub fn by_mid(&self, now: u64, mid: u64) -> Option<&Slot> {
        let found = (0..self.addresses.len()).filter(|i| self.addresses[*i] & MID == mid);
        found.map(|i| self.slot_at(i)).find(|slot| now < slot.until)
    }
}

#[derive(Clone, Copy, PartialEq, Debug)]
pub enum Choice {
    Broadcast,
    To(u64),
    Drop,
}

pub fn choose(table: &Table, now: u64, own: Place, area: &Area, sender: Option<u64>) -> Choice {
    if contains(area, own) {
        return Choice::Broadcast;
    }
    if let Some(known) = sender.and_then(|mid| table.by_mid(now, mid)) {
        if known.vector.pai && contains(area, known.vector.place) {
            return Choice::Drop;
        }
    }
    let centre = area.centre;
    let k = scale(centre.lat);
    let distance = |place: Place| {
        let (north, east) = offset(centre, k, place);
        (north * north + east * east) as u64
    };
    let mut least = distance(own);
    let mut best = Choice::Broadcast;
    for slot in table.neighbours(now) {
        let one = distance(slot.vector.place);
        if one < least {
            least = one;
            best = Choice::To(slot.vector.address & MID);
        }
    }
    best
}
