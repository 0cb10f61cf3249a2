//! A station over the table, and worlds of stations.
use crate::geometry::{Area, Place, contains};
use crate::packets::{
    Frame, FrameFault, Kind, LongPv, Packet, View, read_frame, relay_frame, write_frame,
};
use crate::table::{Choice, Heard, Table, Verdict, choose};

pub const BROADCAST: u64 = 0xffff_ffff_ffff;
const MID: u64 = 0xffff_ffff_ffff;
const LAST_MOMENT: u64 = 1 << 62;
const BEACON_WAIT: u64 = 3000;

#[derive(Debug)]
pub enum Refused {
    Moment,
    Frame(FrameFault),
    TableFull,
    Port,
    Payload,
    Hops,
}

#[derive(Clone, Copy, Debug)]
pub enum Why {
    NotForMe,
    OwnSource,
    SenderMismatch,
    Duplicate,
}

pub struct Handed<'a> {
    pub port: u16,
    pub info: u16,
    pub payload: &'a [u8],
}

pub enum Outcome<'a> {
    Ignored(Why),
    Accepted { handed: Option<Handed<'a>>, sent: Option<Vec<u8>> },
}

pub struct Station {
    vector: LongPv,
    clock: u64,
    number: u16,
    beacon_from: u64,
    ports: Vec<u16>,
    table: Table,
}

fn split(octets: &[u8]) -> Option<(u16, u16, &[u8])> {
    let (head, rest) = octets.split_first_chunk::<4>()?;
    Some((u16::from_be_bytes([head[0], head[1]]), u16::from_be_bytes([head[2], head[3]]), rest))
}

fn join(port: u16, info: u16, payload: &[u8]) -> Vec<u8> {
    let mut octets = Vec::with_capacity(4 + payload.len());
    octets.extend_from_slice(&port.to_be_bytes());
    octets.extend_from_slice(&info.to_be_bytes());
    octets.extend_from_slice(payload);
    octets
}

impl Station {
    pub fn new(address: u64, place: Place, capacity: usize, remembered: usize) -> Station {
        Station {
            vector: LongPv { address, tst: 0, place, pai: false, speed: 0, heading: 0 },
            clock: 0,
            number: 0,
            beacon_from: 0,
            ports: Vec::new(),
            table: Table::new(capacity, remembered),
        }
    }

    pub fn place(&self) -> Place {
        self.vector.place
    }

    pub fn mid(&self) -> u64 {
        self.vector.address & MID
    }

    pub fn table(&self) -> &Table {
        &self.table
    }

    pub fn beacon_from(&self) -> u64 {
        self.beacon_from
    }

    pub fn is_open(&self, port: u16) -> bool {
        self.ports.contains(&port)
    }

    fn check_moment(&self, now: u64) -> Result<(), Refused> {
        if now < self.clock || now > LAST_MOMENT { Err(Refused::Moment) } else { Ok(()) }
    }

    pub fn open(&mut self, now: u64, port: u16) -> Result<(), Refused> {
        self.check_moment(now)?;
        if self.ports.contains(&port) || self.ports.len() == 64 {
            return Err(Refused::Port);
        }
        self.ports.push(port);
        self.clock = now;
        Ok(())
    }

    pub fn move_to(
        &mut self,
        now: u64,
        place: Place,
        speed: i16,
        heading: u16,
    ) -> Result<(), Refused> {
        self.check_moment(now)?;
        let tst = (now % (1 << 32)) as u32;
        self.vector = LongPv { tst, place, pai: true, speed, heading, ..self.vector };
        self.clock = now;
        Ok(())
    }

    pub fn receive<'a>(&mut self, now: u64, octets: &'a [u8]) -> Result<Outcome<'a>, Refused> {
        self.check_moment(now)?;
        let frame = read_frame(octets).map_err(Refused::Frame)?;
        self.receive_read(now, &frame)
    }

    /// The same of a frame that was read.
    pub fn receive_read<'a>(
        &mut self,
        now: u64,
        frame: &Frame<'a>,
    ) -> Result<Outcome<'a>, Refused> {
        let found = self.table.find(frame.packet.vector.address);
        self.receive_found(now, frame, found)
    }

    /// The same of a frame that was read, whose source was looked up.
    pub fn receive_found<'a>(
        &mut self,
        now: u64,
        frame: &Frame<'a>,
        found: Result<usize, usize>,
    ) -> Result<Outcome<'a>, Refused> {
        self.check_moment(now)?;
        let packet = &frame.packet;
        let address = packet.vector.address;
        let mac = self.vector.address & MID;
        let number = packet.number();
        let why = if frame.to != mac && frame.to != BROADCAST {
            Some(Why::NotForMe)
        } else if address == self.vector.address {
            Some(Why::OwnSource)
        } else if number.is_none() && address & MID != frame.from {
            Some(Why::SenderMismatch)
        } else {
            None
        };
        if let Some(why) = why {
            self.clock = now;
            return Ok(Outcome::Ignored(why));
        }
        if number.is_some_and(|n| self.table.remembers_at(now, found, n)) {
            self.clock = now;
            return Ok(Outcome::Ignored(Why::Duplicate));
        }
        if !self.table.has_room_at(now, found) {
            return Err(Refused::TableFull);
        }
        let copy = self.goes_on(packet).then(|| relay_frame(BROADCAST, mac, frame));
        let heard = Heard { vector: packet.vector, number };
        if self.table.accept_at(now, found, &heard) != Verdict::Accepted {
            return Err(Refused::TableFull);
        }
        self.clock = now;
        let handed = self.handing(packet);
        let sent = copy.zip(packet.area()).and_then(|(copy, area)| {
            self.target(now, area, Some(frame.from)).map(|to| sent_to(copy, to))
        });
        Ok(Outcome::Accepted { handed, sent })
    }

    fn is_inside(&self, packet: &View<'_>) -> bool {
        packet.area().is_none_or(|area| contains(area, self.vector.place))
    }

    fn goes_on(&self, packet: &View<'_>) -> bool {
        match packet.kind {
            Kind::Beacon | Kind::Shb(_) => false,
            Kind::Gbc(..) => packet.left >= 2,
            Kind::Gac(..) => packet.left >= 2 && !self.is_inside(packet),
        }
    }

    fn handing<'a>(&self, packet: &View<'a>) -> Option<Handed<'a>> {
        let (port, info, payload) = split(packet.payload)?;
        (self.ports.contains(&port) && self.is_inside(packet)).then_some(Handed {
            port,
            info,
            payload,
        })
    }

    fn target(&self, now: u64, area: &Area, sender: Option<u64>) -> Option<u64> {
        match choose(&self.table, now, self.vector.place, area, sender) {
            Choice::Broadcast => Some(BROADCAST),
            Choice::To(mid) => Some(mid),
            Choice::Drop => None,
        }
    }

    fn packet(&self, max: u8, lifetime: u8, kind: Kind, payload: Vec<u8>) -> Packet {
        let (left, vector) = (max, self.vector);
        Packet { left, max, lifetime, class: 0, mobile: true, vector, kind, payload }
    }

    pub fn tick(&mut self, now: u64, jitter: u16) -> Result<Option<Vec<u8>>, Refused> {
        self.check_moment(now)?;
        self.clock = now;
        if self.beacon_from + u64::from(jitter) > now {
            return Ok(None);
        }
        let packet = self.packet(1, 0x1a, Kind::Beacon, Vec::new());
        self.beacon_from = now + BEACON_WAIT;
        Ok(Some(write_frame(BROADCAST, self.vector.address & MID, &packet)))
    }

    pub fn send_shb(&mut self, now: u64, port: u16, payload: &[u8]) -> Result<Vec<u8>, Refused> {
        self.check_moment(now)?;
        if payload.len() > 1394 {
            return Err(Refused::Payload);
        }
        let packet = self.packet(1, 0x1a, Kind::Shb([0; 4]), join(port, 0, payload));
        self.clock = now;
        self.beacon_from = now + BEACON_WAIT;
        Ok(write_frame(BROADCAST, self.vector.address & MID, &packet))
    }

    pub fn send_geobroadcast(
        &mut self,
        now: u64,
        port: u16,
        hops: u8,
        area: &Area,
        payload: &[u8],
    ) -> Result<Vec<u8>, Refused> {
        self.check_moment(now)?;
        if payload.len() > 1394 {
            return Err(Refused::Payload);
        }
        if hops == 0 {
            return Err(Refused::Hops);
        }
        let kind = Kind::Gbc(self.number, *area);
        let packet = self.packet(hops, 0x1a, kind, join(port, 0, payload));
        let to = self.target(now, area, None).unwrap_or(BROADCAST);
        self.clock = now;
        self.beacon_from = now + BEACON_WAIT;
        self.number = self.number.wrapping_add(1);
        Ok(write_frame(to, self.vector.address & MID, &packet))
    }
}

fn sent_to(mut frame: Vec<u8>, to: u64) -> Vec<u8> {
    frame[..6].copy_from_slice(&to.to_be_bytes()[2..]);
    frame
}

pub enum What {
    Open(u16),
    Tick(u16),
    SendShb { port: u16, payload: Vec<u8> },
    SendGeobroadcast { port: u16, hops: u8, area: Area, payload: Vec<u8> },
    Deliver(usize),
}

pub struct Event {
    pub station: usize,
    pub moment: u64,
    pub what: What,
}

pub struct Delivery {
    pub port: u16,
    pub info: u16,
    pub payload: Vec<u8>,
}

pub enum Entry {
    Opened,
    Quiet,
    Sent(usize),
    Ignored(Why),
    Accepted { handed: Option<Delivery>, sent: Option<usize> },
    Refused(Refused),
    NoSuchStation,
    NoSuchFrame,
}

pub struct World {
    pub stations: Vec<Station>,
    air: Vec<Vec<u8>>,
    /// The memory of a payload that was delivered, for the next one.
    pub room: Vec<u8>,
}

/// How many receivers look a source up side by side.
pub const CHUNK: usize = 16;

impl World {
    pub fn new(stations: Vec<Station>) -> World {
        World { stations, air: Vec::new(), room: Vec::new() }
    }

    pub fn run(&mut self, events: &[Event]) -> Vec<Entry> {
        events.iter().map(|event| self.step(event)).collect()
    }

    pub fn step(&mut self, event: &Event) -> Entry {
        self.ask(event).unwrap_or_else(Entry::Refused)
    }

    fn ask(&mut self, event: &Event) -> Result<Entry, Refused> {
        let Some(station) = self.stations.get_mut(event.station) else {
            return Ok(Entry::NoSuchStation);
        };
        let now = event.moment;
        let frame = match &event.what {
            What::Open(port) => return station.open(now, *port).map(|()| Entry::Opened),
            What::Tick(jitter) => station.tick(now, *jitter)?,
            What::SendShb { port, payload } => Some(station.send_shb(now, *port, payload)?),
            What::SendGeobroadcast { port, hops, area, payload } => {
                Some(station.send_geobroadcast(now, *port, *hops, area, payload)?)
            }
            What::Deliver(number) => return self.deliver(event.station, now, *number),
        };
        Ok(match frame {
            Some(frame) => Entry::Sent(self.give(frame)),
            None => Entry::Quiet,
        })
    }

    fn deliver(&mut self, station: usize, now: u64, number: usize) -> Result<Entry, Refused> {
        let Some(frame) = self.air.get(number) else {
            return Ok(Entry::NoSuchFrame);
        };
        match self.stations[station].receive(now, frame)? {
            Outcome::Ignored(why) => Ok(Entry::Ignored(why)),
            Outcome::Accepted { handed, sent } => {
                let handed = handed.map(|handed| Delivery {
                    port: handed.port,
                    info: handed.info,
                    payload: handed.payload.to_vec(),
                });
                let sent = sent.map(|frame| self.give(frame));
                Ok(Entry::Accepted { handed, sent })
            }
        }
    }

    /// Delivers a frame that was read, whose source was looked up.
    pub fn deliver_found(
        &mut self,
        station: usize,
        now: u64,
        frame: &Frame<'_>,
        found: Result<usize, usize>,
    ) -> Entry {
        match self.stations[station].receive_found(now, frame, found) {
            Err(refused) => Entry::Refused(refused),
            Ok(Outcome::Ignored(why)) => Entry::Ignored(why),
            Ok(Outcome::Accepted { handed, sent }) => {
                let handed = handed.map(|handed| {
                    let mut payload = std::mem::take(&mut self.room);
                    payload.clear();
                    payload.extend_from_slice(handed.payload);
                    Delivery { port: handed.port, info: handed.info, payload }
                });
                let sent = sent.map(|frame| self.give(frame));
                Entry::Accepted { handed, sent }
            }
        }
    }

    /// Looks an address up at these stations, step by step at all of them.
    pub fn look_up(&self, part: &[u32], address: u64) -> [Result<usize, usize>; CHUNK] {
        let mut columns: [&[u64]; CHUNK] = [&[]; CHUNK];
        let mut longest = 0;
        for (column, station) in columns.iter_mut().zip(part) {
            *column = self.stations[*station as usize].table.column();
            longest = longest.max(column.len());
        }
        let mut lasts = [0usize; CHUNK];
        for level in (0..12).rev() {
            if longest >> level == 0 {
                continue;
            }
            for (last, column) in lasts.iter_mut().zip(&columns) {
                if let Some(found) = column.get(*last + (1 << level)) {
                    *last += ((*found <= address) as usize) << level;
                }
            }
        }
        let mut found = [Err(0); CHUNK];
        for ((found, last), station) in found.iter_mut().zip(lasts).zip(part) {
            *found = self.stations[*station as usize].table.found_at(last, address);
        }
        found
    }

    pub fn frame(&self, number: usize) -> &[u8] {
        &self.air[number]
    }

    /// Takes the octets of a frame out, while it is delivered.
    pub fn take_frame(&mut self, number: usize) -> Vec<u8> {
        std::mem::take(&mut self.air[number])
    }

    /// Puts them back.
    pub fn put_frame(&mut self, number: usize, octets: Vec<u8>) {
        self.air[number] = octets;
    }

    fn give(&mut self, frame: Vec<u8>) -> usize {
        self.air.push(frame);
        self.air.len() - 1
    }
}
