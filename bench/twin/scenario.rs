//! The scenarios of `bench/air`, of which a line is a key and a value or the name of a table: no
//! more of TOML is read than these have.
use crate::contention::Rule;
use crate::geometry::{Area, Place, Shape};
use crate::station::{Event, What};
use std::collections::HashMap;

pub struct Spot {
    pub address: u64,
    pub place: Place,
    pub capacity: usize,
}

/// What each station sends by itself.
#[derive(Clone, Copy)]
pub struct Every {
    pub period: u64,
    pub port: u16,
    pub octets: usize,
}

#[derive(Default)]
pub struct Scenario {
    pub range: u64,
    pub seed: u64,
    pub beacons: bool,
    pub until: u64,
    pub rule: Option<Rule>,
    pub stations: Vec<Spot>,
    pub every: Vec<Every>,
    pub events: Vec<Event>,
}

struct Table<'a>(HashMap<&'a str, &'a str>);

impl<'a> Table<'a> {
    fn text(&self, key: &str) -> &'a str {
        self.0[key].trim_matches('"')
    }

    fn number<N: std::str::FromStr>(&self, key: &str) -> N {
        self.text(key).parse().unwrap_or_else(|_| panic!("{key}"))
    }

    fn payload(&self) -> Vec<u8> {
        let digits = self.text("payload");
        let octet = |i| u8::from_str_radix(&digits[i..i + 2], 16).unwrap();
        (0..digits.len()).step_by(2).map(octet).collect()
    }

    fn area(&self) -> Area {
        assert_eq!(self.text("shape"), "circle");
        let centre = Place { lat: self.number("alat"), lon: self.number("alon") };
        Area { shape: Shape::Circle, centre, a: self.number("a"), b: 0, angle: 0 }
    }

    /// By what rule stations contend, if they do.
    fn rule(&self) -> Option<Rule> {
        self.0.contains_key("contention").then(|| Rule {
            min_wait: self.number("contention_min"),
            max_wait: self.number("contention_max"),
            range: self.number("contention_range"),
            copies: self.number("contention_copies"),
        })
    }

    fn event(&self) -> Event {
        let port = self.number("port");
        let what = match self.text("do") {
            "open" => What::Open(port),
            "shb" => What::SendShb { port, payload: self.payload() },
            "gbc" => {
                let (hops, area, payload) = (self.number("hops"), self.area(), self.payload());
                What::SendGeobroadcast { port, hops, area, payload }
            }
            other => panic!("{other}"),
        };
        Event { station: self.number("station"), moment: self.number("at"), what }
    }
}

impl Scenario {
    pub fn read(text: &str) -> Scenario {
        let mut scenario = Scenario::default();
        let mut name = "";
        let mut table = Table(HashMap::new());
        for line in text.lines().chain(["[]"]) {
            if line.starts_with('[') {
                scenario.add(name, &table);
                name = line;
                table.0.clear();
            } else {
                let (key, value) = line.split_once(" = ").unwrap();
                table.0.insert(key, value);
            }
        }
        scenario
    }

    fn add(&mut self, name: &str, table: &Table<'_>) {
        match name {
            "[air]" => {
                self.range = table.number("range");
                self.seed = table.number("seed");
                self.beacons = table.number("beacons");
                self.until = table.number("until");
                self.rule = table.rule();
            }
            "[[every]]" => self.every.push(Every {
                period: table.number("period"),
                port: table.number("port"),
                octets: table.number("octets"),
            }),
            "[[station]]" => self.stations.push(Spot {
                address: u64::from_str_radix(table.text("address"), 16).unwrap(),
                place: Place { lat: table.number("lat"), lon: table.number("lon") },
                capacity: table.number("capacity"),
            }),
            "[[event]]" => self.events.push(table.event()),
            _ => assert!(name.is_empty()),
        }
    }
}
