//! A road-side unit and a car on UDP sockets of this machine. The unit sends a warning of road
//! works to all stations within 500 m. The car delivers it and forwards it.
//!
//! ```text
//! cargo run --example roadside
//! ```

use geostation::{Area, AreaRequest, Config, Place, Shape, Station, FRAME_MAX};
use std::error::Error;
use std::net::UdpSocket;
use std::time::{Duration, Instant, SystemTime, SystemTimeError, UNIX_EPOCH};

const PORT: u16 = 2002;

/// 2004-01-01 in Unix time, and how far TAI has moved on from UTC since then, in ms.
const EPOCH: u64 = 1_072_915_200_000;
const AHEAD: u64 = 5_000;

fn millis(time: Duration) -> u64 {
    u64::try_from(time.as_millis()).unwrap_or(u64::MAX)
}

/// Milliseconds of TAI since 2004-01-01, as packets carry them. It never goes back: the time of day
/// is read once, at the start.
struct Clock {
    at_start: u64,
    started: Instant,
}

impl Clock {
    fn start() -> Result<Clock, SystemTimeError> {
        let unix = millis(SystemTime::now().duration_since(UNIX_EPOCH)?);
        Ok(Clock { at_start: (unix + AHEAD).saturating_sub(EPOCH), started: Instant::now() })
    }

    fn now(&self) -> u64 {
        self.at_start + millis(self.started.elapsed())
    }
}

/// A station on a socket, which stands still.
struct Unit {
    station: Station,
    socket: UdpSocket,
    place: Place,
    clock: Clock,
}

impl Unit {
    fn new(address: u64, latitude: i32) -> Result<Unit, Box<dyn Error>> {
        let socket = UdpSocket::bind("127.0.0.1:0")?;
        socket.set_read_timeout(Some(Duration::from_secs(60)))?;
        let station = Station::new(&Config::new(address, latitude, 0))?;
        let place = Place { latitude, longitude: 0, accurate: true, speed: 0, heading: 0 };
        Ok(Unit { station, socket, place, clock: Clock::start()? })
    }

    /// Sends a warning to the stations within 500 m of a position. The time stamp of a packet is
    /// that of the station's position, so that is set first.
    fn warn(&mut self, latitude: i32, text: &str) -> Result<(), Box<dyn Error>> {
        let shape = Shape::Circle { radius: 500 };
        let request = AreaRequest::new(PORT, Area { latitude, longitude: 0, shape });
        let (now, mut buffer) = (self.clock.now(), [0; FRAME_MAX]);
        self.station.move_to(now, &self.place)?;
        let frame = self.station.send_gbc(now, &request, text.as_bytes(), &mut buffer)?;
        self.socket.send(frame)?;
        Ok(())
    }

    /// Receives the next datagram, prints the result, and forwards the packet if it has to.
    fn listen(&mut self, name: &str) -> Result<(), Box<dyn Error>> {
        let (mut frame, mut relay) = ([0; FRAME_MAX + 1], [0; FRAME_MAX]);
        let length = self.socket.recv(&mut frame)?;
        let now = self.clock.now();
        match self.station.receive(now, &frame[..length], &mut relay) {
            Ok(received) => {
                if let Some(why) = received.ignored {
                    println!("{name}: ignored {why}");
                }
                if let Some(message) = received.delivered {
                    let text = String::from_utf8_lossy(message.payload);
                    println!("{name}: port {}: {text}", message.port);
                }
                if let Some(frame) = received.relay {
                    self.socket.send(frame)?;
                }
            }
            Err(error) => println!("{name}: refused {}: {error}", error.code()),
        }
        Ok(())
    }
}

fn main() -> Result<(), Box<dyn Error>> {
    let mut unit = Unit::new(0x1400_0200_0000_0001, 0)?;
    let mut car = Unit::new(0x1400_0200_0000_0002, 449)?;
    unit.socket.connect(car.socket.local_addr()?)?;
    car.socket.connect(unit.socket.local_addr()?)?;
    car.station.open_port(0, PORT)?;

    unit.warn(449, "road works")?;
    car.listen("car")?;
    unit.listen("unit")?;
    car.socket.send(&[0])?;
    unit.listen("unit")
}

#[cfg(test)]
mod tests {
    use super::*;
    use geostation::read_frame;

    #[test]
    fn packets_have_the_time_of_day() -> Result<(), Box<dyn Error>> {
        let mut unit = Unit::new(0x1400_0200_0000_0001, 0)?;
        let car = Unit::new(0x1400_0200_0000_0002, 449)?;
        unit.socket.connect(car.socket.local_addr()?)?;
        unit.warn(449, "road works")?;
        let mut frame = [0; FRAME_MAX];
        let length = car.socket.recv(&mut frame)?;
        let stamp = u64::from(read_frame(&frame[..length])?.vector.timestamp);
        let unix = millis(SystemTime::now().duration_since(UNIX_EPOCH)?);
        let age = (unix - 1_072_915_200_000 + 5_000 - stamp) % (1 << 32);
        assert!(age < 60_000, "{age} ms"); // a busy machine may take its time
        Ok(())
    }
}
