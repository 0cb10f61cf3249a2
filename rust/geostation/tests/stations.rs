//! Two stations through the calls of the crate. Frames are those that the standard's layouts give;
//! moments of beacons are those of EN 302 636-4-1, clause 10.3.6 (3 s after the last packet).

use geostation::{
    frame_length, message_of, plain_part, read_frame, seal, Area, AreaRequest, Config, Content,
    Contention, Error, Fault, IgnoreReason, Limits, Place, Shape, ShbOptions, ShbRequest, Station,
    FRAME_MAX, LAST_MOMENT, PAYLOAD_MAX, SECURED_FRAME_MAX,
};

const A: u64 = 0x1400_0200_0000_0001;
const B: u64 = 0x1400_0200_0000_0002;

fn circle(radius: u16) -> Area {
    Area { latitude: 449, longitude: 0, shape: Shape::Circle { radius } }
}

fn warning() -> AreaRequest {
    let mut request = AreaRequest::new(2002, circle(200));
    request.info = 7;
    request.max_hops = 5;
    request
}

fn pair() -> (Station, Station) {
    let a = Station::new(&Config::new(A, 449, 0)).unwrap();
    let mut b = Station::new(&Config::new(B, 449, 900)).unwrap();
    b.open_port(0, 2002).unwrap();
    (a, b)
}

#[test]
fn delivered_relayed_and_heard_again() {
    let (mut a, mut b) = pair();
    let (mut sent, mut relay, mut none) = (Vec::new(), [0; FRAME_MAX], [0; FRAME_MAX]);
    let frame = a.send_gbc(10, &warning(), b"hi", &mut sent).unwrap();
    let got = b.receive(11, frame, &mut relay).unwrap();
    let message = got.delivered.unwrap();
    assert_eq!((2002, 7, &b"hi"[..]), (message.port, message.info, message.payload));
    let relay = got.relay.unwrap();
    assert_eq!((None, 76), (got.ignored, relay.len()));
    let back = a.receive(12, relay, &mut none).unwrap();
    assert_eq!(
        (Some(IgnoreReason::OwnSource), None, None),
        (back.ignored, back.delivered, back.relay)
    );
    let again = b.receive(12, frame, &mut none).unwrap();
    assert_eq!(Some(IgnoreReason::Duplicate), again.ignored);
    assert_eq!(
        "own-source duplicate",
        format!("{} {}", IgnoreReason::OwnSource, IgnoreReason::Duplicate)
    );
}

#[test]
fn fields_of_frames() {
    let (mut a, mut b) = pair();
    let mut sent = Vec::new();
    let area =
        Area { latitude: -5, longitude: 7, shape: Shape::Rectangle { a: 30, b: 20, angle: 359 } };
    let mut request = AreaRequest::new(1, area);
    request.traffic_class = 3;
    let frame = a.send_gac(10, &request, b"x", &mut sent).unwrap();
    let packet = read_frame(frame).unwrap();
    assert_eq!([0xff; 6], packet.target);
    assert_eq!([2, 0, 0, 0, 0, 1], packet.source);
    assert_eq!((A, 449, 0), (packet.vector.address, packet.vector.latitude, packet.vector.speed));
    assert_eq!((10, 10, 0x1a, 3), (packet.hops_left, packet.max_hops, packet.lifetime, 3));
    assert_eq!((3, true), (packet.traffic_class, packet.mobile));
    match packet.content {
        Content::Geoanycast { number, area: told, message } => {
            assert_eq!((0, area, &b"x"[..]), (number, told, message.payload));
        }
        other => panic!("{other:?}"),
    }
    let shb = ShbRequest { port: 9, info: 1, traffic_class: 0 };
    let frame = b.send_shb(10, &shb, &[], &mut sent).unwrap();
    assert!(matches!(read_frame(frame).unwrap().content, Content::SingleHop { media, .. }
        if media == [0; 4]));
    assert_eq!(9, read_frame(frame).unwrap().message().unwrap().port);
}

#[test]
fn signed_packets_are_those_of_their_plain_parts() {
    let (mut a, mut b) = pair();
    let (mut sent, mut sealed, mut relay) = (Vec::new(), Vec::new(), [0; SECURED_FRAME_MAX]);
    let frame = a.send_gbc(10, &warning(), b"hi", &mut sent).unwrap();
    let plain = plain_part(frame).unwrap();
    assert_eq!(&frame[18..], plain);
    let secured = seal(frame, b"signed", &mut sealed).unwrap();
    // The link addresses, 12 in place of 11, lifetime and hop limit, and the message.
    assert_eq!(
        (&frame[..14], 0x12, &frame[15..18]),
        (&secured[..14], secured[14], &secured[15..18])
    );
    assert_eq!(Some(&b"signed"[..]), message_of(secured));
    let got = b.receive_verified(11, secured, plain, &mut relay).unwrap();
    let message = got.delivered.unwrap();
    assert_eq!((2002, 7, &b"hi"[..]), (message.port, message.info, message.payload));
    assert_eq!((A, 5, Some(0)), (got.source, got.hops_left, got.number));
    let forwarded = got.relay.unwrap();
    assert_eq!([2, 0, 0, 0, 0, 2], forwarded[6..12]);
    assert_eq!((&secured[12..17], 4), (&forwarded[12..17], forwarded[17]));
    assert_eq!(&secured[18..], &forwarded[18..]);
    let again = b.receive(12, frame, &mut Vec::new()).map(|got| got.ignored);
    assert_eq!(Ok(Some(IgnoreReason::Duplicate)), again);
    let counts = b.counts();
    assert_eq!((2, 1, 1, 1), (counts.received, counts.accepted, counts.delivered, counts.relayed));
}

#[test]
fn faults_of_signed_packets() {
    let (mut a, mut b) = pair();
    let (mut sent, mut sealed, mut relay) = (Vec::new(), Vec::new(), Vec::new());
    let frame = a.send_gbc(10, &warning(), b"hi", &mut sent).unwrap();
    let plain = plain_part(frame).unwrap();
    let secured = seal(frame, b"signed", &mut sealed).unwrap().to_vec();
    let mut more = secured.clone();
    more[17] = 6;
    let longer = [plain, b"s"].concat();
    for (octets, part, code) in [
        (&b""[..], plain, "S3 L1"),
        (frame, plain, "S3 L5 G3 at 0"),
        (&secured[..18], plain, "S3 L5 G1 at 4"),
        (&secured[..], &b""[..], "S3 L6 G1 at 4"),
        (&more[..], plain, "S3 L6 G9 at 10"),
        (&secured[..], &longer[..], "S3 L4"),
    ] {
        let error = b.receive_verified(11, octets, part, &mut relay).unwrap_err();
        assert_eq!(code, error.code().to_string());
        assert!(relay.is_empty());
    }
    let error = b.receive_verified(11, &more, plain, &mut relay).unwrap_err();
    assert_eq!("more hops left than the maximum, at octet 10", error.to_string());
    let room = &mut [0; SECURED_FRAME_MAX - 1];
    assert_eq!(Err(Error::NoRoom), b.receive_verified(11, &secured, plain, room));
    assert_eq!(Err(Error::NoRoom), seal(frame, b"s", room));
    assert_eq!(Err(Error::BadArgument), seal(frame, b"", &mut relay));
    assert_eq!(Err(Error::BadArgument), seal(frame, &[0; SECURED_FRAME_MAX - 17], &mut relay));
    let longest = seal(frame, &[0; SECURED_FRAME_MAX - 18], &mut relay).map(<[u8]>::len);
    assert_eq!(Ok(SECURED_FRAME_MAX), longest);
    let fault = Fault { layer: 5, kind: 3, at: 0 };
    assert_eq!(Err(Error::BadFrame(fault)), seal(&secured, b"s", &mut relay));
    assert_eq!(Err(fault), plain_part(&secured));
    assert_eq!((None, None), (message_of(frame), message_of(b"")));
}

#[test]
fn errors_are_told_and_change_nothing() {
    let (mut a, _) = pair();
    let mut room = vec![1];
    let fault = Fault { layer: 1, kind: 0, at: 0 };
    assert_eq!(Err(Error::BadFrame(fault)), a.receive(5, &[], &mut room));
    assert!(room.is_empty());
    assert_eq!(Ok(()), a.open_port(5, 1));
    assert_eq!(Err(Error::PortAlreadyOpen), a.open_port(5, 1));
    assert_eq!(Err(Error::MomentEarlier), a.open_port(4, 2));
    assert_eq!(Err(Error::MomentTooLate), a.restart(LAST_MOMENT + 1, 0));
    assert_eq!(Err(Error::PortNotOpen), a.close_port(5, 2));
    assert_eq!(Err(Error::JitterRange), a.tick(5, 751, &mut room));
    assert_eq!(Err(Error::NoRoom), a.tick(3005, 0, &mut [0; FRAME_MAX - 1]));
    let long = [0; PAYLOAD_MAX + 1];
    assert_eq!(Err(Error::PayloadTooLong), a.send_shb(5, &shb(), &long, &mut room));
    let mut request = warning();
    request.max_hops = 0;
    assert_eq!(Err(Error::HopLimitZero), a.send_gbc(5, &request, b"", &mut room));
    request.area = circle(0);
    assert_eq!(Err(Error::BadArgument), a.send_gac(5, &request, b"", &mut room));
    let mut config = Config::new(A, 900_000_001, 0);
    assert_eq!(Err(Error::BadArgument), Station::new(&config).map(|_| ()));
    config = Config::new(A, 0, 0);
    config.capacity = 0;
    assert_eq!(Err(Error::BadArgument), Station::new(&config).map(|_| ()));
}

fn shb() -> ShbRequest {
    ShbRequest { port: 1, ..ShbRequest::default() }
}

#[test]
fn codes_are_those_of_logs() {
    let (mut a, mut b) = pair();
    let mut sent = Vec::new();
    a.send_gbc(10, &warning(), b"hi", &mut sent).unwrap();
    sent[14 + 10] = 1;
    sent[14 + 3] = 2;
    let mut relay = Vec::new();
    let error = b.receive(11, &sent, &mut relay).unwrap_err();
    assert_eq!("S3 L5 G9 at 10", error.code().to_string());
    assert_eq!("more hops left than the maximum, at octet 10", error.to_string());
    assert_eq!("L5 G9 at 10", read_frame(&sent).unwrap_err().code().to_string());
    for (error, code, status) in [
        (Error::MomentEarlier, "S1", 1),
        (Error::MomentTooLate, "S2", 2),
        (Error::TableFull, "S4", 4),
        (Error::NoMemory, "S5", 5),
        (Error::PayloadTooLong, "S6", 6),
        (Error::HopLimitZero, "S7", 7),
        (Error::PortAlreadyOpen, "S8 B2", 8),
        (Error::JitterRange, "S9", 9),
        (Error::PortsFull, "S8 B3", 10),
        (Error::PortNotOpen, "S8 B4", 11),
        (Error::BadArgument, "", 20),
        (Error::NoRoom, "", 21),
    ] {
        assert_eq!((code, status), (error.code().to_string().as_str(), error.status()));
        assert!(!error.to_string().is_empty());
    }
    let error: Box<dyn std::error::Error> = Box::new(error);
    assert!(error.downcast_ref::<Error>().is_some());
}

#[test]
fn beacons_make_neighbours() {
    let (mut a, mut b) = pair();
    let (mut out, mut none) = (Vec::new(), Vec::new());
    let place = Place { latitude: 5, longitude: 6, accurate: true, speed: -7, heading: 8 };
    b.move_to(1, &place).unwrap();
    assert_eq!(1, b.next_beacon());
    assert!(b.tick(1, 0, &mut out).unwrap().is_some());
    assert_eq!(3001, b.next_beacon());
    assert_eq!(Ok(None), b.tick(3000, 0, &mut out));
    let beacon = b.tick(3001, 0, &mut out).unwrap().unwrap();
    assert_eq!(50, beacon.len());
    a.receive(3001, beacon, &mut none).unwrap();
    let heard: Vec<_> = a.neighbours(3001).collect();
    assert_eq!(1, heard.len());
    assert_eq!((B, 1, 5, 6), (heard[0].address, heard[0].timestamp, heard[0].latitude, 6));
    assert_eq!((6, -7, 8, true), (heard[0].longitude, heard[0].speed, heard[0].heading, true));
    assert_eq!(Some(heard[0]), a.look_up(3001, B));
    assert_eq!((None, 0), (a.look_up(23_002, B), a.neighbours(23_002).count()));
}

#[test]
fn a_fix_a_lifetime_and_a_number() {
    let (mut a, _) = pair();
    let mut out = Vec::new();
    let place = Place { latitude: 5, longitude: 6, accurate: false, speed: 0, heading: 0 };
    a.move_at(1000, 4_294_967_295, &place).unwrap();
    let request = ShbRequest { port: 9, ..ShbRequest::default() };
    let frame = a.send_shb_with_lifetime(1000, &request, 0x05, b"x", &mut out).unwrap();
    let told = read_frame(frame).unwrap();
    assert_eq!((0x05, 4_294_967_295, 5), (told.lifetime, told.vector.timestamp, 5));
    assert_eq!((5, 6, false), (told.vector.latitude, told.vector.longitude, false));
    let frame = a.send_shb(1000, &request, b"x", &mut out).unwrap();
    assert_eq!(0x1a, read_frame(frame).unwrap().lifetime);
    // 3 s after the last packet, and the jitter.
    assert_eq!((Some(4750), None), (a.beacon_at(750), a.beacon_at(751)));
    assert_eq!(0, a.next_number());
    a.restart(1000, 65_535).unwrap();
    assert_eq!(65_535, a.next_number());
}

/// They are octets 50 to 53 of the frame, and nothing else differs.
#[test]
fn media_dependent_data() {
    let (mut a, mut b) = pair();
    let (mut plain, mut sent, mut out) = (Vec::new(), Vec::new(), Vec::new());
    let request = ShbRequest { port: 9, ..ShbRequest::default() };
    let media = [0x4d, 0x5a, 0, 0xff];
    let options = ShbOptions { media, ..ShbOptions::default() };
    let plain = a.send_shb(10, &request, b"x", &mut plain).unwrap();
    let frame = a.send_shb_with(10, &request, &options, b"x", &mut sent).unwrap();
    assert_eq!((&plain[..50], &plain[54..]), (&frame[..50], &frame[54..]));
    assert_eq!((&[0; 4][..], &media[..]), (&plain[50..54], &frame[50..54]));
    assert!(matches!(read_frame(frame).unwrap().content, Content::SingleHop { media: told, .. }
        if told == media));
    let heard = [frame, plain].map(|it| b.receive(11, it, &mut out).unwrap().media);
    assert_eq!([Some(media), Some([0; 4])], heard);
    let own = a.receive(11, frame, &mut out).unwrap();
    assert_eq!((Some(IgnoreReason::OwnSource), Some(media)), (own.ignored, own.media));
    let options = ShbOptions { lifetime: 0x05, media };
    let frame = a.send_shb_with(11, &request, &options, b"x", &mut out).unwrap();
    assert_eq!((0x05, &media[..]), (frame[16], &frame[50..54]));
    let frame = a.send_gbc(11, &warning(), b"hi", &mut sent).unwrap();
    assert_eq!(None, b.receive(12, frame, &mut out).unwrap().media);
    let long = [0; PAYLOAD_MAX + 1];
    let refused = a.send_shb_with(12, &request, &options, &long, &mut sent);
    assert_eq!(Err(Error::PayloadTooLong), refused);
}

#[test]
fn a_road_side_unit_its_counts_and_padding() {
    let mut config = Config::new(A, 449, 0);
    (config.mobile, config.number) = (false, 65_535);
    let mut unit = Station::new(&config).unwrap();
    let (mut sent, mut relay) = (Vec::new(), Vec::new());
    let frame = unit.send_gbc(5, &warning(), b"", &mut sent).unwrap();
    assert!(!read_frame(frame).unwrap().mobile);
    assert_eq!(0, unit.next_number());
    let mut beacon = Vec::new();
    Station::new(&Config::new(B, 0, 0)).unwrap().tick(0, 0, &mut beacon).unwrap();
    beacon.resize(60, 0);
    assert_eq!((50, 0), (frame_length(&beacon), frame_length(&beacon[1..])));
    let got = unit.receive(5, &beacon, &mut relay).unwrap();
    assert_eq!((B, 1, None), (got.source, got.hops_left, got.number));
    unit.receive(5, b"", &mut relay).unwrap_err();
    let counts = unit.counts();
    assert_eq!((2, 1, 0, 0), (counts.received, counts.accepted, counts.delivered, counts.relayed));
    assert_eq!((1, 1), (counts.refused.frame, counts.sent.geobroadcasts));
    assert_eq!(0, counts.ignored.duplicate);
}

#[test]
fn lines_are_answered_and_frames_are_those_of_calls() {
    let (mut a, _) = pair();
    let (mut twin, _) = pair();
    let (mut answer, mut frame, mut other) = (Vec::new(), Vec::new(), Vec::new());
    let line = br#"{"id":1,"do":"shb","port":2002,"info":7,"tc":2,"payload":"6869"}"#;
    let sent = a.handle_json(5, 1, line, &mut answer, &mut frame).unwrap();
    let request = ShbRequest { port: 2002, info: 7, traffic_class: 2 };
    assert_eq!(twin.send_shb(5, &request, b"hi", &mut other).unwrap(), sent);
    let digits: String = frame.iter().map(|octet| format!("{octet:02x}")).collect();
    let told = format!(r#"{{"id":1,"at":5,"result":"sent","frame":"{digits}"}}"#);
    assert_eq!(answer, told.as_bytes());

    assert!(a.handle_json(5, 2, b" ", &mut answer, &mut frame).unwrap().is_empty());
    assert!(answer.is_empty());
    a.handle_json(5, 3, br#"{"do":"open"}"#, &mut answer, &mut frame).unwrap();
    assert!(answer.starts_with(br#"{"line":3,"error":"port","reason":""#));
    let mut short = [0; FRAME_MAX - 1];
    assert_eq!(a.handle_json(5, 3, line, &mut answer, &mut short), Err(Error::NoRoom));
    assert!(answer.is_empty());
}

fn limited(address: u64, longitude: i32, limits: Limits) -> Station {
    let mut config = Config::new(address, 449, longitude);
    config.limits = limits;
    Station::new(&config).unwrap()
}

/// Two at once and ten per second: each takes 100 ms to come back.
#[test]
fn own_packets_over_their_rate_are_refused() {
    let mut a = limited(A, 0, Limits { own_rate: 10, own_burst: 2, ..Limits::NONE });
    let (mut out, request) = (Vec::new(), ShbRequest::default());
    a.send_shb(1000, &request, b"", &mut out).unwrap();
    a.send_gbc(1000, &warning(), b"", &mut out).unwrap();
    for now in [1000, 1099] {
        let refused = a.send_gbc(now, &warning(), b"", &mut out).unwrap_err();
        assert_eq!((Error::OverRate, 22, 1), (refused, refused.status(), a.next_number()));
        assert_eq!("own packets are over their rate", refused.to_string());
        assert_eq!("", refused.code().to_string());
    }
    a.send_gbc(1100, &warning(), b"", &mut out).unwrap();
    let counts = a.counts();
    assert_eq!((0, 0, 2), (counts.suppressed, counts.repeated, counts.over_rate));
    assert_eq!((1, 2), (counts.sent.single_hop, counts.sent.geobroadcasts));
    let mut config = Config::new(A, 449, 0);
    config.limits.own_rate = 1_000_001;
    assert_eq!(Some(Error::BadArgument), Station::new(&config).err());
}

#[test]
fn forwarded_frames_hops_and_echoes_have_limits() {
    let mut a = limited(A, 0, Limits::NONE);
    let mut config = Config::new(B, 449, 900);
    config.remember = 1;
    config.limits =
        Limits { forward_rate: 10, forward_burst: 2, source_rate: 0, hop_cap: 4, ..config.limits };
    let mut b = Station::new(&config).unwrap();
    b.open_port(0, 2002).unwrap();
    let (mut sent, mut relay, mut passed) = (Vec::new(), Vec::new(), Vec::new());
    let mut second = Vec::new();
    for hops in [5, 4, 4, 4] {
        let request = AreaRequest { max_hops: hops, ..warning() };
        let frame = a.send_gbc(10, &request, b"x", &mut sent).unwrap();
        let got = b.receive(10, frame, &mut relay).unwrap();
        assert!(got.delivered.is_some());
        passed.push(got.relay.is_some());
        if passed.len() == 2 {
            second = frame.to_vec();
        }
    }
    assert_eq!(vec![false, true, true, false], passed);
    let echo = b.receive(10, &second, &mut relay).unwrap();
    assert_eq!(
        (Some(IgnoreReason::Repeated), None, None),
        (echo.ignored, echo.delivered, echo.relay)
    );
    let counts = b.counts();
    assert_eq!((3, 1, 0), (counts.suppressed, counts.repeated, counts.over_rate));
    assert_eq!((4, 2), (counts.delivered, counts.relayed));
}

/// The frame as the station with this last byte of its address forwards it.
fn as_sent_by(frame: &[u8], number: u8, hops: u8) -> Vec<u8> {
    let mut copy = frame.to_vec();
    (copy[11], copy[17]) = (number, hops);
    copy
}

/// 300 m from the sender, it waits for 71 ms of 1 to 100.
#[test]
fn a_station_contends() {
    let mut a = Station::new(&Config::new(A, 0, 0)).unwrap();
    let place = Place { latitude: 0, longitude: 0, accurate: true, speed: 0, heading: 0 };
    a.move_to(500, &place).unwrap();
    let shape = Shape::Circle { radius: 1000 };
    let request = AreaRequest::new(2002, Area { latitude: 0, longitude: 0, shape });
    let mut config = Config::new(B, 26950, 0);
    config.contention = Some(Contention::default());
    let mut b = Station::new(&config).unwrap();
    let (mut sent, mut relay) = (Vec::new(), Vec::new());
    let frame = a.send_gbc(1000, &request, b"hi", &mut sent).unwrap();
    let got = b.receive(1001, frame, &mut relay).unwrap();
    assert_eq!((None, Some(1072), false), (got.relay, got.due, got.cancelled));
    assert_eq!(Some(1072), b.next_due());
    assert_eq!(Err(Error::MomentEarlier), b.release(1000, &mut relay));
    assert_eq!(Err(Error::NoRoom), b.release(1072, &mut [0; FRAME_MAX - 1]));
    assert_eq!(Ok(None), b.release(1071, &mut relay));
    let relayed = as_sent_by(frame, 2, 9);
    assert_eq!(Ok(Some(&relayed[..])), b.release(1072, &mut relay));
    assert_eq!((Ok(None), None), (b.release(1072, &mut relay), b.next_due()));
    let counts = b.counts();
    assert_eq!((1, 1, 1), (counts.relayed, counts.contention.held, counts.contention.released));

    b.restart(1073, 0).unwrap();
    b.receive(1074, frame, &mut relay).unwrap();
    let cancelled = [3, 3, 4].map(|number| {
        let copy = as_sent_by(frame, number, 9);
        b.receive(1075, &copy, &mut relay).unwrap().cancelled
    });
    assert_eq!([false, false, true], cancelled);
    assert_eq!((1, 0), (b.counts().contention.cancelled, b.counts().contention.dropped));
}

#[test]
fn contention_has_ranges() {
    let usual = Contention::default();
    let wrong = [
        Contention { max: 0, min: 0, ..usual },
        Contention { max: 1001, ..usual },
        Contention { min: 101, ..usual },
        Contention { range: 0, ..usual },
        Contention { copies: 0, ..usual },
        Contention { copies: 4, ..usual },
    ];
    let mut config = Config::new(A, 0, 0);
    for rule in wrong {
        config.contention = Some(rule);
        assert_eq!(Some(Error::BadArgument), Station::new(&config).err(), "{rule:?}");
    }
}

#[test]
fn a_station_goes_to_another_thread() {
    let (mut a, _) = pair();
    let a = std::thread::spawn(move || a.open_port(1, 9).map(|()| a)).join().unwrap().unwrap();
    assert!(a.next_beacon() <= 3000);
}
