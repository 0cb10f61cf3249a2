//! What `convert` does, in plain Rust through the buffers of std: `convert make COUNT FILE` writes a
//! capture of so many frames, `convert IN OUT` a capture as pcapng, or a classic pcap as a capture.
//! Records are checked as the program checks them: lengths, the end of a record, the link type.

use std::env::args;
use std::fs::File;
use std::io::{BufReader, BufWriter, ErrorKind, Read, Result, Write};

/// How many octets of a file are read or written at a time, as the program does.
const FILE_BUFFER: usize = 32 * 1024;

const LONGEST_FRAME: usize = 1468;
const LONGEST_CAPTURED: u32 = 262_144;
const PCAPNG_FRONT: [u8; 60] = [
    0x0a, 0x0d, 0x0d, 0x0a, 28, 0, 0, 0, 0x4d, 0x3c, 0x2b, 0x1a, 1, 0, 0, 0, 255, 255, 255, 255, 255,
    255, 255, 255, 28, 0, 0, 0, // the section, and its one interface
    1, 0, 0, 0, 32, 0, 0, 0, 1, 0, 0, 0, 0, 0, 4, 0, 9, 0, 1, 0, 3, 0, 0, 0, 0, 0, 0, 0, 32, 0, 0, 0,
];

/// Fills the buffer, or answers that the file ends before its first octet.
fn fill(source: &mut impl Read, octets: &mut [u8]) -> Result<bool> {
    let mut filled = 0;
    while filled < octets.len() {
        match source.read(&mut octets[filled..])? {
            0 if filled == 0 => return Ok(false),
            0 => return Err(ErrorKind::UnexpectedEof.into()),
            count => filled += count,
        }
    }
    Ok(true)
}

fn word(octets: &[u8]) -> u32 {
    u32::from_le_bytes(octets[..4].try_into().unwrap())
}

fn capture_to_pcapng(source: &mut impl Read, sink: &mut impl Write) -> Result<()> {
    let (mut head, mut frame) = ([0; 10], vec![]);
    sink.write_all(&PCAPNG_FRONT)?;
    while fill(source, &mut head)? {
        let moment = u64::from_be_bytes(head[..8].try_into().unwrap());
        let size = usize::from(u16::from_be_bytes([head[8], head[9]]));
        if size == 0 || size > LONGEST_FRAME {
            return Err(ErrorKind::InvalidData.into());
        }
        frame.resize(size, 0);
        if !fill(source, &mut frame)? {
            return Err(ErrorKind::UnexpectedEof.into());
        }
        put_packet(sink, moment, &frame)?;
    }
    sink.flush()
}

fn put_packet(sink: &mut impl Write, moment: u64, frame: &[u8]) -> Result<()> {
    let size = frame.len() as u32;
    let padding = (4 - size % 4) % 4;
    let block = 32 + size + padding;
    let mut head = [0; 28];
    let words = [6, block, 0, (moment >> 32) as u32, moment as u32, size, size];
    for (to, word) in head.chunks_exact_mut(4).zip(words) {
        to.copy_from_slice(&word.to_le_bytes());
    }
    sink.write_all(&head)?;
    sink.write_all(frame)?;
    sink.write_all(&[0; 3][..padding as usize])?;
    sink.write_all(&block.to_le_bytes())
}

fn pcap_to_capture(source: &mut impl Read, sink: &mut impl Write) -> Result<()> {
    let (mut front, mut head, mut frame) = ([0; 24], [0; 16], vec![]);
    if !fill(source, &mut front)? || word(&front) != 0xa1b2_c3d4 || word(&front[20..]) % 65536 != 1 {
        return Err(ErrorKind::InvalidData.into());
    }
    while fill(source, &mut head)? {
        let moment = 1000 * u64::from(word(&head)) + u64::from(word(&head[4..]) / 1000);
        let (captured, wire) = (word(&head[8..]), word(&head[12..]));
        if captured > LONGEST_CAPTURED {
            return Err(ErrorKind::InvalidData.into());
        }
        frame.resize(captured as usize, 0);
        if captured > 0 && !fill(source, &mut frame)? {
            return Err(ErrorKind::UnexpectedEof.into());
        }
        if captured < wire || frame.is_empty() || frame.len() > LONGEST_FRAME {
            continue;
        }
        sink.write_all(&moment.to_be_bytes())?;
        sink.write_all(&(captured as u16).to_be_bytes())?;
        sink.write_all(&frame)?;
    }
    sink.flush()
}

/// Frames of 50 to 149 octets, a millisecond apart.
fn make(count: u64, sink: &mut impl Write) -> Result<()> {
    let octets: [u8; 149] = std::array::from_fn(|place| place as u8);
    for moment in 0..count {
        let size = 50 + (moment * 37 % 100) as usize;
        sink.write_all(&moment.to_be_bytes())?;
        sink.write_all(&(size as u16).to_be_bytes())?;
        sink.write_all(&octets[..size])?;
    }
    sink.flush()
}

fn main() -> Result<()> {
    let words: Vec<String> = args().skip(1).collect();
    if words[0] == "make" {
        return make(words[1].parse().unwrap(), &mut BufWriter::new(File::create(&words[2])?));
    }
    let mut source = BufReader::with_capacity(FILE_BUFFER, File::open(&words[0])?);
    let mut sink = BufWriter::with_capacity(FILE_BUFFER, File::create(&words[1])?);
    if words[0].ends_with(".pcap") {
        pcap_to_capture(&mut source, &mut sink)
    } else {
        capture_to_pcapng(&mut source, &mut sink)
    }
}
