//! Lone headers and shown names (document 01, "Headers and program files").

use differential::compare::{Run, Scene};
use differential::random::Random;
use differential::reference::header::HEADER;
use differential::reference::{pack_header, Header};

const ANSWERS: [(&str, &[(u32, u32)]); 5] = [
    ("pack_header", &[(0, 0), (1, 0), (2, 0), (8, 0)]),
    ("unpack_header", &[(0, 0), (1, 0), (8, 0)]),
    ("shown_name", &[(0, 0)]),
    ("shown_name of spaces", &[(0, 0)]),
    ("shown_name of no header", &[(1, 0), (8, 0)]),
];

const SCENES: [Scene; 4] = [
    ("packed", packed),
    ("packed and unpacked", packed_and_unpacked),
    ("nearly a header", nearly_a_header),
    ("any bytes", any_bytes),
];

#[test]
fn headers() {
    let mut run = Run::new("headers");
    run.play(&SCENES);
    run.finish(&ANSWERS);
}

/// Every type with every length of a name, and every room around the need.
#[test]
fn limits_of_packing() {
    let mut run = Run::new("limits of packing");
    let mut random = run.random();
    for kind in 0..=255 {
        for name_len in [0, 1, 16, 187, 188, 200] {
            let header = some_header(&mut random, kind);
            let name = random.name(name_len);
            for room in [0, 191, 192, 193] {
                let _ = run.pack_header(&mut random, header, &name, room);
            }
        }
    }
    for name_len in 0..=190 {
        let name = random.name(name_len);
        let header = some_header(&mut random, 1);
        let _ = run.pack_header(&mut random, header, &name, 200);
    }
    run.finish(&ANSWERS[..1]);
}

/// Every length and every type of a lone header.
#[test]
fn limits_of_unpacking() {
    let mut run = Run::new("limits of unpacking");
    let mut random = run.random();
    for length in 0..=400 {
        let mut bytes = random.bytes(length);
        for kind in [0, 1, 5, 6] {
            bytes.iter_mut().take(1).for_each(|first| *first = kind);
            let _ = run.unpack_header(&bytes);
            let _ = run.shown_name(&bytes);
        }
    }
    for kind in 0..=255 {
        let mut bytes = random.bytes(HEADER);
        bytes[0] = kind;
        let _ = run.unpack_header(&bytes);
        let _ = run.shown_name(&bytes);
        bytes[5..].fill(b' ');
        let _ = run.shown_name(&bytes);
    }
    run.finish(&ANSWERS[1..]);
}

/// Each of the shown bytes as the last that is not a space, and each alone.
#[test]
fn every_end_of_a_shown_name() {
    let mut run = Run::new("shown names");
    for kind in 1..=5 {
        for last in 0..20 {
            for other in [0x00, 0x1f, 0x21, 0xa0, 0xff] {
                let mut bytes = [b' '; HEADER];
                bytes[0] = kind;
                bytes[5 + last] = other;
                let _ = run.shown_name(&bytes);
                bytes[5..5 + last].fill(b'A');
                let _ = run.shown_name(&bytes);
            }
        }
    }
    run.finish(&ANSWERS[2..4]);
}

fn some_header(random: &mut Random, kind: u8) -> Header {
    Header {
        kind,
        start: random.bits() as u16,
        end: random.bits() as u16,
    }
}

fn some_type(random: &mut Random) -> u8 {
    match random.below(8) {
        0 => random.byte(),
        1 | 2 => random.below(8) as u8,
        _ => random.within(1..=5) as u8,
    }
}

fn packed(run: &mut Run, random: &mut Random) {
    let kind = some_type(random);
    let header = some_header(random, kind);
    let name = match random.below(4) {
        0 => {
            let len = random.within(185..=300);
            random.name(len)
        }
        _ => random.fitting_name(),
    };
    let room = random.room(HEADER);
    let _ = run.pack_header(random, header, &name, room);
}

fn packed_bytes(random: &mut Random) -> [u8; HEADER] {
    let kind = random.within(1..=5) as u8;
    let header = some_header(random, kind);
    let name = random.fitting_name();
    let mut bytes = [0; HEADER];
    pack_header(header, &name, &mut bytes).expect("a header that can be packed");
    bytes
}

fn packed_and_unpacked(run: &mut Run, random: &mut Random) {
    let bytes = packed_bytes(random);
    run.unpack_header(&bytes).expect("a sound header");
    let _ = run.shown_name(&bytes);
}

/// A header with a byte changed, or one byte too long or too short.
fn nearly_a_header(run: &mut Run, random: &mut Random) {
    let mut bytes = packed_bytes(random).to_vec();
    match random.below(5) {
        0 => bytes[0] = random.byte(),
        1 => bytes[0] = random.below(8) as u8,
        2 => {
            let i = random.below(HEADER);
            bytes[i] = random.byte();
        }
        3 => bytes.truncate(HEADER - 1),
        _ => bytes.push(random.pick(&[0x00, 0x20, 0x41])),
    }
    let _ = run.unpack_header(&bytes);
    let _ = run.shown_name(&bytes);
}

fn any_bytes(run: &mut Run, random: &mut Random) {
    let any = random.below(401);
    let length = random.pick(&[HEADER, HEADER, HEADER, any]);
    let mut bytes = random.bytes(length);
    if random.once_in(2) && length > 0 {
        bytes[0] = some_type(random);
    }
    let _ = run.unpack_header(&bytes);
    let _ = run.shown_name(&bytes);
}
