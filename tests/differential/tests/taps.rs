//! TAP files (document 01, "TAP files"; the long form by document 02, Q-4).

use differential::compare::{Run, Scene};
use differential::random::Random;
use differential::reference::header::HEADER;
use differential::reference::tap::{MAX_DURATIONS, TAP_HEADER};
use differential::reference::write_tap;
use differential::strip::{drift, Program};

const WRITER: (&str, &[(u32, u32)]) = ("write_tap", &[(0, 0), (2, 0), (11, 0), (13, 0)]);
const READER: (&str, &[(u32, u32)]) = ("read_tap", &[(0, 0), (2, 0), (10, 0), (11, 0), (12, 0)]);
const FILE_READER: (&str, &[(u32, u32)]) = ("read_file", &[(0, 0)]);

const SCENES: [Scene; 11] = [
    ("written", written),
    ("written", written),
    ("written and read", written_and_read),
    ("a program", a_program),
    ("a drifted program", a_drifted_program),
    ("any data", any_data),
    ("zero bytes", zero_bytes),
    ("header changed", header_changed),
    ("cut or longer", cut_or_longer),
    ("any bytes", any_bytes),
    ("all at once", all_at_once),
];

/// The longest duration with a form in version 1, in cycles.
const LONGEST: u32 = 0xff_ffff;

/// Durations at the edges of the forms, and between the units of a byte.
const EDGES: [u32; 42] = [
    0,
    1,
    2,
    3,
    4,
    5,
    6,
    7,
    8,
    9,
    15,
    16,
    17,
    359,
    360,
    852,
    2032,
    2033,
    2039,
    2040,
    2041,
    2042,
    2043,
    2044,
    2045,
    2046,
    2047,
    2048,
    2049,
    2056,
    65_535,
    65_536,
    LONGEST - 7,
    LONGEST - 1,
    LONGEST,
    LONGEST + 1,
    LONGEST + 2,
    LONGEST + 9,
    // Its low three bytes are those of 360.
    LONGEST + 361,
    1 << 31,
    4_294_967_288,
    u32::MAX,
];

#[test]
fn taps() {
    let mut run = Run::new("taps");
    run.play(&SCENES);
    run.demand_every_remainder();
    run.finish(&[WRITER, READER, FILE_READER]);
}

/// The most durations and one more; each list is a few megabytes.
#[test]
fn the_most_durations() {
    let mut run = Run::new("most durations");
    let mut random = run.random();
    let mut durations = vec![360; MAX_DURATIONS];
    let short = TAP_HEADER + MAX_DURATIONS;
    for version in [0, 1, 2] {
        for room in [short - 1, short] {
            let _ = run.write_tap(&mut random, &durations, version, room);
        }
    }
    durations.fill(LONGEST);
    let long = TAP_HEADER + 4 * MAX_DURATIONS;
    let _ = run.write_tap(&mut random, &durations, 1, long - 1);
    let (_, file) = run
        .write_tap(&mut random, &durations, 1, long)
        .expect("the longest file is written");
    for room in [MAX_DURATIONS - 1, MAX_DURATIONS] {
        let _ = run.read_tap(&mut random, &file, room);
    }
    durations[MAX_DURATIONS - 1] = LONGEST + 1;
    let _ = run.write_tap(&mut random, &durations, 1, long);
    durations.push(8);
    for (version, room) in [(1, long + 4), (2, 0)] {
        let _ = run.write_tap(&mut random, &durations, version, room);
    }
    let mut more = vec![0x2d; TAP_HEADER + MAX_DURATIONS + 1];
    set_header(&mut more, 0);
    let _ = run.read_tap(&mut random, &more, MAX_DURATIONS + 1);
    run.finish(&[
        ("write_tap", &[(0, 0), (1, 0), (2, 0), (11, 0), (13, 0)]),
        ("read_tap", &[(0, 0), (2, 0)]),
    ]);
}

/// Each edge alone and after others, in each version.
#[test]
fn every_edge_of_the_forms() {
    let mut run = Run::new("edges of the forms");
    let mut random = run.random();
    for version in [0, 1, 2, 255] {
        for duration in EDGES {
            for before in [&[][..], &[8], &[2048, 360]] {
                let durations = [before, &[duration], &[duration, 8][..]].concat();
                for room in 0..TAP_HEADER + 4 * durations.len() + 1 {
                    let _ = run.write_tap(&mut random, &durations, version, room);
                }
            }
        }
    }
    run.finish(&[WRITER]);
}

/// Every duration that has a form in version 1, each list a few megabytes.
#[test]
fn every_duration_of_version_1() {
    let mut run = Run::new("durations of version 1");
    let mut random = run.random();
    for first in (0..=LONGEST).step_by(MAX_DURATIONS) {
        let durations: Vec<u32> = (first..).take(MAX_DURATIONS).collect();
        write_and_read(&mut run, &mut random, &durations, 1);
    }
    run.finish(&[("write_tap", &[(0, 0)]), ("read_tap", &[(0, 0)])]);
}

/// Counts in the long form, those that one byte holds among them.
#[test]
fn every_small_count_in_the_long_form() {
    let mut run = Run::new("small counts in the long form");
    let mut random = run.random();
    let counts: Vec<u32> = (0..=0xffff).collect();
    let data: Vec<u8> = counts.iter().flat_map(|&count| long_form(count)).collect();
    let (read, out) = run
        .read_tap(&mut random, &file_of(&data, 1), counts.len())
        .expect("long forms are read");
    assert_eq!(read.count, counts.len());
    assert_eq!(out, counts);
    run.finish(&[("read_tap", &[(0, 0)])]);
}

/// A zero byte, then the cycles in three bytes, low first.
fn long_form(cycles: u32) -> [u8; 4] {
    let [low, middle, high, _] = cycles.to_le_bytes();
    [0, low, middle, high]
}

/// Every byte of a header in every value, and every cut of a file.
#[test]
fn every_byte_of_a_header() {
    let mut run = Run::new("headers of a TAP file");
    let mut random = run.random();
    for version in [0, 1] {
        let mut file = [0; TAP_HEADER + 9];
        file[TAP_HEADER..].copy_from_slice(&[1, 2, 0, 3, 0, 0, 9, 0, 5]);
        set_header(&mut file, version);
        for i in 0..TAP_HEADER {
            for value in 0..=255 {
                let mut changed = file;
                changed[i] = value;
                let _ = run.read_tap(&mut random, &changed, 9);
            }
        }
        for length in 0..=file.len() {
            let mut cut = file[..length].to_vec();
            let _ = run.read_tap(&mut random, &cut, 9);
            set_header(&mut cut, version);
            for room in 0..=9 {
                let _ = run.read_tap(&mut random, &cut, room);
            }
        }
    }
    run.finish(&[READER]);
}

/// Gives a file a sound header, if it is long enough for one.
fn set_header(file: &mut [u8], version: u8) {
    let Some((header, data)) = file.split_at_mut_checked(TAP_HEADER) else {
        return;
    };
    header[..12].copy_from_slice(b"C64-TAPE-RAW");
    header[12..16].copy_from_slice(&[version, 0, 0, 0]);
    header[16..].copy_from_slice(&(data.len() as u32).to_le_bytes());
}

/// A sound header and then these data.
fn file_of(data: &[u8], version: u8) -> Vec<u8> {
    let mut file = vec![0; TAP_HEADER];
    file.extend(data);
    set_header(&mut file, version);
    file
}

fn some_version(random: &mut Random) -> u8 {
    match random.below(12) {
        0 => random.pick(&[2, 3, 128, 255]),
        _ => random.below(2) as u8,
    }
}

fn some_count(random: &mut Random) -> usize {
    match random.below(50) {
        0 => random.within(100..=5000),
        _ => random.below(40),
    }
}

/// Durations that all have a form in this version, few or many of them between
/// the units of a byte or longer than it holds.
fn sound_durations(random: &mut Random, version: u8) -> Vec<u32> {
    let count = some_count(random);
    let once_in = random.pick(&[1, 2, 8, 60]);
    (0..count)
        .map(|_| sound_duration(random, version, once_in))
        .collect()
}

fn sound_duration(random: &mut Random, version: u8, once_in: usize) -> u32 {
    match version {
        1 if random.once_in(once_in) => some_cycles(random),
        0 if random.once_in(6) => 2048,
        _ => some_units(random),
    }
}

/// A duration that has a form in version 1.
fn some_cycles(random: &mut Random) -> u32 {
    let cycles = match random.below(5) {
        0 => random.pick(&[0, 1, 7, 2041, 2047, 2048, 65_535, 65_536, LONGEST as usize]),
        1 => random.within(0..=2056),
        2 => random.within(200..=959),
        3 => random.within(0..=LONGEST as usize) >> random.below(24),
        _ => random.within(2048..=LONGEST as usize),
    };
    cycles as u32
}

/// A duration that one byte holds, which is not zero.
fn some_units(random: &mut Random) -> u32 {
    let units = match random.below(5) {
        0 => random.pick(&[1, 254, 255]),
        _ => random.within(1..=255),
    };
    8 * units as u32
}

fn some_duration(random: &mut Random) -> u32 {
    match random.below(4) {
        0 => random.bits() as u32 >> random.below(32),
        1 => random.bits() as u32 & !7,
        _ => random.pick(&EDGES),
    }
}

fn written(run: &mut Run, random: &mut Random) {
    let version = some_version(random);
    let mut durations = sound_durations(random, version.min(1));
    if random.once_in(3) {
        for _ in 0..random.within(1..=2) {
            let i = random.below(durations.len() + 1);
            durations.insert(i, some_duration(random));
        }
    }
    let need = written_len(&durations, version);
    let room = random.room(need);
    let _ = run.write_tap(random, &durations, version, room);
}

/// The bytes of these durations, as far as they have a form.
fn written_len(durations: &[u32], version: u8) -> usize {
    let data = durations.iter().map(|duration| match duration {
        8..=2040 if duration % 8 == 0 => 1,
        _ if version == 0 => 1,
        _ => 4,
    });
    TAP_HEADER + data.sum::<usize>()
}

fn written_and_read(run: &mut Run, random: &mut Random) {
    let version = random.below(2) as u8;
    let durations = sound_durations(random, version);
    write_and_read(run, random, &durations, version);
}

/// Writes durations that all have a form, and answers what is read of them,
/// which is the same.
fn write_and_read(run: &mut Run, random: &mut Random, durations: &[u32], version: u8) -> Vec<u32> {
    let need = written_len(durations, version);
    let room = random.enough_room(need);
    let (length, file) = run
        .write_tap(random, durations, version, room)
        .expect("durations with a form are written");
    assert_eq!(length, need);
    let room = random.enough_room(durations.len());
    let (read, mut out) = run
        .read_tap(random, &file[..length], room)
        .expect("a written file is read");
    assert_eq!((read.version, read.count), (version, durations.len()));
    out.truncate(read.count);
    assert_eq!(out, durations);
    if version == 1 {
        run.count_remainders(durations);
    }
    out
}

/// The pulses of a program file.
fn a_program(run: &mut Run, random: &mut Random) {
    if !random.once_in(20) {
        return any_data(run, random);
    }
    let program = Program::random(random);
    let mut pulses = Vec::new();
    program.push(&mut pulses);
    let version = random.below(2) as u8;
    let need = TAP_HEADER + pulses.len();
    let (length, file) = run
        .write_tap(random, &pulses, version, need)
        .expect("written pulses have a form");
    let room = random.room(pulses.len());
    let _ = run.read_tap(random, &file[..length], room);
}

/// A program file as a tape gives it, each pulse moved by single cycles: the
/// file that is read from the TAP file is the one that was written.
fn a_drifted_program(run: &mut Run, random: &mut Random) {
    if !random.once_in(20) {
        return any_data(run, random);
    }
    let program = Program::random(random);
    let mut pulses = Vec::new();
    program.push(&mut pulses);
    drift(random, &mut pulses);
    let durations = write_and_read(run, random, &pulses, 1);
    let rooms = [HEADER, program.bytes.len()];
    let (read, [header, bytes]) = run
        .read_file(random, &durations, 0, rooms)
        .expect("a drifted file is read");
    assert_eq!(read.header, program.header);
    assert_eq!(header, program.header_bytes());
    assert_eq!(bytes, program.bytes);
}

fn any_data(run: &mut Run, random: &mut Random) {
    let count = some_count(random);
    let data = random.bytes(count);
    read_data(run, random, &data);
}

/// Data with many zero bytes, and some near the end.
fn zero_bytes(run: &mut Run, random: &mut Random) {
    let count = some_count(random);
    let mut data: Vec<u8> = (0..count).map(|_| random.pick(&[0, 0, 1, 255])).collect();
    if random.once_in(2) {
        let end: Vec<u8> = (0..8).map(|_| random.pick(&[0, 1, 2, 3])).collect();
        data.extend(end);
    }
    read_data(run, random, &data);
}

/// Reads data in a file with a sound header, with room around the need.
fn read_data(run: &mut Run, random: &mut Random, data: &[u8]) {
    let version = some_version(random);
    let file = file_of(data, version);
    let need = durations_in(data, version);
    let room = random.room(need);
    let _ = run.read_tap(random, &file, room);
}

/// The number of durations in these data, a cut one included.
fn durations_in(data: &[u8], version: u8) -> usize {
    let mut count = 0;
    let mut place = 0;
    while place < data.len() {
        let is_long = version == 1 && data[place] == 0;
        place += if is_long { 4 } else { 1 };
        count += 1;
    }
    count
}

fn sound_file(random: &mut Random) -> Vec<u8> {
    let version = random.below(2) as u8;
    let durations = sound_durations(random, version);
    let mut file = vec![0; written_len(&durations, version)];
    write_tap(&durations, version, &mut file).expect("durations with a form are written");
    file
}

fn header_changed(run: &mut Run, random: &mut Random) {
    let mut file = sound_file(random);
    for _ in 0..random.pick(&[1, 1, 2, 3]) {
        let i = match random.below(3) {
            0 => random.within(12..=15),
            _ => random.below(TAP_HEADER),
        };
        file[i] = match random.below(3) {
            0 => file[i].wrapping_add(1),
            1 => file[i].wrapping_sub(1),
            _ => random.byte(),
        };
    }
    let room = random.room(file.len());
    let _ = run.read_tap(random, &file, room);
}

/// A sound file with bytes off or on its end, the count as it was or adapted.
fn cut_or_longer(run: &mut Run, random: &mut Random) {
    let mut file = sound_file(random);
    let version = file[12];
    match random.below(3) {
        0 => file.truncate(random.below(file.len() + 1)),
        1 => file.truncate(file.len() - random.within(0..=3)),
        _ => {
            let more = random.within(1..=3);
            file.resize(file.len() + more, random.pick(&[0, 1]));
        }
    }
    if random.once_in(2) {
        set_header(&mut file, version);
    }
    let room = random.room(file.len());
    let _ = run.read_tap(random, &file, room);
}

fn any_bytes(run: &mut Run, random: &mut Random) {
    let length = random.below(60);
    let mut file = random.bytes(length);
    let letters = random.within(0..=12).min(length);
    file[..letters].copy_from_slice(&b"C64-TAPE-RAW"[..letters]);
    let room = random.room(length);
    let _ = run.read_tap(random, &file, room);
}

/// Several reasons to refuse at once.
fn all_at_once(run: &mut Run, random: &mut Random) {
    let version = some_version(random);
    let data: Vec<u8> = (0..random.below(12))
        .map(|_| random.pick(&[0, 1, 2]))
        .collect();
    let mut file = file_of(&data, version);
    for _ in 0..random.below(3) {
        match random.below(5) {
            0 => file[random.below(12)] ^= 0x20,
            1 => file[12] = random.pick(&[0, 1, 2, 255]),
            2 => file[random.within(13..=15)] = random.pick(&[0, 1, 255]),
            3 => file[random.within(16..=19)] = random.pick(&[0, 1, 255]),
            _ => file.push(0),
        }
    }
    let room = random.room(data.len());
    let _ = run.read_tap(random, &file, room);
}
