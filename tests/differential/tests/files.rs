//! The file writer and the file reader (document 01, "Headers and program
//! files" and "Damage"), with the causes of a lost place (document 02, Q-6).

use differential::compare::{Run, Scene, LOST_IN_COPY_ONE, LOST_IN_COPY_TWO};
use differential::random::Random;
use differential::reference::block::{block_len, TRAILER};
use differential::reference::byte::{write_byte, CAUSES};
use differential::reference::header::HEADER;
use differential::reference::pulse::SHORT;
use differential::reference::{Header, Refusal};
use differential::strip::{
    cut, damage, drift, first_lost, make_bad, patchwork, push_block, push_near_start, push_shorts,
    some_sources, spoil, wear_down, Placed, Program,
};

const ANSWERS: [(&str, &[(u32, u32)]); 2] = [
    (
        "write_file",
        &[(0, 0), (1, 0), (2, 0), (8, 0), (9, 0), (14, 0), (14, 1)],
    ),
    (
        "read_file",
        &[
            (0, 0),
            (2, 0),
            (3, 0),
            (4, 0),
            (5, 0),
            (6, 0),
            (7, 0),
            (8, 0),
            (9, 0),
            (3, 1),
            (4, 1),
            (5, 1),
            (6, 1),
            (7, 1),
        ],
    ),
];

const SCENES: [Scene; 15] = [
    ("written", written),
    ("sound", sound),
    ("within the damage", within_the_damage),
    ("worn", worn),
    ("header beyond the damage", spoiled_header),
    ("data beyond the damage", spoiled_data),
    ("data beyond the damage", spoiled_data),
    ("other header", other_header),
    ("cut", cut_short),
    ("shifted", shifted),
    ("between the blocks", between_the_blocks),
    ("starts around the header's end", starts_around_the_end),
    ("patchwork for data", patched),
    ("one after the other", one_after_the_other),
    ("all at once", all_at_once),
];

#[test]
fn files() {
    let mut run = Run::new("files");
    run.play(&SCENES);
    run.demand_every_cause(&[LOST_IN_COPY_ONE, LOST_IN_COPY_TWO]);
    run.finish(&ANSWERS);
}

/// Types, addresses, leaders and lengths at their edges, with each other.
#[test]
fn limits_of_the_writer() {
    let mut run = Run::new("limits of the file writer");
    let mut random = run.random();
    let bytes = random.bytes(65_535);
    let addresses: [(u16, u16); 12] = [
        (0, 0),
        (0, 1),
        (1, 0),
        (0x0801, 0x0811),
        (0, 8192),
        (0, 8193),
        (0, 65_535),
        (57_343, 65_535),
        (57_342, 65_535),
        (65_534, 65_535),
        (65_535, 65_535),
        (65_535, 0),
    ];
    for (start, end) in addresses {
        let n = usize::from(end.wrapping_sub(start));
        for kind in [0, 1, 2, 3, 4, 255] {
            for len in [n.saturating_sub(1), n, n + 1] {
                let header = Header { kind, start, end };
                let name = random.fitting_name();
                let bytes = &bytes[..len.min(65_535)];
                let room = 2 * block_len(64, HEADER.max(n.min(8192)));
                let _ = run.write_file(&mut random, header, &name, bytes, [64, 64], room);
            }
        }
    }
    let leaders = [0, 63, 64, 65_535, 65_536, (1 << 32) + 64, u64::MAX];
    let header = Header {
        kind: 3,
        start: 0xc000,
        end: 0xc003,
    };
    for leader0 in leaders {
        for leader1 in leaders {
            let need = block_len(leader0.min(65_535) as usize, HEADER)
                + block_len(leader1.min(65_535) as usize, 3);
            for room in [0, need - 1, need, need + 1] {
                for name_len in [187, 188] {
                    let name = random.name(name_len);
                    let leaders = [leader0, leader1];
                    let _ = run.write_file(&mut random, header, &name, &[1, 2, 3], leaders, room);
                }
            }
        }
    }
    run.finish(&ANSWERS[..1]);
}

/// The longest program, with rooms around what is needed.
#[test]
fn limits_of_the_reader() {
    let mut run = Run::new("limits of the file reader");
    let mut random = run.random();
    for n in [1, 8191, 8192] {
        let mut program = Program::random(&mut random);
        program.bytes = random.bytes(n);
        program.header.start = 0x4000;
        program.header.end = 0x4000 + n as u16;
        let mut pulses = Vec::new();
        let [head, data] = program.push(&mut pulses);
        for header_room in [0, 191, 192, 193] {
            for data_room in [0, n - 1, n, n + 1, 9000] {
                for length in [0, head.end(), data.end() - 1, data.end(), pulses.len()] {
                    let rooms = [header_room, data_room];
                    let _ = run.read_file(&mut random, &pulses[..length], 0, rooms);
                }
            }
        }
        for from in [pulses.len(), pulses.len() + 1, 1 << 32, usize::MAX] {
            let _ = run.read_file(&mut random, &pulses, from, [192, n]);
        }
    }
    run.finish(&[("read_file", &[(0, 0), (2, 0), (3, 0), (3, 1), (4, 1)])]);
}

/// Every type and telling addresses in a sound header.
#[test]
fn every_type() {
    let mut run = Run::new("types of a file");
    let mut random = run.random();
    let mut program = Program::random(&mut random);
    program.bytes = vec![1, 2, 3];
    for kind in 0..=255 {
        for (start, end) in [(5, 8), (5, 5), (5, 4), (5, 5 + 8193)] {
            program.header = Header { kind, start, end };
            let mut pulses = Vec::new();
            program.push(&mut pulses);
            for rooms in [[192, 3], [191, 3], [192, 2]] {
                let _ = run.read_file(&mut random, &pulses, 0, rooms);
            }
        }
    }
    run.finish(&[("read_file", &[(0, 0), (2, 0), (8, 0), (9, 0)])]);
}

/// Every two causes at some place of the header block and of the data block.
#[test]
fn every_two_causes() {
    let mut run = Run::new("causes of a file");
    let mut random = run.random();
    let mut sound = Vec::new();
    let blocks = Program::of(&mut random, vec![1, 2, 3]).push(&mut sound);
    for (number, block) in blocks.into_iter().enumerate() {
        for one in 0..CAUSES {
            for two in 0..CAUSES {
                let place = random.within(0..=block.n);
                let mut pulses = sound.clone();
                for (copy, cause) in [one, two].into_iter().enumerate() {
                    let frame = &mut pulses[block.frame(copy, 9 + place)];
                    make_bad(&mut random, frame, cause);
                }
                let answer = run.read_file(&mut random, &pulses, 0, [HEADER, 3]);
                assert_eq!(answer, Err(lost(number, place, [one, two])));
            }
        }
    }
    run.demand_every_cause(&[LOST_IN_COPY_ONE, LOST_IN_COPY_TWO]);
    run.finish(&[("read_file", &[(6, 0), (6, 1)])]);
}

/// The refusal for a lost place.
fn lost(block: usize, place: usize, causes: [usize; 2]) -> Refusal {
    Refusal {
        number: 6,
        block: block as u32,
        place,
        causes: causes.map(|cause| cause as u32),
    }
}

/// Bad bytes in both blocks whose causes are known, and so what the reader
/// answers. In half of the files the header is sound.
fn worn(run: &mut Run, random: &mut Random) {
    let program = Program::random(random);
    let mut pulses = Vec::new();
    let blocks = program.push(&mut pulses);
    let mut expected = Ok(program.bytes);
    let first = random.below(2);
    for (number, &block) in blocks.iter().enumerate().skip(first) {
        let sources = some_sources(random, block.n);
        let places = wear_down(random, &mut pulses, block, &sources);
        if let (Ok(_), Some((place, causes))) = (&expected, first_lost(&places)) {
            expected = Err(lost(number, place, causes));
        }
    }
    some_drift(random, &mut pulses);
    let n = blocks[1].n;
    let answer = run.read_file(random, &pulses, 0, [HEADER, n]);
    assert_eq!(answer.map(|(_, [_, data])| data), expected);
}

fn written(run: &mut Run, random: &mut Random) {
    let program = Program::random(random);
    let mut header = program.header;
    let mut name = program.name;
    let mut bytes = program.bytes;
    let mut leaders = program.leaders.map(|leader| leader as u64);
    for _ in 0..random.pick(&[0, 0, 1, 1, 2, 3]) {
        match random.below(6) {
            0 => {
                let len = random.within(186..=190);
                name = random.name(len);
            }
            1 => header.kind = some_type(random),
            2 => header = other_addresses(random, header),
            3 => {
                let len = bytes.len() + random.within(0..=2);
                bytes.resize(len.saturating_sub(1), 7);
            }
            _ => {
                let wrong = [0, 62, 63, 65_536, 70_000, (1 << 32) + 64, u64::MAX];
                leaders[random.below(2)] = random.pick(&wrong);
            }
        }
    }
    let [leader0, leader1] = leaders.map(|leader| leader.min(65_535) as usize);
    let need = block_len(leader0, HEADER) + block_len(leader1, bytes.len());
    let room = random.room(need);
    let _ = run.write_file(random, header, &name, &bytes, leaders, room);
}

/// A type: 0 to 7, or seldom any byte.
fn some_type(random: &mut Random) -> u8 {
    match random.below(4) {
        0 => random.byte(),
        _ => random.below(8) as u8,
    }
}

/// The header with another end, often a telling one.
fn other_addresses(random: &mut Random, header: Header) -> Header {
    let start = header.start;
    let n = header.end.wrapping_sub(start);
    let lengths = [
        0,
        1,
        n.wrapping_sub(1),
        n.wrapping_add(1),
        8191,
        8192,
        8193,
        65_535,
    ];
    let length = random.pick(&lengths);
    match random.below(5) {
        0 => Header {
            start: random.bits() as u16,
            end: random.bits() as u16,
            ..header
        },
        1 => Header {
            start: header.end,
            end: start,
            ..header
        },
        2 => Header {
            start: 0,
            end: length,
            ..header
        },
        _ => Header {
            end: start.wrapping_add(length),
            ..header
        },
    }
}

fn some_rooms(random: &mut Random, n: usize) -> [usize; 2] {
    match random.below(6) {
        0 => [random.room(HEADER), random.enough_room(n)],
        1 => [random.enough_room(HEADER), random.room(n)],
        _ => enough_rooms(random, n),
    }
}

fn enough_rooms(random: &mut Random, n: usize) -> [usize; 2] {
    [random.enough_room(HEADER), random.enough_room(n)]
}

fn some_drift(random: &mut Random, pulses: &mut [u32]) {
    if random.once_in(4) {
        drift(random, pulses);
    }
}

fn sound(run: &mut Run, random: &mut Random) {
    let program = Program::random(random);
    let mut pulses = Vec::new();
    program.push(&mut pulses);
    some_drift(random, &mut pulses);
    let rooms = some_rooms(random, program.bytes.len());
    let _ = run.read_file(random, &pulses, 0, rooms);
}

/// Demand 3: what the writer was lent comes back from any strip within the
/// damage, given enough room.
fn within_the_damage(run: &mut Run, random: &mut Random) {
    let program = Program::random(random);
    let n = program.bytes.len();
    let [leader0, leader1] = program.leaders;
    let head = Placed {
        at: 0,
        leader: leader0,
        n: HEADER,
    };
    let data = Placed {
        at: head.after(),
        leader: leader1,
        n,
    };
    let leaders = program.leaders.map(|leader| leader as u64);
    let (count, mut pulses) = run
        .write_file(
            random,
            program.header,
            &program.name,
            &program.bytes,
            leaders,
            data.after(),
        )
        .expect("a sound file is written");
    assert_eq!(count, pulses.len());
    damage(random, &mut pulses, head);
    damage(random, &mut pulses, data);
    drift(random, &mut pulses);
    let rooms = enough_rooms(random, n);
    let (read, [header_out, data_out]) = run
        .read_file(random, &pulses, 0, rooms)
        .expect("a file within the damage is read");
    let mut name = program.name;
    name.resize(HEADER - 5, b' ');
    assert_eq!(read.header, program.header);
    assert_eq!(read.stop, pulses.len() - TRAILER);
    assert_eq!(header_out[5..HEADER], name);
    assert_eq!(data_out[..n], program.bytes);
}

fn spoiled_header(run: &mut Run, random: &mut Random) {
    let program = Program::random(random);
    let mut pulses = Vec::new();
    let [head, _] = program.push(&mut pulses);
    some_drift(random, &mut pulses);
    for _ in 0..random.within(1..=2) {
        spoil(random, &mut pulses, head);
    }
    let rooms = enough_rooms(random, program.bytes.len());
    let _ = run.read_file(random, &pulses, 0, rooms);
}

fn spoiled_data(run: &mut Run, random: &mut Random) {
    let program = Program::random(random);
    let mut pulses = Vec::new();
    let [head, data] = program.push(&mut pulses);
    if random.once_in(2) {
        damage(random, &mut pulses, head);
    }
    some_drift(random, &mut pulses);
    for _ in 0..random.within(1..=2) {
        spoil(random, &mut pulses, data);
    }
    let rooms = enough_rooms(random, program.bytes.len());
    let _ = run.read_file(random, &pulses, 0, rooms);
}

/// A sound header block that says something else than the data block.
fn other_header(run: &mut Run, random: &mut Random) {
    let mut program = Program::random(random);
    if random.once_in(2) {
        program.header.kind = some_type(random);
    }
    if random.once_in(2) {
        program.header = other_addresses(random, program.header);
    }
    let mut pulses = Vec::new();
    let [_, data] = program.push(&mut pulses);
    if random.once_in(4) {
        spoil(random, &mut pulses, data);
    }
    let length = usize::from(program.header.end.wrapping_sub(program.header.start));
    let rooms = some_rooms(random, length.min(8192));
    let _ = run.read_file(random, &pulses, 0, rooms);
}

fn cut_short(run: &mut Run, random: &mut Random) {
    let program = Program::random(random);
    let mut pulses = Vec::new();
    let blocks = program.push(&mut pulses);
    let block = random.pick(&blocks);
    cut(random, &mut pulses, &block);
    let rooms = some_rooms(random, program.bytes.len());
    let _ = run.read_file(random, &pulses, 0, rooms);
}

/// Extra pulses in front, and any place to start from.
fn shifted(run: &mut Run, random: &mut Random) {
    let program = Program::random(random);
    let mut pulses = Vec::new();
    for _ in 0..random.below(3) {
        push_near_start(random, &mut pulses);
    }
    let [head, data] = program.push(&mut pulses);
    let from = match random.below(5) {
        0 => random.below(pulses.len() + 2),
        1 => random.pick(&[pulses.len(), pulses.len() + 1, 1 << 32, usize::MAX]),
        2 => data.at,
        _ => head.start() - random.within(14..=18),
    };
    let rooms = enough_rooms(random, program.bytes.len());
    let _ = run.read_file(random, &pulses, from, rooms);
}

/// Something else between the header block and the data block.
fn between_the_blocks(run: &mut Run, random: &mut Random) {
    let program = Program::random(random);
    let mut pulses = Vec::new();
    push_block(&mut pulses, &program.header_bytes(), program.leaders[0]);
    match random.below(4) {
        0 => push_near_start(random, &mut pulses),
        1 => pulses.extend((0..random.within(1..=60)).map(|_| random.any_pulse())),
        2 => {
            let kept = pulses.len() - random.below(TRAILER + 1);
            pulses.truncate(kept);
        }
        _ => {
            let other = random.bytes(3);
            push_block(&mut pulses, &other, 64);
        }
    }
    let data = push_block(&mut pulses, &program.bytes, program.leaders[1]);
    if random.once_in(2) {
        let kept = random.within(14..=18);
        pulses.drain(data.at..data.start() - kept);
    }
    let rooms = enough_rooms(random, program.bytes.len());
    let _ = run.read_file(random, &pulses, 0, rooms);
}

/// A start before the header's end, and short pulses across it: the data
/// block is searched at or after the end.
fn starts_around_the_end(run: &mut Run, random: &mut Random) {
    let program = Program::random(random);
    let mut pulses = Vec::new();
    let head = push_block(&mut pulses, &program.header_bytes(), program.leaders[0]);
    if random.once_in(2) {
        pulses[head.frame(1, 0)].copy_from_slice(&write_byte(0x89));
    }
    let shorts = random.within(14..=18);
    let before = random.below(4);
    let end = head.end();
    pulses[end - before..end].fill(SHORT);
    pulses.truncate(end);
    push_shorts(&mut pulses, shorts - before);
    let data = push_block(&mut pulses, &program.bytes, program.leaders[1]);
    pulses.drain(data.at..data.start());
    let rooms = enough_rooms(random, program.bytes.len());
    let _ = run.read_file(random, &pulses, 0, rooms);
}

/// A sound header block, then a patchwork.
fn patched(run: &mut Run, random: &mut Random) {
    let mut program = Program::random(random);
    program.header.start = 0x1000;
    program.header.end = 0x1000 + random.within(1..=4) as u16;
    let mut pulses = Vec::new();
    if random.once_in(10) {
        pulses = patchwork(random);
    }
    push_block(&mut pulses, &program.header_bytes(), 64);
    for _ in 0..4 {
        pulses.extend(patchwork(random));
    }
    let rooms = enough_rooms(random, 4);
    let _ = run.read_file(random, &pulses, 0, rooms);
}

/// Two files, the first of them perhaps spoiled, read from any end.
fn one_after_the_other(run: &mut Run, random: &mut Random) {
    let programs = [Program::random(random), Program::random(random)];
    let mut pulses = Vec::new();
    let blocks: Vec<Placed> = programs
        .iter()
        .flat_map(|program| program.push(&mut pulses))
        .collect();
    if random.once_in(2) {
        let block = random.pick(&blocks);
        spoil(random, &mut pulses, block);
    }
    let from = random.pick(&[0, blocks[0].end(), blocks[1].end(), blocks[2].end()]);
    let rooms = enough_rooms(random, 8192);
    let _ = run.read_file(random, &pulses, from, rooms);
}

/// Several reasons to refuse at once.
fn all_at_once(run: &mut Run, random: &mut Random) {
    let mut program = Program::random(random);
    let n = program.bytes.len();
    if random.once_in(3) {
        program.header.kind = some_type(random);
    }
    if random.once_in(3) {
        program.header = other_addresses(random, program.header);
    }
    let mut pulses = Vec::new();
    let blocks = program.push(&mut pulses);
    for _ in 0..random.within(0..=4) {
        let block = random.pick(&[blocks[0], blocks[1], blocks[1], blocks[1]]);
        spoil(random, &mut pulses, block);
    }
    let rooms = [random.room(HEADER), random.room(n)];
    let _ = run.read_file(random, &pulses, 0, rooms);
}
