//! The block writer and the block reader (document 01, "Blocks" and "Reading
//! a block"), with the causes of a lost place (document 02, Q-6).

use differential::compare::{Run, Scene, LOST_IN_COPY_ONE, LOST_IN_COPY_TWO};
use differential::random::Random;
use differential::reference::block::{block_len, SHORTS_BEFORE};
use differential::reference::byte::CAUSES;
use differential::reference::Refusal;
use differential::strip::{
    cut, damage, drift, first_lost, hit, make_bad, patchwork, places_to_spoil, push_block,
    push_byte, push_near_start, push_shorts, some_sources, spoil, wear_down, Placed,
};
use differential::thresholds::FIXED;

const ANSWERS: [(&str, &[(u32, u32)]); 2] = [
    ("write_block", &[(0, 0), (1, 0), (2, 0), (14, 0)]),
    (
        "read_block",
        &[
            (0, 0),
            (1, 0),
            (2, 0),
            (3, 0),
            (4, 0),
            (5, 0),
            (6, 0),
            (7, 0),
        ],
    ),
];

const SCENES: [Scene; 14] = [
    ("written", written),
    ("sound", sound),
    ("within the damage", within_the_damage),
    ("bad bytes in copy one", bad_in_copy_one),
    ("worn", worn),
    ("beyond the damage", beyond_the_damage),
    ("beyond the damage", beyond_the_damage),
    ("cut", cut_short),
    ("shifted", shifted),
    ("one after the other", one_after_the_other),
    ("near starts", near_starts),
    ("patchwork", patched),
    ("edge pulses", edge_pulses),
    ("all at once", all_at_once),
];

#[test]
fn blocks() {
    let mut run = Run::new("blocks");
    run.play(&SCENES);
    run.demand_every_cause(&[LOST_IN_COPY_ONE, LOST_IN_COPY_TWO]);
    run.finish(&ANSWERS);
}

#[test]
fn limits_of_the_writer() {
    let mut run = Run::new("limits of the block writer");
    let mut random = run.random();
    let bytes = random.bytes(8200);
    let leaders = [
        0,
        1,
        63,
        64,
        65,
        65_534,
        65_535,
        65_536,
        (1 << 32) + 64,
        1 << 63,
        u64::MAX,
    ];
    for n in [0, 1, 2, 192, 8191, 8192, 8193, 8200] {
        for leader in leaders {
            let need = block_len(leader.min(65_535) as usize, n);
            for room in [0, 1, need - 1, need, need + 1] {
                let _ = run.write_block(&mut random, &bytes[..n], leader, room);
            }
        }
    }
    run.finish(&ANSWERS[..1]);
}

#[test]
fn limits_of_the_reader() {
    let mut run = Run::new("limits of the block reader");
    let mut random = run.random();
    for n in [1, 2, 8191, 8192] {
        let mut pulses = Vec::new();
        let bytes = random.bytes(n);
        let block = push_block(&mut pulses, &bytes, 64);
        let froms = [
            0,
            48,
            49,
            block.start(),
            pulses.len() - 1,
            pulses.len(),
            pulses.len() + 1,
            1 << 32,
            (1 << 62) - 1,
            1 << 63,
            usize::MAX - 20,
            usize::MAX - 16,
            usize::MAX - 15,
            usize::MAX,
        ];
        for from in froms {
            for asked in lengths_around(n) {
                for room in [0, n - 1, n, n + 1, 8193] {
                    let _ = run.read_block(&mut random, &pulses, from, asked, room);
                }
            }
        }
        let _ = run.read_block(&mut random, &pulses[..block.end() - 1], 0, n, n);
        for copy in [0, 1] {
            pulses[block.frame(copy, n + 9)].fill(0);
        }
        let _ = run.read_block(&mut random, &pulses, 0, n, n);
        for copy in [0, 1] {
            pulses[block.frame(copy, 8)].fill(0);
        }
        let _ = run.read_block(&mut random, &pulses, 0, n, n);
    }
    run.finish(&ANSWERS[1..]);
}

/// Payload lengths to ask for where `n` was written.
fn lengths_around(n: usize) -> [usize; 10] {
    [
        0,
        n - 1,
        n,
        n + 1,
        8193,
        (1 << 32) + n,
        (1 << 60) + n,
        usize::MAX / 20,
        usize::MAX - 9,
        usize::MAX,
    ]
}

/// Copy one is bad over a run of places and copy two at all others. The run ends
/// around multiples of sixteen, and it may have no place or every one.
#[test]
fn runs_of_bad_bytes() {
    let mut run = Run::new("runs of bad bytes");
    let mut random = run.random();
    for n in [1, 2, 15, 16, 17, 31, 32, 33, 127, 128, 129, 192, 8191, 8192] {
        let payload = random.bytes(n);
        let mut written = Vec::new();
        let block = push_block(&mut written, &payload, 64);
        let ends = [0, 1, 15, 16, 17, 32, n / 2, n - 1, n, n + 1];
        for from in ends {
            for to in ends {
                let mut pulses = written.clone();
                for place in 0..=n {
                    let sound = usize::from((from..to).contains(&place));
                    hit(
                        &mut random,
                        &mut pulses[block.frame(1 - sound, 9 + place)],
                        1,
                    );
                }
                let answer = run.read_block(&mut random, &pulses, 0, n, n);
                assert_eq!(answer.map(|(_, out)| out), Ok(payload.clone()));
            }
        }
    }
    run.finish(&[("read_block", &[(0, 0)])]);
}

/// Every cut of a short block, and every place to start from.
#[test]
fn every_cut_and_every_place() {
    let mut run = Run::new("cuts of a block");
    let mut random = run.random();
    let mut pulses = Vec::new();
    push_block(&mut pulses, &[0x41, 0x42], 64);
    for length in 0..=pulses.len() {
        let _ = run.read_block(&mut random, &pulses[..length], 0, 2, 2);
    }
    for from in 0..=pulses.len() + 1 {
        let _ = run.read_block(&mut random, &pulses, from, 2, 3);
    }
    run.finish(&[("read_block", &[(0, 0), (3, 0), (4, 0)])]);
}

/// Every pulse of a short block at every edge, in one copy and in both.
#[test]
fn every_pulse_changed() {
    let mut run = Run::new("changes of a block");
    let mut random = run.random();
    let mut pulses = Vec::new();
    let block = push_block(&mut pulses, &[0x41], 64);
    for i in 0..pulses.len() {
        for pulse in FIXED.edges() {
            let mut changed = pulses.clone();
            changed[i] = pulse;
            let _ = run.read_block(&mut random, &changed, 0, 1, 2);
            let twin = i + block.copy(1) - block.copy(0);
            if block.start() <= i && twin < block.end() {
                changed[twin] = pulse;
                let _ = run.read_block(&mut random, &changed, 0, 1, 2);
            }
        }
    }
    run.finish(&[("read_block", &[(0, 0), (3, 0), (5, 0), (6, 0)])]);
}

/// Every pair of bits turned round at every place of each copy.
#[test]
fn every_two_bits_turned_round() {
    let mut run = Run::new("turned bits of a block");
    let mut random = run.random();
    let mut pulses = Vec::new();
    let block = push_block(&mut pulses, &[0x41, 0x12], 64);
    for copy in 0..2 {
        for place in 0..block.byte_places() {
            for one in 0..9 {
                for two in one + 1..9 {
                    let mut turned = pulses.clone();
                    let frame = &mut turned[block.frame(copy, place)];
                    frame.swap(2 + 2 * one, 3 + 2 * one);
                    frame.swap(2 + 2 * two, 3 + 2 * two);
                    let _ = run.read_block(&mut random, &turned, 0, 2, 2);
                }
            }
        }
    }
    run.finish(&[("read_block", &[(0, 0), (3, 0), (7, 0)])]);
}

/// Every payload byte, sound and with each bit turned round in one copy or both.
#[test]
fn every_value() {
    let mut run = Run::new("values of a byte");
    let mut random = run.random();
    for value in 0..=255 {
        let mut pulses = Vec::new();
        let block = push_block(&mut pulses, &[value], 64);
        let _ = run.read_block(&mut random, &pulses, 0, 1, 1);
        for bit in 0..9 {
            let mut turned = pulses.clone();
            for copy in 0..2 {
                turned[block.frame(copy, 9)].swap(2 + 2 * bit, 3 + 2 * bit);
                let _ = run.read_block(&mut random, &turned, 0, 1, 1);
            }
        }
    }
    run.finish(&[("read_block", &[(0, 0), (6, 0)])]);
}

/// Every two causes at each place, with a place before it that is bad in one copy
/// and one after it that is lost by other causes.
#[test]
fn every_two_causes() {
    let mut run = Run::new("causes of a block");
    let mut random = run.random();
    let n = 4;
    let mut sound = Vec::new();
    let block = push_block(&mut sound, &[1, 2, 3, 4], 64);
    for place in 0..=n {
        for one in 0..CAUSES {
            for two in 0..CAUSES {
                let mut pulses = sound.clone();
                let mut bad = |copy, place: usize, cause| {
                    make_bad(
                        &mut random,
                        &mut pulses[block.frame(copy, 9 + place)],
                        cause,
                    );
                };
                bad(0, place, one);
                bad(1, place, two);
                if place > 0 {
                    bad(one % 2, place - 1, (one + 1) % CAUSES);
                }
                if place < n {
                    bad(0, place + 1, (one + 2) % CAUSES);
                    bad(1, place + 1, (two + 3) % CAUSES);
                }
                let answer = run.read_block(&mut random, &pulses, 0, n, n);
                assert_eq!(answer, Err(lost(place, [one, two])));
            }
        }
    }
    run.demand_every_cause(&[LOST_IN_COPY_ONE, LOST_IN_COPY_TWO]);
    run.finish(&[("read_block", &[(6, 0)])]);
}

/// The refusal for a lost place.
fn lost(place: usize, causes: [usize; 2]) -> Refusal {
    Refusal {
        number: 6,
        block: 0,
        place,
        causes: causes.map(|cause| cause as u32),
    }
}

/// Bad bytes whose causes are known, and so what the reader answers.
fn worn(run: &mut Run, random: &mut Random) {
    let mut pulses = Vec::new();
    let (block, payload) = placed_block(random, &mut pulses);
    let sources = some_sources(random, block.n);
    let places = wear_down(random, &mut pulses, block, &sources);
    if random.once_in(2) {
        drift(random, &mut pulses);
    }
    let expected = match first_lost(&places) {
        Some((place, causes)) => Err(lost(place, causes)),
        None => Ok(payload),
    };
    let answer = run.read_block(random, &pulses, block.at, block.n, block.n);
    assert_eq!(answer.map(|(_, out)| out), expected);
}

fn written(run: &mut Run, random: &mut Random) {
    let payload = match random.below(12) {
        0 => Vec::new(),
        1 if random.once_in(8) => random.bytes(8193),
        _ => random.payload(),
    };
    let leader = match random.below(12) {
        0 => random.pick(&[0, 1, 62, 63, 65_536, 65_537, (1 << 32) + 64, u64::MAX]),
        1 => random.below(64) as u64,
        _ => random.leader() as u64,
    };
    let need = block_len(leader.min(65_535) as usize, payload.len());
    let room = random.room(need);
    let _ = run.write_block(random, &payload, leader, room);
}

/// Extra pulses, then a sound block.
fn placed_block(random: &mut Random, pulses: &mut Vec<u32>) -> (Placed, Vec<u8>) {
    let extra = random.pick(&[0, 0, 1, 5, 30]);
    pulses.extend((0..extra).map(|_| random.any_pulse()));
    let payload = random.payload();
    let leader = random.leader();
    (push_block(pulses, &payload, leader), payload)
}

fn sound(run: &mut Run, random: &mut Random) {
    let mut pulses = Vec::new();
    let (block, payload) = placed_block(random, &mut pulses);
    if random.once_in(2) {
        drift(random, &mut pulses);
    }
    let from = block.at + random.below(block.leader - SHORTS_BEFORE + 1);
    let room = random.room(block.n);
    let answer = run.read_block(random, &pulses, from, block.n, room);
    if room >= block.n {
        let (read, out) = answer.expect("a sound block is read");
        assert_eq!((read.start, read.end), (block.start(), block.end()));
        assert_eq!(out[..block.n], payload);
    }
}

fn within_the_damage(run: &mut Run, random: &mut Random) {
    let mut pulses = Vec::new();
    let payload = random.payload();
    let leader = random.leader();
    let block = push_block(&mut pulses, &payload, leader);
    damage(random, &mut pulses, block);
    drift(random, &mut pulses);
    let room = random.enough_room(block.n);
    let answer = run.read_block(random, &pulses, 0, block.n, room);
    let (read, out) = answer.expect("a block within the damage is read");
    assert_eq!((read.start, read.end), (block.start(), block.end()));
    assert_eq!(out[..block.n], payload);
}

/// Few bytes, some or all of copy one bad, and now and then one of the same
/// places in copy two.
fn bad_in_copy_one(run: &mut Run, random: &mut Random) {
    let mut pulses = Vec::new();
    let n = match random.below(50) {
        0 => random.within(8000..=8192),
        _ => random.within(100..=400),
    };
    let payload = random.bytes(n);
    let block = push_block(&mut pulses, &payload, 64);
    let percent = random.pick(&[1, 10, 100]);
    let places = places_to_spoil(random, block, percent);
    for &place in &places {
        hit(random, &mut pulses[block.frame(0, place)], 1);
    }
    drift(random, &mut pulses);
    let lost = random.once_in(4);
    if lost {
        let place = random.pick(&places);
        hit(random, &mut pulses[block.frame(1, place)], 1);
    }
    let answer = run.read_block(random, &pulses, 0, n, n);
    assert_eq!(answer.ok().map(|(_, out)| out), (!lost).then_some(payload));
}

fn beyond_the_damage(run: &mut Run, random: &mut Random) {
    let mut pulses = Vec::new();
    let (block, _) = placed_block(random, &mut pulses);
    if random.once_in(3) {
        drift(random, &mut pulses);
    }
    for _ in 0..random.within(1..=3) {
        spoil(random, &mut pulses, block);
    }
    let room = random.enough_room(block.n);
    let _ = run.read_block(random, &pulses, 0, block.n, room);
}

fn cut_short(run: &mut Run, random: &mut Random) {
    let mut pulses = Vec::new();
    let (block, _) = placed_block(random, &mut pulses);
    cut(random, &mut pulses, &block);
    let room = random.room(block.n);
    let from = random.pick(&[0, 0, block.at, pulses.len()]);
    let _ = run.read_block(random, &pulses, from, block.n, room);
}

/// A place to start from, often a telling one.
fn some_from(random: &mut Random, block: &Placed, length: usize) -> usize {
    match random.below(4) {
        0 => random.below(length + 3),
        1 => random.pick(&[length, length + 1, 1 << 32, usize::MAX, usize::MAX - 16]),
        _ => block.start() - random.within(14..=18),
    }
}

fn shifted(run: &mut Run, random: &mut Random) {
    let mut pulses = Vec::new();
    for _ in 0..random.below(3) {
        push_near_start(random, &mut pulses);
    }
    let (block, _) = placed_block(random, &mut pulses);
    let from = some_from(random, &block, pulses.len());
    let room = random.enough_room(block.n);
    let _ = run.read_block(random, &pulses, from, block.n, room);
}

/// Several blocks, read with the length of one of them.
fn one_after_the_other(run: &mut Run, random: &mut Random) {
    let mut pulses = Vec::new();
    let blocks: Vec<Placed> = (0..random.within(2..=4))
        .map(|_| placed_block(random, &mut pulses).0)
        .collect();
    if random.once_in(2) {
        let spoiled = random.pick(&blocks);
        spoil(random, &mut pulses, spoiled);
    }
    let block = random.pick(&blocks);
    let asked = match random.below(8) {
        0 => random.pick(&blocks).n,
        1 => (block.n + random.below(3)).clamp(2, 8193) - 1,
        _ => block.n,
    };
    let from = match random.below(4) {
        0 => 0,
        1 => random.below(pulses.len()),
        2 => random.pick(&blocks).end(),
        _ => block.at,
    };
    let room = random.enough_room(asked);
    let _ = run.read_block(random, &pulses, from, asked, room);
}

/// Things that are nearly a start, then a block with few short pulses before it.
fn near_starts(run: &mut Run, random: &mut Random) {
    let mut pulses = Vec::new();
    for _ in 0..random.below(4) {
        push_near_start(random, &mut pulses);
    }
    let (block, _) = placed_block(random, &mut pulses);
    let kept = random.within(14..=18);
    let lead = block.at..block.start() - kept;
    match random.below(3) {
        0 => pulses[lead].fill(520),
        1 => pulses[lead.end - 1] = random.pick(&[199, 440, 608, 960]),
        _ => {
            pulses.drain(lead);
        }
    }
    let room = random.enough_room(block.n);
    let from = random.pick(&[0, 0, 0, 1, 2, 16]);
    let _ = run.read_block(random, &pulses, from, block.n, room);
}

fn patched(run: &mut Run, random: &mut Random) {
    let mut pulses = patchwork(random);
    if random.once_in(2) {
        push_shorts(&mut pulses, 16);
        push_byte(&mut pulses, 0x89);
        pulses.extend(patchwork(random));
        pulses.extend(patchwork(random));
    }
    let n = random.within(1..=3);
    let from = random.pick(&[0, 0, 1, 7, pulses.len() / 2]);
    let room = random.enough_room(n);
    let _ = run.read_block(random, &pulses, from, n, room);
}

fn edge_pulses(run: &mut Run, random: &mut Random) {
    let pulses: Vec<u32> = (0..random.below(900))
        .map(|_| random.edge_pulse())
        .collect();
    let n = random.pick(&[1, 1, 2, 5]);
    let from = random.pick(&[0, 0, 1, pulses.len()]);
    let room = random.room(n);
    let _ = run.read_block(random, &pulses, from, n, room);
}

/// Several reasons to refuse at once.
fn all_at_once(run: &mut Run, random: &mut Random) {
    let mut pulses = Vec::new();
    let (block, _) = placed_block(random, &mut pulses);
    for _ in 0..random.within(2..=8) {
        spoil(random, &mut pulses, block);
    }
    let asked = match random.below(6) {
        0 => random.pick(&[0, 8193, 1 << 32, (1 << 32) + block.n, usize::MAX]),
        _ => block.n,
    };
    let room = random.room(block.n);
    let from = random.pick(&[0, 0, 0, block.at, usize::MAX]);
    let _ = run.read_block(random, &pulses, from, asked, room);
}
