//! Byte reading with thresholds of any kind and with the fixed ones, by the
//! loops of the crate `bench`; and the byte at a place of a strip, with the cause
//! of a bad one (document 02, Q-6).

use differential::compare::{Run, Scene, BYTES_READ};
use differential::random::Random;
use differential::readers::read_bytes;
use differential::reference::byte::{write_byte, CAUSES, PULSES};
use differential::reference::pulse::Class;
use differential::strip::{drift, hit, make_bad, patchwork};
use differential::thresholds::{Thresholds, FIXED};

const ANSWERS: [(&str, &[(u32, u32)]); 4] = [
    ("read_bytes", &[(0, 0)]),
    ("read_bytes, none good", &[(0, 0)]),
    ("read_fixed", &[(0, 0)]),
    ("read_fixed, none good", &[(0, 0)]),
];

const BYTES: [(&str, &[(u32, u32)]); 2] = [("read_byte", &[(0, 0)]), BAD];
const BAD: (&str, &[(u32, u32)]) = ("read_byte, bad", &[(0, 0)]);

/// Pulses at the edges of the classes, with the letter of their class.
const LETTERS: [(u32, char); 10] = [
    (0, 'N'),
    (199, 'N'),
    (200, 'S'),
    (439, 'S'),
    (440, 'M'),
    (607, 'M'),
    (608, 'L'),
    (959, 'L'),
    (960, 'N'),
    (u32::MAX, 'N'),
];

/// Pairs that are wrong wherever they stand.
const WRONG_PAIRS: [[u32; 2]; 8] = [
    [0, 0],
    [960, 520],
    [520, 199],
    [360, 360],
    [520, 520],
    [688, 688],
    [520, 688],
    [688, 360],
];

const SCENES: [Scene; 6] = [
    ("sound", sound),
    ("sound", sound),
    ("sound", sound),
    ("a pulse at each edge", at_each_edge),
    ("bad bytes", bad_bytes),
    ("edge pulses", edge_pulses),
];

const PLACE_SCENES: [Scene; 9] = [
    ("sound", sound_at),
    ("bad by a cause", bad_by_a_cause),
    ("bad by a cause", bad_by_a_cause),
    ("hit", hit_at),
    ("bits turned round", turned_at),
    ("cut", cut_at),
    ("any pulses", any_at),
    ("edge pulses", edges_at),
    ("places of a patchwork", patched_at),
];

#[test]
fn bytes() {
    let mut run = Run::new("bytes");
    run.play(&SCENES);
    run.finish(&ANSWERS);
}

#[test]
fn bytes_at_places() {
    let mut run = Run::new("bytes at places");
    run.play(&PLACE_SCENES);
    run.demand_every_cause(&[BYTES_READ]);
    run.finish(&BYTES);
}

/// Every value, with every pair of pulses at the edges of the classes in place of
/// each pair.
#[test]
fn every_value_and_every_pair() {
    let mut run = Run::new("pairs of a byte");
    for value in 0..=255u8 {
        for pair in 0..10 {
            for (first, one) in LETTERS {
                for (second, two) in LETTERS {
                    let mut frame = write_byte(value);
                    frame[2 * pair] = first;
                    frame[2 * pair + 1] = second;
                    let expected = match (pair, one, two) {
                        (0, 'L', 'M') => Ok(value),
                        (1..=9, 'S', 'M') if written_bit(value, pair) == 0 => Ok(value),
                        (1..=9, 'M', 'S') if written_bit(value, pair) == 1 => Ok(value),
                        (1..=9, 'S', 'M') | (1..=9, 'M', 'S') => Err(10),
                        _ => Err(pair),
                    };
                    assert_eq!(run.read_byte(&frame, 0), expected);
                }
            }
        }
    }
    run.demand_every_cause(&[BYTES_READ]);
    run.finish(&BYTES);
}

/// The bit that pair 1 to 9 of a byte has: eight of the value, and the parity
/// bit, which makes the number of ones odd.
fn written_bit(value: u8, pair: usize) -> u32 {
    match pair {
        9 => 1 - value.count_ones() % 2,
        _ => u32::from(value) >> (pair - 1) & 1,
    }
}

/// Every set of wrong pairs, also with the number of ones even. The first wrong
/// pair is the cause.
#[test]
fn every_set_of_wrong_pairs() {
    let mut run = Run::new("sets of wrong pairs");
    for set in 1..1 << 10 {
        let is_wrong = |&pair: &usize| set >> pair & 1 == 1;
        let first = (0..10).find(is_wrong).expect("a pair is wrong");
        for value in [0x00, 0x41, 0x89, 0xff] {
            for wrong in WRONG_PAIRS {
                let turned = turn_bits(write_byte(value), 1 << (set % 9));
                for mut frame in [write_byte(value), turned] {
                    for pair in (0..10).filter(is_wrong) {
                        frame[2 * pair..][..2].copy_from_slice(&wrong);
                    }
                    assert_eq!(run.read_byte(&frame, 0), Err(first));
                }
            }
        }
    }
    run.finish(&[BAD]);
}

/// Every value with every set of its nine bits turned round.
#[test]
fn every_set_of_turned_bits() {
    let mut run = Run::new("sets of turned bits");
    for value in 0..=255u8 {
        for set in 0..1u32 << 9 {
            let frame = turn_bits(write_byte(value), set);
            let expected = match set.count_ones() % 2 {
                0 => Ok(value ^ set as u8),
                _ => Err(10),
            };
            assert_eq!(run.read_byte(&frame, 0), expected);
        }
    }
    run.finish(&BYTES);
}

/// Turns a set of the nine bits round.
fn turn_bits(mut frame: [u32; PULSES], set: u32) -> [u32; PULSES] {
    for bit in (0..9).filter(|bit| set >> bit & 1 == 1) {
        frame.swap(2 + 2 * bit, 3 + 2 * bit);
    }
    frame
}

/// Every value cut after 0 to 19 pulses, sound as far as it goes, with the number
/// of ones even, and with each pair wrong. The rest of the byte lies behind the
/// strip's end.
#[test]
fn every_cut() {
    let mut run = Run::new("cuts of a byte");
    for value in 0..=255u8 {
        let sound = write_byte(value);
        let turned = turn_bits(sound, 1 << (value % 9));
        for length in 0..20 {
            for frame in [sound, turned] {
                let first_cut = length / 2;
                assert_eq!(run.read_byte(&frame[..length], 0), Err(first_cut));
                for pair in 0..10 {
                    let mut frame = frame;
                    frame[2 * pair] = 0;
                    let first = pair.min(first_cut);
                    assert_eq!(run.read_byte(&frame[..length], 0), Err(first));
                }
            }
        }
    }
    run.finish(&[BAD]);
}

/// Two bytes behind other pulses, the second one cut, and every place.
#[test]
fn every_place() {
    let mut run = Run::new("places of a byte");
    for before in [0, 1, 7, 20] {
        let mut pulses = vec![520; before];
        pulses.extend(write_byte(0x41));
        pulses.extend(write_byte(0x42));
        for length in before..=pulses.len() {
            let strip = &pulses[..length];
            for (at, value) in [(before, 0x41), (before + 20, 0x42)] {
                let answer = run.read_byte(strip, at);
                let expected = match length.saturating_sub(at) {
                    20.. => Ok(value),
                    cut => Err(cut / 2),
                };
                assert_eq!(answer, expected);
            }
            for at in 0..length {
                let _ = run.read_byte(strip, at);
            }
            for at in places_past(length) {
                assert_eq!(run.read_byte(strip, at), Err(0));
            }
        }
    }
    run.finish(&BYTES);
}

/// Places at and past the end of a strip.
fn places_past(length: usize) -> [usize; 14] {
    [
        length,
        length + 1,
        length + 19,
        length + 20,
        1 << 32,
        (1 << 32) + 20,
        1 << 61,
        1 << 62,
        (1 << 62) + 20,
        1 << 63,
        usize::MAX - 20,
        usize::MAX - 19,
        usize::MAX - 1,
        usize::MAX,
    ]
}

/// Every value with every pulse at every edge of the fixed thresholds.
#[test]
fn every_value_and_every_edge() {
    let mut run = Run::new("values and edges of a byte");
    for value in 0..=255 {
        for i in 0..PULSES {
            for edge in FIXED.edges() {
                let mut frame = write_byte(value);
                frame[i] = edge;
                run.read_bytes(FIXED, &frame);
                run.read_fixed(&frame);
            }
        }
    }
    run.finish(&ANSWERS);
}

/// Thresholds in every order, equal ones among them, and bytes whose marker,
/// short and medium pulses are any of the same numbers.
#[test]
fn every_order_of_thresholds() {
    const NUMBERS: [u32; 5] = [0, 200, 440, 960, u32::MAX];
    let fours: Vec<[u32; 4]> = (0..625)
        .map(|i| [i / 125, i / 25 % 5, i / 5 % 5, i % 5].map(|digit| NUMBERS[digit]))
        .collect();
    let mut good = 0;
    for &[first, second, short, medium] in &fours {
        let mut pulses = write_byte(0x89).map(|pulse| match Class::of(pulse) {
            Class::Short => short,
            _ => medium,
        });
        [pulses[0], pulses[1]] = [first, second];
        for &four in &fours {
            let expected = Thresholds(four).tally(&pulses);
            assert_eq!(read_bytes(&pulses, four), expected, "{four:?}, {pulses:?}");
            good += expected.good;
        }
    }
    assert!(good > 0);
}

/// Adds a byte that is good where each class has a pulse.
fn push_sound(random: &mut Random, thresholds: Thresholds, pulses: &mut Vec<u32>) {
    let frame = write_byte(random.byte());
    pulses.extend(frame.map(|pulse| thresholds.pulse_of(random, Class::of(pulse))));
}

fn sound(run: &mut Run, random: &mut Random) {
    let thresholds = Thresholds::random(random);
    let mut pulses = Vec::new();
    for _ in 0..random.below(4) {
        push_sound(random, thresholds, &mut pulses);
    }
    let fewer = random.below(PULSES);
    pulses.extend((0..fewer).map(|_| random.edge_pulse()));
    run.read_bytes(thresholds, &pulses);
    run.read_fixed(&pulses);
}

fn at_each_edge(run: &mut Run, random: &mut Random) {
    let thresholds = Thresholds::random(random);
    let mut pulses = Vec::new();
    push_sound(random, thresholds, &mut pulses);
    let i = random.below(PULSES);
    for edge in thresholds.edges() {
        pulses[i] = edge;
        run.read_bytes(thresholds, &pulses);
    }
}

/// Many bytes, some of them or all with a noise pulse.
fn bad_bytes(run: &mut Run, random: &mut Random) {
    let thresholds = Thresholds::random(random);
    let mut pulses = Vec::new();
    let percent = random.pick(&[1, 10, 100]);
    for _ in 0..random.within(1..=100) {
        push_sound(random, thresholds, &mut pulses);
        if random.below(100) < percent {
            let i = pulses.len() - 1 - random.below(PULSES);
            pulses[i] = thresholds.pulse_of(random, Class::Noise);
        }
    }
    run.read_bytes(thresholds, &pulses);
    run.read_fixed(&pulses);
}

fn edge_pulses(run: &mut Run, random: &mut Random) {
    let thresholds = Thresholds::random(random);
    let edges = thresholds.edges();
    let pulses: Vec<u32> = (0..random.below(50)).map(|_| random.pick(&edges)).collect();
    run.read_bytes(thresholds, &pulses);
    run.read_fixed(&pulses);
}

/// Any pulses, with a byte among them, and its place.
fn place(random: &mut Random, frame: &[u32]) -> (Vec<u32>, usize) {
    let at = random.pick(&[0, 0, 1, 20, 33]);
    let after = random.pick(&[0, 0, 1, 30]);
    let mut pulses: Vec<u32> = (0..at).map(|_| random.any_pulse()).collect();
    pulses.extend(frame);
    pulses.extend((0..after).map(|_| random.any_pulse()));
    (pulses, at)
}

/// A good byte, often with its pulses moved within their classes.
fn some_byte(random: &mut Random) -> (u8, [u32; PULSES]) {
    let value = random.byte();
    let mut frame = write_byte(value);
    if random.once_in(2) {
        drift(random, &mut frame);
    }
    (value, frame)
}

fn sound_at(run: &mut Run, random: &mut Random) {
    let (value, frame) = some_byte(random);
    let (pulses, at) = place(random, &frame);
    assert_eq!(run.read_byte(&pulses, at), Ok(value));
}

fn bad_by_a_cause(run: &mut Run, random: &mut Random) {
    let (_, mut frame) = some_byte(random);
    let cause = random.below(CAUSES);
    make_bad(random, &mut frame, cause);
    let (pulses, at) = place(random, &frame);
    assert_eq!(run.read_byte(&pulses, at), Err(cause));
}

/// Some pulses of another class. Up to three never make another good byte.
fn hit_at(run: &mut Run, random: &mut Random) {
    let (_, mut frame) = some_byte(random);
    let hits = random.within(1..=6);
    hit(random, &mut frame, hits);
    let (pulses, at) = place(random, &frame);
    let answer = run.read_byte(&pulses, at);
    assert!(answer.is_err() || hits > 3);
}

fn turned_at(run: &mut Run, random: &mut Random) {
    let (value, frame) = some_byte(random);
    let set = random.below(1 << 9) as u32;
    let (pulses, at) = place(random, &turn_bits(frame, set));
    let expected = match set.count_ones() % 2 {
        0 => Ok(value ^ set as u8),
        _ => Err(10),
    };
    assert_eq!(run.read_byte(&pulses, at), expected);
}

/// A byte that is bad by a cause, and cut.
fn cut_at(run: &mut Run, random: &mut Random) {
    let (_, mut frame) = some_byte(random);
    let cause = random.below(CAUSES);
    make_bad(random, &mut frame, cause);
    let (pulses, at) = place(random, &frame);
    let length = random.below(PULSES);
    let answer = run.read_byte(&pulses[..at + length], at);
    assert_eq!(answer, Err(cause.min(length / 2)));
}

fn any_at(run: &mut Run, random: &mut Random) {
    let pulses: Vec<u32> = (0..random.below(60)).map(|_| random.any_pulse()).collect();
    let at = random.below(70);
    let _ = run.read_byte(&pulses, at);
}

fn edges_at(run: &mut Run, random: &mut Random) {
    let pulses: Vec<u32> = (0..random.below(60)).map(|_| random.edge_pulse()).collect();
    let at = match random.below(4) {
        0 => random.pick(&places_past(pulses.len())),
        _ => random.below(40),
    };
    let _ = run.read_byte(&pulses, at);
}

fn patched_at(run: &mut Run, random: &mut Random) {
    let pulses = patchwork(random);
    for _ in 0..3 {
        let at = random.below(pulses.len() + PULSES);
        let _ = run.read_byte(&pulses, at);
    }
}
