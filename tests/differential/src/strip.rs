//! Strips of pulses to read: sound ones, drifted ones, and damaged ones.

use std::ops::Range;

use crate::random::Random;
use crate::reference::block::{
    block_len, copy_len, put_block, COUNTDOWNS, SHORTS_BEFORE, SYNC, TRAILER,
};
use crate::reference::byte::{write_byte, CAUSES, EVEN_ONES, PULSES};
use crate::reference::header::HEADER;
use crate::reference::pulse::{Class, LONG, SHORT};
use crate::reference::{pack_header, write_block, Header};

const COUNTDOWN: usize = COUNTDOWNS[0].len();

/// A block as it lies on a strip.
#[derive(Clone, Copy, Debug)]
pub struct Placed {
    /// The place of the leader's first pulse.
    pub at: usize,
    pub leader: usize,
    pub n: usize,
}

impl Placed {
    /// The place of the first pulse of copy 0 or 1.
    pub fn copy(&self, copy: usize) -> usize {
        self.at + self.leader + copy * (copy_len(self.n) + TRAILER)
    }

    /// The place of the countdown's first byte, where a reader starts.
    pub fn start(&self) -> usize {
        self.copy(0)
    }

    /// The place after copy two.
    pub fn end(&self) -> usize {
        self.copy(1) + copy_len(self.n)
    }

    /// The place after the block's last pulse.
    pub fn after(&self) -> usize {
        self.at + block_len(self.leader, self.n)
    }

    /// Byte places of a copy.
    pub fn byte_places(&self) -> usize {
        self.n + COUNTDOWN + 1
    }

    /// The pulses of a byte place of copy 0 or 1.
    pub fn frame(&self, copy: usize, place: usize) -> Range<usize> {
        let start = self.copy(copy) + PULSES * place;
        start..start + PULSES
    }
}

/// Adds a sound block to the end of a strip.
pub fn push_block(pulses: &mut Vec<u32>, payload: &[u8], leader: usize) -> Placed {
    let at = pulses.len();
    let n = payload.len();
    pulses.resize(at + block_len(leader, n), 0);
    write_block(payload, leader as u64, &mut pulses[at..]).expect("a block that can be written");
    Placed { at, leader, n }
}

/// Adds a sound block of any length to the end of a strip, in the layout of those
/// that can be written.
pub fn push_long_block(pulses: &mut Vec<u32>, payload: &[u8], leader: usize) -> Placed {
    let at = pulses.len();
    let n = payload.len();
    pulses.resize(at + block_len(leader, n), 0);
    put_block(payload, leader, &mut pulses[at..]);
    Placed { at, leader, n }
}

/// Adds a good byte to the end of a strip.
pub fn push_byte(pulses: &mut Vec<u32>, value: u8) {
    pulses.extend(write_byte(value));
}

/// Adds short pulses to the end of a strip.
pub fn push_shorts(pulses: &mut Vec<u32>, count: usize) {
    pulses.resize(pulses.len() + count, SHORT);
}

/// Puts pulses over those of a strip from a place on. The strip grows where
/// they go past its end.
pub fn overlay(pulses: &mut Vec<u32>, at: usize, over: &[u32]) {
    let end = at + over.len();
    if pulses.len() < end {
        pulses.resize(end, 0);
    }
    pulses[at..end].copy_from_slice(over);
}

/// Puts what makes a block's start over a strip: 16 short pulses and a $89.
pub fn plant_start(pulses: &mut Vec<u32>, at: usize) {
    let mut start = Vec::new();
    push_shorts(&mut start, SHORTS_BEFORE);
    push_byte(&mut start, SYNC);
    overlay(pulses, at, &start);
}

/// What a program file is written from.
#[derive(Clone, Debug)]
pub struct Program {
    pub header: Header,
    pub name: Vec<u8>,
    pub bytes: Vec<u8>,
    pub leaders: [usize; 2],
}

impl Program {
    /// A program file that can be written.
    pub fn random(random: &mut Random) -> Self {
        let bytes = random.payload();
        Self::of(random, bytes)
    }

    /// A program file of these bytes, 1 to 8,192 of them.
    pub fn of(random: &mut Random, bytes: Vec<u8>) -> Self {
        let last = usize::from(u16::MAX) - bytes.len();
        let start = match random.below(8) {
            0 => 0,
            1 => last,
            _ => random.within(0..=last),
        };
        Self {
            header: Header {
                kind: random.pick(&[1, 3]),
                start: start as u16,
                end: (start + bytes.len()) as u16,
            },
            name: random.fitting_name(),
            bytes,
            leaders: [random.leader(), random.leader()],
        }
    }

    /// The bytes of the header, which need not be that of a program file.
    pub fn header_bytes(&self) -> [u8; HEADER] {
        let mut bytes = [0; HEADER];
        let packable = Header {
            kind: 1,
            ..self.header
        };
        pack_header(packable, &self.name, &mut bytes).expect("a header that can be packed");
        bytes[0] = self.header.kind;
        bytes
    }

    /// Adds both blocks to the end of a strip, whatever the header says.
    pub fn push(&self, pulses: &mut Vec<u32>) -> [Placed; 2] {
        [
            push_block(pulses, &self.header_bytes(), self.leaders[0]),
            push_block(pulses, &self.bytes, self.leaders[1]),
        ]
    }
}

/// Moves each pulse within its class.
pub fn drift(random: &mut Random, pulses: &mut [u32]) {
    for pulse in pulses {
        *pulse = random.pulse_of(Class::of(*pulse));
    }
}

/// Does to a sound block what lies within document 01's damage, apart from drift.
pub fn damage(random: &mut Random, pulses: &mut [u32], block: Placed) {
    let heavy = random.once_in(3);
    for place in 0..block.byte_places() {
        if !heavy && random.once_in(2) {
            continue;
        }
        let copy = if place == 0 { 1 } else { random.below(2) };
        let hits = if heavy { 3 } else { random.within(1..=3) };
        hit(random, &mut pulses[block.frame(copy, place)], hits);
    }
}

/// Gives this many pulses of a byte another class.
pub fn hit(random: &mut Random, frame: &mut [u32], hits: usize) {
    let classes: Vec<Class> = frame.iter().map(|&pulse| Class::of(pulse)).collect();
    let mut left = hits;
    while left > 0 {
        let i = random.below(frame.len());
        if Class::of(frame[i]) == classes[i] {
            frame[i] = random.pulse_not_of(classes[i]);
            left -= 1;
        }
    }
}

/// Where the value at a place of payload or checksum is taken from.
#[derive(Clone, Copy, Debug, PartialEq, Eq)]
pub enum Source {
    One,
    Two,
    Lost,
}

/// Sources for the places 0 to n of a block.
pub fn some_sources(random: &mut Random, n: usize) -> Vec<Source> {
    let seldom = random.pick(&[2, 10, 100]);
    let worn: &[Source] = match random.below(3) {
        0 => &[Source::Two, Source::Lost],
        1 => &[Source::Lost],
        _ => &[Source::Two],
    };
    let mut sources: Vec<Source> = (0..=n)
        .map(|_| match random.once_in(seldom) {
            true => random.pick(worn),
            false => Source::One,
        })
        .collect();
    if random.once_in(3) {
        sources[n] = random.pick(worn);
    }
    sources
}

/// The causes of the bytes at a place in copy one and copy two, where they are
/// bad.
pub type BadBytes = [Option<usize>; 2];

/// Makes bytes of a sound block bad, so that each place of payload and checksum
/// has this source. Answers what is bad at each place.
pub fn wear_down(
    random: &mut Random,
    pulses: &mut [u32],
    block: Placed,
    sources: &[Source],
) -> Vec<BadBytes> {
    let mut places = vec![[None; 2]; sources.len()];
    for (i, source) in sources.iter().enumerate() {
        let bad_copies: &[usize] = match source {
            Source::One if random.once_in(4) => &[1],
            Source::One => &[],
            Source::Two => &[0],
            Source::Lost => &[0, 1],
        };
        for &copy in bad_copies {
            let cause = some_cause(random);
            make_bad(random, &mut pulses[block.frame(copy, COUNTDOWN + i)], cause);
            places[i][copy] = Some(cause);
        }
    }
    places
}

/// The first place that is bad in both copies, with the causes.
pub fn first_lost(places: &[BadBytes]) -> Option<(usize, [usize; 2])> {
    let mut places = places.iter().enumerate();
    places.find_map(|(place, bad)| match *bad {
        [Some(one), Some(two)] => Some((place, [one, two])),
        _ => None,
    })
}

/// How many bytes are bad by each cause, in both copies together.
pub fn count_causes(places: &[BadBytes]) -> [usize; CAUSES] {
    let mut counts = [0; CAUSES];
    for cause in places.iter().flatten().flatten() {
        counts[*cause] += 1;
    }
    counts
}

/// A cause. An even number of ones, which hits seldom bring about, comes more
/// often than a wrong pair.
fn some_cause(random: &mut Random) -> usize {
    match random.below(6) {
        0 => EVEN_ONES,
        _ => random.below(CAUSES),
    }
}

/// Makes a good byte bad by this cause: bits are turned round until the number
/// of ones is even, or a pair is made wrong. What comes after a wrong pair may be
/// anything, and bits before it may be turned round.
pub fn make_bad(random: &mut Random, frame: &mut [u32], cause: usize) {
    if cause == EVEN_ONES {
        turn_bit(frame, random.below(9));
        if random.once_in(2) {
            turn(random, frame);
        }
        return;
    }
    if random.once_in(3) {
        turn_bit(frame, random.below(9));
    }
    let (pair, after) = frame[2 * cause..].split_at_mut(2);
    pair.copy_from_slice(&wrong_pair(random, cause));
    if random.once_in(3) {
        after.fill_with(|| random.any_pulse());
    }
}

/// Two pulses that a good byte does not have as this pair.
fn wrong_pair(random: &mut Random, pair: usize) -> [u32; 2] {
    let sound: &[[Class; 2]] = match pair {
        0 => &[[Class::Long, Class::Medium]],
        _ => &[[Class::Short, Class::Medium], [Class::Medium, Class::Short]],
    };
    loop {
        let pulses = [random.any_pulse(), random.any_pulse()];
        if !sound.contains(&pulses.map(Class::of)) {
            return pulses;
        }
    }
}

/// Turns two bits of a byte round, so that it stays good with another value.
pub fn turn_byte(random: &mut Random, pulses: &mut [u32], block: Placed, copy: usize, i: usize) {
    turn(random, frame_of(pulses, &block, copy, COUNTDOWN + i));
}

/// So many in a hundred byte places of a copy, never the first.
pub fn places_to_spoil(random: &mut Random, block: Placed, percent: usize) -> Vec<usize> {
    let mut sound: Vec<usize> = (1..block.byte_places()).collect();
    (0..(sound.len() * percent + 50) / 100)
        .map(|_| sound.swap_remove(random.below(sound.len())))
        .collect()
}

/// The pulses of a byte place, or none where the strip is too short for it.
fn frame_of<'a>(pulses: &'a mut [u32], block: &Placed, copy: usize, place: usize) -> &'a mut [u32] {
    pulses.get_mut(block.frame(copy, place)).unwrap_or_default()
}

/// A byte place: of the countdown, of the payload, or the checksum's.
fn some_place(random: &mut Random, block: &Placed) -> usize {
    match random.below(4) {
        0 => random.below(COUNTDOWN),
        1 => block.n + COUNTDOWN,
        2 => COUNTDOWN + random.pick(&[0, block.n - 1]),
        _ => COUNTDOWN + random.below(block.n),
    }
}

/// Spoils a block beyond document 01's damage in one of many ways. The strip
/// may be too short for the block.
pub fn spoil(random: &mut Random, pulses: &mut Vec<u32>, block: Placed) {
    match random.below(16) {
        0 => hit_anywhere(random, pulses),
        1 => hit_both_copies(random, pulses, &block),
        2 => lose_places(random, pulses, &block),
        3 => hit_leader(random, pulses, &block),
        4 | 5 => turn_bits(random, pulses, &block),
        6 => turn_bits_of_both(random, pulses, &block),
        7 => set_bytes(random, pulses, &block),
        8 => swap_countdowns(random, pulses, &block),
        9 => hit_first_byte(random, pulses, &block),
        10 => turn_the_same_bits_twice(random, pulses, &block),
        11 => fill_between(random, pulses, &block),
        12 => lose_copy(random, pulses, &block),
        13 => move_pulses(random, pulses),
        14 => change_countdown(random, pulses, &block),
        _ => cut(random, pulses, &block),
    }
}

fn hit_anywhere(random: &mut Random, pulses: &mut [u32]) {
    if pulses.is_empty() {
        return;
    }
    for _ in 0..random.within(1..=60) {
        let i = random.below(pulses.len());
        pulses[i] = random.any_pulse();
    }
}

fn hit_both_copies(random: &mut Random, pulses: &mut [u32], block: &Placed) {
    for _ in 0..random.within(1..=3) {
        let place = some_place(random, block);
        for copy in 0..2 {
            let frame = frame_of(pulses, block, copy, place);
            if !frame.is_empty() {
                let hits = random.within(1..=4);
                hit(random, frame, hits);
            }
        }
    }
}

/// Makes bytes bad in both copies by any cause.
fn lose_places(random: &mut Random, pulses: &mut [u32], block: &Placed) {
    for _ in 0..random.within(1..=3) {
        let place = some_place(random, block);
        for copy in 0..2 {
            let frame = frame_of(pulses, block, copy, place);
            if !frame.is_empty() {
                let cause = some_cause(random);
                make_bad(random, frame, cause);
            }
        }
    }
}

fn hit_leader(random: &mut Random, pulses: &mut [u32], block: &Placed) {
    let before = random.within(1..=block.leader.min(20));
    if let Some(pulse) = pulses.get_mut(block.start() - before) {
        *pulse = random.pulse_not_of(Class::Short);
    }
}

/// Turns an even number of bits round, so that the byte stays good.
fn turn(random: &mut Random, frame: &mut [u32]) {
    if frame.is_empty() {
        return;
    }
    let one = random.below(9);
    let two = (one + random.within(1..=8)) % 9;
    turn_bit(frame, one);
    turn_bit(frame, two);
}

fn turn_bit(frame: &mut [u32], bit: usize) {
    frame.swap(2 + 2 * bit, 3 + 2 * bit);
}

fn turn_bits(random: &mut Random, pulses: &mut [u32], block: &Placed) {
    let place = some_place(random, block);
    let copy = random.below(2);
    turn(random, frame_of(pulses, block, copy, place));
}

fn turn_bits_of_both(random: &mut Random, pulses: &mut [u32], block: &Placed) {
    let place = some_place(random, block);
    for copy in 0..2 {
        turn(random, frame_of(pulses, block, copy, place));
    }
}

fn set_bytes(random: &mut Random, pulses: &mut [u32], block: &Placed) {
    for _ in 0..random.within(1..=4) {
        let place = some_place(random, block);
        let copy = random.below(2);
        let frame = frame_of(pulses, block, copy, place);
        if !frame.is_empty() {
            frame.copy_from_slice(&write_byte(random.byte()));
        }
    }
}

/// Gives each copy the other one's countdown at a place.
fn swap_countdowns(random: &mut Random, pulses: &mut [u32], block: &Placed) {
    let place = random.within(1..=COUNTDOWN - 1);
    for (copy, countdown) in COUNTDOWNS.iter().rev().enumerate() {
        let frame = frame_of(pulses, block, copy, place);
        if !frame.is_empty() {
            frame.copy_from_slice(&write_byte(countdown[place]));
        }
    }
}

/// Puts another good byte at a place of the countdown of one copy or both.
fn change_countdown(random: &mut Random, pulses: &mut [u32], block: &Placed) {
    let place = random.below(COUNTDOWN);
    let [low, high] = random.pick(&[[0, 0], [1, 1], [0, 1], [0, 1]]);
    for copy in low..=high {
        let value = random.pick(&[0x00, 0x80, 0x81, 0x89, 0x8a, 0x09, 0x01]);
        let frame = frame_of(pulses, block, copy, place);
        if !frame.is_empty() {
            frame.copy_from_slice(&write_byte(value));
        }
    }
}

fn hit_first_byte(random: &mut Random, pulses: &mut [u32], block: &Placed) {
    let frame = frame_of(pulses, block, 0, 0);
    if frame.is_empty() {
        return;
    }
    match random.below(3) {
        0 => turn(random, frame),
        1 => {
            let bit = random.below(9);
            turn_bit(frame, bit);
        }
        _ => hit(random, frame, 1),
    }
}

/// Turns the same bits round at two places of copy one, so that the checksum
/// still holds.
fn turn_the_same_bits_twice(random: &mut Random, pulses: &mut [u32], block: &Placed) {
    let one = random.below(8);
    let two = (one + random.within(1..=7)) % 8;
    let place = COUNTDOWN + random.below(block.n);
    for place in [place, place + 1] {
        let frame = frame_of(pulses, block, 0, place);
        if !frame.is_empty() {
            turn_bit(frame, one);
            turn_bit(frame, two);
        }
    }
}

/// Changes pulses between the copies, which a reader does not read.
fn fill_between(random: &mut Random, pulses: &mut [u32], block: &Placed) {
    let between = block.copy(1) - TRAILER..block.copy(1);
    for pulse in pulses.get_mut(between).unwrap_or_default() {
        *pulse = random.any_pulse();
    }
}

/// Makes each byte of one copy bad, but not the first byte of copy one.
fn lose_copy(random: &mut Random, pulses: &mut [u32], block: &Placed) {
    let copy = random.below(2);
    for place in 1..block.byte_places() {
        let frame = frame_of(pulses, block, copy, place);
        if !frame.is_empty() {
            let i = random.below(PULSES);
            frame[i] = random.pulse_not_of(Class::of(frame[i]));
        }
    }
}

/// Adds or takes away a pulse.
fn move_pulses(random: &mut Random, pulses: &mut Vec<u32>) {
    if pulses.is_empty() {
        return;
    }
    let i = random.below(pulses.len());
    if random.once_in(2) {
        pulses.remove(i);
    } else {
        pulses.insert(i, random.any_pulse());
    }
}

/// Cuts a strip at some place of a block, often at a telling one.
pub fn cut(random: &mut Random, pulses: &mut Vec<u32>, block: &Placed) {
    let telling = [
        block.at,
        block.start(),
        block.start() + PULSES - 1,
        block.start() + PULSES,
        block.copy(1) - TRAILER,
        block.copy(1),
        block.end() - 1,
        block.end(),
        block.end() + 1,
        block.after() - 1,
    ];
    let place = match random.below(3) {
        0 => block.at + random.below(block.after() - block.at),
        _ => random.pick(&telling),
    };
    pulses.truncate(place);
}

/// Adds things to the end of a strip that are nearly a block's start: some
/// 14 to 18 short pulses, and then a byte or part of one.
pub fn push_near_start(random: &mut Random, pulses: &mut Vec<u32>) {
    push_shorts(pulses, random.within(14..=18));
    let at = pulses.len();
    match random.below(10) {
        0..=2 => push_byte(pulses, 0x89),
        3 => push_byte(pulses, random.pick(&[0x09, 0x88, 0x81, 0x99, 0x8b])),
        4 => {
            push_byte(pulses, 0x89);
            turn_bit(&mut pulses[at..], random.below(9));
        }
        5 => {
            push_byte(pulses, 0x89);
            hit(random, &mut pulses[at..], 1);
        }
        6 => {
            push_byte(pulses, 0x89);
            pulses.pop();
        }
        7 => pulses.push(LONG),
        8 => pulses.push(random.pulse_not_of(Class::Short)),
        _ => push_byte(pulses, random.byte()),
    }
}

/// Adds leads that break off, each at any pulse of its first byte, with about as
/// many short pulses between them as a start wants.
pub fn push_broken_leads(random: &mut Random, pulses: &mut Vec<u32>) {
    for _ in 0..random.within(1..=8) {
        push_shorts(pulses, random.within(10..=18));
        pulses.extend(&write_byte(SYNC)[..random.below(PULSES)]);
        if random.once_in(4) {
            pulses.push(random.any_pulse());
        }
    }
    push_shorts(pulses, random.within(10..=18));
}

/// A strip of many parts, among them starts, bytes of every kind and noise.
pub fn patchwork(random: &mut Random) -> Vec<u32> {
    let mut pulses = Vec::new();
    for _ in 0..random.within(1..=30) {
        match random.below(10) {
            0..=2 => push_near_start(random, &mut pulses),
            3 => push_countdown(random, &mut pulses),
            4 | 5 => {
                for _ in 0..random.within(1..=12) {
                    push_byte(&mut pulses, random.byte());
                }
            }
            6 => push_shorts(&mut pulses, random.within(1..=80)),
            7 => pulses.extend((0..random.within(1..=40)).map(|_| random.any_pulse())),
            8 => pulses.extend((0..random.within(1..=5)).map(|_| random.edge_pulse())),
            _ => pulses.extend([LONG, SHORT]),
        }
    }
    if random.once_in(2) {
        drift(random, &mut pulses);
    }
    pulses
}

/// Adds 16 short pulses and a countdown, mostly whole.
fn push_countdown(random: &mut Random, pulses: &mut Vec<u32>) {
    push_shorts(pulses, 16);
    for value in COUNTDOWNS[0] {
        if !random.once_in(20) {
            push_byte(pulses, value);
        }
    }
}

#[cfg(test)]
mod tests {
    use super::*;

    /// Document 01's damage of a block, as it is defined.
    fn is_within_damage(written: &[u32], strip: &[u32], block: Placed) -> bool {
        let same: Vec<bool> = written
            .iter()
            .zip(strip)
            .map(|(&one, &other)| Class::of(one) == Class::of(other))
            .collect();
        let copies = [block.copy(0), block.copy(1)];
        let is_inside = |i| {
            copies
                .iter()
                .any(|&copy| (copy..copy + copy_len(block.n)).contains(&i))
        };
        let changes = |copy, place| {
            let frame = &same[block.frame(copy, place)];
            frame.iter().filter(|&&same| !same).count()
        };
        strip.len() == written.len()
            && (0..strip.len()).all(|i| same[i] || is_inside(i))
            && changes(0, 0) == 0
            && (0..block.byte_places()).all(|place| {
                let changed = [changes(0, place), changes(1, place)];
                changed.contains(&0) && changed.iter().all(|&count| count <= 3)
            })
    }

    #[test]
    fn damage_stays_within_the_damage() {
        let mut most = 0;
        for run in 0..300 {
            let mut random = Random::new(3, run);
            let payload = random.bytes(run as usize % 20 + 1);
            let mut written = Vec::new();
            let block = push_block(&mut written, &payload, 64);
            let mut strip = written.clone();
            damage(&mut random, &mut strip, block);
            drift(&mut random, &mut strip);
            assert!(is_within_damage(&written, &strip, block));
            let changed = written
                .iter()
                .zip(&strip)
                .filter(|(&one, &other)| Class::of(one) != Class::of(other))
                .count();
            most = most.max(changed);
        }
        assert!(most > 40);
    }

    #[test]
    fn a_byte_is_bad_by_the_cause_that_is_asked_for() {
        for run in 0..5000 {
            let mut random = Random::new(4, run);
            let cause = run as usize % CAUSES;
            let mut frame = write_byte(random.byte());
            make_bad(&mut random, &mut frame, cause);
            let letters = frame.map(|pulse| match Class::of(pulse) {
                Class::Short => b'S',
                Class::Medium => b'M',
                Class::Long => b'L',
                Class::Noise => b'N',
            });
            let (pairs, _) = letters.as_chunks::<2>();
            let wrong = (0..10).find(|&i| match i {
                0 => pairs[i] != *b"LM",
                _ => pairs[i] != *b"SM" && pairs[i] != *b"MS",
            });
            let ones = pairs.iter().filter(|&pair| pair == b"MS").count();
            match cause {
                10 => assert_eq!((wrong, ones % 2), (None, 0)),
                _ => assert_eq!(wrong, Some(cause)),
            }
        }
    }
}
