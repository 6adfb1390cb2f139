//! Straight from the deck (document 02, Q-7): a reader that takes one pulse at a
//! time, or a run of pulses, and hands its state back by value. Copy one is kept
//! in a lent working buffer, two bytes for each byte place.

use super::block::{copy_len, decode_block, BlockRead, COUNTDOWNS, SHORTS_BEFORE, SYNC, TRAILER};
use super::byte::{value_or_cause, EVEN_ONES, PULSES};
use super::pulse::Class;
use super::{refusal, Refusal};

/// The most payload bytes of a block that a deck reads.
pub const MAX_DECK_PAYLOAD: usize = 65_534;

/// The phases of a deck.
pub mod phase {
    pub const SEARCH: u8 = 0;
    pub const COPY_ONE: u8 = 1;
    pub const BETWEEN: u8 = 2;
    pub const COPY_TWO: u8 = 3;
    pub const ANSWERED: u8 = 4;
}

/// The classes as a deck has them.
const SHORT: u8 = Class::Short as u8;
const MEDIUM: u8 = Class::Medium as u8;
const LONG: u8 = Class::Long as u8;
const CLASSES: usize = 4;

/// All pulses from here on are noise.
const NOISE_FROM: usize = 960;

/// The pairs of a good byte, each as one number.
const ZERO: u32 = pair_of(SHORT, MEDIUM);
const ONE: u32 = pair_of(MEDIUM, SHORT);
const MARKER: u32 = pair_of(LONG, MEDIUM);

const COUNTDOWN: usize = COUNTDOWNS[0].len();

/// Pulses of the lead: those before a start, and its first byte.
pub const LEAD: usize = SHORTS_BEFORE + PULSES;

/// A byte that has no wrong pair so far.
const NONE_WRONG: u8 = EVEN_ONES as u8;

/// A countdown that has no failed place so far.
const NONE_FAILED: u8 = COUNTDOWN as u8;

/// Where a deck stands after a call.
#[repr(C)]
#[derive(Clone, Copy, Debug, Default, PartialEq, Eq)]
pub struct Deck {
    pub n: u32,
    /// Pulses taken.
    pub taken: u32,
    pub start: u32,
    /// Byte place of the copy that is being read.
    pub place: u32,
    pub phase: u8,
    /// Pulses of the lead, of this byte, or since copy one.
    pub heard: u8,
    /// 0 for an accepted block, or the refusal's number.
    pub answer: u8,
    /// The number by which the last call was refused, or 0.
    pub refused: u8,
    /// The bits of the byte that is being read.
    pub bits: u16,
    /// The class of its last pulse.
    pub last: u8,
    /// Its first wrong pair, or 10.
    pub wrong: u8,
    /// The first lost place, or n + 1.
    pub lost: u32,
    /// The first countdown place that fails, or 9.
    pub failed: u8,
    /// The XOR of the payload so far.
    pub sum: u8,
    /// The causes of the first lost place.
    pub cause_one: u8,
    pub cause_two: u8,
}

/// What the last call of a deck said.
#[derive(Clone, Copy, Debug, PartialEq, Eq)]
pub enum Told {
    Nothing,
    Answer(Result<BlockRead, Refusal>),
    /// The call was refused, and the deck is as it was.
    Refused(Refusal),
}

/// A byte of one copy: a value, or the cause by which it is bad.
type Read = Result<u8, u8>;

/// The byte that is being read.
#[derive(Clone, Copy, PartialEq, Eq)]
struct Byte {
    heard: u8,
    bits: u16,
    last: u8,
    wrong: u8,
}

/// Pulses of the lead that end what was heard, by how many did so before, and by
/// the class of the next pulse.
static NEXT_HEARD: [[u8; CLASSES]; LEAD] = next_of_each();

/// The class of each pulse up to where all are noise.
static CLASS_OF: [u8; NOISE_FROM + 1] = class_of_each();

/// The classes of the lead.
const fn lead() -> [u8; LEAD] {
    let mut lead = [SHORT; LEAD];
    lead[SHORTS_BEFORE] = LONG;
    lead[SHORTS_BEFORE + 1] = MEDIUM;
    let parity = 1 - SYNC.count_ones() % 2;
    let bits = SYNC as u32 | parity << 8;
    let mut bit = 0;
    while bit < 9 {
        // The other pulse of a pair is short already.
        let first = SHORTS_BEFORE + 2 + 2 * bit;
        let is_zero = bits >> bit & 1 == 0;
        lead[first + is_zero as usize] = MEDIUM;
        bit += 1;
    }
    lead
}

const fn next_of_each() -> [[u8; CLASSES]; LEAD] {
    let lead = lead();
    let mut next = [[0; CLASSES]; LEAD];
    let mut heard = 0;
    while heard < LEAD {
        let mut class = 0;
        while class < CLASSES {
            let mut most = heard + 1;
            while most > 0 && !is_end(&lead, heard, class as u8, most) {
                most -= 1;
            }
            next[heard][class] = most as u8;
            class += 1;
        }
        heard += 1;
    }
    next
}

/// Whether the first `count` classes of the lead are the last ones of its first
/// `heard` and then this one.
const fn is_end(lead: &[u8; LEAD], heard: usize, class: u8, count: usize) -> bool {
    let mut same = lead[count - 1] == class;
    let mut i = 0;
    while i + 1 < count {
        same &= lead[i] == lead[heard + 1 - count + i];
        i += 1;
    }
    same
}

/// Two classes as one number. A made-up deck may have any number as the first.
const fn pair_of(first: u8, second: u8) -> u32 {
    CLASSES as u32 * first as u32 + second as u32
}

const fn class_of_each() -> [u8; NOISE_FROM + 1] {
    let mut classes = [0; NOISE_FROM + 1];
    let mut pulse = 0;
    while pulse <= NOISE_FROM {
        classes[pulse] = Class::of(pulse as u32) as u8;
        pulse += 1;
    }
    classes
}

/// The class of a pulse, without a branch that depends on it.
#[inline]
fn class_of(pulse: u32) -> u8 {
    CLASS_OF[pulse.min(NOISE_FROM as u32) as usize]
}

/// Pulses of the lead that end what was heard, with one more pulse.
#[inline]
fn next_heard(heard: u8, pulse: u32) -> u8 {
    NEXT_HEARD[usize::from(heard)][usize::from(class_of(pulse))]
}

/// Pulses of the lead that end what was heard, with a run of pulses up to the end
/// of the lead, and how many these are.
fn search(mut heard: u8, pulses: &[u32]) -> (u8, usize) {
    for (i, &pulse) in pulses.iter().enumerate() {
        heard = next_heard(heard, pulse);
        if usize::from(heard) == LEAD {
            return (heard, i + 1);
        }
    }
    (heard, pulses.len())
}

/// Document 01's reading rule from place 0, for as many payload bytes as a deck
/// reads.
pub fn read_strip(pulses: &[u32], n: usize, out: &mut [u8]) -> Result<BlockRead, Refusal> {
    if !(1..=MAX_DECK_PAYLOAD).contains(&n) {
        return Err(Refusal::new(refusal::SIZE));
    }
    let out = out.get_mut(..n).ok_or(Refusal::new(refusal::ROOM))?;
    let mut payload = vec![0; n];
    let read = decode_block(pulses, 0, &mut payload)?;
    out.copy_from_slice(&payload);
    Ok(read)
}

/// Bytes of the working buffer for `n` payload bytes.
pub const fn work_len(n: usize) -> usize {
    2 * (n + COUNTDOWN + 1)
}

impl Deck {
    /// A deck for a block of `n` payload bytes and buffers of these sizes.
    pub fn begin(n: usize, work_room: usize, room: usize) -> Self {
        let refused = if !(1..=MAX_DECK_PAYLOAD).contains(&n) {
            refusal::SIZE
        } else if work_room < work_len(n) || room < n {
            refusal::ROOM
        } else {
            return Self {
                n: n as u32,
                ..Self::default()
            };
        };
        Self {
            refused: refused as u8,
            ..Self::default()
        }
    }

    /// Takes one pulse.
    #[inline]
    pub fn pulse(mut self, pulse: u32, work: &mut [u8], out: &mut [u8]) -> Self {
        if let Err(refused) = self.admit(1, work.len(), out.len()) {
            self.refused = refused;
            return self;
        }
        self.clear_unused();
        self.taken += 1;
        match self.phase {
            phase::SEARCH => self.with_lead(next_heard(self.heard, pulse), work),
            phase::BETWEEN => self.with_gap(self.heard + 1),
            _ => self.with_byte(self.byte().take(class_of(pulse)), work, out),
        }
    }

    /// Takes a run of pulses.
    pub fn pulses(mut self, pulses: &[u32], work: &mut [u8], out: &mut [u8]) -> Self {
        if let Err(refused) = self.admit(pulses.len(), work.len(), out.len()) {
            self.refused = refused;
            return self;
        }
        self.refused = 0;
        if pulses.is_empty() {
            return self;
        }
        self.clear_unused();
        let mut left = pulses;
        while !left.is_empty() && self.phase != phase::ANSWERED {
            let count;
            (self, count) = match self.phase {
                phase::SEARCH => self.search(left, work),
                phase::BETWEEN => self.skip(left),
                _ => self.read_byte(left, work, out),
            };
            left = &left[count..];
        }
        self
    }

    /// Is told that there are no more pulses.
    pub fn end(mut self, work: &mut [u8], out: &mut [u8]) -> Self {
        if let Err(refused) = self.admit(0, work.len(), out.len()) {
            self.refused = refused;
            return self;
        }
        self.clear_unused();
        let answer = match self.phase {
            phase::SEARCH => refusal::NO_START,
            _ => refusal::CUT,
        };
        Self {
            phase: phase::ANSWERED,
            start: self.start,
            answer: answer as u8,
            ..self.bare()
        }
    }

    /// What the last call said.
    pub fn said(self) -> Told {
        let refused = u32::from(self.refused);
        if !self.is_sound() {
            let number = match refused {
                refusal::ROOM => refusal::ROOM,
                _ => refusal::SIZE,
            };
            return Told::Refused(Refusal::new(number));
        }
        match (refused, self.phase) {
            (0, phase::ANSWERED) => Told::Answer(self.block_read()),
            (0, _) => Told::Nothing,
            _ => Told::Refused(Refusal::new(refused)),
        }
    }

    fn block_read(self) -> Result<BlockRead, Refusal> {
        let [n, start, lost] = [self.n, self.start, self.lost].map(|number| number as usize);
        let number = u32::from(self.answer);
        match number {
            0 => Ok(BlockRead {
                n,
                start,
                end: start + 2 * copy_len(n) + TRAILER,
            }),
            refusal::CUT => Err(Refusal::at(number, start)),
            refusal::COUNTDOWN => Err(Refusal::at(number, self.failed.into())),
            refusal::LOST => {
                let causes = [self.cause_one, self.cause_two].map(usize::from);
                Err(Refusal::lost(lost, causes))
            }
            refusal::CHECKSUM => Err(Refusal::at(number, n)),
            _ => Err(Refusal::new(number)),
        }
    }

    /// Whether its numbers are ones to go on from.
    #[inline]
    pub fn is_sound(&self) -> bool {
        if !(1..=MAX_DECK_PAYLOAD as u32).contains(&self.n) || self.refused > 2 {
            return false;
        }
        let heard = usize::from(self.heard);
        match self.phase {
            phase::SEARCH => heard < LEAD && u32::from(self.heard) <= self.taken,
            phase::COPY_ONE | phase::COPY_TWO => {
                self.place < self.places() && heard < PULSES && self.wrong <= NONE_WRONG
            }
            phase::BETWEEN => heard < TRAILER,
            phase::ANSWERED => self.refused == 0 && matches!(self.answer, 0 | 3..=7),
            _ => false,
        }
    }

    /// Byte places of a copy.
    #[inline]
    fn places(&self) -> u32 {
        self.n + COUNTDOWN as u32 + 1
    }

    /// Whether a call with so many pulses is done, or the number by which the deck
    /// is refused afterwards, all else being as it was.
    #[inline]
    fn admit(&self, count: usize, work_room: usize, room: usize) -> Result<(), u8> {
        if !self.is_sound() || self.phase == phase::ANSWERED {
            return Err(self.refused);
        }
        let n = self.n as usize;
        if count > (u32::MAX - self.taken) as usize {
            Err(refusal::SIZE as u8)
        } else if work_room < work_len(n) || room < n {
            Err(refusal::ROOM as u8)
        } else {
            Ok(())
        }
    }

    /// The numbers that every phase uses.
    #[inline]
    fn bare(&self) -> Self {
        Self {
            n: self.n,
            taken: self.taken,
            ..Self::default()
        }
    }

    /// Sets the numbers to 0 that a phase before the answer does not use.
    #[inline]
    fn clear_unused(&mut self) {
        self.answer = 0;
        self.refused = 0;
        if self.phase == phase::COPY_TWO {
            return;
        }
        self.lost = 0;
        self.failed = 0;
        self.sum = 0;
        self.cause_one = 0;
        self.cause_two = 0;
        if self.phase == phase::COPY_ONE {
            return;
        }
        self.place = 0;
        self.bits = 0;
        self.last = 0;
        self.wrong = 0;
        if self.phase == phase::SEARCH {
            self.start = 0;
        }
    }

    /// The deck with so many more pulses taken.
    #[inline]
    fn after(self, count: usize) -> Self {
        Self {
            taken: self.taken + count as u32,
            ..self
        }
    }

    /// Takes pulses until the start is settled, and answers how many.
    fn search(self, pulses: &[u32], work: &mut [u8]) -> (Self, usize) {
        let (heard, count) = search(self.heard, pulses);
        (self.after(count).with_lead(heard, work), count)
    }

    /// Takes the pulses between the copies, which are not read, and answers how
    /// many.
    fn skip(self, pulses: &[u32]) -> (Self, usize) {
        let count = pulses.len().min(TRAILER - usize::from(self.heard));
        (self.after(count).with_gap(self.heard + count as u8), count)
    }

    /// Takes pulses until a byte of a copy ends, and answers how many. A byte that
    /// is whole in the run is read at once.
    #[inline]
    fn read_byte(self, pulses: &[u32], work: &mut [u8], out: &mut [u8]) -> (Self, usize) {
        if let Some(frame) = pulses.first_chunk().filter(|_| self.byte() == Byte::FRESH) {
            let byte = value_or_cause(frame).map_err(|cause| cause as u8);
            return (self.after(PULSES).after_byte(byte, work, out), PULSES);
        }
        let count = pulses.len().min(PULSES - usize::from(self.heard));
        let byte = self.byte().take_all(&pulses[..count]);
        (self.after(count).with_byte(byte, work, out), count)
    }

    /// The deck that has heard so much of the lead: it goes on with copy one after
    /// the last pulse.
    #[inline]
    fn with_lead(&self, heard: u8, work: &mut [u8]) -> Self {
        if usize::from(heard) < LEAD {
            return Self { heard, ..*self };
        }
        put(work, 0, Ok(SYNC));
        Self {
            phase: phase::COPY_ONE,
            start: self.taken - PULSES as u32,
            place: 1,
            wrong: NONE_WRONG,
            ..self.bare()
        }
    }

    /// The deck that has heard so many pulses since copy one: it goes on with copy
    /// two after the last one.
    #[inline]
    fn with_gap(&self, heard: u8) -> Self {
        if usize::from(heard) < TRAILER {
            return Self { heard, ..*self };
        }
        Self {
            phase: phase::COPY_TWO,
            start: self.start,
            wrong: NONE_WRONG,
            lost: self.n + 1,
            failed: NONE_FAILED,
            ..self.bare()
        }
    }

    #[inline]
    fn byte(&self) -> Byte {
        Byte {
            heard: self.heard,
            bits: self.bits,
            last: self.last,
            wrong: self.wrong,
        }
    }

    /// The deck that has heard so much of a byte: after the last pulse the byte is
    /// put into the working buffer, or held against what stands there.
    #[inline]
    fn with_byte(&self, byte: Byte, work: &mut [u8], out: &mut [u8]) -> Self {
        if usize::from(byte.heard) < PULSES {
            return Self {
                heard: byte.heard,
                bits: byte.bits,
                last: byte.last,
                wrong: byte.wrong,
                ..*self
            };
        }
        self.after_byte(byte.read(), work, out)
    }

    /// The deck after a byte of a copy.
    #[inline]
    fn after_byte(&self, byte: Read, work: &mut [u8], out: &mut [u8]) -> Self {
        if self.phase == phase::COPY_ONE {
            self.put_byte(byte, work)
        } else {
            self.compare_byte(byte, work, out)
        }
    }

    #[inline]
    fn is_at_last_place(&self) -> bool {
        self.place + 1 == self.places()
    }

    /// The deck before the next byte of a copy.
    #[inline]
    fn at_next_place(&self) -> Self {
        Self {
            place: self.place + 1,
            heard: 0,
            bits: 0,
            last: 0,
            wrong: NONE_WRONG,
            ..*self
        }
    }

    /// Puts copy one's byte into the working buffer.
    #[inline]
    fn put_byte(&self, byte: Read, work: &mut [u8]) -> Self {
        put(work, self.place as usize, byte);
        if !self.is_at_last_place() {
            return self.at_next_place();
        }
        Self {
            phase: phase::BETWEEN,
            start: self.start,
            ..self.bare()
        }
    }

    /// Holds copy two's byte against copy one's, and answers after the last one.
    #[inline]
    fn compare_byte(&self, two: Read, work: &mut [u8], out: &mut [u8]) -> Self {
        let place = self.place as usize;
        let one = get(work, place);
        let mut next = self.at_next_place();
        let mut value = 0;
        match place.checked_sub(COUNTDOWN) {
            None => next.check_countdown(place, [one, two]),
            Some(i) => {
                value = next.value_of(i, [one, two]);
                if one.is_err() && two.is_ok() {
                    put(work, place, two);
                }
                if i < self.n as usize {
                    next.sum ^= value;
                }
            }
        }
        if self.is_at_last_place() {
            next.answered(value, work, out)
        } else {
            next
        }
    }

    /// Rule 3 at a countdown place.
    fn check_countdown(&mut self, place: usize, bytes: [Read; 2]) {
        let [one, two] = COUNTDOWNS.map(|countdown| Ok(countdown[place]));
        if bytes[0] != one && bytes[1] != two {
            self.failed = self.failed.min(place as u8);
        }
    }

    /// Rule 4 at a place of payload or checksum: the value there, 0 where it is
    /// lost.
    #[inline]
    fn value_of(&mut self, i: usize, bytes: [Read; 2]) -> u8 {
        match bytes {
            [Ok(value), _] | [Err(_), Ok(value)] => value,
            [Err(one), Err(two)] => {
                if i < self.lost as usize {
                    self.lost = i as u32;
                    self.cause_one = one;
                    self.cause_two = two;
                }
                0
            }
        }
    }

    /// Answers after copy two, and fills the output where the block is accepted.
    fn answered(&self, checksum: u8, work: &[u8], out: &mut [u8]) -> Self {
        let n = self.n as usize;
        let answer = if self.failed < NONE_FAILED {
            refusal::COUNTDOWN
        } else if self.lost <= self.n {
            refusal::LOST
        } else if self.sum != checksum {
            refusal::CHECKSUM
        } else {
            let (places, _) = work.as_chunks::<2>();
            for (byte, [value, _]) in out[..n].iter_mut().zip(&places[COUNTDOWN..]) {
                *byte = *value;
            }
            0
        };
        Self {
            phase: phase::ANSWERED,
            start: self.start,
            answer: answer as u8,
            lost: self.lost,
            failed: self.failed,
            sum: self.sum,
            cause_one: self.cause_one,
            cause_two: self.cause_two,
            ..self.bare()
        }
    }
}

impl Byte {
    const FRESH: Self = Self {
        heard: 0,
        bits: 0,
        last: 0,
        wrong: NONE_WRONG,
    };

    /// Takes a pulse.
    #[inline]
    fn take(self, class: u8) -> Self {
        match self.heard % 2 {
            0 => self.take_first(class),
            _ => self.take_second(class),
        }
    }

    /// Takes the first pulse of a pair.
    #[inline]
    fn take_first(self, class: u8) -> Self {
        Self {
            heard: self.heard + 1,
            last: class,
            ..self
        }
    }

    /// Takes the second pulse of a pair.
    #[inline]
    fn take_second(self, class: u8) -> Self {
        let pair = self.heard / 2;
        let classes = pair_of(self.last, class);
        let is_one = classes == ONE;
        let is_sound = if pair == 0 {
            classes == MARKER
        } else {
            (classes == ZERO) | is_one
        };
        let wrong = if is_sound { NONE_WRONG } else { pair };
        Self {
            heard: self.heard + 1,
            bits: self.bits / 2 + 256 * u16::from(is_one),
            last: class,
            wrong: self.wrong.min(wrong),
        }
    }

    /// Takes no more pulses than it has left, by pairs.
    #[inline]
    fn take_all(mut self, pulses: &[u32]) -> Self {
        let of_half = usize::from(self.heard % 2).min(pulses.len());
        let (half, pulses) = pulses.split_at(of_half);
        let (pairs, rest) = pulses.as_chunks();
        for &pulse in half {
            self = self.take_second(class_of(pulse));
        }
        for &[first, second] in pairs {
            self = self
                .take_first(class_of(first))
                .take_second(class_of(second));
        }
        for &pulse in rest {
            self = self.take_first(class_of(pulse));
        }
        self
    }

    /// What it is when it has all its pulses.
    #[inline]
    fn read(self) -> Read {
        let [value, parity] = self.bits.to_le_bytes();
        let is_odd = (value.count_ones() + u32::from(parity)) % 2 == 1;
        if self.wrong == NONE_WRONG && is_odd {
            Ok(value)
        } else {
            Err(self.wrong)
        }
    }
}

/// Puts a byte of copy one at its place of the working buffer.
#[inline]
fn put(work: &mut [u8], place: usize, byte: Read) {
    let (places, _) = work.as_chunks_mut::<2>();
    places[place] = match byte {
        Ok(value) => [value, 0],
        Err(cause) => [0, cause + 1],
    };
}

/// The byte of copy one at a place of the working buffer.
#[inline]
fn get(work: &[u8], place: usize) -> Read {
    let (places, _) = work.as_chunks::<2>();
    match places[place] {
        [value, 0] => Ok(value),
        [_, mark] => Err(mark - 1),
    }
}

#[cfg(test)]
mod tests {
    use super::*;
    use crate::reference::block::{block_len, put_block};
    use crate::reference::byte::write_byte;
    use std::mem::offset_of;

    const LEADER: usize = 64;

    fn strip(payload: &[u8]) -> Vec<u32> {
        let mut out = vec![0; block_len(LEADER, payload.len())];
        put_block(payload, LEADER, &mut out);
        out
    }

    /// A deck for `n` bytes after a run, with its working buffer and its output.
    fn run(pulses: &[u32], n: usize) -> (Deck, Vec<u8>, Vec<u8>) {
        let mut work = vec![0xa5; work_len(n)];
        let mut out = vec![0xa5; n];
        let deck = Deck::begin(n, work.len(), out.len()).pulses(pulses, &mut work, &mut out);
        (deck, work, out)
    }

    fn refused(number: u32) -> Told {
        Told::Refused(Refusal::new(number))
    }

    #[test]
    fn the_layout_of_a_deck() {
        let offsets = [
            offset_of!(Deck, n),
            offset_of!(Deck, taken),
            offset_of!(Deck, start),
            offset_of!(Deck, place),
            offset_of!(Deck, phase),
            offset_of!(Deck, heard),
            offset_of!(Deck, answer),
            offset_of!(Deck, refused),
            offset_of!(Deck, bits),
            offset_of!(Deck, last),
            offset_of!(Deck, wrong),
            offset_of!(Deck, lost),
            offset_of!(Deck, failed),
            offset_of!(Deck, sum),
            offset_of!(Deck, cause_one),
            offset_of!(Deck, cause_two),
        ];
        let expected = [0, 4, 8, 12, 16, 17, 18, 19, 20, 22, 23, 24, 28, 29, 30, 31];
        assert_eq!(offsets, expected);
        assert_eq!(size_of::<Deck>(), 32);
    }

    #[test]
    fn every_pulse_has_its_class() {
        for pulse in (0..5000).chain([1 << 31, u32::MAX]) {
            assert_eq!(class_of(pulse), Class::of(pulse) as u8, "{pulse}");
        }
    }

    #[test]
    fn the_lead_is_sixteen_shorts_and_89() {
        let classes = write_byte(0x89).map(class_of);
        assert_eq!(lead()[..16], [SHORT; 16]);
        assert_eq!(lead()[16..], classes);
    }

    #[test]
    fn shorts_of_the_lead() {
        for (heard, next) in NEXT_HEARD.iter().enumerate() {
            let right = lead()[heard];
            assert_eq!(usize::from(next[usize::from(right)]), heard + 1);
            for (class, &count) in next.iter().enumerate() {
                if class != usize::from(right) {
                    assert!(usize::from(count) <= 16);
                    assert!(class == usize::from(SHORT) || count == 0);
                }
            }
        }
        // More shorts than sixteen end with sixteen.
        assert_eq!(NEXT_HEARD[16][usize::from(SHORT)], 16);
        // Two shorts of the first byte, and one more.
        assert_eq!(NEXT_HEARD[16 + 5][usize::from(SHORT)], 3);
        assert_eq!(NEXT_HEARD[16 + 7][usize::from(SHORT)], 2);
        assert_eq!(NEXT_HEARD[16 + 19][usize::from(SHORT)], 3);
    }

    #[test]
    fn beginnings() {
        assert_eq!(Deck::begin(0, 100, 100).said(), refused(1));
        assert_eq!(
            Deck::begin(65_535, usize::MAX, usize::MAX).said(),
            refused(1)
        );
        assert_eq!(Deck::begin(65_534, 131_088, 65_533).said(), refused(2));
        assert_eq!(Deck::begin(65_534, 131_087, 65_534).said(), refused(2));
        let deck = Deck::begin(65_534, 131_088, 65_534);
        assert_eq!((deck.n, deck.said()), (65_534, Told::Nothing));
        let deck = Deck::begin(0, 100, 100);
        assert_eq!(deck.pulse(360, &mut [0; 100], &mut [0; 100]), deck);
        assert_eq!(deck.end(&mut [0; 100], &mut [0; 100]), deck);
    }

    #[test]
    fn a_block_is_read() {
        let pulses = strip(&[0x41, 0x42]);
        let (deck, work, out) = run(&pulses, 2);
        let read = BlockRead {
            n: 2,
            start: 64,
            end: 64 + 480 + 61,
        };
        assert_eq!(deck.said(), Told::Answer(Ok(read)));
        assert_eq!(deck.taken as usize, read.end);
        assert_eq!(out, [0x41, 0x42]);
        assert_eq!(work[..4], [0x89, 0, 0x88, 0]);
        assert_eq!(work[16..], [0x81, 0, 0x41, 0, 0x42, 0, 0x03, 0]);
        let (deck, _, out) = run(&pulses[..read.end - 1], 2);
        assert_eq!((deck.said(), out), (Told::Nothing, vec![0xa5; 2]));
    }

    #[test]
    fn single_pulses_are_a_run() {
        let mut pulses = strip(&[0x41, 0x42, 0x43]);
        pulses[64 + 20 * 10 + 4] = 0;
        let two = 64 + copy_len(3) + TRAILER;
        pulses[two + 20 * 11 + 7] = 0;
        let mut work = vec![0xa5; work_len(3)];
        let mut out = vec![0xa5; 3];
        let mut deck = Deck::begin(3, work.len(), out.len());
        for (i, &pulse) in pulses.iter().enumerate() {
            deck = deck.pulse(pulse, &mut work, &mut out);
            let expected = run(&pulses[..=i], 3);
            assert_eq!((deck, work.clone(), out.clone()), expected);
        }
        assert_eq!(out, [0x41, 0x42, 0x43]);
    }

    #[test]
    fn a_bad_byte_is_kept_with_its_cause_and_replaced() {
        let mut pulses = strip(&[0x41, 0x42]);
        let two = 64 + copy_len(2) + TRAILER;
        pulses[64 + 20 * 9 + 6] = 0;
        pulses.swap(64 + 20 * 11 + 2, 64 + 20 * 11 + 3);
        pulses[64 + 20 * 4] = 0;
        let (_, work, _) = run(&pulses[..two], 2);
        assert_eq!(work[8..10], [0, 1]);
        assert_eq!(work[18..], [0, 4, 0x42, 0, 0, 11]);
        let (deck, work, out) = run(&pulses, 2);
        assert!(matches!(deck.said(), Told::Answer(Ok(_))));
        assert_eq!(work[8..10], [0, 1]);
        assert_eq!(work[18..], [0x41, 0, 0x42, 0, 0x03, 0]);
        assert_eq!(out, [0x41, 0x42]);
        pulses[two + 20 * 9 + 19] = 0;
        let (deck, work, _) = run(&pulses, 2);
        let lost = Refusal::lost(0, [3, 9]);
        assert_eq!(deck.said(), Told::Answer(Err(lost)));
        assert_eq!(work[18..], [0, 4, 0x42, 0, 0x03, 0]);
        pulses[two + 20 * 4] = 0;
        let (deck, _, _) = run(&pulses, 2);
        let refusal = Refusal::at(refusal::COUNTDOWN, 4);
        assert_eq!(deck.said(), Told::Answer(Err(refusal)));
    }

    #[test]
    fn ends() {
        let pulses = strip(&[0x41]);
        for length in 0..=pulses.len() {
            let (deck, mut work, mut out) = run(&pulses[..length], 1);
            let expected = match length {
                0..84 => Err(Refusal::new(refusal::NO_START)),
                84..565 => Err(Refusal::at(refusal::CUT, 64)),
                _ => Ok(BlockRead {
                    n: 1,
                    start: 64,
                    end: 565,
                }),
            };
            let ended = deck.end(&mut work, &mut out);
            assert_eq!(ended.said(), Told::Answer(expected));
            assert_eq!(ended.end(&mut [], &mut []), ended);
            assert_eq!(ended.pulses(&pulses, &mut [], &mut []), ended);
        }
    }

    #[test]
    fn calls_that_are_refused_change_nothing_else() {
        let pulses = strip(&[0x41]);
        let (deck, mut work, mut out) = run(&pulses[..300], 1);
        let short = deck.pulse(360, &mut work[..21], &mut out);
        assert_eq!(short.said(), refused(2));
        assert_eq!(
            Deck {
                refused: 0,
                ..short
            },
            deck
        );
        assert_eq!(short.pulses(&[], &mut work, &mut out), deck);
        let near = Deck {
            taken: u32::MAX - 2,
            ..deck
        };
        assert_eq!(
            near.pulses(&pulses[..3], &mut [], &mut []).said(),
            refused(1)
        );
        assert_eq!(
            near.pulses(&pulses[..2], &mut [], &mut []).said(),
            refused(2)
        );
        let last = near.pulses(&pulses[300..302], &mut work, &mut out);
        assert_eq!((last.taken, last.said()), (u32::MAX, Told::Nothing));
        assert_eq!(last.pulse(360, &mut work, &mut out).said(), refused(1));
        assert_eq!(last.end(&mut [], &mut out).said(), refused(2));
    }

    #[test]
    fn decks_that_are_not_sound_stay() {
        let sound = Deck::begin(1, 22, 1);
        let byte = Deck {
            phase: phase::COPY_ONE,
            ..sound
        };
        let answered = Deck {
            phase: phase::ANSWERED,
            ..sound
        };
        let (n, place) = (0, 11);
        let unsound = [
            Deck { n, ..sound },
            Deck { n: 65_535, ..sound },
            Deck { phase: 5, ..sound },
            Deck {
                refused: 3,
                ..sound
            },
            Deck { heard: 1, ..sound },
            Deck { place, ..byte },
            Deck { heard: 20, ..byte },
            Deck { wrong: 11, ..byte },
            Deck {
                answer: 1,
                ..answered
            },
            Deck {
                answer: 8,
                ..answered
            },
        ];
        for deck in unsound {
            assert_eq!(deck.said(), refused(1), "{deck:?}");
            assert_eq!(deck.pulse(360, &mut [0; 22], &mut [0]), deck);
            assert_eq!(deck.end(&mut [0; 22], &mut [0]), deck);
        }
        let deck = Deck {
            refused: 2,
            ..answered
        };
        assert_eq!(deck.said(), refused(2));
        assert!(sound.is_sound() && byte.is_sound() && answered.is_sound());
    }
}
