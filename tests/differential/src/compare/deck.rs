//! Decks of the library and of the reference: both take the same calls, each with
//! buffers of its own.

use super::{brief, lend_bytes, Lent, Run};
use crate::guarded::Guarded;
use crate::random::Random;
use crate::reference::block::MAX_PAYLOAD;
use crate::reference::deck::{phase, read_strip, work_len, MAX_DECK_PAYLOAD};
use crate::reference::strip_deck::{deck_after, deck_at_end, fill_work};
use crate::reference::{BlockRead, Deck, Refusal, Told};
use crate::{library, reference};

/// What a deck takes.
#[derive(Clone, Copy)]
pub enum Call<'a> {
    Pulse(u32),
    Run(&'a [u32]),
    End,
}

/// How many bytes are lent as the working buffer and as the output.
#[derive(Clone, Copy, Debug, PartialEq, Eq)]
pub struct Rooms {
    pub work: usize,
    pub out: usize,
}

/// How a strip is cut.
#[derive(Clone, Copy, Debug, PartialEq, Eq)]
pub enum Cutting {
    OneRun,
    /// Two runs, the first of so many pulses.
    At(usize),
    /// Runs of up to so many pulses, empty ones among them.
    Runs(usize),
    Pulses,
    /// Runs and single pulses, with calls that are refused between them.
    Disturbed,
}

/// A deck, and the buffers that are lent to it.
#[derive(Clone, Debug)]
struct Side {
    deck: Deck,
    work: Lent<u8>,
    out: Lent<u8>,
}

/// The two sides after the same calls.
pub struct Decks {
    ours: Side,
    theirs: Side,
    rooms: Rooms,
}

impl Rooms {
    /// What a deck for `n` payload bytes needs.
    pub fn of(n: usize) -> Self {
        Self {
            work: work_len(n),
            out: n,
        }
    }

    /// At least that much.
    pub fn enough(random: &mut Random, n: usize) -> Self {
        let Self { work, out } = Self::of(n);
        Self {
            work: random.enough_room(work),
            out: random.enough_room(out),
        }
    }

    /// Too little of one of the two or of both.
    pub fn too_little(random: &mut Random, n: usize) -> Self {
        let mut rooms = Self::of(n);
        let sound = random.below(3);
        if sound != 0 {
            rooms.work = fewer(random, rooms.work);
        }
        if sound != 1 {
            rooms.out = fewer(random, rooms.out);
        }
        rooms
    }
}

/// Fewer than `need`: one fewer, none, or any number.
fn fewer(random: &mut Random, need: usize) -> usize {
    match random.below(3) {
        0 => need - 1,
        1 => 0,
        _ => random.below(need),
    }
}

impl Call<'_> {
    fn by_library(self, deck: Deck, work: &mut [u8], out: &mut [u8]) -> Deck {
        match self {
            Call::Pulse(pulse) => library::deck_pulse(deck, pulse, work, out),
            Call::Run(pulses) => library::deck_pulses(deck, pulses, work, out),
            Call::End => library::end_deck(deck, work, out),
        }
    }

    fn by_reference(self, deck: Deck, work: &mut [u8], out: &mut [u8]) -> Deck {
        match self {
            Call::Pulse(pulse) => deck.pulse(pulse, work, out),
            Call::Run(pulses) => deck.pulses(pulses, work, out),
            Call::End => deck.end(work, out),
        }
    }

    fn brief(self) -> String {
        match self {
            Call::Pulse(pulse) => format!("pulse {pulse}"),
            Call::Run(pulses) => format!("pulses {}", brief(pulses)),
            Call::End => "the end".to_string(),
        }
    }
}

/// Demands that both sides are the same, and answers what they said.
fn demand_same(ours: Deck, theirs: Deck, arguments: impl Fn() -> String) -> Told {
    if ours != theirs {
        panic!(
            "{}: the library's deck is {ours:?}, the reference's {theirs:?}",
            arguments()
        );
    }
    let told = library::deck_said(ours);
    if told != theirs.said() {
        panic!(
            "{}: of {ours:?} the library says {told:?}, the reference {:?}",
            arguments(),
            theirs.said()
        );
    }
    told
}

impl Decks {
    /// Decks that begin with these rooms.
    pub fn begin(random: &mut Random, n: usize, rooms: Rooms) -> Self {
        let ours = library::begin_deck(n, rooms.work, rooms.out);
        let theirs = Deck::begin(n, rooms.work, rooms.out);
        demand_same(ours, theirs, || format!("beginning with {n}, {rooms:?}"));
        Self::with(random, ours, rooms)
    }

    /// Decks in any state.
    pub fn with(random: &mut Random, deck: Deck, rooms: Rooms) -> Self {
        let side = Side {
            deck,
            work: lend_bytes(random, rooms.work),
            out: lend_bytes(random, rooms.out),
        };
        Self {
            ours: side.clone(),
            theirs: side,
            rooms,
        }
    }

    /// The state of both.
    pub fn deck(&self) -> Deck {
        self.ours.deck
    }

    pub fn said(&self) -> Told {
        library::deck_said(self.ours.deck)
    }

    /// The working buffer of both.
    pub fn work(&self) -> &[u8] {
        self.ours.work.seen()
    }

    /// The output of both.
    pub fn out(&self) -> &[u8] {
        self.ours.out.seen()
    }

    /// A call with all that may be lent.
    pub fn call(&mut self, call: Call) -> Told {
        self.call_with(call, self.rooms)
    }

    /// A call with no more than these rooms. The states, what they say, and all of
    /// the buffers have to be the same afterwards.
    pub fn call_with(&mut self, call: Call, rooms: Rooms) -> Told {
        let before = self.ours.deck;
        let Side { deck, work, out } = &mut self.ours;
        let [work, out] = [&mut work.part()[..rooms.work], &mut out.part()[..rooms.out]];
        *deck = call.by_library(*deck, work, out);
        let Side { deck, work, out } = &mut self.theirs;
        let [work, out] = [&mut work.part()[..rooms.work], &mut out.part()[..rooms.out]];
        *deck = call.by_reference(*deck, work, out);
        let arguments = || format!("{} to {before:?}, {rooms:?}", call.brief());
        let told = demand_same(self.ours.deck, self.theirs.deck, arguments);
        let differences = [
            self.ours.work.difference(&self.theirs.work),
            self.ours.out.difference(&self.theirs.out),
        ];
        if let Some(difference) = differences.iter().flatten().next() {
            panic!("{}: the buffers differ: {difference}", arguments());
        }
        told
    }

    /// A call that is refused with this number. Nothing else changes.
    pub fn refuse(&mut self, number: u32, call: Call, rooms: Rooms) {
        let before = self.ours.clone();
        let told = self.call_with(call, rooms);
        assert_eq!(told, refused_with(number), "{}", call.brief());
        let deck = Deck {
            refused: number as u8,
            ..before.deck
        };
        assert_eq!(self.ours.deck, deck, "{}", call.brief());
        self.demand_buffers_of(&before);
    }

    /// A call that changes nothing at all.
    pub fn stay(&mut self, call: Call, rooms: Rooms) {
        let before = self.ours.clone();
        self.call_with(call, rooms);
        assert_eq!(self.ours.deck, before.deck, "{}", call.brief());
        self.demand_buffers_of(&before);
    }

    fn demand_buffers_of(&self, before: &Side) {
        assert_eq!(self.ours.work.difference(&before.work), None);
        assert_eq!(self.ours.out.difference(&before.out), None);
    }

    /// Lends the same buffers from another address from now on.
    pub fn move_buffers(&mut self) {
        for side in [&mut self.ours, &mut self.theirs] {
            let [work, out] = [side.work.clone(), side.out.clone()];
            assert_ne!(work.all.as_ptr(), side.work.all.as_ptr());
            [side.work, side.out] = [work, out];
        }
    }

    /// Puts bytes into the working buffer, as a caller may.
    pub fn change_work(&mut self, at: usize, bytes: &[u8]) {
        for side in [&mut self.ours, &mut self.theirs] {
            side.work.part()[at..][..bytes.len()].copy_from_slice(bytes);
        }
    }

    /// The same for the output.
    pub fn change_out(&mut self, at: usize, bytes: &[u8]) {
        for side in [&mut self.ours, &mut self.theirs] {
            side.out.part()[at..][..bytes.len()].copy_from_slice(bytes);
        }
    }
}

fn refused_with(number: u32) -> Told {
    Told::Refused(Refusal {
        number,
        block: 0,
        place: 0,
        causes: [0, 0],
    })
}

/// A reading of a strip from its first pulse to the end that is told.
struct Reading<'a> {
    pulses: &'a [u32],
    n: usize,
    decks: Decks,
    /// The working buffer before the first pulse.
    work: Vec<u8>,
    taken: usize,
    /// The number by which the last call was refused, or 0.
    refused: u8,
}

impl<'a> Reading<'a> {
    fn new(random: &mut Random, pulses: &'a [u32], n: usize) -> Self {
        let rooms = Rooms::enough(random, n);
        let decks = Decks::begin(random, n, rooms);
        let work = decks.work().to_vec();
        assert_eq!(decks.said(), Told::Nothing);
        Self {
            pulses,
            n,
            decks,
            work,
            taken: 0,
            refused: 0,
        }
    }

    fn left(&self) -> usize {
        self.pulses.len() - self.taken
    }

    fn run(&mut self, count: usize) {
        let run = &self.pulses[self.taken..][..count.min(self.left())];
        self.decks.call(Call::Run(run));
        self.taken += run.len();
        self.refused = 0;
    }

    fn pulse(&mut self) {
        let pulse = self.pulses[self.taken];
        self.decks.call(Call::Pulse(pulse));
        self.taken += 1;
        self.refused = 0;
    }

    /// Demands that the deck and its working buffer are what the strip so far says.
    fn demand_what_the_strip_says(&self) {
        let heard = &self.pulses[..self.taken];
        let expected = Deck {
            refused: self.refused,
            ..deck_after(heard, self.n)
        };
        assert_eq!(self.decks.deck(), expected);
        let mut work = self.work.clone();
        fill_work(heard, self.n, &mut work);
        assert_eq!(self.decks.work(), work);
    }

    fn read_on(&mut self, random: &mut Random, cutting: Cutting) {
        match cutting {
            Cutting::OneRun => self.run(self.left()),
            Cutting::At(count) if self.taken == 0 => self.run(count.max(1)),
            Cutting::At(_) => self.run(self.left()),
            Cutting::Runs(most) => {
                let count = random.within(0..=most);
                self.run(count);
            }
            Cutting::Pulses => self.pulse(),
            Cutting::Disturbed => match random.below(8) {
                0..=2 => self.pulse(),
                3 | 4 => self.run(random.below(40)),
                5 => self.run(random.below(400)),
                6 => self.decks.move_buffers(),
                _ => self.disturb(random),
            },
        }
    }

    /// A call that lends too little, or an empty run.
    fn disturb(&mut self, random: &mut Random) {
        let pulses = &self.pulses[self.taken..];
        let count = random.below(pulses.len() + 1);
        let call = match random.below(4) {
            0 => Call::Run(&[]),
            1 => Call::Run(&pulses[..count]),
            2 => Call::Pulse(random.any_pulse()),
            _ => Call::End,
        };
        let rooms = Rooms::too_little(random, self.n);
        if self.decks.deck().phase == phase::ANSWERED {
            self.decks.stay(call, rooms);
            return;
        }
        self.decks.refuse(2, call, rooms);
        self.refused = 2;
        if random.once_in(2) {
            self.run(0);
        }
    }

    /// After an answer, no call changes anything, whatever is lent and whatever
    /// stands in the buffers then.
    fn stay_answered(&mut self, random: &mut Random) {
        for _ in 0..4 {
            let Rooms { work, out } = self.decks.rooms;
            self.decks.change_work(random.below(work), &[random.byte()]);
            self.decks.change_out(random.below(out), &[random.byte()]);
            let count = random.below(self.pulses.len() + 1);
            let call = match random.below(3) {
                0 => Call::Run(&self.pulses[..count]),
                1 => Call::Pulse(random.any_pulse()),
                _ => Call::End,
            };
            let rooms = match random.below(3) {
                0 => Rooms { work: 0, out: 0 },
                1 => Rooms::too_little(random, self.n),
                _ => self.decks.rooms,
            };
            self.decks.stay(call, rooms);
        }
    }
}

impl Run {
    /// Reads a strip with a deck, cut in this way, and then by the strip readers:
    /// the answer and the output are the same.
    pub fn read_deck(
        &mut self,
        random: &mut Random,
        pulses: &[u32],
        n: usize,
        cutting: Cutting,
    ) -> Result<(BlockRead, Vec<u8>), Refusal> {
        let mut reading = Reading::new(random, pulses, n);
        let mut expected_out = reading.decks.ours.out.clone();
        let often = match cutting {
            Cutting::Pulses | Cutting::Disturbed => 16 + n / 2,
            _ => 1 + n / 100,
        };
        while reading.left() > 0 {
            reading.read_on(random, cutting);
            if random.once_in(often) || reading.left() == 0 {
                reading.demand_what_the_strip_says();
            }
        }
        let told = reading.decks.call(Call::End);
        assert_eq!(reading.decks.deck(), deck_at_end(pulses, n));
        let expected = strip_readers(pulses, n, expected_out.part());
        assert_eq!(told, Told::Answer(expected), "n {n}, {}", brief(pulses));
        let out = &reading.decks.ours.out;
        assert_eq!(out.difference(&expected_out), None);
        reading.stay_answered(random);
        self.count("deck", expected.as_ref().err());
        expected.map(|read| (read, expected_out.part().to_vec()))
    }

    /// A beginning with any numbers. Where it is refused, every later call gives
    /// the same refusal and changes nothing.
    pub fn begin_deck(&mut self, random: &mut Random, n: usize, rooms: Rooms) -> Deck {
        let lent = Rooms {
            work: rooms.work.min(200_000),
            out: rooms.out.min(200_000),
        };
        let deck = library::begin_deck(n, rooms.work, rooms.out);
        let expected = Deck::begin(n, rooms.work, rooms.out);
        let told = demand_same(deck, expected, || format!("beginning with {n}, {rooms:?}"));
        let refusal = match told {
            Told::Refused(refusal) => Some(refusal),
            told => {
                assert_eq!(told, Told::Nothing);
                None
            }
        };
        self.count("begin_deck", refusal.as_ref());
        if refusal.is_some() {
            let mut decks = Decks::with(random, deck, lent);
            let pulses = [random.any_pulse(), random.any_pulse()];
            for call in [
                Call::Pulse(pulses[0]),
                Call::Run(&pulses),
                Call::Run(&[]),
                Call::End,
            ] {
                decks.stay(call, lent);
                assert_eq!(decks.said(), told);
            }
        }
        deck
    }

    /// Counts what was told at the end of a reading with buffers that the caller
    /// changed.
    pub fn count_told(&mut self, name: &'static str, told: Told) {
        let Told::Answer(answer) = told else {
            panic!("{name}: at the end there is an answer, not {told:?}");
        };
        self.count_outcome(name, answer.as_ref().err());
    }

    /// A refused call, counted.
    pub fn refuse_call(&mut self, decks: &mut Decks, number: u32, call: Call, rooms: Rooms) {
        decks.refuse(number, call, rooms);
        let Told::Refused(refusal) = decks.said() else {
            panic!("the call is refused");
        };
        self.count("deck, a refused call", Some(&refusal));
    }

    /// A call on a deck in any state, between guarded pages, with these buffers and
    /// no byte more. Answers the next state.
    pub fn make_up_deck(
        &mut self,
        guards: &mut Guards,
        deck: Deck,
        call: Call,
        work: &mut [u8],
        out: &mut [u8],
    ) -> Deck {
        let ours = guards.call(deck, call, work, out);
        let before = [work.to_vec(), out.to_vec()];
        let theirs = call.by_reference(deck, work, out);
        let rooms = [work.len(), out.len()];
        let arguments = || format!("{} to {deck:?}, rooms {rooms:?}", call.brief());
        let told = demand_same(ours, theirs, arguments);
        let [our_work, our_out] = guards.buffers(rooms);
        for (name, ours, theirs) in [("work", our_work, &work[..]), ("out", our_out, &out[..])] {
            let place = (0..ours.len()).find(|&i| ours[i] != theirs[i]);
            assert_eq!(place, None, "{}: {name} differs", arguments());
        }
        let is_filled = deck.phase != phase::ANSWERED && matches!(told, Told::Answer(Ok(_)));
        assert!(is_filled || before[1] == out, "the output is filled");
        self.count_made_up(deck, told);
        theirs
    }

    fn count_made_up(&mut self, deck: Deck, told: Told) {
        let (name, refusal) = match told {
            _ if !deck.is_sound() => match told {
                Told::Refused(refusal) => ("made-up deck, not sound", Some(refusal)),
                told => panic!("a deck that is not sound says {told:?}"),
            },
            Told::Nothing => ("made-up deck, nothing told", None),
            Told::Refused(refusal) => ("made-up deck, a refused call", Some(refusal)),
            Told::Answer(answer) if deck.phase == phase::ANSWERED => {
                ("made-up deck, answered before", answer.err())
            }
            Told::Answer(answer) => ("made-up deck", answer.err()),
        };
        self.count_outcome(name, refusal.as_ref());
    }
}

/// What the strip readers answer from place 0, which has to be the same where
/// several read so many bytes.
fn strip_readers(pulses: &[u32], n: usize, out: &mut [u8]) -> Result<BlockRead, Refusal> {
    let [mut ours, mut theirs] = [out.to_vec(), out.to_vec()];
    let expected = read_strip(pulses, n, out);
    if n <= MAX_PAYLOAD {
        assert_eq!(library::read_block(pulses, 0, n, &mut ours), expected);
        assert_eq!(reference::read_block(pulses, 0, n, &mut theirs), expected);
        assert_eq!((&ours[..], &theirs[..]), (&*out, &*out));
    }
    expected
}

/// Guarded pages for the largest buffers of a deck.
pub struct Guards {
    pulses: Guarded,
    work: Guarded,
    out: Guarded,
    /// Whether buffers lie before the page after them.
    at_end: bool,
}

impl Guards {
    pub fn new() -> Self {
        Self {
            pulses: Guarded::new(1 << 16),
            work: Guarded::new(work_len(MAX_DECK_PAYLOAD) + 64),
            out: Guarded::new(MAX_DECK_PAYLOAD + 64),
            at_end: true,
        }
    }

    /// The same with buffers at the other end of their pages.
    pub fn turn(&mut self) {
        self.at_end = !self.at_end;
    }

    fn buffers(&mut self, [work, out]: [usize; 2]) -> [&mut [u8]; 2] {
        [
            self.work.bytes(work, self.at_end),
            self.out.bytes(out, self.at_end),
        ]
    }

    /// The library's call with copies of these buffers.
    fn call(&mut self, deck: Deck, call: Call, work: &[u8], out: &[u8]) -> Deck {
        let call = match call {
            Call::Run(pulses) => Call::Run(self.pulses.pulses(pulses)),
            call => call,
        };
        let our_work = self.work.bytes(work.len(), self.at_end);
        let our_out = self.out.bytes(out.len(), self.at_end);
        our_work.copy_from_slice(work);
        our_out.copy_from_slice(out);
        call.by_library(deck, our_work, our_out)
    }
}

impl Default for Guards {
    fn default() -> Self {
        Self::new()
    }
}
