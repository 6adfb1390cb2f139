//! Calls made on the library and on the reference with the same arguments,
//! and what came of them.

pub mod deck;

use std::collections::BTreeMap;
use std::env;
use std::fmt::Debug;
use std::iter;

use crate::random::Random;
use crate::readers::Tally;
use crate::reference::block::{copy_len, Places, COUNTDOWNS, MAX_PAYLOAD, TRAILER};
use crate::reference::byte::{value_of, CAUSES, PULSES};
use crate::reference::header::HEADER;
use crate::reference::pulse::Class;
use crate::reference::refusal::{CUT, LOST, NO_START};
use crate::reference::{wear, BlockRead, FileRead, Header, Refusal, Span, TapRead};
use crate::reference::{Walk, Walked, Wear};
use crate::thresholds::Thresholds;
use crate::{library, readers, reference};

const DEFAULT_SEED: u64 = 0xc64;
const DEFAULT_CALLS: u64 = 60_000;

/// Elements on either side of a lent buffer that no call may touch.
const MARGIN: usize = 32;

/// Bad bytes that are counted by cause: those read one by one, those of a block's
/// first lost place, and those that walks and reports tell.
pub const BYTES_READ: &str = "bytes read";
pub const LOST_IN_COPY_ONE: &str = "first places lost, copy one";
pub const LOST_IN_COPY_TWO: &str = "first places lost, copy two";
pub const BYTES_OF_WALKS: &str = "bytes of walks";
pub const BYTES_OF_REPORTS: &str = "bytes of reports";

/// A buffer to lend, filled with a pattern, with a margin around it.
#[derive(Clone, Debug, PartialEq, Eq)]
pub struct Lent<T> {
    all: Vec<T>,
}

impl<T: Copy + PartialEq + Debug> Lent<T> {
    fn new(room: usize, pattern: impl Fn(usize) -> T) -> Self {
        Self {
            all: (0..room + 2 * MARGIN).map(pattern).collect(),
        }
    }

    /// The part that is lent.
    pub fn part(&mut self) -> &mut [T] {
        let end = self.all.len() - MARGIN;
        &mut self.all[MARGIN..end]
    }

    /// The same part, to be looked at.
    fn seen(&self) -> &[T] {
        &self.all[MARGIN..self.all.len() - MARGIN]
    }

    /// The first element that differs from the other buffer's, with both values.
    fn difference(&self, other: &Self) -> Option<String> {
        if self.all == other.all {
            return None;
        }
        let i = (0..self.all.len()).find(|&i| self.all[i] != other.all[i])?;
        let place = i as isize - MARGIN as isize;
        Some(format!(
            "at {place} the library has {:?}, the reference {:?}",
            self.all[i], other.all[i]
        ))
    }
}

fn lend_bytes(random: &mut Random, room: usize) -> Lent<u8> {
    let salt = random.bits();
    Lent::new(room, |i| (salt.rotate_left(i as u32) ^ i as u64) as u8)
}

fn lend_numbers(random: &mut Random, room: usize) -> Lent<u32> {
    let salt = random.bits();
    Lent::new(room, |i| (salt.rotate_left(i as u32) ^ i as u64) as u32)
}

/// An outcome of a call: its name, the refusal's number or 0, and the block.
type Outcome = (&'static str, u32, u32);

/// One area's calls from a seed.
pub struct Run {
    area: &'static str,
    seed: u64,
    wanted: u64,
    made: u64,
    /// The index and the name of what runs now.
    index: u64,
    scene: &'static str,
    seen: BTreeMap<Outcome, u64>,
    /// How often input of some kind was met.
    met: BTreeMap<&'static str, u64>,
    /// Durations that came back from a TAP file of version 1, by their remainder
    /// modulo 8: first those below 2,048 cycles, then the others.
    remainders: [[u64; 8]; 2],
    /// Bad bytes of some kind, by cause.
    causes: BTreeMap<&'static str, [u64; CAUSES]>,
}

/// A kind of input: its name, and what makes one and calls with it.
pub type Scene = (&'static str, fn(&mut Run, &mut Random));

impl Run {
    /// A run with the seed and the number of calls of the environment.
    pub fn new(area: &'static str) -> Self {
        Self {
            area,
            seed: number_from("SEED").unwrap_or(DEFAULT_SEED),
            wanted: number_from("CALLS").unwrap_or(DEFAULT_CALLS),
            made: 0,
            index: 0,
            scene: "",
            seen: BTreeMap::new(),
            met: BTreeMap::new(),
            remainders: [[0; 8]; 2],
            causes: BTreeMap::new(),
        }
    }

    /// Plays the scenes in turn until the wanted number of calls is made. Each
    /// has its own random numbers, from the seed, the area and its index.
    pub fn play(&mut self, scenes: &[Scene]) {
        while self.made < self.wanted {
            let (name, scene) = scenes[(self.index % scenes.len() as u64) as usize];
            self.scene = name;
            let mut random = self.random();
            scene(self, &mut random);
            self.index += 1;
        }
    }

    /// The random numbers of the present index.
    pub fn random(&self) -> Random {
        let area = self.area.bytes().fold(0, |sum: u64, byte| {
            sum.wrapping_mul(131).wrapping_add(byte.into())
        });
        Random::new(self.seed ^ area.rotate_left(32), self.index)
    }

    /// Counts durations that were written as version 1 and read back.
    pub fn count_remainders(&mut self, durations: &[u32]) {
        for &duration in durations {
            let is_large = duration >= 2048;
            self.remainders[usize::from(is_large)][duration as usize % 8] += 1;
        }
    }

    /// Prints those counts, and demands that small and large durations of each
    /// remainder modulo 8 came back a fair number of times.
    pub fn demand_every_remainder(&self) {
        for (size, counts) in ["small", "large"].into_iter().zip(self.remainders) {
            println!(
                "{}: {size} durations back, by their remainder modulo 8: {counts:?}",
                self.area
            );
            for (remainder, times) in counts.into_iter().enumerate() {
                assert!(
                    times >= self.fair(),
                    "{size} durations of remainder {remainder} came back too seldom"
                );
            }
        }
    }

    /// Counts bad bytes of this kind by their cause.
    fn count_cause(&mut self, kind: &'static str, cause: usize, times: usize) {
        self.causes.entry(kind).or_default()[cause] += times as u64;
    }

    /// Prints those counts, and demands that each cause came up a fair number of
    /// times with the kinds listed here.
    pub fn demand_every_cause(&self, kinds: &[&'static str]) {
        for (kind, counts) in &self.causes {
            println!("{}: {kind}, by cause: {counts:?}", self.area);
        }
        for kind in kinds {
            let counts = self.causes.get(kind).copied().unwrap_or_default();
            for (cause, times) in counts.into_iter().enumerate() {
                assert!(
                    times >= self.fair(),
                    "{kind}: cause {cause} was met too seldom"
                );
            }
        }
    }

    /// Counts input of this kind, where it is met.
    pub fn meet(&mut self, kind: &'static str, is_met: bool) {
        *self.met.entry(kind).or_default() += u64::from(is_met);
    }

    /// Prints how often each kind of input was met, and demands that those
    /// listed here were a fair number of times.
    pub fn demand(&self, kinds: &[&'static str]) {
        for (kind, times) in &self.met {
            println!("{}: {kind} {times}", self.area);
        }
        for kind in kinds {
            let times = self.met.get(kind).copied();
            assert!(
                times.unwrap_or(0) >= self.fair(),
                "{kind} was met too seldom"
            );
        }
    }

    /// The least number of times that each outcome has to come up; 0 in a
    /// random run of few calls.
    fn fair(&self) -> u64 {
        match self.made {
            0..10_000 if self.index > 0 => 0,
            made => (made / 2000).max(1),
        }
    }

    /// Prints what was seen, and demands that each outcome of a call listed
    /// here, as refusal number and block, came up a fair number of times, and
    /// no other one ever.
    pub fn finish(self, outcomes: &[(&'static str, &[(u32, u32)])]) {
        println!("{}: {} calls, seed {}", self.area, self.made, self.seed);
        for ((call, number, block), times) in &self.seen {
            match number {
                0 => println!("  {call}: accepted {times}"),
                _ => println!("  {call}: refused {number} block {block} {times}"),
            }
        }
        let fair = self.fair();
        for &(call, listed) in outcomes {
            for &(number, block) in listed {
                let times = self.seen.get(&(call, number, block)).copied();
                assert!(
                    times.unwrap_or(0) >= fair,
                    "{call}: refusal {number} block {block} was seen too seldom"
                );
            }
        }
        for (call, number, block) in self.seen.keys() {
            let listed = outcomes
                .iter()
                .any(|(name, listed)| name == call && listed.contains(&(*number, *block)));
            assert!(
                listed,
                "{call}: refusal {number} block {block} cannot occur"
            );
        }
    }

    /// Counts a call, and demands that both answers and all buffers agree.
    fn settle<T: PartialEq + Debug>(
        &mut self,
        call: &'static str,
        library: &Result<T, Refusal>,
        reference: &Result<T, Refusal>,
        buffers: &[Option<String>],
        arguments: impl Fn() -> String,
    ) {
        self.count(call, library.as_ref().err());
        demand_equal(call, library, reference, &arguments);
        if let Some(difference) = buffers.iter().flatten().next() {
            panic!(
                "{call} with {}: after {library:?} the buffers differ: {difference}",
                arguments()
            );
        }
    }

    fn count(&mut self, call: &'static str, refusal: Option<&Refusal>) {
        self.count_outcome(call, refusal);
        if let Some(refusal) = refusal.filter(|refusal| refusal.number == LOST) {
            let [one, two] = refusal.causes.map(|cause| cause as usize);
            self.count_cause(LOST_IN_COPY_ONE, one, 1);
            self.count_cause(LOST_IN_COPY_TWO, two, 1);
        }
    }

    fn count_outcome(&mut self, call: &'static str, refusal: Option<&Refusal>) {
        self.made += 1;
        let (number, block) = refusal.map_or((0, 0), |refusal| (refusal.number, refusal.block));
        *self.seen.entry((call, number, block)).or_default() += 1;
    }

    /// The byte at a place.
    pub fn read_byte(&mut self, pulses: &[u32], at: usize) -> Result<u8, usize> {
        let answer = library::read_byte(pulses, at);
        let expected = reference::read_byte(pulses, at);
        let call = match answer {
            Ok(_) => "read_byte",
            Err(_) => "read_byte, bad",
        };
        self.settle(call, &Ok(answer), &Ok(expected), &[], || {
            format!("pulses {}, at {at}", brief(pulses))
        });
        if let Err(cause) = answer {
            self.count_cause(BYTES_READ, cause, 1);
        }
        answer
    }

    pub fn write_block(
        &mut self,
        random: &mut Random,
        payload: &[u8],
        leader: u64,
        room: usize,
    ) -> Result<usize, Refusal> {
        let mut ours = lend_numbers(random, room);
        let mut theirs = ours.clone();
        let answer = library::write_block(payload, leader, ours.part());
        let expected = reference::write_block(payload, leader, theirs.part());
        self.settle(
            "write_block",
            &answer,
            &expected,
            &[ours.difference(&theirs)],
            || format!("payload {}, leader {leader}, room {room}", brief(payload)),
        );
        answer
    }

    pub fn read_block(
        &mut self,
        random: &mut Random,
        pulses: &[u32],
        from: usize,
        n: usize,
        room: usize,
    ) -> Result<(BlockRead, Vec<u8>), Refusal> {
        let mut ours = lend_bytes(random, room);
        let mut theirs = ours.clone();
        let mut among_others = ours.clone();
        let answer = library::read_block(pulses, from, n, ours.part());
        let expected = reference::read_block(pulses, from, n, theirs.part());
        let count = readers::read_block(pulses, from, n, among_others.part());
        self.settle(
            "read_block",
            &answer,
            &expected,
            &[ours.difference(&theirs), among_others.difference(&theirs)],
            || format!("pulses {}, from {from}, n {n}, room {room}", brief(pulses)),
        );
        assert_eq!(count, answer.map_or(0, |read| read.n));
        answer.map(|read| (read, ours.part().to_vec()))
    }

    /// Bytes with thresholds of any kind, beside the plain classification.
    pub fn read_bytes(&mut self, thresholds: Thresholds, pulses: &[u32]) {
        let answer = readers::read_bytes(pulses, thresholds.0);
        let expected = thresholds.tally(pulses);
        let call = match expected.good {
            0 => "read_bytes, none good",
            _ => "read_bytes",
        };
        self.settle(call, &Ok(answer), &Ok(expected), &[], || {
            format!("{thresholds:?}, pulses {}", brief(pulses))
        });
    }

    pub fn read_fixed(&mut self, pulses: &[u32]) {
        let answer = readers::read_fixed(pulses);
        let expected = Tally::by(value_of, pulses);
        let call = match expected.good {
            0 => "read_fixed, none good",
            _ => "read_fixed",
        };
        self.settle(call, &Ok(answer), &Ok(expected), &[], || {
            format!("pulses {}", brief(pulses))
        });
    }

    pub fn write_file(
        &mut self,
        random: &mut Random,
        header: Header,
        name: &[u8],
        bytes: &[u8],
        leaders: [u64; 2],
        room: usize,
    ) -> Result<(usize, Vec<u32>), Refusal> {
        let mut ours = lend_numbers(random, room);
        let mut theirs = ours.clone();
        let answer = library::write_file(header, name, bytes, leaders, ours.part());
        let expected = reference::write_file(header, name, bytes, leaders, theirs.part());
        self.settle(
            "write_file",
            &answer,
            &expected,
            &[ours.difference(&theirs)],
            || {
                format!(
                    "{header:?}, name {}, bytes {}, leaders {leaders:?}, room {room}",
                    brief(name),
                    brief(bytes)
                )
            },
        );
        answer.map(|count| (count, ours.part().to_vec()))
    }

    /// An accepted file comes with both buffers.
    pub fn read_file(
        &mut self,
        random: &mut Random,
        pulses: &[u32],
        from: usize,
        rooms: [usize; 2],
    ) -> Result<(FileRead, [Vec<u8>; 2]), Refusal> {
        let mut ours = rooms.map(|room| lend_bytes(random, room));
        let mut theirs = ours.clone();
        let [header, data] = &mut ours;
        let answer = library::read_file(pulses, from, header.part(), data.part());
        let [header, data] = &mut theirs;
        let expected = reference::read_file(pulses, from, header.part(), data.part());
        self.settle(
            "read_file",
            &answer,
            &expected,
            &[
                ours[0].difference(&theirs[0]),
                ours[1].difference(&theirs[1]),
            ],
            || format!("pulses {}, from {from}, rooms {rooms:?}", brief(pulses)),
        );
        answer.map(|read| (read, ours.map(|mut lent| lent.part().to_vec())))
    }

    pub fn pack_header(
        &mut self,
        random: &mut Random,
        header: Header,
        name: &[u8],
        room: usize,
    ) -> Result<usize, Refusal> {
        let mut ours = lend_bytes(random, room);
        let mut theirs = ours.clone();
        let answer = library::pack_header(header, name, ours.part());
        let expected = reference::pack_header(header, name, theirs.part());
        self.settle(
            "pack_header",
            &answer,
            &expected,
            &[ours.difference(&theirs)],
            || format!("{header:?}, name {}, room {room}", brief(name)),
        );
        answer
    }

    pub fn unpack_header(&mut self, bytes: &[u8]) -> Result<Header, Refusal> {
        let answer = library::unpack_header(bytes);
        let expected = reference::unpack_header(bytes);
        self.settle("unpack_header", &answer, &expected, &[], || {
            format!("header {}", brief(bytes))
        });
        answer
    }

    pub fn shown_name(&mut self, bytes: &[u8]) -> Result<Span, Refusal> {
        let answer = library::shown_name(bytes);
        let expected = reference::shown_name(bytes);
        let call = match answer {
            Err(_) => "shown_name of no header",
            Ok(Span { length: 0, .. }) => "shown_name of spaces",
            Ok(_) => "shown_name",
        };
        self.settle(call, &answer, &expected, &[], || {
            format!("header {}", brief(bytes))
        });
        answer
    }

    pub fn write_tap(
        &mut self,
        random: &mut Random,
        durations: &[u32],
        version: u8,
        room: usize,
    ) -> Result<(usize, Vec<u8>), Refusal> {
        let mut ours = lend_bytes(random, room);
        let mut theirs = ours.clone();
        let answer = library::write_tap(durations, version, ours.part());
        let expected = reference::write_tap(durations, version, theirs.part());
        self.settle(
            "write_tap",
            &answer,
            &expected,
            &[ours.difference(&theirs)],
            || {
                format!(
                    "durations {}, version {version}, room {room}",
                    brief(durations)
                )
            },
        );
        answer.map(|length| (length, ours.part().to_vec()))
    }

    pub fn read_tap(
        &mut self,
        random: &mut Random,
        file: &[u8],
        room: usize,
    ) -> Result<(TapRead, Vec<u32>), Refusal> {
        let mut ours = lend_numbers(random, room);
        let mut theirs = ours.clone();
        let answer = library::read_tap(file, ours.part());
        let expected = reference::read_tap(file, theirs.part());
        self.settle(
            "read_tap",
            &answer,
            &expected,
            &[ours.difference(&theirs)],
            || format!("file {}, room {room}", brief(file)),
        );
        answer.map(|read| (read, ours.part().to_vec()))
    }

    /// One step of a walk. It is counted by what was tried and, for an accepted
    /// header, by how the walk goes on.
    pub fn walk_block(&mut self, pulses: &[u32], at: Walk) -> Result<Walked, Refusal> {
        let answer = library::walk_block(pulses, at);
        let expected = reference::walk_block(pulses, at);
        let call = step_name(at, &answer);
        let refusal = match &answer {
            Ok(walked) => walked.end.as_ref().err(),
            Err(refusal) => Some(refusal),
        };
        self.count(call, refusal);
        demand_equal(call, &answer, &expected, || {
            format!("pulses {}, {at:?}", brief(pulses))
        });
        answer
    }

    /// A walk from its beginning to its end, and the report of the strip.
    pub fn walk(&mut self, pulses: &[u32]) -> Vec<Walked> {
        let blocks = self.walk_on(pulses, Walk::default());
        let totals = self
            .report_strip(Wear::default(), pulses)
            .expect("a strip that is not too long");
        let count = |class| {
            pulses
                .iter()
                .filter(|&&pulse| Class::of(pulse) == class)
                .count()
        };
        let sum = |places: fn(&Walked) -> usize| blocks.iter().map(places).sum::<usize>();
        let mut sums = vec![
            1,
            count(Class::Short),
            count(Class::Medium),
            count(Class::Long),
            count(Class::Noise),
            sum(|walked| walked.places.one),
            sum(|walked| walked.places.two),
            sum(|walked| walked.places.lost),
        ];
        assert_eq!(sums[1..5].iter().sum::<usize>(), pulses.len());
        for cause in 0..CAUSES {
            let counts = blocks.iter().map(|walked| walked.places.causes[cause]);
            sums.push(counts.sum());
        }
        assert_eq!(
            totals.numbers().map(|total| total as usize)[..],
            sums,
            "the report is not the walk"
        );
        blocks
    }

    /// A walk from any place to its end: a step wherever the reference's walk
    /// stands, and then the library's walk by itself.
    pub fn walk_on(&mut self, pulses: &[u32], from: Walk) -> Vec<Walked> {
        let blocks: Vec<Walked> = wear::walk(pulses, from).collect();
        let mut at = from;
        for (i, walked) in blocks.iter().enumerate() {
            check_step(pulses, at, walked);
            check_file(pulses, at, walked, blocks.get(i + 1));
            let _ = self.walk_block(pulses, at);
            at = walked.next;
        }
        let _ = self.walk_block(pulses, at);
        self.meet_ways_on(&blocks);
        let mut at = from;
        let by_itself = iter::from_fn(|| {
            let walked = library::walk_block(pulses, at).ok()?;
            at = walked.next;
            Some(walked)
        });
        assert!(
            by_itself.take(blocks.len() + 1).eq(blocks.iter().copied()),
            "the library's walk is another one"
        );
        blocks
    }

    /// Counts what is telling in a walk.
    fn meet_ways_on(&mut self, blocks: &[Walked]) {
        for walked in blocks {
            let refused = walked.end.err().map_or(0, |refusal| refusal.number);
            let places = walked.places;
            for (cause, times) in places.causes.into_iter().enumerate() {
                self.count_cause(BYTES_OF_WALKS, cause, times);
            }
            let bad: usize = places.causes.iter().sum();
            let bad_in_vain = bad - places.two - 2 * places.lost;
            self.meet("bad bytes of copy two beside good ones", bad_in_vain > 0);
            self.meet("bad bytes after refusal 5", refused == 5 && bad > 0);
            self.meet("bad bytes after refusal 7", refused == 7 && bad > 0);
            self.meet("places from copy two", places.two > 0);
            self.meet("several places lost", places.lost > 1);
            self.meet(
                "places of all kinds",
                places.one * places.two * places.lost > 0,
            );
            self.meet(
                "places lost after refusal 5",
                refused == 5 && places.lost > 0,
            );
            self.meet(
                "places from copy two after refusal 7",
                refused == 7 && places.two > 0,
            );
        }
        for pair in blocks.windows(2) {
            let [block, next] = [pair[0], pair[1]];
            let whole = block.start + 2 * copy_len(block.n) + TRAILER;
            let refused = block.end.is_err();
            let inside = refused && next.start < whole;
            self.meet("a start inside a refused block", inside);
            self.meet(
                "an accepted block inside a refused one",
                inside && next.end.is_ok(),
            );
            self.meet(
                "an accepted block after a refused one",
                refused && next.end.is_ok(),
            );
        }
    }

    pub fn report_strip(&mut self, totals: Wear, pulses: &[u32]) -> Result<Wear, Refusal> {
        let answer = library::report_strip(totals, pulses);
        let expected = reference::report_strip(totals, pulses);
        self.settle("report_strip", &answer, &expected, &[], || {
            format!("{totals:?}, pulses {}", brief(pulses))
        });
        if let Ok(after) = answer {
            for cause in 0..CAUSES {
                let times = after.causes[cause] - totals.causes[cause];
                self.count_cause(BYTES_OF_REPORTS, cause, times as usize);
            }
        }
        answer
    }
}

/// The name of a step, by what was tried and what came of it.
fn step_name(at: Walk, answer: &Result<Walked, Refusal>) -> &'static str {
    let is_accepted = answer.is_ok_and(|walked| walked.end.is_ok());
    let goes_on_with_data = answer.is_ok_and(|walked| walked.next.length > 0);
    match at.length {
        0 if goes_on_with_data => "walk_block, a program's header",
        0 if is_accepted => "walk_block, another header",
        0 => "walk_block, a header",
        HEADER if is_accepted => "walk_block, 192 bytes of data",
        1..=MAX_PAYLOAD => "walk_block, data",
        _ => "walk_block, too many bytes",
    }
}

/// Checks what is true of every step of the reference, that it answers what the
/// block reader does, and that it counts what the library reads byte by byte.
fn check_step(pulses: &[u32], at: Walk, walked: &Walked) {
    let n = if at.length == 0 { HEADER } else { at.length };
    let block = u32::from(at.length > 0);
    let read = reference::read_block(pulses, at.from, n, &mut [0; MAX_PAYLOAD]);
    let told = walked.end.map(|end| BlockRead {
        n: walked.n,
        start: walked.start,
        end,
    });
    assert_eq!(told, read.map_err(|refusal| Refusal { block, ..refusal }));
    let places = match told {
        Err(refusal) if refusal.number == CUT => Places::default(),
        _ => places_by_bytes(pulses, walked),
    };
    assert_eq!(
        walked.places, places,
        "the places are not those of the bytes"
    );
    assert!(places.lost == 0 || told.is_err());
    assert!(at.from < walked.start && walked.start < walked.next.from);
    if let Some(refusal) = told.err().filter(|refusal| refusal.number == LOST) {
        let bytes = bytes_at(pulses, walked, refusal.place);
        let causes = refusal.causes.map(|cause| Err(cause as usize));
        assert_eq!(bytes, causes, "the causes are not those of the bytes");
    }
}

/// The bytes of both copies at a place of payload or checksum, by the library.
fn bytes_at(pulses: &[u32], walked: &Walked, place: usize) -> [Result<u8, usize>; 2] {
    let one = walked.start + PULSES * (COUNTDOWNS[0].len() + place);
    let two = one + copy_len(walked.n) + TRAILER;
    [one, two].map(|at| library::read_byte(pulses, at))
}

/// The places of a block and its bad bytes, counted byte by byte.
fn places_by_bytes(pulses: &[u32], walked: &Walked) -> Places {
    let mut places = Places::default();
    for place in 0..=walked.n {
        let bytes = bytes_at(pulses, walked, place);
        match bytes {
            [Ok(_), _] => places.one += 1,
            [_, Ok(_)] => places.two += 1,
            _ => places.lost += 1,
        }
        for cause in bytes.into_iter().filter_map(Result::err) {
            places.causes[cause] += 1;
        }
    }
    places
}

/// Checks that a program's header and the step after it answer what the file
/// reader does.
fn check_file(pulses: &[u32], at: Walk, head: &Walked, data: Option<&Walked>) {
    if head.next.length == 0 {
        return;
    }
    let no_start = Err(Refusal {
        number: NO_START,
        block: 1,
        place: 0,
        causes: [0, 0],
    });
    let read = reference::read_file(pulses, at.from, &mut [0; HEADER], &mut [0; MAX_PAYLOAD]);
    let told = data.map_or(no_start, |data| data.end);
    assert_eq!(told, read.map(|read| read.stop));
}

fn demand_equal<T: PartialEq + Debug>(
    call: &str,
    library: &T,
    reference: &T,
    arguments: impl Fn() -> String,
) {
    if library != reference {
        panic!(
            "{call} with {}: the library answers {library:?}, the reference {reference:?}",
            arguments()
        );
    }
}

impl Drop for Run {
    /// Says how a failure is repeated.
    fn drop(&mut self) {
        if std::thread::panicking() {
            eprintln!(
                "{}: failed at index {} ({}), call {}; repeat with SEED={} CALLS={}",
                self.area, self.index, self.scene, self.made, self.seed, self.wanted
            );
        }
    }
}

/// A number of the environment, decimal or with 0x before it.
fn number_from(variable: &str) -> Option<u64> {
    let text = env::var(variable).ok()?;
    let number = match text.strip_prefix("0x") {
        Some(digits) => u64::from_str_radix(digits, 16),
        None => text.parse(),
    };
    Some(number.unwrap_or_else(|_| panic!("{variable} is not a number: {text}")))
}

/// A slice in short form: whole when it is short, else its length, its first
/// elements and a sum over all.
fn brief<T: Debug + Copy + Into<u64>>(slice: &[T]) -> String {
    if slice.len() <= 24 {
        return format!("{slice:?}");
    }
    let sum = slice
        .iter()
        .fold(0u64, |sum, &x| sum.wrapping_mul(31).wrapping_add(x.into()));
    format!("[{} of {:?}.., sum {sum:x}]", slice.len(), &slice[..8])
}
