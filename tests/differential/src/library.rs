//! The library under test, by the calls of its archive, with the signatures
//! and the answers of the reference.

use crate::reference::block::Places;
use crate::reference::byte::{CAUSES, EVEN_ONES};
use crate::reference::refusal::LOST;
use crate::reference::{BlockRead, Deck, FileRead, Header, Refusal, Span, TapRead, Told};
use crate::reference::{Walk, Walked, Wear};

#[repr(C)]
struct TapeRefusal {
    number: u32,
    block: u32,
    place: u64,
    cause_one: u32,
    cause_two: u32,
}

#[repr(C)]
struct TapePut {
    refusal: TapeRefusal,
    count: u64,
}

#[repr(C)]
struct TapeBlock {
    refusal: TapeRefusal,
    n: u64,
    start: u64,
    end: u64,
}

#[repr(C)]
struct TapeFile {
    refusal: TapeRefusal,
    kind: u32,
    start: u32,
    end: u32,
    stop: u64,
}

#[repr(C)]
struct TapeTap {
    refusal: TapeRefusal,
    version: u32,
    count: u64,
}

#[repr(C)]
struct TapeSpan {
    refusal: TapeRefusal,
    offset: u64,
    length: u64,
}

#[repr(C)]
struct TapeWear {
    strips: u64,
    shorts: u64,
    mediums: u64,
    longs: u64,
    noises: u64,
    one: u64,
    two: u64,
    lost: u64,
    causes: [u64; CAUSES],
}

#[repr(C)]
struct TapeReport {
    refusal: TapeRefusal,
    totals: TapeWear,
}

#[repr(C)]
struct TapeWalk {
    from: u64,
    length: u64,
}

#[repr(C)]
struct TapeWalked {
    refusal: TapeRefusal,
    found: u32,
    n: u64,
    start: u64,
    end: u64,
    one: u64,
    two: u64,
    lost: u64,
    causes: [u64; CAUSES],
    next: TapeWalk,
}

#[repr(C)]
struct TapeByte {
    good: u32,
    value: u32,
    cause: u32,
}

#[repr(C)]
struct TapeTold {
    refusal: TapeRefusal,
    told: u32,
    n: u64,
    start: u64,
    end: u64,
}

extern "C" {
    fn tape_read_byte(pulses: *const u32, count: usize, at: usize) -> TapeByte;

    fn tape_write_block(
        payload: *const u8,
        n: usize,
        leader: u64,
        out: *mut u32,
        room: usize,
    ) -> TapePut;

    fn tape_read_block(
        pulses: *const u32,
        count: usize,
        from: usize,
        n: usize,
        out: *mut u8,
        room: usize,
    ) -> TapeBlock;

    fn tape_write_file(
        kind: u8,
        start: u16,
        end: u16,
        name: *const u8,
        name_len: usize,
        bytes: *const u8,
        len: usize,
        leader0: u64,
        leader1: u64,
        out: *mut u32,
        room: usize,
    ) -> TapePut;

    fn tape_read_file(
        pulses: *const u32,
        count: usize,
        from: usize,
        header: *mut u8,
        header_room: usize,
        data: *mut u8,
        data_room: usize,
    ) -> TapeFile;

    fn tape_pack_header(
        kind: u8,
        start: u16,
        end: u16,
        name: *const u8,
        name_len: usize,
        out: *mut u8,
        room: usize,
    ) -> TapePut;

    fn tape_unpack_header(header: *const u8, len: usize) -> TapeFile;

    fn tape_shown_name(header: *const u8, len: usize) -> TapeSpan;

    fn tape_write_tap(
        durations: *const u32,
        count: usize,
        version: u8,
        out: *mut u8,
        room: usize,
    ) -> TapePut;

    fn tape_read_tap(file: *const u8, len: usize, out: *mut u32, room: usize) -> TapeTap;

    fn tape_report_strip(totals: TapeWear, pulses: *const u32, count: usize) -> TapeReport;

    fn tape_walk_block(pulses: *const u32, count: usize, at: TapeWalk) -> TapeWalked;

    fn tape_deck_begin(n: usize, work_room: usize, room: usize) -> Deck;

    fn tape_deck_pulse(
        deck: Deck,
        pulse: u32,
        work: *mut u8,
        work_room: usize,
        out: *mut u8,
        room: usize,
    ) -> Deck;

    fn tape_deck_pulses(
        deck: Deck,
        pulses: *const u32,
        count: usize,
        work: *mut u8,
        work_room: usize,
        out: *mut u8,
        room: usize,
    ) -> Deck;

    fn tape_deck_end(
        deck: Deck,
        work: *mut u8,
        work_room: usize,
        out: *mut u8,
        room: usize,
    ) -> Deck;

    fn tape_deck_said(deck: Deck) -> TapeTold;
}

impl TapeRefusal {
    /// Whether the call was accepted. A refusal must come with no numbers, only
    /// that of a lost place with causes, and an acceptance with neither a block
    /// nor a place nor causes.
    fn accepted(self, numbers: &[u64]) -> Result<(), Refusal> {
        self.accepted_with(numbers, EVEN_ONES)
    }

    /// The same with this as the largest cause.
    fn accepted_with(self, numbers: &[u64], largest: usize) -> Result<(), Refusal> {
        let causes = [self.cause_one, self.cause_two];
        if self.number == 0 {
            assert_eq!(
                (self.block, self.place, causes),
                (0, 0, [0, 0]),
                "an accepted call names a block, a place or causes"
            );
            return Ok(());
        }
        let most = if self.number == LOST { largest } else { 0 };
        assert!(
            causes.iter().all(|&cause| size(cause.into()) <= most),
            "refusal {} comes with causes {causes:?}",
            self.number
        );
        assert!(
            numbers.iter().all(|&number| number == 0),
            "refusal {} comes with numbers {numbers:?}",
            self.number
        );
        Err(Refusal {
            number: self.number,
            block: self.block,
            place: size(self.place),
            causes,
        })
    }
}

fn size(number: u64) -> usize {
    usize::try_from(number).expect("a number of the library fits a size")
}

impl TapeByte {
    /// A good byte must come with no cause, and a bad one with no value.
    fn answer(self) -> Result<u8, usize> {
        match self.good {
            0 => {
                assert_eq!(self.value, 0, "a bad byte comes with a value");
                let cause = size(self.cause.into());
                assert!(cause <= EVEN_ONES, "there is no cause {cause}");
                Err(cause)
            }
            1 => {
                assert_eq!(self.cause, 0, "a good byte comes with a cause");
                Ok(self.value.try_into().expect("a value is a byte"))
            }
            good => panic!("a byte is good or bad, not {good}"),
        }
    }
}

impl TapePut {
    fn answer(self) -> Result<usize, Refusal> {
        self.refusal.accepted(&[self.count])?;
        Ok(size(self.count))
    }
}

impl TapeBlock {
    fn answer(self) -> Result<BlockRead, Refusal> {
        let numbers = [self.n, self.start, self.end];
        self.refusal.accepted(&numbers)?;
        let [n, start, end] = numbers.map(size);
        Ok(BlockRead { n, start, end })
    }
}

impl TapeFile {
    fn answer(self) -> Result<FileRead, Refusal> {
        let [kind, start, end] = [self.kind, self.start, self.end];
        let numbers = [kind.into(), start.into(), end.into(), self.stop];
        self.refusal.accepted(&numbers)?;
        Ok(FileRead {
            header: Header {
                kind: kind.try_into().expect("a type is a byte"),
                start: start.try_into().expect("an address has 16 bits"),
                end: end.try_into().expect("an address has 16 bits"),
            },
            stop: size(self.stop),
        })
    }
}

impl TapeTap {
    fn answer(self) -> Result<TapRead, Refusal> {
        let numbers = [self.version.into(), self.count];
        self.refusal.accepted(&numbers)?;
        Ok(TapRead {
            version: self.version.try_into().expect("a version is a byte"),
            count: size(self.count),
        })
    }
}

impl TapeSpan {
    fn answer(self) -> Result<Span, Refusal> {
        let numbers = [self.offset, self.length];
        self.refusal.accepted(&numbers)?;
        let [offset, length] = numbers.map(size);
        Ok(Span { offset, length })
    }
}

impl TapeWear {
    fn new(totals: Wear) -> Self {
        Self {
            strips: totals.strips,
            shorts: totals.shorts,
            mediums: totals.mediums,
            longs: totals.longs,
            noises: totals.noises,
            one: totals.one,
            two: totals.two,
            lost: totals.lost,
            causes: totals.causes,
        }
    }

    fn totals(self) -> Wear {
        Wear {
            strips: self.strips,
            shorts: self.shorts,
            mediums: self.mediums,
            longs: self.longs,
            noises: self.noises,
            one: self.one,
            two: self.two,
            lost: self.lost,
            causes: self.causes,
        }
    }
}

impl TapeReport {
    /// A refusal must come with the totals that were lent.
    fn answer(self, lent: Wear) -> Result<Wear, Refusal> {
        let totals = self.totals.totals();
        self.refusal
            .accepted(&[])
            .inspect_err(|_| assert_eq!(totals, lent, "a refusal changes the totals"))?;
        Ok(totals)
    }
}

impl TapeWalk {
    fn new(at: Walk) -> Self {
        Self {
            from: at.from as u64,
            length: at.length as u64,
        }
    }

    fn walk(self) -> Walk {
        Walk {
            from: size(self.from),
            length: size(self.length),
        }
    }
}

impl TapeWalked {
    /// Where no block was found, the walk must stay where it was lent.
    fn answer(self, lent: Walk) -> Result<Walked, Refusal> {
        let numbers = [self.n, self.start, self.end, self.one, self.two, self.lost];
        let next = self.next.walk();
        if self.found == 0 {
            assert_eq!(next, lent, "a walk goes on with no block found");
            assert_eq!(self.causes, [0; CAUSES], "bad bytes of no block");
            self.refusal.accepted(&numbers)?;
            panic!("no block is found, and no refusal tells why");
        }
        assert_eq!(self.found, 1, "a block is found or not");
        let refused = self.refusal.accepted(&[self.end]);
        let [n, start, end, one, two, lost] = numbers.map(size);
        Ok(Walked {
            n,
            start,
            end: refused.map(|()| end),
            places: Places {
                one,
                two,
                lost,
                causes: self.causes.map(size),
            },
            next,
        })
    }
}

impl TapeTold {
    /// Where nothing is told, there must be no numbers. A deck that is made up may
    /// have any causes.
    fn answer(self) -> Told {
        let numbers = [self.n, self.start, self.end];
        let [n, start, end] = numbers.map(size);
        let answer = self.refusal.accepted_with(&numbers, u8::MAX.into());
        match (self.told, answer) {
            (0, Ok(())) => {
                assert_eq!(numbers, [0; 3], "nothing is told, with numbers");
                Told::Nothing
            }
            (1, answer) => Told::Answer(answer.map(|()| BlockRead { n, start, end })),
            (2, Err(refusal)) => Told::Refused(refusal),
            (told, answer) => panic!("a deck tells {told}, {answer:?}"),
        }
    }
}

pub fn read_byte(pulses: &[u32], at: usize) -> Result<u8, usize> {
    // SAFETY: the pointer comes with the length of its slice.
    let byte = unsafe { tape_read_byte(pulses.as_ptr(), pulses.len(), at) };
    byte.answer()
}

pub fn write_block(payload: &[u8], leader: u64, out: &mut [u32]) -> Result<usize, Refusal> {
    // SAFETY: each pointer comes with the length of its slice.
    let put = unsafe {
        tape_write_block(
            payload.as_ptr(),
            payload.len(),
            leader,
            out.as_mut_ptr(),
            out.len(),
        )
    };
    put.answer()
}

pub fn read_block(
    pulses: &[u32],
    from: usize,
    n: usize,
    out: &mut [u8],
) -> Result<BlockRead, Refusal> {
    // SAFETY: each pointer comes with the length of its slice.
    let block = unsafe {
        tape_read_block(
            pulses.as_ptr(),
            pulses.len(),
            from,
            n,
            out.as_mut_ptr(),
            out.len(),
        )
    };
    block.answer()
}

pub fn write_file(
    header: Header,
    name: &[u8],
    bytes: &[u8],
    leaders: [u64; 2],
    out: &mut [u32],
) -> Result<usize, Refusal> {
    // SAFETY: each pointer comes with the length of its slice.
    let put = unsafe {
        tape_write_file(
            header.kind,
            header.start,
            header.end,
            name.as_ptr(),
            name.len(),
            bytes.as_ptr(),
            bytes.len(),
            leaders[0],
            leaders[1],
            out.as_mut_ptr(),
            out.len(),
        )
    };
    put.answer()
}

pub fn read_file(
    pulses: &[u32],
    from: usize,
    header_out: &mut [u8],
    data_out: &mut [u8],
) -> Result<FileRead, Refusal> {
    // SAFETY: each pointer comes with the length of its slice.
    let file = unsafe {
        tape_read_file(
            pulses.as_ptr(),
            pulses.len(),
            from,
            header_out.as_mut_ptr(),
            header_out.len(),
            data_out.as_mut_ptr(),
            data_out.len(),
        )
    };
    file.answer()
}

pub fn pack_header(header: Header, name: &[u8], out: &mut [u8]) -> Result<usize, Refusal> {
    // SAFETY: each pointer comes with the length of its slice.
    let put = unsafe {
        tape_pack_header(
            header.kind,
            header.start,
            header.end,
            name.as_ptr(),
            name.len(),
            out.as_mut_ptr(),
            out.len(),
        )
    };
    put.answer()
}

pub fn unpack_header(bytes: &[u8]) -> Result<Header, Refusal> {
    // SAFETY: the pointer comes with the length of its slice.
    let file = unsafe { tape_unpack_header(bytes.as_ptr(), bytes.len()) };
    let read = file.answer()?;
    assert_eq!(read.stop, 0, "a lone header has no end of a data block");
    Ok(read.header)
}

pub fn shown_name(bytes: &[u8]) -> Result<Span, Refusal> {
    // SAFETY: the pointer comes with the length of its slice.
    let span = unsafe { tape_shown_name(bytes.as_ptr(), bytes.len()) };
    span.answer()
}

pub fn write_tap(durations: &[u32], version: u8, out: &mut [u8]) -> Result<usize, Refusal> {
    // SAFETY: each pointer comes with the length of its slice.
    let put = unsafe {
        tape_write_tap(
            durations.as_ptr(),
            durations.len(),
            version,
            out.as_mut_ptr(),
            out.len(),
        )
    };
    put.answer()
}

pub fn read_tap(file: &[u8], out: &mut [u32]) -> Result<TapRead, Refusal> {
    // SAFETY: each pointer comes with the length of its slice.
    let tap = unsafe { tape_read_tap(file.as_ptr(), file.len(), out.as_mut_ptr(), out.len()) };
    tap.answer()
}

pub fn report_strip(totals: Wear, pulses: &[u32]) -> Result<Wear, Refusal> {
    // SAFETY: the pointer comes with the length of its slice.
    let report = unsafe { tape_report_strip(TapeWear::new(totals), pulses.as_ptr(), pulses.len()) };
    report.answer(totals)
}

pub fn walk_block(pulses: &[u32], at: Walk) -> Result<Walked, Refusal> {
    // SAFETY: the pointer comes with the length of its slice.
    let walked = unsafe { tape_walk_block(pulses.as_ptr(), pulses.len(), TapeWalk::new(at)) };
    walked.answer(at)
}

pub fn begin_deck(n: usize, work_room: usize, room: usize) -> Deck {
    // SAFETY: the call takes numbers alone.
    unsafe { tape_deck_begin(n, work_room, room) }
}

pub fn deck_pulse(deck: Deck, pulse: u32, work: &mut [u8], out: &mut [u8]) -> Deck {
    // SAFETY: each pointer comes with the length of its slice.
    unsafe {
        tape_deck_pulse(
            deck,
            pulse,
            work.as_mut_ptr(),
            work.len(),
            out.as_mut_ptr(),
            out.len(),
        )
    }
}

pub fn deck_pulses(deck: Deck, pulses: &[u32], work: &mut [u8], out: &mut [u8]) -> Deck {
    // SAFETY: each pointer comes with the length of its slice.
    unsafe {
        tape_deck_pulses(
            deck,
            pulses.as_ptr(),
            pulses.len(),
            work.as_mut_ptr(),
            work.len(),
            out.as_mut_ptr(),
            out.len(),
        )
    }
}

pub fn end_deck(deck: Deck, work: &mut [u8], out: &mut [u8]) -> Deck {
    // SAFETY: each pointer comes with the length of its slice.
    unsafe {
        tape_deck_end(
            deck,
            work.as_mut_ptr(),
            work.len(),
            out.as_mut_ptr(),
            out.len(),
        )
    }
}

pub fn deck_said(deck: Deck) -> Told {
    // SAFETY: the call takes numbers alone.
    let told = unsafe { tape_deck_said(deck) };
    told.answer()
}
