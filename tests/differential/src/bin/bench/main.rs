//! The library and the reference side by side: the same calls on the same
//! input, in one run. A line for each: NAME ours NS rust NS ratio R, with
//! the nanoseconds of one call and a ratio above 1 where the library is
//! faster, and then what is left of the stored ratio. With `--store` the
//! ratios of the run are stored.

mod sheet;

use std::env;
use std::hint::black_box;
use std::slice;

use differential::random::Random;
use differential::readers::Tally;
use differential::reference::block::block_len;
use differential::reference::byte::{value_of, CAUSES, PULSES};
use differential::reference::deck::work_len;
use differential::reference::pulse::{LONG, MEDIUM, SHORT};
use differential::reference::{Deck, Header, Wear};
use differential::strip::{
    drift, make_bad, places_to_spoil, push_block, push_byte, push_shorts, Placed, Program,
};
use differential::thresholds::FIXED;
use differential::{library, readers, reference};

use sheet::{Sheet, KEPT, ROUNDS};

const SEED: u64 = 1;
const LEADER: usize = 64;
const SIZES: [usize; 2] = [192, 8192];
const MANY: usize = 1_048_576;

/// How many in a hundred bytes of copy one are bad.
const STATES: [(&str, usize); 4] = [
    ("sound", 0),
    ("bad-1%", 1),
    ("bad-10%", 10),
    ("repaired", 100),
];

fn main() {
    let store = env::args().any(|argument| argument == "--store");
    println!("ns a call, the quickest of {ROUNDS} rounds; both built for release, random payload, pulses drifted within their class.");
    println!("Buffers are not cleared between calls. A bad byte of copy one has a noise pulse; the first byte is never bad.");
    println!("Reports are of three files of 8192 bytes and short pulses to the strip's end, of the same with bad bytes in both copies, of the same with every byte of the");
    println!("data blocks bad in both copies, but for the countdown, by causes at random, and of random pulses. Single bytes are those of a strip, a call for each.");
    println!("Decks take a block in one run, then in a call for each pulse; beside them is the block reader on the same pulses, held as a strip.");
    println!("The block is sound, and then has every fifth byte of copy one bad.");
    println!(
        "After the ratio: what is left of the stored one, FELL where that is less than {KEPT}."
    );
    let mut sheet = Sheet::new();
    let mut random = Random::new(SEED, 0);
    for n in SIZES {
        block_write(&mut sheet, &mut random, n);
    }
    for n in SIZES {
        block_read(&mut sheet, &mut random, n);
    }
    no_start(&mut sheet, &mut random);
    for n in SIZES {
        several_callers(&mut sheet, &mut random, n);
    }
    for n in SIZES {
        file_read(&mut sheet, &mut random, n);
    }
    taps(&mut sheet, &mut random);
    reports(&mut sheet, &mut random);
    single_bytes(&mut sheet, &mut random, 8192);
    decks(&mut sheet, &mut random, 8192);
    sheet.finish();
    if store {
        sheet.store();
    }
}

fn payload(random: &mut Random, n: usize) -> Vec<u8> {
    (0..n).map(|_| random.byte()).collect()
}

/// The pulses of a lone block, and where it stands.
fn written(payload: &[u8]) -> (Vec<u32>, Placed) {
    let mut pulses = Vec::new();
    let placed = push_block(&mut pulses, payload, LEADER);
    (pulses, placed)
}

/// Puts a noise pulse into so many in a hundred bytes of a copy.
fn spoil_copy(random: &mut Random, pulses: &mut [u32], block: Placed, copy: usize, percent: usize) {
    for place in places_to_spoil(random, block, percent) {
        let frame = block.frame(copy, place);
        pulses[frame.start + random.below(frame.len())] = 1000;
    }
}

fn block_write(sheet: &mut Sheet, random: &mut Random, n: usize) {
    let payload = payload(random, n);
    let room = written(&payload).0.len();
    let (mut ours, mut theirs) = (vec![0; room], vec![0; room]);
    sheet.side_by_side(
        &format!("block-write-{n}"),
        || library::write_block(black_box(&payload), LEADER as u64, &mut ours),
        || reference::write_block(black_box(&payload), LEADER as u64, &mut theirs),
    );
    assert_eq!(ours, theirs);
}

fn block_read(sheet: &mut Sheet, random: &mut Random, n: usize) {
    let payload = payload(random, n);
    let (mut sound, block) = written(&payload);
    drift(random, &mut sound);
    let (mut ours, mut theirs) = (vec![0; n], vec![0; n]);
    for (state, percent) in STATES {
        let mut pulses = sound.clone();
        spoil_copy(random, &mut pulses, block, 0, percent);
        sheet.side_by_side(
            &format!("block-read-{state}-{n}"),
            || library::read_block(black_box(&pulses), 0, n, &mut ours),
            || reference::read_block(black_box(&pulses), 0, n, &mut theirs),
        );
        assert_eq!((&ours, &theirs), (&payload, &payload));
    }
}

/// A search that finds nothing, in pulses of random classes.
fn no_start(sheet: &mut Sheet, random: &mut Random) {
    let pulses: Vec<u32> = (0..MANY).map(|_| random.within(200..=959) as u32).collect();
    let (mut ours, mut theirs) = ([0; 192], [0; 192]);
    sheet.side_by_side(
        "block-read-no-start-1048576",
        || library::read_block(black_box(&pulses), 0, 192, &mut ours),
        || reference::read_block(black_box(&pulses), 0, 192, &mut theirs),
    );
}

/// The reference's loop over bytes. It is never inlined, so that its code does
/// not change with the rows.
#[inline(never)]
fn tally(pulses: &[u32]) -> Tally {
    Tally::by(value_of, pulses)
}

/// Byte reading where a program calls it from several places: two loops over
/// sound bytes, and a sound block.
fn several_callers(sheet: &mut Sheet, random: &mut Random, n: usize) {
    let payload = payload(random, n);
    let mut bytes = Vec::new();
    payload
        .iter()
        .for_each(|&value| push_byte(&mut bytes, value));
    drift(random, &mut bytes);
    sheet.side_by_side(
        &format!("read-byte-run-time-thresholds-{n}"),
        || readers::read_bytes(black_box(&bytes), black_box(FIXED.0)),
        || tally(black_box(&bytes)),
    );
    sheet.side_by_side(
        &format!("read-byte-fixed-thresholds-{n}"),
        || readers::read_fixed(black_box(&bytes)),
        || tally(black_box(&bytes)),
    );
    let mut block = written(&payload).0;
    drift(random, &mut block);
    let (mut ours, mut theirs) = (vec![0; n], vec![0; n]);
    sheet.side_by_side(
        &format!("two-readers-{n}"),
        || readers::read_block(black_box(&block), 0, n, &mut ours),
        || reference::read_block(black_box(&block), 0, n, &mut theirs).map_or(0, |read| read.n),
    );
    assert_eq!((&ours, &theirs), (&payload, &payload));
}

fn file_read(sheet: &mut Sheet, random: &mut Random, n: usize) {
    let bytes = payload(random, n);
    let header = Header {
        kind: 1,
        start: 0x0801,
        end: 0x0801 + n as u16,
    };
    let mut pulses = vec![0; 16 * 1024 + 40 * (n + 10)];
    let leaders = [LEADER as u64; 2];
    let count = reference::write_file(header, b"GAME", &bytes, leaders, &mut pulses);
    pulses.truncate(count.expect("the file is right"));
    drift(random, &mut pulses);
    let (mut ours, mut theirs) = (vec![0; n], vec![0; n]);
    let (mut our_header, mut their_header) = ([0; 192], [0; 192]);
    sheet.side_by_side(
        &format!("file-read-{n}"),
        || library::read_file(black_box(&pulses), 0, &mut our_header, &mut ours),
        || reference::read_file(black_box(&pulses), 0, &mut their_header, &mut theirs),
    );
    assert_eq!((&ours, our_header), (&theirs, their_header));
}

fn taps(sheet: &mut Sheet, random: &mut Random) {
    for n in SIZES {
        let pulses = written(&payload(random, n)).0;
        tap(sheet, &format!("{n}"), &pulses);
    }
    let pulses: Vec<u32> = (0..MANY).map(|_| any_pulse(random)).collect();
    tap(sheet, "pulses-1048576", &pulses);
    let pulses: Vec<u32> = (0..MANY).map(|_| any_duration(random)).collect();
    tap(sheet, "long-forms-1048576", &pulses);
    let pulses: Vec<u32> = (0..MANY).map(|_| drifted_pulse(random)).collect();
    tap(sheet, "drifted-1048576", &pulses);
}

/// A pulse as it is written.
fn any_pulse(random: &mut Random) -> u32 {
    random.pick(&[SHORT, MEDIUM, LONG])
}

/// A duration with a form in version 1, one in eight in the long form.
fn any_duration(random: &mut Random) -> u32 {
    if random.once_in(8) {
        random.within(1..=0xff_ffff) as u32
    } else {
        8 * random.within(1..=255) as u32
    }
}

/// A pulse as a tape gives it: up to 40 cycles off, within its class. Seven in
/// eight take the long form.
fn drifted_pulse(random: &mut Random) -> u32 {
    any_pulse(random) - 40 + random.below(80) as u32
}

fn tap(sheet: &mut Sheet, name: &str, pulses: &[u32]) {
    let room = 20 + 4 * pulses.len();
    let (mut ours, mut theirs) = (vec![0; room], vec![0; room]);
    sheet.side_by_side(
        &format!("tap-write-{name}"),
        || library::write_tap(black_box(pulses), 1, &mut ours),
        || reference::write_tap(black_box(pulses), 1, &mut theirs),
    );
    assert_eq!(ours, theirs);
    let length = library::write_tap(pulses, 1, &mut ours).expect("each duration has a form");
    let file = &ours[..length];
    let (mut our_pulses, mut their_pulses) = (vec![0; pulses.len()], vec![0; pulses.len()]);
    sheet.side_by_side(
        &format!("tap-read-{name}"),
        || library::read_tap(black_box(file), &mut our_pulses),
        || reference::read_tap(black_box(file), &mut their_pulses),
    );
    assert_eq!((&our_pulses[..], &their_pulses[..]), (pulses, pulses));
}

/// Reports of a strip full of files, of the same with bad bytes in both copies,
/// of the same with every byte of the data blocks bad, and of random pulses.
fn reports(sheet: &mut Sheet, random: &mut Random) {
    let mut pulses = Vec::new();
    let blocks = fill_with_files(random, &mut pulses);
    drift(random, &mut pulses);
    let places: usize = blocks.iter().map(|block| block.n + 1).sum();
    let totals = report(sheet, "sound", &pulses);
    assert_eq!((totals.one, totals.two, totals.lost), (places as u64, 0, 0));
    let mut all_bad = pulses.clone();
    for &block in &blocks {
        for copy in 0..2 {
            spoil_copy(random, &mut pulses, block, copy, 1);
        }
    }
    let totals = report(sheet, "bad-1%", &pulses);
    assert!(totals.two > 0 && totals.lost > 0);
    let lost = lose_data(&mut all_bad, &blocks);
    let totals = report(sheet, "all-bad", &all_bad);
    assert_eq!((totals.two, totals.lost), (0, lost as u64));
    assert_eq!(totals.causes.iter().sum::<u64>(), 2 * totals.lost);
    let pulses: Vec<u32> = (0..MANY).map(|_| random.any_pulse()).collect();
    report(sheet, "random", &pulses);
}

/// Makes every byte of payload and checksum bad in both copies of the data
/// blocks, by any cause, and answers how many places are lost. The headers stay
/// sound: no data block is tried after a bad one.
fn lose_data(pulses: &mut [u32], blocks: &[Placed]) -> usize {
    let mut random = Random::new(SEED, 1);
    let mut lost = 0;
    for block in blocks.iter().filter(|block| block.n != 192) {
        for place in 9..block.byte_places() {
            for copy in 0..2 {
                let cause = random.below(CAUSES);
                make_bad(&mut random, &mut pulses[block.frame(copy, place)], cause);
            }
            lost += 1;
        }
    }
    lost
}

/// As many files of the longest program as the strip holds, and short pulses.
fn fill_with_files(random: &mut Random, pulses: &mut Vec<u32>) -> Vec<Placed> {
    let mut blocks = Vec::new();
    while MANY - pulses.len() >= block_len(LEADER, 192) + block_len(LEADER, 8192) {
        let program = Program {
            header: Header {
                kind: 1,
                start: 0x0801,
                end: 0x2801,
            },
            name: b"GAME".to_vec(),
            bytes: payload(random, 8192),
            leaders: [LEADER; 2],
        };
        blocks.extend(program.push(pulses));
    }
    push_shorts(pulses, MANY - pulses.len());
    blocks
}

fn report(sheet: &mut Sheet, name: &str, pulses: &[u32]) -> Wear {
    sheet.side_by_side(
        &format!("report-{name}-{MANY}"),
        || library::report_strip(Wear::default(), black_box(pulses)),
        || reference::report_strip(Wear::default(), black_box(pulses)),
    );
    reference::report_strip(Wear::default(), pulses).expect("the strip is not too long")
}

/// Bytes one by one, sound ones and then bad ones of any cause.
fn single_bytes(sheet: &mut Sheet, random: &mut Random, n: usize) {
    let mut pulses = Vec::new();
    (0..n).for_each(|_| push_byte(&mut pulses, random.byte()));
    drift(random, &mut pulses);
    bytes_at_places(sheet, &format!("byte-read-sound-{n}"), &pulses);
    for frame in pulses.chunks_exact_mut(PULSES) {
        let cause = random.below(CAUSES);
        make_bad(random, frame, cause);
    }
    bytes_at_places(sheet, &format!("byte-read-cause-{n}"), &pulses);
}

fn bytes_at_places(sheet: &mut Sheet, name: &str, pulses: &[u32]) {
    let sum = |read: fn(&[u32], usize) -> Result<u8, usize>| {
        let places = (0..pulses.len()).step_by(PULSES);
        places.fold([0; 2], |[values, causes], at| {
            match read(black_box(pulses), at) {
                Ok(value) => [values + usize::from(value), causes],
                Err(cause) => [values, causes + cause],
            }
        })
    };
    sheet.side_by_side(
        name,
        || sum(library::read_byte),
        || sum(reference::read_byte),
    );
}

/// The reference's deck for one pulse, called as C calls the library's.
///
/// # Safety
///
/// Each pointer comes with the length of its buffer.
#[inline(never)]
unsafe extern "C" fn deck_pulse(
    deck: Deck,
    pulse: u32,
    work: *mut u8,
    work_room: usize,
    out: *mut u8,
    room: usize,
) -> Deck {
    // SAFETY: the caller sees to it.
    let work = unsafe { slice::from_raw_parts_mut(work, work_room) };
    let out = unsafe { slice::from_raw_parts_mut(out, room) };
    deck.pulse(pulse, work, out)
}

/// A block straight from the deck, in one run and in single pulses, and by the
/// block reader; and a search that finds nothing.
fn decks(sheet: &mut Sheet, random: &mut Random, n: usize) {
    let payload = payload(random, n);
    let (mut pulses, block) = written(&payload);
    drift(random, &mut pulses);
    deck(sheet, &format!("sound-{n}"), &pulses, &payload);
    for place in (5..block.byte_places()).step_by(5) {
        let frame = block.frame(0, place);
        pulses[frame.start + random.below(frame.len())] = 1000;
    }
    deck(sheet, &format!("bad-20%-{n}"), &pulses, &payload);
    let pulses: Vec<u32> = (0..MANY).map(|_| random.within(200..=959) as u32).collect();
    deck_run(sheet, &format!("no-start-{MANY}"), &pulses, 192);
}

fn deck(sheet: &mut Sheet, name: &str, pulses: &[u32], payload: &[u8]) {
    let n = payload.len();
    let [ours, theirs] = deck_run(sheet, name, pulses, n);
    assert_eq!((&ours[..], &theirs[..]), (payload, payload));
    let [ours, theirs] = deck_pulses(sheet, name, pulses, n);
    assert_eq!((&ours[..], &theirs[..]), (payload, payload));
    let (mut ours, mut theirs) = (vec![0; n], vec![0; n]);
    sheet.side_by_side(
        &format!("deck-beside-block-read-{name}"),
        || library::read_block(black_box(pulses), 0, n, &mut ours),
        || reference::read_block(black_box(pulses), 0, n, &mut theirs),
    );
    assert_eq!((&ours[..], &theirs[..]), (payload, payload));
}

/// A strip in one run. Answers both outputs.
fn deck_run(sheet: &mut Sheet, name: &str, pulses: &[u32], n: usize) -> [Vec<u8>; 2] {
    let (mut our_work, mut their_work) = (vec![0; work_len(n)], vec![0; work_len(n)]);
    let (mut ours, mut theirs) = (vec![0; n], vec![0; n]);
    let begun = Deck::begin(n, work_len(n), n);
    sheet.side_by_side(
        &format!("deck-run-{name}"),
        || library::deck_pulses(begun, black_box(pulses), &mut our_work, &mut ours),
        || begun.pulses(black_box(pulses), &mut their_work, &mut theirs),
    );
    assert_eq!(our_work, their_work);
    [ours, theirs]
}

/// A strip in single pulses. Answers both outputs.
fn deck_pulses(sheet: &mut Sheet, name: &str, pulses: &[u32], n: usize) -> [Vec<u8>; 2] {
    let (mut our_work, mut their_work) = (vec![0; work_len(n)], vec![0; work_len(n)]);
    let (mut ours, mut theirs) = (vec![0; n], vec![0; n]);
    let begun = Deck::begin(n, work_len(n), n);
    sheet.side_by_side(
        &format!("deck-pulses-{name}"),
        || {
            let mut deck = begun;
            for &pulse in black_box(pulses) {
                deck = library::deck_pulse(deck, pulse, &mut our_work, &mut ours);
            }
            deck
        },
        || {
            let [work, out] = [their_work.as_mut_ptr(), theirs.as_mut_ptr()];
            let mut deck = begun;
            for &pulse in black_box(pulses) {
                // SAFETY: each pointer comes with the length of its buffer.
                deck = unsafe { deck_pulse(deck, pulse, work, work_len(n), out, n) };
            }
            deck
        },
    );
    assert_eq!(our_work, their_work);
    [ours, theirs]
}
