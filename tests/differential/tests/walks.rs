//! The walk from block to block and the report (document 02, Q-1), with bad bytes
//! counted by cause.

use differential::compare::{
    Run, Scene, BYTES_OF_REPORTS, BYTES_OF_WALKS, LOST_IN_COPY_ONE, LOST_IN_COPY_TWO,
};
use differential::random::Random;
use differential::reference::block::{copy_len, Places, SHORTS_BEFORE};
use differential::reference::byte::{CAUSES, PULSES};
use differential::reference::header::HEADER;
use differential::reference::pulse::{Class, SHORT};
use differential::reference::wear::{MAX_PULSES, MAX_STRIPS, MAX_TOTAL, TOTALS};
use differential::reference::{report_strip, Header, Refusal, Walk, Walked, Wear};
use differential::strip::{
    count_causes, cut, damage, drift, first_lost, hit, make_bad, overlay, patchwork, plant_start,
    push_block, push_byte, push_near_start, push_shorts, some_sources, spoil, turn_byte, wear_down,
    BadBytes, Placed, Program, Source,
};

const STEPS: [(&str, &[(u32, u32)]); 6] = [
    ("walk_block, a program's header", &[(0, 0)]),
    ("walk_block, another header", &[(0, 0)]),
    (
        "walk_block, a header",
        &[(3, 0), (4, 0), (5, 0), (6, 0), (7, 0)],
    ),
    (
        "walk_block, data",
        &[(0, 0), (3, 0), (4, 1), (5, 1), (6, 1), (7, 1)],
    ),
    ("walk_block, 192 bytes of data", &[(0, 0)]),
    ("walk_block, too many bytes", &[(1, 0)]),
];

const REPORTS: (&str, &[(u32, u32)]) = ("report_strip", &[(0, 0), (1, 0)]);
const REPORTED: (&str, &[(u32, u32)]) = ("report_strip", &[(0, 0)]);

const MET: [&str; 17] = [
    "a start inside a refused block",
    "an accepted block inside a refused one",
    "an accepted block after a refused one",
    "places from copy two",
    "several places lost",
    "places of all kinds",
    "places lost after refusal 5",
    "places from copy two after refusal 7",
    "bad bytes of copy two beside good ones",
    "bad bytes after refusal 5",
    "bad bytes after refusal 7",
    "the checksum of a header from copy two",
    "the checksum of a header lost",
    "the checksum of data from copy two",
    "the checksum of data lost",
    "8192 bytes announced",
    "a data block among the header's last pulses",
];

const SCENES: [Scene; 18] = [
    ("several files", several_files),
    ("a worn block", a_worn_block),
    ("a worn block", a_worn_block),
    ("a worn block", a_worn_block),
    ("refused and good", refused_and_good),
    ("refused and good", refused_and_good),
    ("starts inside", starts_inside),
    ("blocks inside", blocks_inside),
    ("192 bytes of data", data_of_192),
    ("other headers", other_headers),
    ("other headers", other_headers),
    ("between the blocks", between_the_blocks),
    ("cut", cut_short),
    ("patchwork", patched),
    ("edge pulses", edge_pulses),
    ("made up", made_up),
    ("made up", made_up),
    ("all at once", all_at_once),
];

const REPORT_SCENES: [Scene; 4] = [
    ("handed on", handed_on),
    ("any totals", any_totals),
    ("totals too large", totals_too_large),
    ("all at once", any_totals_at_once),
];

#[test]
fn walks() {
    let mut run = Run::new("walks");
    run.play(&SCENES);
    run.demand(&MET);
    run.demand_every_cause(&[BYTES_OF_WALKS, LOST_IN_COPY_ONE, LOST_IN_COPY_TWO]);
    let mut answers = STEPS.to_vec();
    answers.push(REPORTED);
    run.finish(&answers);
}

#[test]
fn reports() {
    let mut run = Run::new("reports");
    run.play(&REPORT_SCENES);
    run.demand_every_cause(&[BYTES_OF_REPORTS]);
    run.finish(&[REPORTS]);
}

/// Every cut of a short file, and a walk from every place with several lengths.
#[test]
fn every_cut_and_every_place() {
    let mut run = Run::new("cuts of a walk");
    let mut random = run.random();
    let mut pulses = Vec::new();
    let mut program = Program::of(&mut random, vec![0x41, 0x42]);
    program.leaders = [64, 64];
    program.push(&mut pulses);
    for length in 0..=pulses.len() {
        run.walk(&pulses[..length]);
    }
    for from in 0..=pulses.len() + 1 {
        for length in [0, 1, 2, HEADER] {
            let _ = run.walk_block(&pulses, Walk { from, length });
        }
    }
    run.finish(&[
        ("walk_block, a program's header", &[(0, 0)]),
        ("walk_block, a header", &[(3, 0), (4, 0)]),
        ("walk_block, data", &[(0, 0), (3, 0), (4, 1), (7, 1)]),
        ("walk_block, 192 bytes of data", &[(0, 0)]),
        REPORTED,
    ]);
}

/// Each byte place of a header and of a data block bad in copy one, and in both
/// copies, with what comes of it.
#[test]
fn every_place_bad() {
    let mut run = Run::new("bad bytes of a walk");
    let mut random = run.random();
    let mut sound = Vec::new();
    let blocks = Program::of(&mut random, vec![1, 2, 3, 4, 5]).push(&mut sound);
    for (number, block) in blocks.into_iter().enumerate() {
        for place in 1..block.byte_places() {
            let mut pulses = sound.clone();
            let causes = [0, 1].map(|_| random.below(CAUSES));
            let [one, two] = causes;
            let is_counted = usize::from(place >= 9);
            let kept = block.n + 1 - is_counted;
            make_bad(&mut random, &mut pulses[block.frame(0, place)], one);
            let told = run.walk(&pulses)[number];
            assert_eq!(told.end, Ok(block.end()));
            let counts = [(one, is_counted)];
            assert_eq!(told.places, worn(kept, is_counted, 0, &counts));
            make_bad(&mut random, &mut pulses[block.frame(1, place)], two);
            let told = run.walk(&pulses)[number];
            let refused = match place.checked_sub(9) {
                None => refusal((5, place), number),
                Some(place) => lost(place, causes, number),
            };
            assert_eq!(told.end, Err(refused));
            let counts = [(one, is_counted), (two, is_counted)];
            assert_eq!(told.places, worn(kept, 0, is_counted, &counts));
        }
    }
    run.finish(&[
        ("walk_block, a program's header", &[(0, 0)]),
        ("walk_block, a header", &[(3, 0), (4, 0), (5, 0), (6, 0)]),
        ("walk_block, data", &[(0, 0), (5, 1), (6, 1)]),
        REPORTED,
    ]);
}

/// Bad bytes of a data block of four bytes, each as its copy, its byte place and
/// its cause, and what is told of the block: places 9 to 12 are its payload, 13
/// is the checksum, and those before are the countdown.
#[test]
fn bad_bytes_of_a_block() {
    type Bad<'a> = &'a [(usize, usize, usize)];
    let cases: [(Bad, Result<(), Refusal>, Places); 16] = [
        (&[], Ok(()), worn(5, 0, 0, &[])),
        // Copy one's cause, where the place is taken from copy two.
        (&[(0, 10, 4)], Ok(()), worn(4, 1, 0, &[(4, 1)])),
        (&[(0, 13, 10)], Ok(()), worn(4, 1, 0, &[(10, 1)])),
        // Copy two's cause, where the place is taken from copy one.
        (&[(1, 10, 4)], Ok(()), worn(5, 0, 0, &[(4, 1)])),
        (&[(1, 13, 9)], Ok(()), worn(5, 0, 0, &[(9, 1)])),
        (
            &[(0, 9, 0), (1, 10, 0), (0, 12, 10), (1, 11, 7)],
            Ok(()),
            worn(3, 2, 0, &[(0, 2), (7, 1), (10, 1)]),
        ),
        // A lost place has two bad bytes.
        (
            &[(0, 10, 4), (1, 10, 7)],
            Err(lost(1, [4, 7], 1)),
            worn(4, 0, 1, &[(4, 1), (7, 1)]),
        ),
        (
            &[(0, 9, 6), (1, 9, 6)],
            Err(lost(0, [6, 6], 1)),
            worn(4, 0, 1, &[(6, 2)]),
        ),
        (
            &[(0, 13, 10), (1, 13, 0)],
            Err(lost(4, [10, 0], 1)),
            worn(4, 0, 1, &[(0, 1), (10, 1)]),
        ),
        // All are counted after the first lost place.
        (
            &[(0, 12, 1), (1, 12, 2), (0, 11, 3), (1, 11, 5), (0, 13, 3)],
            Err(lost(2, [3, 5], 1)),
            worn(2, 1, 2, &[(1, 1), (2, 1), (3, 2), (5, 1)]),
        ),
        (
            &[(0, 10, 8), (1, 10, 9), (1, 13, 9)],
            Err(lost(1, [8, 9], 1)),
            worn(4, 0, 1, &[(8, 1), (9, 2)]),
        ),
        // Countdown bytes are not counted.
        (&[(0, 3, 2), (1, 5, 10)], Ok(()), worn(5, 0, 0, &[])),
        (
            &[(0, 3, 2), (1, 3, 6)],
            Err(refusal((5, 3), 1)),
            worn(5, 0, 0, &[]),
        ),
        // The places after a wrong countdown are.
        (
            &[(0, 8, 2), (1, 8, 6), (0, 9, 10), (1, 11, 3)],
            Err(refusal((5, 8), 1)),
            worn(4, 1, 0, &[(3, 1), (10, 1)]),
        ),
        (
            &[(0, 1, 0), (1, 1, 0), (0, 12, 0), (1, 12, 9), (0, 8, 5)],
            Err(refusal((5, 1), 1)),
            worn(4, 0, 1, &[(0, 1), (9, 1)]),
        ),
        (
            &[(1, 0, 3), (1, 8, 3), (1, 9, 10), (1, 12, 10), (1, 13, 10)],
            Ok(()),
            worn(5, 0, 0, &[(10, 3)]),
        ),
    ];
    let mut run = Run::new("bad bytes of a block");
    let mut random = run.random();
    let mut sound = Vec::new();
    let [_, data] = Program::of(&mut random, vec![1, 2, 3, 4]).push(&mut sound);
    for (bad, answer, places) in cases {
        let mut pulses = sound.clone();
        for &(copy, place, cause) in bad {
            make_bad(&mut random, &mut pulses[data.frame(copy, place)], cause);
        }
        let told = run.walk(&pulses);
        assert_eq!(told[0].places, worn(193, 0, 0, &[]));
        assert_eq!(told[1].end.map(|_| ()), answer, "{bad:?}");
        assert_eq!(told[1].places, places, "{bad:?}");
        let cut = run.walk(&pulses[..data.end() - 1]);
        let refused = refusal((4, data.start()), 1);
        assert_eq!(
            (cut[1].end, cut[1].places),
            (Err(refused), Places::default())
        );
    }
    run.finish(&[
        ("walk_block, a program's header", &[(0, 0)]),
        ("walk_block, a header", &[(3, 0)]),
        ("walk_block, data", &[(0, 0), (4, 1), (5, 1), (6, 1)]),
        REPORTED,
    ]);
}

/// A wrong checksum, where other bytes are bad.
#[test]
fn bad_bytes_beside_a_wrong_checksum() {
    let mut run = Run::new("bad bytes beside a wrong checksum");
    let mut random = run.random();
    let mut pulses = Vec::new();
    let blocks = Program::of(&mut random, vec![1, 2, 3, 4]).push(&mut pulses);
    for block in blocks {
        turn_byte(&mut random, &mut pulses, block, 0, 0);
        for (copy, place, cause) in [(1, 9, 8), (0, 11, 9), (0, 12, 8), (1, 7, 8)] {
            make_bad(&mut random, &mut pulses[block.frame(copy, place)], cause);
        }
    }
    for (number, block) in blocks.into_iter().enumerate() {
        let from = block.at;
        let length = number * block.n;
        let told = run.walk_on(&pulses, Walk { from, length })[0];
        assert_eq!(told.end, Err(refusal((7, block.n), number)));
        let places = worn(block.n - 1, 2, 0, &[(8, 2), (9, 1)]);
        assert_eq!(told.places, places);
    }
    run.finish(&[
        ("walk_block, a header", &[(3, 0), (4, 0), (7, 0)]),
        ("walk_block, data", &[(7, 1)]),
    ]);
}

/// Every byte of payload and checksum bad in both copies, by every cause in
/// turn, in a header block and in a data block.
#[test]
fn every_byte_bad() {
    let mut run = Run::new("every byte bad");
    let mut random = run.random();
    let mut sound = Vec::new();
    let blocks = Program::of(&mut random, vec![7; 21]).push(&mut sound);
    for (number, block) in blocks.into_iter().enumerate() {
        let mut pulses = sound.clone();
        let mut counts = [0; CAUSES];
        for (i, place) in (9..block.byte_places()).enumerate() {
            for (copy, cause) in [(0, (i + 4) % CAUSES), (1, (3 * i + 7) % CAUSES)] {
                make_bad(&mut random, &mut pulses[block.frame(copy, place)], cause);
                counts[cause] += 1;
            }
        }
        let told = run.walk(&pulses)[number];
        assert_eq!(told.end, Err(lost(0, [4, 7], number)));
        assert_eq!(told.places, with_causes(taken(0, 0, block.n + 1), counts));
        assert!(counts.iter().all(|&count| count > 0));
        assert_eq!(counts.iter().sum::<usize>(), 2 * (block.n + 1));
    }
    run.finish(&[
        ("walk_block, a program's header", &[(0, 0)]),
        ("walk_block, a header", &[(3, 0), (4, 0), (6, 0)]),
        ("walk_block, data", &[(6, 1)]),
        REPORTED,
    ]);
}

/// Every type, with telling addresses and a data block of 192 bytes.
#[test]
fn every_type() {
    let mut run = Run::new("types of a walk");
    let mut random = run.random();
    let mut program = Program::of(&mut random, vec![1, 2, 3]);
    program.header = Header {
        kind: 1,
        start: 0xc002,
        end: 0xc005,
    };
    program.bytes = program.header_bytes().to_vec();
    program.leaders = [64, 64];
    let addresses = [
        (5, 5 + 192),
        (0, 192),
        (65_343, 65_535),
        (5, 6),
        (5, 7),
        (5, 5),
        (5, 4),
        (5, 5 + 8192),
        (5, 5 + 8193),
        (0, 8192),
        (0, 65_535),
        (65_535, 0),
    ];
    for kind in 0..=255 {
        for (start, end) in addresses {
            program.header = Header { kind, start, end };
            let mut pulses = Vec::new();
            program.push(&mut pulses);
            let told = run.walk_block(&pulses, Walk::default());
            let length = told.expect("a sound header").next.length;
            assert_eq!(length, announced(program.header));
            if kind < 8 {
                run.walk(&pulses);
            }
        }
    }
    run.finish(&[
        ("walk_block, a program's header", &[(0, 0)]),
        ("walk_block, another header", &[(0, 0)]),
        ("walk_block, a header", &[(3, 0)]),
        ("walk_block, data", &[(3, 0), (4, 1), (7, 1)]),
        ("walk_block, 192 bytes of data", &[(0, 0)]),
        REPORTED,
    ]);
}

/// Made-up places and lengths, with each other.
#[test]
fn limits_of_a_walk() {
    let mut run = Run::new("limits of a walk");
    for n in [1, HEADER, 8191, 8192] {
        let program = Program {
            header: Header {
                kind: 1,
                start: 0x1002,
                end: 0x1002 + n as u16,
            },
            name: b"GAME".to_vec(),
            bytes: (0..n).map(|i| (i * 37 / 8) as u8).collect(),
            leaders: [64, 64],
        };
        let mut pulses = Vec::new();
        let [head, data] = program.push(&mut pulses);
        for strip in [
            &pulses[..],
            &pulses[..data.end()],
            &pulses[..data.end() - 1],
            &[],
        ] {
            for from in telling_places(head, data, strip.len()) {
                for length in telling_lengths(n) {
                    run.walk_on(strip, Walk { from, length });
                }
            }
        }
    }
    run.finish(&[
        ("walk_block, a program's header", &[(0, 0)]),
        ("walk_block, another header", &[(0, 0)]),
        ("walk_block, a header", &[(3, 0), (4, 0), (7, 0)]),
        (
            "walk_block, data",
            &[(0, 0), (3, 0), (4, 1), (6, 1), (7, 1)],
        ),
        ("walk_block, 192 bytes of data", &[(0, 0)]),
        ("walk_block, too many bytes", &[(1, 0)]),
    ]);
}

/// Every total below, at and above what is taken, on strips that are taken and
/// on one that is not.
#[test]
fn limits_of_the_totals() {
    let mut run = Run::new("limits of the totals");
    let mut random = run.random();
    let mut file = Vec::new();
    Program::random(&mut random).push(&mut file);
    let too_long = vec![SHORT; MAX_PULSES + 1];
    let limits = [MAX_STRIPS, MAX_TOTAL, 1 << 32, 1 << 63];
    let mut totals: Vec<u64> = limits
        .iter()
        .flat_map(|limit| [limit - 2, limit - 1, *limit, limit + 1])
        .collect();
    totals.extend([0, 1, u64::MAX - 1, u64::MAX]);
    for i in 0..TOTALS {
        for &total in &totals {
            let mut numbers = [0; TOTALS];
            numbers[i] = total;
            for pulses in [&[][..], &file, &too_long] {
                let answer = run.report_strip(numbers.into(), pulses);
                let limit = if i == 0 { MAX_STRIPS - 1 } else { MAX_TOTAL };
                let is_taken = total <= limit && pulses.len() <= MAX_PULSES;
                assert_eq!(answer.is_ok(), is_taken);
            }
        }
    }
    run.finish(&[REPORTS]);
}

/// Totals that pass the limit with a strip are handed back; the next call
/// refuses them.
#[test]
fn totals_above_the_limit() {
    let mut run = Run::new("totals above the limit");
    let mut random = run.random();
    let mut pulses = Vec::new();
    let [_, data] = Program::of(&mut random, vec![1; CAUSES + 1]).push(&mut pulses);
    for cause in 0..CAUSES {
        let frame = data.frame(cause % 2, 9 + cause);
        make_bad(&mut random, &mut pulses[frame], cause);
    }
    for copy in 0..2 {
        make_bad(&mut random, &mut pulses[data.frame(copy, 9 + CAUSES)], 0);
    }
    pulses.push(0);
    for i in 1..TOTALS {
        let mut numbers = [0; TOTALS];
        numbers[i] = MAX_TOTAL;
        let totals = run
            .report_strip(numbers.into(), &pulses)
            .expect("totals at the limit are taken");
        assert!(totals.numbers()[i] > MAX_TOTAL);
        assert!(run.report_strip(totals, &[]).is_err());
    }
    run.finish(&[REPORTS]);
}

/// A thousand strips, and one more.
#[test]
fn a_thousand_strips() {
    let mut run = Run::new("a thousand strips");
    let mut random = run.random();
    let mut totals = Wear::default();
    for strips in 0..1000 {
        assert_eq!(totals.strips, strips);
        let pulses = some_strip(&mut random);
        totals = run
            .report_strip(totals, &pulses)
            .expect("a thousand strips are taken");
    }
    assert!(run.report_strip(totals, &[]).is_err());
    run.finish(&[REPORTS]);
}

/// Strips around the longest that a report takes. A walk takes each of them.
#[test]
fn the_most_pulses() {
    let mut run = Run::new("most pulses");
    let mut random = run.random();
    for strip in [files_to_fill, noise_to_fill, shorts_to_fill] {
        let pulses = strip(&mut random, MAX_PULSES + 1);
        run.walk_on(&pulses, Walk::default());
        assert!(run.report_strip(Wear::default(), &pulses).is_err());
        run.walk(&pulses[..MAX_PULSES]);
        run.walk(&pulses[1..]);
        run.walk(&pulses[..MAX_PULSES - 1]);
    }
    let mut pulses = noise_to_fill(&mut random, 2 * MAX_PULSES);
    let blocks = Program::random(&mut random).push(&mut pulses);
    let told = run.walk_on(&pulses, Walk::default());
    assert_told(&told, &blocks);
    assert!(run.report_strip(Wear::default(), &pulses).is_err());
    run.finish(&[
        ("walk_block, a program's header", &[(0, 0)]),
        ("walk_block, a header", &[(3, 0)]),
        ("walk_block, data", &[(0, 0), (4, 1)]),
        REPORTS,
    ]);
}

/// The longest strip that a report takes, with starts as close as they can
/// stand.
#[test]
fn the_most_starts() {
    let mut pulses = Vec::new();
    while pulses.len() < MAX_PULSES {
        let at = pulses.len();
        plant_start(&mut pulses, at);
    }
    pulses.truncate(MAX_PULSES);
    let mut run = Run::new("most starts");
    let told = run.walk_on(&pulses, Walk::default());
    assert_eq!(told.len(), MAX_PULSES / (SHORTS_BEFORE + PULSES));
    for from in MAX_PULSES - PULSES..=MAX_PULSES {
        let _ = run.walk_block(&pulses, header_from(from));
    }
    run.finish(&[("walk_block, a header", &[(3, 0), (4, 0), (5, 0)])]);
    let mut run = Run::new("report of the most starts");
    let _ = run.report_strip(Wear::default(), &pulses);
    run.finish(&[REPORTED]);
}

/// Files of the longest programs one after the other.
fn files_to_fill(random: &mut Random, length: usize) -> Vec<u32> {
    let mut pulses = Vec::new();
    while pulses.len() < length {
        let bytes = random.bytes(8192);
        let mut program = Program::of(random, bytes);
        program.leaders = [64, 64];
        program.push(&mut pulses);
    }
    pulses.truncate(length);
    pulses
}

fn noise_to_fill(random: &mut Random, length: usize) -> Vec<u32> {
    (0..length).map(|_| random.any_pulse()).collect()
}

fn shorts_to_fill(_: &mut Random, length: usize) -> Vec<u32> {
    vec![SHORT; length]
}

/// Places to walk from: around starts and ends, and past the strip.
fn telling_places(head: Placed, data: Placed, length: usize) -> [usize; 18] {
    [
        0,
        1,
        head.start() - SHORTS_BEFORE,
        head.start() - SHORTS_BEFORE + 1,
        head.start(),
        head.end() - 1,
        head.end(),
        head.after(),
        data.start() - SHORTS_BEFORE,
        data.start() - SHORTS_BEFORE + 1,
        data.end(),
        length.saturating_sub(1),
        length,
        length + 1,
        1 << 32,
        1 << 63,
        usize::MAX - SHORTS_BEFORE,
        usize::MAX,
    ]
}

/// Lengths to try where a block of `n` bytes stands.
fn telling_lengths(n: usize) -> [usize; 14] {
    [
        0,
        1,
        n,
        n + 1,
        HEADER - 1,
        HEADER,
        HEADER + 1,
        8191,
        8192,
        8193,
        1 << 32,
        (1 << 32) + HEADER,
        1 << 63,
        usize::MAX,
    ]
}

/// The length of the data block that a header announces, or 0 where it is not a
/// program's.
fn announced(header: Header) -> usize {
    let length = i32::from(header.end) - i32::from(header.start);
    match (header.kind, length) {
        (1 | 3, 1..=8192) => length as usize,
        _ => 0,
    }
}

fn refusal((number, place): (u32, usize), block: usize) -> Refusal {
    Refusal {
        number,
        block: block as u32,
        place,
        causes: [0, 0],
    }
}

/// The refusal for a lost place.
fn lost(place: usize, causes: [usize; 2], block: usize) -> Refusal {
    Refusal {
        causes: causes.map(|cause| cause as u32),
        ..refusal((6, place), block)
    }
}

fn taken(one: usize, two: usize, lost: usize) -> Places {
    Places {
        one,
        two,
        lost,
        causes: [0; CAUSES],
    }
}

fn with_causes(places: Places, causes: [usize; CAUSES]) -> Places {
    Places { causes, ..places }
}

/// Places, and bad bytes by their causes and how many there are of each.
fn worn(one: usize, two: usize, lost: usize, bad: &[(usize, usize)]) -> Places {
    let mut causes = [0; CAUSES];
    for &(cause, count) in bad {
        causes[cause] += count;
    }
    with_causes(taken(one, two, lost), causes)
}

/// Demands that a walk tells these blocks as accepted, and no other.
fn assert_told(told: &[Walked], blocks: &[Placed]) {
    let told = told
        .iter()
        .map(|walked| (walked.n, walked.start, walked.end));
    let placed = blocks
        .iter()
        .map(|block| (block.n, block.start(), Ok(block.end())));
    assert!(told.eq(placed));
}

/// This many program files, one after the other.
fn push_files(random: &mut Random, pulses: &mut Vec<u32>, count: usize) -> Vec<Placed> {
    (0..count)
        .flat_map(|_| Program::random(random).push(pulses))
        .collect()
}

fn some_drift(random: &mut Random, pulses: &mut [u32]) {
    if random.once_in(4) {
        drift(random, pulses);
    }
}

/// Files within the damage: the walk tells their blocks.
fn several_files(run: &mut Run, random: &mut Random) {
    let mut pulses = Vec::new();
    if random.once_in(4) {
        pulses.extend((0..random.below(60)).map(|_| random.pulse_not_of(Class::Short)));
    }
    let count = random.within(1..=4);
    let blocks = push_files(random, &mut pulses, count);
    for &block in &blocks {
        if random.once_in(2) {
            damage(random, &mut pulses, block);
        }
    }
    some_drift(random, &mut pulses);
    let told = run.walk(&pulses);
    assert_told(&told, &blocks);
    assert!(told.iter().all(|walked| walked.places.lost == 0));
}

/// What goes wrong in a block beside the bad bytes.
enum Fault {
    None,
    /// A countdown place is bad in both copies.
    Countdown(usize),
    /// A value of copy one is another one.
    Value,
}

/// Breaks a countdown, or turns bits at a place that is taken from copy one.
fn some_fault(random: &mut Random, pulses: &mut [u32], block: Placed, sources: &[Source]) -> Fault {
    match random.below(5) {
        0 => {
            let place = random.within(1..=8);
            for copy in 0..2 {
                hit(random, &mut pulses[block.frame(copy, place)], 1);
            }
            Fault::Countdown(place)
        }
        1 | 2 => {
            let Some(i) = sources.iter().position(|&source| source == Source::One) else {
                return Fault::None;
            };
            turn_byte(random, pulses, block, 0, i);
            Fault::Value
        }
        _ => Fault::None,
    }
}

/// What the rules answer for such a block.
fn answer_for(
    block: Placed,
    number: usize,
    fault: &Fault,
    bad: &[BadBytes],
) -> Result<usize, Refusal> {
    match (fault, first_lost(bad)) {
        (Fault::Countdown(place), _) => Err(refusal((5, *place), number)),
        (_, Some((place, causes))) => Err(lost(place, causes, number)),
        (Fault::Value, _) => Err(refusal((7, block.n), number)),
        _ => Ok(block.end()),
    }
}

/// A header or a data block whose bad bytes are known, and so all that the walk
/// tells of it.
fn a_worn_block(run: &mut Run, random: &mut Random) {
    let mut pulses = Vec::new();
    let blocks = Program::random(random).push(&mut pulses);
    let number = random.below(2);
    let block = blocks[number];
    let sources = some_sources(random, block.n);
    let bad = wear_down(random, &mut pulses, block, &sources);
    let fault = some_fault(random, &mut pulses, block, &sources);
    some_drift(random, &mut pulses);
    let told = run.walk(&pulses)[number];
    let count = |wanted| sources.iter().filter(|&&source| source == wanted).count();
    let [one, two, lost] = [Source::One, Source::Two, Source::Lost].map(count);
    let places = with_causes(taken(one, two, lost), count_causes(&bad));
    assert_eq!(told.places, places);
    assert_eq!(told.end, answer_for(block, number, &fault, &bad));
    meet_checksum(run, number, sources[block.n]);
}

fn meet_checksum(run: &mut Run, number: usize, source: Source) {
    let [from_two, lost] = match number {
        0 => [
            "the checksum of a header from copy two",
            "the checksum of a header lost",
        ],
        _ => [
            "the checksum of data from copy two",
            "the checksum of data lost",
        ],
    };
    run.meet(from_two, source == Source::Two);
    run.meet(lost, source == Source::Lost);
}

/// Several files, of which some blocks are spoiled.
fn refused_and_good(run: &mut Run, random: &mut Random) {
    let mut pulses = Vec::new();
    let count = random.within(2..=4);
    let blocks = push_files(random, &mut pulses, count);
    some_drift(random, &mut pulses);
    for _ in 0..random.within(1..=count) {
        let block = random.pick(&blocks);
        spoil(random, &mut pulses, block);
    }
    run.walk(&pulses);
}

/// Starts inside the copies of a block, which is often refused for them.
fn starts_inside(run: &mut Run, random: &mut Random) {
    let mut pulses = Vec::new();
    let n = random.within(4..=400);
    let bytes = random.bytes(n);
    let blocks = Program::of(random, bytes).push(&mut pulses);
    push_files(random, &mut pulses, 1);
    some_drift(random, &mut pulses);
    let block = random.pick(&blocks);
    for _ in 0..random.within(1..=3) {
        let offset = random.within(PULSES..=copy_len(block.n) - SHORTS_BEFORE - PULSES);
        let [low, high] = random.pick(&[[0, 0], [1, 1], [0, 1], [0, 1], [0, 1]]);
        for copy in low..=high {
            plant_start(&mut pulses, block.copy(copy) + offset);
        }
    }
    run.walk(&pulses);
}

/// A file, or its first block, inside a block that is mostly refused.
fn blocks_inside(run: &mut Run, random: &mut Random) {
    let n = random.within(450..=1500);
    let bytes = random.bytes(n);
    let mut pulses = Vec::new();
    let blocks = Program::of(random, bytes).push(&mut pulses);
    let block = random.pick(&[blocks[0], blocks[1], blocks[1]]);
    let mut inner = Vec::new();
    let [head, _] = Program::random(random).push(&mut inner);
    if random.once_in(2) {
        inner.truncate(random.pick(&[head.end(), head.after()]));
    }
    inner.drain(..head.start() - random.within(15..=20));
    let at = block.frame(0, 10).start + random.below(copy_len(block.n));
    overlay(&mut pulses, at, &inner);
    push_files(random, &mut pulses, 1);
    if !random.once_in(4) {
        let place = random.within(1..=9);
        for copy in 0..2 {
            hit(random, &mut pulses[block.frame(copy, place)], 1);
        }
    }
    run.walk(&pulses);
}

/// A program of 192 bytes that look like a header, and more blocks after it.
fn data_of_192(run: &mut Run, random: &mut Random) {
    let inner = Program::random(random);
    let mut pulses = Vec::new();
    let [head, data] = Program::of(random, inner.header_bytes().to_vec()).push(&mut pulses);
    damage(random, &mut pulses, data);
    if random.once_in(2) {
        push_block(&mut pulses, &inner.bytes, inner.leaders[1]);
    }
    if random.once_in(2) {
        push_files(random, &mut pulses, 1);
    }
    let told = run.walk(&pulses)[1];
    assert_eq!((told.n, told.end), (HEADER, Ok(data.end())));
    assert_eq!(told.next, header_from(data.end()));
    let as_header = run.walk_on(&pulses, header_from(head.end()))[0];
    assert_eq!(as_header.next.length, inner.bytes.len());
}

fn header_from(from: usize) -> Walk {
    Walk { from, length: 0 }
}

/// A header of any type with telling addresses.
fn some_header(random: &mut Random, header: Header) -> Header {
    let kind = match random.below(4) {
        0 => random.pick(&[0, 2, 4, 5, 6, 255]),
        1 => random.byte(),
        _ => header.kind,
    };
    let n = header.end.wrapping_sub(header.start);
    let length = match random.below(4) {
        0 => 8192,
        1 => n,
        _ => random.pick(&[0, 1, 191, 192, 193, 8191, 8193, 65_535]),
    };
    let end = header.start.wrapping_add(length);
    match random.below(4) {
        0 => Header {
            kind,
            start: random.bits() as u16,
            end: random.bits() as u16,
        },
        1 => Header {
            kind,
            start: 0,
            end: length,
        },
        _ => Header {
            kind,
            end,
            ..header
        },
    }
}

/// Headers that are not a program's, or announce another length, and a file.
fn other_headers(run: &mut Run, random: &mut Random) {
    let mut pulses = Vec::new();
    let mut program = Program::random(random);
    program.header = some_header(random, program.header);
    let [head, _] = program.push(&mut pulses);
    push_files(random, &mut pulses, 1);
    let told = run.walk(&pulses)[0];
    let length = announced(program.header);
    run.meet("8192 bytes announced", length == 8192);
    let next = Walk {
        from: head.end(),
        length,
    };
    assert_eq!((told.end, told.next), (Ok(head.end()), next));
}

/// A data block whose leader begins in the pulses after the header's copy two,
/// or before its end.
fn between_the_blocks(run: &mut Run, random: &mut Random) {
    let program = Program::random(random);
    let mut pulses = Vec::new();
    let head = push_block(&mut pulses, &program.header_bytes(), program.leaders[0]);
    let before = random.below(4);
    pulses[head.end() - before..head.end()].fill(SHORT);
    pulses.truncate(head.end() + random.pick(&[0, 0, 0, 1, 30, 61]));
    let shorts = random.within(14..=20);
    push_shorts(&mut pulses, shorts - before);
    let data = push_block(&mut pulses, &program.bytes, program.leaders[1]);
    pulses.drain(data.at..data.start());
    push_files(random, &mut pulses, 1);
    let told = run.walk(&pulses);
    let is_early = told
        .get(1)
        .is_some_and(|data| data.n == program.bytes.len() && data.start < head.after());
    run.meet("a data block among the header's last pulses", is_early);
}

fn cut_short(run: &mut Run, random: &mut Random) {
    let mut pulses = Vec::new();
    let count = random.within(1..=3);
    let blocks = push_files(random, &mut pulses, count);
    let block = random.pick(&blocks);
    cut(random, &mut pulses, &block);
    run.walk(&pulses);
}

/// Patchworks, with a header that announces few bytes among them.
fn patched(run: &mut Run, random: &mut Random) {
    let mut pulses = patchwork(random);
    let mut program = Program::random(random);
    program.header.start = 0x1000;
    program.header.end = 0x1000 + random.within(1..=4) as u16;
    push_block(&mut pulses, &program.header_bytes(), 64);
    for _ in 0..random.within(1..=4) {
        pulses.extend(patchwork(random));
    }
    if random.once_in(3) {
        push_shorts(&mut pulses, 8200);
    }
    run.walk(&pulses);
}

fn edge_pulses(run: &mut Run, random: &mut Random) {
    let mut pulses: Vec<u32> = (0..random.below(9000))
        .map(|_| random.edge_pulse())
        .collect();
    for _ in 0..random.below(4) {
        let at = random.below(pulses.len() + 1);
        plant_start(&mut pulses, at);
    }
    run.walk(&pulses);
}

/// A place to walk from, and a length to try.
fn some_walk(random: &mut Random, blocks: &[Placed], length: usize) -> Walk {
    let [one, other] = [random.pick(blocks), random.pick(blocks)];
    let from = match random.below(5) {
        0 => random.below(length + 3),
        1 => random.pick(&[one.at, one.end(), one.after()]),
        2 => random.pick(&telling_places(one, other, length)),
        _ => one.start() - random.within(14..=18),
    };
    let length = match random.below(5) {
        0 => random.within(1..=8192),
        1 => random.pick(&telling_lengths(one.n)),
        2 => 0,
        _ => random.pick(&[one.n, one.n, other.n]),
    };
    Walk { from, length }
}

/// Walks that no walk leads to.
fn made_up(run: &mut Run, random: &mut Random) {
    let mut pulses = Vec::new();
    let count = random.within(1..=2);
    let blocks = push_files(random, &mut pulses, count);
    if random.once_in(2) {
        let block = random.pick(&blocks);
        spoil(random, &mut pulses, block);
    }
    for _ in 0..3 {
        let at = some_walk(random, &blocks, pulses.len());
        run.walk_on(&pulses, at);
    }
}

/// Odd headers, starts inside, damage of every kind, and any place to begin.
fn all_at_once(run: &mut Run, random: &mut Random) {
    let mut pulses = Vec::new();
    let mut blocks = Vec::new();
    for _ in 0..random.within(1..=4) {
        push_near_start(random, &mut pulses);
        let mut program = Program::random(random);
        if random.once_in(3) {
            program.header = some_header(random, program.header);
        }
        blocks.extend(program.push(&mut pulses));
    }
    some_drift(random, &mut pulses);
    for _ in 0..random.within(0..=4) {
        let at = random.below(pulses.len());
        plant_start(&mut pulses, at);
    }
    for _ in 0..random.within(0..=4) {
        let block = random.pick(&blocks);
        spoil(random, &mut pulses, block);
    }
    run.walk(&pulses);
    let at = some_walk(random, &blocks, pulses.len());
    run.walk_on(&pulses, at);
}

/// A strip for a report.
fn some_strip(random: &mut Random) -> Vec<u32> {
    let mut pulses = Vec::new();
    match random.below(6) {
        0 => {}
        1 => pulses = patchwork(random),
        2 => pulses.extend((0..random.below(500)).map(|_| random.edge_pulse())),
        3 => {
            plant_start(&mut pulses, 0);
            (0..500).for_each(|_| push_byte(&mut pulses, random.byte()));
        }
        _ => {
            let blocks = Program::random(random).push(&mut pulses);
            for block in blocks {
                damage(random, &mut pulses, block);
            }
            match random.below(4) {
                0 | 1 => spoil(random, &mut pulses, blocks[1]),
                2 => {
                    let sources = some_sources(random, blocks[1].n);
                    wear_down(random, &mut pulses, blocks[1], &sources);
                }
                _ => {}
            }
        }
    }
    pulses
}

/// Totals that are taken, whatever they say of each other.
fn some_totals(random: &mut Random) -> Wear {
    let mut numbers = [0; TOTALS].map(|_: u64| match random.below(4) {
        0 => 0,
        1 => MAX_TOTAL - random.below(3) as u64,
        2 => random.below(1_000_000) as u64,
        _ => random.below(MAX_TOTAL as usize + 1) as u64,
    });
    let any = random.below(MAX_STRIPS as usize) as u64;
    numbers[0] = random.pick(&[0, 1, MAX_STRIPS - 2, MAX_STRIPS - 1, any]);
    numbers.into()
}

/// Totals of which this many are too large.
fn large_totals(random: &mut Random, count: usize) -> Wear {
    let mut numbers = some_totals(random).numbers();
    for _ in 0..count {
        let i = random.below(TOTALS);
        numbers[i] = match random.below(4) {
            0 => MAX_TOTAL + 1,
            1 => u64::MAX - random.below(3) as u64,
            2 => random.bits() | 1 << 40,
            _ if i == 0 => MAX_STRIPS + random.below(3) as u64,
            _ => MAX_TOTAL + 1 + random.below(1 << 40) as u64,
        };
    }
    numbers.into()
}

/// Several strips, the totals handed on. They are the sums of what each strip
/// gives by itself.
fn handed_on(run: &mut Run, random: &mut Random) {
    let mut totals = Wear::default();
    let mut sums = [0; TOTALS];
    for _ in 0..random.within(2..=6) {
        let pulses = some_strip(random);
        totals = run
            .report_strip(totals, &pulses)
            .expect("few strips are taken");
        let alone = report_strip(Wear::default(), &pulses).expect("a strip is taken");
        for (sum, number) in sums.iter_mut().zip(alone.numbers()) {
            *sum += number;
        }
    }
    assert_eq!(totals.numbers(), sums);
}

fn any_totals(run: &mut Run, random: &mut Random) {
    let totals = some_totals(random);
    let pulses = some_strip(random);
    let alone = report_strip(Wear::default(), &pulses).expect("a strip is taken");
    let answer = run
        .report_strip(totals, &pulses)
        .expect("totals within the limits are taken");
    for (i, number) in alone.numbers().into_iter().enumerate() {
        assert_eq!(answer.numbers()[i], totals.numbers()[i] + number);
    }
}

fn totals_too_large(run: &mut Run, random: &mut Random) {
    let totals = large_totals(random, 1);
    let pulses = some_strip(random);
    assert!(run.report_strip(totals, &pulses).is_err());
}

/// Totals of which several may be too large, again and again with a strip.
fn any_totals_at_once(run: &mut Run, random: &mut Random) {
    let count = random.below(4);
    let mut totals = large_totals(random, count);
    let pulses = some_strip(random);
    for _ in 0..3 {
        totals = run.report_strip(totals, &pulses).unwrap_or(totals);
    }
}
