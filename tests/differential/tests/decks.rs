//! Reading straight from the deck (document 02, Q-7), beside the strip readers.

use differential::compare::deck::{Call, Cutting, Decks, Guards, Rooms};
use differential::compare::{Run, Scene, LOST_IN_COPY_ONE, LOST_IN_COPY_TWO};
use differential::random::Random;
use differential::reference::block::{COUNTDOWNS, SHORTS_BEFORE, TRAILER};
use differential::reference::byte::{write_byte, CAUSES, PULSES};
use differential::reference::deck::{phase, LEAD, MAX_DECK_PAYLOAD};
use differential::reference::pulse::{Class, LONG, MEDIUM, SHORT};
use differential::reference::strip_deck::{deck_after, fill_work};
use differential::reference::{BlockRead, Deck, Refusal, Told};
use differential::strip::{
    cut, damage, drift, first_lost, hit, make_bad, patchwork, places_to_spoil, plant_start,
    push_block, push_broken_leads, push_byte, push_long_block, push_near_start, push_shorts,
    some_sources, spoil, turn_byte, wear_down, Placed, Program,
};
use differential::thresholds::FIXED;

const READ: (&str, &[(u32, u32)]) = ("deck", &[(0, 0), (3, 0), (4, 0), (5, 0), (6, 0), (7, 0)]);
const BEGUN: (&str, &[(u32, u32)]) = ("begin_deck", &[(0, 0), (1, 0), (2, 0)]);
const CHANGED: (&str, &[(u32, u32)]) = (
    "deck with changed buffers",
    &[(0, 0), (3, 0), (4, 0), (5, 0), (6, 0), (7, 0)],
);
const REFUSED: (&str, &[(u32, u32)]) = ("deck, a refused call", &[(1, 0), (2, 0)]);
const MADE_UP: [(&str, &[(u32, u32)]); 5] = [
    ("made-up deck, not sound", &[(1, 0), (2, 0)]),
    ("made-up deck, a refused call", &[(1, 0), (2, 0)]),
    ("made-up deck, nothing told", &[(0, 0)]),
    (
        "made-up deck, answered before",
        &[(0, 0), (3, 0), (4, 0), (5, 0), (6, 0), (7, 0)],
    ),
    (
        "made-up deck",
        &[(0, 0), (3, 0), (4, 0), (5, 0), (6, 0), (7, 0)],
    ),
];

const SCENES: [Scene; 24] = [
    ("sound", sound),
    ("within the damage", within_the_damage),
    ("bad bytes in copy one", bad_in_copy_one),
    ("worn", worn),
    ("worn", worn),
    ("beyond the damage", beyond_the_damage),
    ("beyond the damage", beyond_the_damage),
    ("cut", cut_short),
    ("one after the other", one_after_the_other),
    ("files", files),
    ("starts inside", starts_inside),
    ("near starts", near_starts),
    ("broken leads", broken_leads),
    ("patchwork", patched),
    ("edge pulses", edge_pulses),
    ("any pulses", any_pulses),
    ("all at once", all_at_once),
    ("begun", begun),
    ("refused", refused),
    ("the most pulses", most_pulses),
    ("changed by the caller", changed_by_the_caller),
    ("any numbers", any_numbers),
    ("nearly sound numbers", nearly_sound_numbers),
    ("one number changed", one_number_changed),
];

#[test]
fn decks() {
    let mut run = Run::new("decks");
    run.play(&SCENES);
    run.demand_every_cause(&[LOST_IN_COPY_ONE, LOST_IN_COPY_TWO]);
    let mut answers = vec![READ, BEGUN, REFUSED, CHANGED];
    answers.extend(MADE_UP);
    run.finish(&answers);
}

/// Every length at a limit with every room at one, as numbers alone.
#[test]
fn limits_of_beginning() {
    let mut run = Run::new("limits of beginning");
    let mut random = run.random();
    let lengths = [
        0,
        1,
        2,
        8192,
        8193,
        65_533,
        65_534,
        65_535,
        65_536,
        1 << 32,
        (1 << 32) + 1,
        usize::MAX / 2 - 9,
        usize::MAX - 9,
        usize::MAX,
    ];
    for n in lengths {
        let need = n.wrapping_add(10).wrapping_mul(2);
        let around = |need: usize| {
            let [less, more] = [need.wrapping_sub(1), need.wrapping_add(1)];
            [0, less, need, more, 65_536, usize::MAX]
        };
        for work in around(need) {
            for out in around(n) {
                let deck = run.begin_deck(&mut random, n, Rooms { work, out });
                let refused = match n {
                    1..=65_534 if work >= need && out >= n => 0,
                    1..=65_534 => 2,
                    _ => 1,
                };
                assert_eq!((deck.refused, deck.phase), (refused, 0));
                assert_eq!(deck.n as usize, if refused == 0 { n } else { 0 });
            }
        }
    }
    run.finish(&[BEGUN]);
}

/// Every cut of a short block into two runs, and every strip that ends there.
#[test]
fn every_cut() {
    let mut run = Run::new("cuts of a deck");
    let mut random = run.random();
    let mut pulses = Vec::new();
    let block = push_block(&mut pulses, &[0x41, 0x42], 64);
    make_bad(&mut random, &mut pulses[block.frame(0, 9)], 4);
    make_bad(&mut random, &mut pulses[block.frame(0, 3)], 10);
    for length in 0..=pulses.len() {
        let whole = run.read_deck(&mut random, &pulses, 2, Cutting::At(length));
        demand_payload(whole, block, &[0x41, 0x42]);
        for cutting in [Cutting::OneRun, Cutting::Pulses, Cutting::Disturbed] {
            let cut = run.read_deck(&mut random, &pulses[..length], 2, cutting);
            let expected = match length {
                0..84 => Some(refusal(3, 0)),
                84.. if length < block.end() => Some(refusal(4, 64)),
                _ => None,
            };
            assert_eq!(cut.err(), expected);
        }
    }
    run.finish(&[("deck", &[(0, 0), (3, 0), (4, 0)])]);
}

/// Every pulse of a short block at every edge, in one copy and in both.
#[test]
fn every_pulse_changed() {
    let mut run = Run::new("changes of a deck's block");
    let mut random = run.random();
    let mut pulses = Vec::new();
    let block = push_block(&mut pulses, &[0x41], 64);
    for i in 0..pulses.len() {
        for pulse in FIXED.edges() {
            let mut changed = pulses.clone();
            changed[i] = pulse;
            let _ = run.read_deck(&mut random, &changed, 1, Cutting::OneRun);
            let twin = i + block.copy(1) - block.copy(0);
            if block.start() <= i && twin < block.end() {
                changed[twin] = pulse;
                let _ = run.read_deck(&mut random, &changed, 1, Cutting::Runs(90));
            }
        }
    }
    run.finish(&[("deck", &[(0, 0), (3, 0), (5, 0), (6, 0)])]);
}

/// Every value, sound and with each bit turned round in one copy and in both.
#[test]
fn every_value() {
    let mut run = Run::new("values of a deck's byte");
    let mut random = run.random();
    for value in 0..=255 {
        let mut pulses = Vec::new();
        let block = push_block(&mut pulses, &[value], 64);
        for bit in 0..9 {
            let mut turned = pulses.clone();
            for copy in 0..2 {
                turned[block.frame(copy, 9)].swap(2 + 2 * bit, 3 + 2 * bit);
                let answer = run.read_deck(&mut random, &turned, 1, Cutting::OneRun);
                match copy {
                    0 => demand_payload(answer, block, &[value]),
                    _ => assert_eq!(answer, Err(lost(0, [10, 10]))),
                }
            }
        }
    }
    run.finish(&[("deck", &[(0, 0), (6, 0)])]);
}

/// Every two causes at each place, with a place before it that is bad in one copy
/// and one after it that is lost by other causes.
#[test]
fn every_two_causes() {
    let mut run = Run::new("causes of a deck");
    let mut random = run.random();
    let n = 4;
    let mut sound = Vec::new();
    let block = push_block(&mut sound, &[1, 2, 3, 4], 64);
    for place in 0..=n {
        for one in 0..CAUSES {
            for two in 0..CAUSES {
                let mut pulses = sound.clone();
                let mut bad = |copy, place: usize, cause| {
                    let frame = &mut pulses[block.frame(copy, 9 + place)];
                    make_bad(&mut random, frame, cause);
                };
                bad(0, place, one);
                bad(1, place, two);
                if place > 0 {
                    bad(one % 2, place - 1, (one + 1) % CAUSES);
                }
                if place < n {
                    bad(0, place + 1, (one + 2) % CAUSES);
                    bad(1, place + 1, (two + 3) % CAUSES);
                }
                let answer = run.read_deck(&mut random, &pulses, n, Cutting::Runs(200));
                assert_eq!(answer, Err(lost(place, [one, two])));
            }
        }
    }
    run.demand_every_cause(&[LOST_IN_COPY_ONE, LOST_IN_COPY_TWO]);
    run.finish(&[("deck", &[(6, 0)])]);
}

/// Pulses at the edges of the four classes.
const EVERY_CLASS: [u32; 10] = [200, 439, 440, 607, 608, 959, 0, 199, 960, u32::MAX];

/// Each number of pulses of the lead, with a pulse of each class after it: what is
/// heard of the lead then is what the strip says.
#[test]
fn every_step_of_the_search() {
    let mut run = Run::new("steps of the search");
    let mut random = run.random();
    for heard in 0..LEAD {
        for pulse in EVERY_CLASS {
            let mut pulses = lead();
            pulses.truncate(heard);
            pulses.push(pulse);
            let deck = Deck {
                heard: heard as u8,
                ..fresh_deck(1, heard as u32)
            };
            let mut decks = Decks::with(&mut random, deck, Rooms::of(1));
            decks.call(Call::Pulse(pulse));
            assert_eq!(decks.deck(), deck_after(&pulses, 1), "{heard} {pulse}");
            let mut decks = Decks::with(&mut random, deck, Rooms::of(1));
            decks.call(Call::Run(&[pulse]));
            assert_eq!(decks.deck(), deck_after(&pulses, 1), "{heard} {pulse}");
            run.begin_deck(&mut random, 1, Rooms::of(1));
        }
    }
    run.finish(&[("begin_deck", &[(0, 0)])]);
}

/// A lead that breaks off at each of its pulses, by each class, and then a block
/// with so many short pulses before it.
#[test]
fn every_broken_lead() {
    let mut run = Run::new("broken leads");
    let mut random = run.random();
    let mut block = Vec::new();
    let placed = push_block(&mut block, &[0x41], 64);
    for heard in 0..LEAD {
        for pulse in [SHORT, MEDIUM, LONG, 0] {
            for shorts in 0..=18 {
                let mut pulses = lead();
                pulses.truncate(heard);
                pulses.push(pulse);
                push_shorts(&mut pulses, shorts);
                pulses.extend(&block[placed.start()..placed.end()]);
                let cutting = random.pick(&[Cutting::OneRun, Cutting::Runs(20)]);
                let _ = run.read_deck(&mut random, &pulses, 1, cutting);
            }
        }
    }
    run.finish(&[("deck", &[(0, 0), (3, 0), (5, 0)])]);
}

/// The short pulses at the end of a first byte that breaks off are among the
/// sixteen before the next start.
#[test]
fn shorts_of_a_failed_byte_count() {
    let mut run = Run::new("shorts of a failed byte");
    let mut random = run.random();
    let mut block = Vec::new();
    let placed = push_block(&mut block, &[0x41], 64);
    // How many pulses of $89 are kept, and how many shorts are missing then.
    let kept_and_missing = [
        (4, 15),
        (5, 14),
        (7, 15),
        (10, 15),
        (11, 14),
        (18, 15),
        (19, 14),
    ];
    for (kept, shorts) in kept_and_missing {
        for missing in 0..2 {
            let mut pulses = vec![SHORT; SHORTS_BEFORE];
            pulses.extend(&write_byte(0x89)[..kept]);
            push_shorts(&mut pulses, shorts - missing);
            let before = pulses.len();
            pulses.extend(&block[placed.start()..]);
            for cutting in [Cutting::OneRun, Cutting::Pulses, Cutting::At(before)] {
                let answer = run.read_deck(&mut random, &pulses, 1, cutting);
                let start = answer.map(|(read, _)| read.start);
                let expected = match missing {
                    0 => Ok(before),
                    _ => Err(refusal(3, 0)),
                };
                assert_eq!(start, expected, "{kept} {shorts} {missing}");
            }
        }
    }
    run.finish(&[("deck", &[(0, 0), (3, 0)])]);
}

/// The changes that single pulses make to the working buffer: the place in the
/// strip, the place in the buffer, and the two bytes.
fn changes(random: &mut Random, pulses: &[u32], n: usize) -> Vec<(usize, usize, [u8; 2])> {
    let mut decks = Decks::begin(random, n, Rooms::of(n));
    decks.change_work(0, &vec![0xee; Rooms::of(n).work]);
    let mut work = decks.work().to_vec();
    let mut changes = Vec::new();
    for (i, &pulse) in pulses.iter().enumerate() {
        decks.call(Call::Pulse(pulse));
        assert_eq!(decks.deck(), deck_after(&pulses[..=i], n));
        let (before, _) = work.as_chunks::<2>();
        let (after, _) = decks.work().as_chunks::<2>();
        let places = (0..before.len()).filter(|&place| before[place] != after[place]);
        changes.extend(places.map(|place| (i, place, after[place])));
        work = decks.work().to_vec();
    }
    changes
}

/// What a reading of a block changes: each place of copy one at its twentieth
/// pulse, and at copy two's the places that are named here.
fn expected_changes(
    block: Placed,
    copy_one: &[[u8; 2]],
    replaced: &[(usize, [u8; 2])],
) -> Vec<(usize, usize, [u8; 2])> {
    let last = |copy, place| block.frame(copy, place).end - 1;
    let first = copy_one.iter().enumerate();
    let second = replaced.iter();
    first
        .map(|(place, &pair)| (last(0, place), place, pair))
        .chain(second.map(|&(place, pair)| (last(1, place), place, pair)))
        .collect()
}

/// The working buffer of copy one, all sound.
fn sound_places(payload: &[u8]) -> Vec<[u8; 2]> {
    let checksum = payload.iter().fold(0, |sum, byte| sum ^ byte);
    let values = COUNTDOWNS[0].iter().chain(payload).chain([&checksum]);
    values.map(|&value| [value, 0]).collect()
}

/// The working buffer changes at the twentieth pulse of a byte and at no other one.
#[test]
fn moments_of_change() {
    let mut run = Run::new("moments of change");
    let mut random = run.random();
    let payload = [0x10, 0x20, 0x30, 0x40];
    let mut pulses = Vec::new();
    push_near_start(&mut random, &mut pulses);
    pulses.truncate(17);
    let block = push_block(&mut pulses, &payload, 70);
    let mut places = sound_places(&payload);
    let expected = expected_changes(block, &places, &[]);
    assert_eq!(changes(&mut random, &pulses, 4), expected);

    // A countdown byte that is bad stays so, and a good one of a wrong value stays.
    make_bad(&mut random, &mut pulses[block.frame(0, 3)], 7);
    places[3] = [0, 8];
    pulses[block.frame(0, 5)].copy_from_slice(&write_byte(0x55));
    places[5] = [0x55, 0];
    // Bad bytes of payload and checksum are replaced.
    make_bad(&mut random, &mut pulses[block.frame(0, 9)], 0);
    places[9] = [0, 1];
    make_bad(&mut random, &mut pulses[block.frame(0, 13)], 10);
    places[13] = [0, 11];
    // A good byte is not, whatever copy two has.
    pulses[block.frame(1, 11)].copy_from_slice(&write_byte(0x77));
    make_bad(&mut random, &mut pulses[block.frame(1, 12)], 5);
    let replaced = [(9, [0x10, 0]), (13, [0x40, 0])];
    let expected = expected_changes(block, &places, &replaced);
    assert_eq!(changes(&mut random, &pulses, 4), expected);
    let answer = run.read_deck(&mut random, &pulses, 4, Cutting::Pulses);
    demand_payload(answer, block, &payload);

    // After a countdown fault and a lost place the others are replaced all the same.
    make_bad(&mut random, &mut pulses[block.frame(1, 3)], 2);
    make_bad(&mut random, &mut pulses[block.frame(0, 10)], 6);
    places[10] = [0, 7];
    make_bad(&mut random, &mut pulses[block.frame(1, 10)], 9);
    make_bad(&mut random, &mut pulses[block.frame(0, 12)], 4);
    places[12] = [0, 5];
    let expected = expected_changes(block, &places, &replaced);
    assert_eq!(changes(&mut random, &pulses, 4), expected);
    let answer = run.read_deck(&mut random, &pulses, 4, Cutting::Pulses);
    assert_eq!(answer, Err(refusal(5, 3)));
    pulses[block.frame(1, 3)].copy_from_slice(&write_byte(0x06));
    let answer = run.read_deck(&mut random, &pulses, 4, Cutting::Pulses);
    assert_eq!(answer, Err(lost(1, [6, 9])));
    run.finish(&[("deck", &[(0, 0), (5, 0), (6, 0)])]);
}

/// A countdown byte of one copy: as it was written, another good one, the other
/// copy's, or a bad one.
fn countdown_bytes(random: &mut Random, copy: usize, place: usize) -> [(Vec<u32>, [u8; 2]); 4] {
    let value = COUNTDOWNS[copy][place];
    let good = |value: u8| (write_byte(value).to_vec(), [value, 0]);
    let mut bad = write_byte(value);
    make_bad(random, &mut bad, place);
    [
        good(value),
        good(value + 0x10),
        good(value ^ 0x80),
        (bad.to_vec(), [0, place as u8 + 1]),
    ]
}

/// Every countdown place with both copies' bytes of every kind: it fails where
/// neither is as written, and the working buffer keeps copy one's byte.
#[test]
fn every_countdown_place() {
    let mut run = Run::new("countdown of a deck");
    let mut random = run.random();
    let mut sound = Vec::new();
    let block = push_block(&mut sound, &[0x41, 0x42], 64);
    for place in 1..9 {
        let ones = countdown_bytes(&mut random, 0, place);
        let twos = countdown_bytes(&mut random, 1, place);
        for (i, (one, pair)) in ones.iter().enumerate() {
            for (k, (two, _)) in twos.iter().enumerate() {
                let mut pulses = sound.clone();
                pulses[block.frame(0, place)].copy_from_slice(one);
                pulses[block.frame(1, place)].copy_from_slice(two);
                let answer = run.read_deck(&mut random, &pulses, 2, Cutting::Runs(100));
                match i.min(k) {
                    0 => demand_payload(answer, block, &[0x41, 0x42]),
                    _ => assert_eq!(answer, Err(refusal(5, place))),
                }
                let mut decks = Decks::begin(&mut random, 2, Rooms::of(2));
                decks.call(Call::Run(&pulses));
                assert_eq!(decks.work()[2 * place..][..2], *pair);
            }
        }
    }
    run.finish(&[("deck", &[(0, 0), (5, 0)])]);
}

/// Strips with one answer each, and that answer.
fn one_of_each(random: &mut Random) -> Vec<(Vec<u32>, Placed, Result<(), Refusal>)> {
    let mut sound = Vec::new();
    let block = push_block(&mut sound, &[1, 2, 3], 64);
    let mut strips = vec![(sound.clone(), block, Ok(()))];
    let mut spoilt = sound.clone();
    turn_byte(random, &mut spoilt, block, 0, 1);
    strips.push((spoilt.clone(), block, Err(refusal(7, 3))));
    for (place, causes) in [(2, [3, 1]), (0, [10, 8])] {
        for (copy, cause) in causes.into_iter().enumerate() {
            make_bad(random, &mut spoilt[block.frame(copy, 9 + place)], cause);
        }
        strips.push((spoilt.clone(), block, Err(lost(place, causes))));
    }
    for place in [8, 2] {
        for copy in 0..2 {
            make_bad(random, &mut spoilt[block.frame(copy, place)], 0);
        }
        strips.push((spoilt.clone(), block, Err(refusal(5, place))));
    }
    strips
}

/// Nothing is told before the pulse that ends copy two, and everything at it; and
/// then no call changes anything, with any buffers.
#[test]
fn told_at_the_last_pulse() {
    let mut run = Run::new("what is told");
    let mut random = run.random();
    for (pulses, block, expected) in one_of_each(&mut random) {
        let n = block.n;
        let expected = Told::Answer(expected.map(|()| BlockRead {
            n,
            start: block.start(),
            end: block.end(),
        }));
        let mut decks = Decks::begin(&mut random, n, Rooms::of(n));
        for &pulse in &pulses[..block.end() - 1] {
            assert_eq!(decks.call(Call::Pulse(pulse)), Told::Nothing);
        }
        assert_eq!(decks.call(Call::Run(&[])), Told::Nothing);
        let rooms = Rooms {
            work: Rooms::of(n).work,
            out: n - 1,
        };
        run.refuse_call(&mut decks, 2, Call::Pulse(pulses[block.end() - 1]), rooms);
        run.refuse_call(&mut decks, 2, Call::End, rooms);
        let last = Call::Pulse(pulses[block.end() - 1]);
        assert_eq!(decks.call(last), expected);
        for rooms in [Rooms::of(n), rooms, Rooms { work: 0, out: 0 }] {
            for call in [Call::End, last, Call::Run(&[]), Call::Run(&pulses)] {
                decks.stay(call, rooms);
                assert_eq!(decks.said(), expected);
            }
        }
        let answer = run.read_deck(&mut random, &pulses, n, Cutting::Runs(700));
        assert_eq!(Told::Answer(answer.map(|(read, _)| read)), expected);
    }
    run.finish(&[
        ("deck", &[(0, 0), (5, 0), (6, 0), (7, 0)]),
        ("deck, a refused call", &[(2, 0)]),
    ]);
}

/// 3 and 4 are told with the end alone, also after very many pulses.
#[test]
fn told_with_the_end_alone() {
    let mut random = Random::new(1, 7);
    let mut decks = Decks::begin(&mut random, 3, Rooms::of(3));
    let noise: Vec<u32> = (0..300_000).map(|_| random.any_pulse()).collect();
    for _ in 0..4 {
        assert_eq!(decks.call(Call::Run(&noise)), Told::Nothing);
    }
    let told = decks.call(Call::End);
    assert_eq!(told, Told::Answer(Err(refusal(3, 0))));
    let mut decks = Decks::with(&mut random, fresh_deck(3, u32::MAX - 40), Rooms::of(3));
    assert_eq!(decks.call(Call::Run(&lead())), Told::Nothing);
    let told = decks.call(Call::End);
    let start = u32::MAX - 40 + SHORTS_BEFORE as u32;
    assert_eq!(told, Told::Answer(Err(refusal(4, start as usize))));
}

/// A run that would pass the most pulses is refused as a whole, also where an
/// answer would come inside it; one that reaches them is taken.
#[test]
fn the_most_pulses() {
    let mut run = Run::new("the most pulses of a deck");
    let mut random = run.random();
    let mut pulses = Vec::new();
    let block = push_block(&mut pulses, &[7; 5], 64);
    let none = Rooms { work: 0, out: 0 };
    for spare in [0, 1, 60, 61, 62, 100] {
        let before = u32::MAX - (block.end() + spare) as u32;
        let mut decks = Decks::with(&mut random, fresh_deck(5, before), Rooms::of(5));
        if spare < 61 {
            for rooms in [none, Rooms::of(5)] {
                run.refuse_call(&mut decks, 1, Call::Run(&pulses), rooms);
            }
        }
        let mut other = Decks::with(&mut random, fresh_deck(5, before), Rooms::of(5));
        let taken = (block.end() + spare).min(pulses.len());
        let expected = Ok(BlockRead {
            n: 5,
            start: before as usize + block.start(),
            end: before as usize + block.end(),
        });
        let told = decks.call(Call::Run(&pulses[..taken]));
        assert_eq!(told, Told::Answer(expected));
        assert_eq!(decks.deck().taken, before + block.end() as u32);
        for &pulse in &pulses {
            other.call(Call::Pulse(pulse));
        }
        assert_eq!(other.deck(), decks.deck());
    }
    let before = u32::MAX - 100;
    let mut decks = Decks::with(&mut random, fresh_deck(5, before), Rooms::of(5));
    assert_eq!(decks.call(Call::Run(&pulses[..100])), Told::Nothing);
    for rooms in [none, Rooms::of(5)] {
        for call in [Call::Pulse(360), Call::Run(&[360]), Call::Run(&pulses)] {
            run.refuse_call(&mut decks, 1, call, rooms);
        }
    }
    run.refuse_call(&mut decks, 2, Call::Run(&[]), none);
    run.refuse_call(&mut decks, 2, Call::End, none);
    assert_eq!(decks.call(Call::Run(&[])), Told::Nothing);
    demand_shifted(&decks, before, &pulses[..100], 5);
    let told = decks.call(Call::End);
    assert_eq!(told, Told::Answer(Err(refusal(4, before as usize + 64))));
    run.finish(&[REFUSED]);
}

/// The longest block that a deck reads, within demand 3's damage: as one run, cut
/// into runs, and cut short. The next longer one is refused at the beginning.
#[test]
fn the_longest_block() {
    let mut run = Run::new("the longest block of a deck");
    let mut random = run.random();
    let payload = random.bytes(MAX_DECK_PAYLOAD);
    let mut pulses = Vec::new();
    let block = push_long_block(&mut pulses, &payload, 65_535);
    damage(&mut random, &mut pulses, block);
    drift(&mut random, &mut pulses);
    for cutting in [Cutting::OneRun, Cutting::Runs(100_000)] {
        let answer = run.read_deck(&mut random, &pulses, block.n, cutting);
        demand_payload(answer, block, &payload);
    }
    let short = &pulses[..block.end() - 1];
    let answer = run.read_deck(&mut random, short, block.n, Cutting::OneRun);
    assert_eq!(answer, Err(refusal(4, 65_535)));
    let last = block.n + 9;
    for copy in 0..2 {
        make_bad(&mut random, &mut pulses[block.frame(copy, last)], 3 + copy);
    }
    let answer = run.read_deck(&mut random, &pulses, block.n, Cutting::OneRun);
    assert_eq!(answer, Err(lost(block.n, [3, 4])));
    let rooms = Rooms::of(MAX_DECK_PAYLOAD + 1);
    assert_eq!(
        run.begin_deck(&mut random, MAX_DECK_PAYLOAD + 1, rooms)
            .refused,
        1
    );
    run.finish(&[
        ("deck", &[(0, 0), (4, 0), (6, 0)]),
        ("begin_deck", &[(1, 0)]),
    ]);
}

/// The longest block on a tape, by single pulses.
#[test]
fn the_longest_block_on_a_tape() {
    let mut run = Run::new("the longest block on a tape");
    let mut random = run.random();
    let payload = random.bytes(8192);
    let mut pulses = Vec::new();
    let block = push_block(&mut pulses, &payload, 64);
    damage(&mut random, &mut pulses, block);
    let answer = run.read_deck(&mut random, &pulses, 8192, Cutting::Pulses);
    demand_payload(answer, block, &payload);
    run.finish(&[("deck", &[(0, 0)])]);
}

/// Demand 3's damage with leaders and lengths at their limits.
#[test]
fn damage_is_borne() {
    let mut run = Run::new("damage of a deck's block");
    let mut random = run.random();
    for leader in [64, 65, 1000, 65_534, 65_535] {
        for n in [1, 2, 3, 191, 192, 8191, 8192, 8193, 20_000] {
            let payload = random.bytes(n);
            let mut pulses = Vec::new();
            let block = push_long_block(&mut pulses, &payload, leader);
            damage(&mut random, &mut pulses, block);
            drift(&mut random, &mut pulses);
            read_back(&mut run, &mut random, &pulses, block, &payload);
        }
    }
    run.finish(&[("deck", &[(0, 0)])]);
}

/// The caller changes copy one's bytes between the copies: what stands there is
/// taken as it is.
#[test]
fn a_changed_buffer_is_taken_as_it_stands() {
    let mut random = Random::new(1, 8);
    let mut pulses = Vec::new();
    let block = push_block(&mut pulses, &[0x10, 0x20, 0x30], 64);
    let accepted = Ok(BlockRead {
        n: 3,
        start: block.start(),
        end: block.end(),
    });
    let mut read_with = |place: usize, pair: [u8; 2], spoilt: Option<usize>| {
        let mut pulses = pulses.clone();
        if let Some(cause) = spoilt {
            make_bad(&mut random, &mut pulses[block.frame(1, place)], cause);
        }
        let mut decks = Decks::begin(&mut random, 3, Rooms::of(3));
        decks.call(Call::Run(&pulses[..block.copy(1)]));
        decks.change_work(2 * place, &pair);
        decks.move_buffers();
        decks.call(Call::Run(&pulses[block.copy(1)..]));
        let bytes = [decks.work()[2 * place], decks.work()[2 * place + 1]];
        (decks.said(), bytes, decks.out().to_vec())
    };
    let refused = |refusal| Told::Answer(Err(refusal));
    // A good byte of another value is copy one's, and the checksum fails.
    let (told, bytes, _) = read_with(10, [0x21, 0], None);
    assert_eq!((told, bytes), (refused(refusal(7, 3)), [0x21, 0]));
    // Any other second byte is a cause, with any value beside it.
    for mark in [1, 11, 12, 255] {
        let (told, bytes, out) = read_with(10, [0x99, mark], None);
        assert_eq!((told, bytes), (Told::Answer(accepted), [0x20, 0]));
        assert_eq!(out, [0x10, 0x20, 0x30]);
        let (told, bytes, _) = read_with(10, [0x99, mark], Some(4));
        let causes = [usize::from(mark) - 1, 4];
        assert_eq!((told, bytes), (refused(lost(1, causes)), [0x99, mark]));
        let (told, bytes, _) = read_with(4, [0x85, mark], None);
        assert_eq!((told, bytes), (Told::Answer(accepted), [0x85, mark]));
        let (told, _, _) = read_with(4, [0x85, mark], Some(4));
        assert_eq!(told, refused(refusal(5, 4)));
    }
    // A byte that was bad on the tape is good where the caller makes it so.
    let (told, bytes, _) = read_with(12, [0, 0], Some(9));
    assert_eq!((told, bytes), (Told::Answer(accepted), [0, 0]));
}

/// A place that copy two has passed is put out as it stands at the end.
#[test]
fn the_output_is_the_buffer() {
    let mut random = Random::new(1, 9);
    let mut pulses = Vec::new();
    let block = push_block(&mut pulses, &[0x10, 0x20, 0x30], 64);
    let mut decks = Decks::begin(&mut random, 3, Rooms::of(3));
    decks.call(Call::Run(&pulses[..block.end() - 1]));
    decks.change_work(2 * 9, &[0x77, 5]);
    decks.call(Call::Run(&pulses[block.end() - 1..]));
    assert!(matches!(decks.said(), Told::Answer(Ok(_))));
    assert_eq!(decks.out(), [0x77, 0x20, 0x30]);
    assert_eq!(decks.work()[2 * 9..][..2], [0x77, 5]);
}

/// A sound deck of a phase with nothing wrong so far, before the last pulse of its
/// phase or of a byte. Phase 5 is none.
fn plain_deck(n: u32, phase: u8) -> Deck {
    let deck = Deck {
        n,
        taken: 5000,
        phase,
        ..Deck::default()
    };
    let in_byte = Deck {
        start: 4000,
        place: n + 9,
        heard: 19,
        bits: 2,
        last: 1,
        wrong: 10,
        ..deck
    };
    match phase {
        phase::SEARCH => Deck { heard: 35, ..deck },
        phase::COPY_ONE => in_byte,
        phase::BETWEEN => Deck { heard: 60, ..deck },
        phase::COPY_TWO => Deck {
            lost: n + 1,
            failed: 9,
            ..in_byte
        },
        _ => deck,
    }
}

/// Numbers around every limit that a deck for `n` payload bytes has.
fn numbers_around(n: u32) -> Vec<u32> {
    let few = 0..=64;
    let around = |limit: u32| limit - 2..=limit + 2;
    let limits = [n + 9, 256, 512, 5000, 65_534, 65_536];
    let mut numbers: Vec<u32> = few.chain(limits.into_iter().flat_map(around)).collect();
    numbers.extend([n - 1, n, n + 1, 1 << 31, u32::MAX - 1, u32::MAX]);
    numbers
}

/// Each kind of call on a made-up deck, with all the room it needs, with one byte
/// less of either buffer, and with none.
fn try_each_call(run: &mut Run, random: &mut Random, guards: &mut Guards, deck: Deck) {
    let pulses = [360, 520, 688, 360, 520, 360];
    let Rooms { work, out } = Rooms::of((deck.n as usize).clamp(1, MAX_DECK_PAYLOAD));
    for (work, out) in [(work, out), (work - 1, out), (work, out - 1), (0, 0)] {
        let mut work = vec![0; work];
        if random.once_in(2) {
            work.fill(random.byte());
        }
        let out = vec![0xa5; out];
        for call in [
            Call::Pulse(360),
            Call::Pulse(520),
            Call::Run(&pulses),
            Call::Run(&[]),
            Call::End,
        ] {
            run.make_up_deck(guards, deck, call, &mut work.clone(), &mut out.clone());
        }
    }
}

/// Each number of a deck in each phase at every limit, all others being sound.
#[test]
fn every_number_at_its_limits() {
    let mut run = Run::new("numbers of a deck");
    let mut random = run.random();
    let mut guards = Guards::new();
    for n in [1, 7] {
        for phase in 0..6 {
            for field in 0..FIELDS {
                for number in numbers_around(n) {
                    let mut deck = plain_deck(n, phase);
                    set_field(&mut deck, field, number);
                    try_each_call(&mut run, &mut random, &mut guards, deck);
                }
                guards.turn();
            }
        }
    }
}

/// A way to cut a strip. Long ones are cut into few runs.
fn some_cutting(random: &mut Random, length: usize) -> Cutting {
    let most = random.pick(&[3, 30, 300, 3000]).max(length / 100);
    match random.below(8) {
        0 | 1 => Cutting::OneRun,
        2 if length < 20_000 => Cutting::Pulses,
        3..=5 if length < 20_000 => Cutting::Disturbed,
        _ => Cutting::Runs(most),
    }
}

/// Reads a strip, cut in some way.
fn read(
    run: &mut Run,
    random: &mut Random,
    pulses: &[u32],
    n: usize,
) -> Result<(BlockRead, Vec<u8>), Refusal> {
    let cutting = some_cutting(random, pulses.len());
    run.read_deck(random, pulses, n, cutting)
}

/// Reads a strip whose first block has this payload, and demands that it comes
/// back.
fn read_back(run: &mut Run, random: &mut Random, pulses: &[u32], block: Placed, payload: &[u8]) {
    let answer = read(run, random, pulses, block.n);
    demand_payload(answer, block, payload);
}

fn demand_payload(answer: Result<(BlockRead, Vec<u8>), Refusal>, block: Placed, payload: &[u8]) {
    let (read, out) = answer.expect("the block is read");
    let expected = BlockRead {
        n: block.n,
        start: block.start(),
        end: block.end(),
    };
    assert_eq!(read, expected);
    assert_eq!(out[..block.n], *payload);
}

/// Extra pulses, then a sound block.
fn placed_block(random: &mut Random, pulses: &mut Vec<u32>) -> (Placed, Vec<u8>) {
    let extra = random.pick(&[0, 0, 1, 5, 30]);
    pulses.extend((0..extra).map(|_| random.any_pulse()));
    let payload = random.payload();
    let leader = random.leader();
    (push_block(pulses, &payload, leader), payload)
}

fn sound(run: &mut Run, random: &mut Random) {
    let mut pulses = Vec::new();
    let (block, payload) = placed_block(random, &mut pulses);
    if random.once_in(2) {
        drift(random, &mut pulses);
    }
    read_back(run, random, &pulses, block, &payload);
}

/// Demand 3's damage, seldom with more bytes than a block on tape has.
fn within_the_damage(run: &mut Run, random: &mut Random) {
    let mut pulses = Vec::new();
    let payload = match random.below(200) {
        0 => {
            let n = random.within(8193..=10_000);
            random.bytes(n)
        }
        _ => random.payload(),
    };
    let leader = random.leader();
    let block = push_long_block(&mut pulses, &payload, leader);
    damage(random, &mut pulses, block);
    drift(random, &mut pulses);
    read_back(run, random, &pulses, block, &payload);
}

/// Few bytes, some or all of copy one bad, and now and then one of the same
/// places in copy two.
fn bad_in_copy_one(run: &mut Run, random: &mut Random) {
    let mut pulses = Vec::new();
    let n = match random.below(50) {
        0 => random.within(8000..=8192),
        _ => random.within(100..=400),
    };
    let payload = random.bytes(n);
    let block = push_block(&mut pulses, &payload, 64);
    let percent = random.pick(&[1, 10, 100]);
    let places = places_to_spoil(random, block, percent);
    for &place in &places {
        hit(random, &mut pulses[block.frame(0, place)], 1);
    }
    drift(random, &mut pulses);
    let lost = random.once_in(4);
    if lost {
        let place = random.pick(&places);
        hit(random, &mut pulses[block.frame(1, place)], 1);
    }
    let answer = read(run, random, &pulses, n);
    assert_eq!(answer.is_err(), lost);
}

/// Bad bytes whose causes are known, and so what is answered.
fn worn(run: &mut Run, random: &mut Random) {
    let mut pulses = Vec::new();
    let payload = random.payload();
    let leader = random.leader();
    let block = push_block(&mut pulses, &payload, leader);
    let sources = some_sources(random, block.n);
    let places = wear_down(random, &mut pulses, block, &sources);
    if random.once_in(2) {
        drift(random, &mut pulses);
    }
    let answer = read(run, random, &pulses, block.n);
    match first_lost(&places) {
        Some((place, causes)) => assert_eq!(answer, Err(lost(place, causes))),
        None => demand_payload(answer, block, &payload),
    }
}

fn beyond_the_damage(run: &mut Run, random: &mut Random) {
    let mut pulses = Vec::new();
    let (block, _) = placed_block(random, &mut pulses);
    if random.once_in(3) {
        drift(random, &mut pulses);
    }
    for _ in 0..random.within(1..=3) {
        spoil(random, &mut pulses, block);
    }
    let _ = read(run, random, &pulses, block.n);
}

fn cut_short(run: &mut Run, random: &mut Random) {
    let mut pulses = Vec::new();
    let (block, _) = placed_block(random, &mut pulses);
    cut(random, &mut pulses, &block);
    let _ = read(run, random, &pulses, block.n);
}

/// Several blocks, read with the length of one of them or with another one.
fn one_after_the_other(run: &mut Run, random: &mut Random) {
    let mut pulses = Vec::new();
    let blocks: Vec<Placed> = (0..random.within(2..=4))
        .map(|_| placed_block(random, &mut pulses).0)
        .collect();
    if random.once_in(2) {
        let spoiled = random.pick(&blocks);
        spoil(random, &mut pulses, spoiled);
    }
    let n = match random.below(4) {
        0 => random.pick(&blocks).n,
        1 => (blocks[0].n + random.below(3)).max(2) - 1,
        _ => blocks[0].n,
    };
    let _ = read(run, random, &pulses, n);
}

/// The header of a file, or its data block without the header.
fn files(run: &mut Run, random: &mut Random) {
    let mut pulses = Vec::new();
    let program = Program::random(random);
    let [header, data] = program.push(&mut pulses);
    if random.once_in(2) {
        damage(random, &mut pulses, header);
        damage(random, &mut pulses, data);
    }
    if random.once_in(2) {
        read_back(run, random, &pulses, header, &program.header_bytes());
        return;
    }
    let lone = Placed { at: 0, ..data };
    read_back(run, random, &pulses[data.at..], lone, &program.bytes);
}

/// Starts inside a block, before its own one and after it.
fn starts_inside(run: &mut Run, random: &mut Random) {
    let mut pulses = Vec::new();
    let (block, _) = placed_block(random, &mut pulses);
    for _ in 0..random.within(1..=3) {
        let at = random.below(block.end());
        plant_start(&mut pulses, at);
    }
    let _ = read(run, random, &pulses, block.n);
}

/// Things that are nearly a start, then a block with few short pulses before it.
fn near_starts(run: &mut Run, random: &mut Random) {
    let mut pulses = Vec::new();
    for _ in 0..random.below(4) {
        push_near_start(random, &mut pulses);
    }
    let (block, _) = placed_block(random, &mut pulses);
    let kept = random.within(14..=18);
    let lead = block.at..block.start() - kept;
    match random.below(3) {
        0 => pulses[lead].fill(520),
        1 => pulses[lead.end - 1] = random.pick(&[199, 440, 608, 960]),
        _ => {
            pulses.drain(lead);
        }
    }
    let _ = read(run, random, &pulses, block.n);
}

/// Leads that break off, and then a block without its leader.
fn broken_leads(run: &mut Run, random: &mut Random) {
    let mut pulses = Vec::new();
    push_broken_leads(random, &mut pulses);
    let mut block_pulses = Vec::new();
    let payload = random.payload();
    let block = push_block(&mut block_pulses, &payload, 64);
    pulses.extend(&block_pulses[block.start()..]);
    if random.once_in(2) {
        drift(random, &mut pulses);
    }
    let _ = read(run, random, &pulses, block.n);
}

fn patched(run: &mut Run, random: &mut Random) {
    let mut pulses = patchwork(random);
    if random.once_in(2) {
        push_shorts(&mut pulses, SHORTS_BEFORE);
        push_byte(&mut pulses, 0x89);
        pulses.extend(patchwork(random));
        pulses.extend(patchwork(random));
    }
    let n = random.within(1..=3);
    let _ = read(run, random, &pulses, n);
}

fn edge_pulses(run: &mut Run, random: &mut Random) {
    let mut pulses = Vec::new();
    if random.once_in(2) {
        plant_start(&mut pulses, 0);
    }
    pulses.extend((0..random.below(900)).map(|_| random.edge_pulse()));
    let n = random.pick(&[1, 1, 2, 5]);
    let _ = read(run, random, &pulses, n);
}

/// Pulses of any class, often with one class more frequent than the others.
fn any_pulses(run: &mut Run, random: &mut Random) {
    let class = random.pick(&[Class::Short, Class::Medium, Class::Long, Class::Noise]);
    let often = random.pick(&[1, 2, 10]);
    let pulses: Vec<u32> = (0..random.below(2000))
        .map(|_| match random.once_in(often) {
            true => random.any_pulse(),
            false => random.pulse_of(class),
        })
        .collect();
    let n = random.within(1..=3);
    let _ = read(run, random, &pulses, n);
}

/// Several reasons to refuse at once.
fn all_at_once(run: &mut Run, random: &mut Random) {
    let mut pulses = Vec::new();
    let (block, _) = placed_block(random, &mut pulses);
    for _ in 0..random.within(2..=8) {
        spoil(random, &mut pulses, block);
    }
    let _ = read(run, random, &pulses, block.n);
}

/// The refusal for a lost place.
fn lost(place: usize, causes: [usize; 2]) -> Refusal {
    Refusal {
        causes: causes.map(|cause| cause as u32),
        ..refusal(6, place)
    }
}

fn refusal(number: u32, place: usize) -> Refusal {
    Refusal {
        number,
        block: 0,
        place,
        causes: [0, 0],
    }
}

fn begun(run: &mut Run, random: &mut Random) {
    let n = match random.below(3) {
        0 => random.pick(&[0, 65_535, 65_536, 1 << 32, (1 << 32) + 1, usize::MAX]),
        1 => random.pick(&[1, 2, 8192, 8193, 65_533, 65_534]),
        _ => random.within(1..=300),
    };
    let rooms = Rooms::of(n.min(70_000));
    let rooms = Rooms {
        work: random.room(rooms.work),
        out: random.room(rooms.out),
    };
    run.begin_deck(random, n, rooms);
}

/// Calls that lend too little, at any place of a strip, and the strip read to its
/// end all the same.
fn refused(run: &mut Run, random: &mut Random) {
    let mut pulses = Vec::new();
    let (block, _) = placed_block(random, &mut pulses);
    let n = block.n;
    let end = match random.below(4) {
        0 => block.start() + PULSES,
        _ => block.end() - 1,
    };
    let at = random.below(end + 1).min(end - random.below(50));
    let mut decks = Decks::begin(random, n, Rooms::of(n));
    decks.call(Call::Run(&pulses[..at]));
    for call in [
        Call::Run(&pulses[at..]),
        Call::Pulse(pulses[at]),
        Call::Run(&[]),
        Call::End,
    ] {
        let rooms = Rooms::too_little(random, n);
        run.refuse_call(&mut decks, 2, call, rooms);
    }
    match random.below(3) {
        0 => decks.call(Call::Pulse(pulses[at])),
        1 => decks.call(Call::Run(&pulses[at..=at])),
        _ => {
            decks.call(Call::Run(&[]));
            assert_eq!(decks.deck(), deck_after(&pulses[..at], n));
            decks.call(Call::Pulse(pulses[at]))
        }
    };
    assert_eq!(decks.deck(), deck_after(&pulses[..=at], n));
    decks.call(Call::Run(&pulses[at + 1..]));
    assert_eq!(decks.deck(), deck_after(&pulses, n));
}

/// A deck that has heard nearly as many pulses as there may be, and then a block.
fn most_pulses(run: &mut Run, random: &mut Random) {
    let mut pulses = Vec::new();
    let (block, _) = placed_block(random, &mut pulses);
    if random.once_in(2) {
        spoil(random, &mut pulses, block);
    }
    let length = pulses.len().max(1);
    let more = match random.below(3) {
        0 => random.below(3),
        1 => random.below(length),
        _ => length.saturating_sub(random.below(3)),
    };
    let before = u32::MAX - more as u32;
    let mut decks = Decks::with(random, fresh_deck(block.n, before), Rooms::of(block.n));
    let rooms = Rooms {
        work: random.pick(&[0, 5, Rooms::of(block.n).work]),
        out: random.pick(&[0, block.n]),
    };
    if more < pulses.len() {
        run.refuse_call(&mut decks, 1, Call::Run(&pulses), rooms);
        run.refuse_call(&mut decks, 1, Call::Run(&pulses[..=more]), rooms);
    }
    let taken = more.min(pulses.len());
    decks.call(Call::Run(&pulses[..taken]));
    demand_shifted(&decks, before, &pulses[..taken], block.n);
    if decks.deck().phase != phase::ANSWERED && more <= pulses.len() {
        run.refuse_call(&mut decks, 1, Call::Pulse(360), rooms);
        run.refuse_call(&mut decks, 1, Call::Run(&[360]), rooms);
        decks.call(Call::Run(&[]));
        demand_shifted(&decks, before, &pulses[..taken], block.n);
        decks.call(Call::End);
        assert_eq!(decks.deck().taken, u32::MAX);
    }
}

/// A deck at its beginning that has heard some pulses already.
fn fresh_deck(n: usize, taken: u32) -> Deck {
    Deck {
        n: n as u32,
        taken,
        ..Deck::default()
    }
}

/// Demands that a deck is what these pulses make of one that had heard so many
/// before.
fn demand_shifted(decks: &Decks, before: u32, pulses: &[u32], n: usize) {
    let mut expected = deck_after(pulses, n);
    expected.taken += before;
    if expected.phase != phase::SEARCH {
        expected.start += before;
    }
    assert_eq!(decks.deck(), expected);
}

/// The caller writes into the buffers between calls, and lends them from another
/// address.
fn changed_by_the_caller(run: &mut Run, random: &mut Random) {
    let mut pulses = Vec::new();
    let (block, _) = placed_block(random, &mut pulses);
    match random.below(5) {
        0 => cut(random, &mut pulses, &block),
        1 | 2 => spoil(random, &mut pulses, block),
        _ => {}
    }
    let n = block.n;
    let rooms = Rooms::enough(random, n);
    let mut decks = Decks::begin(random, n, rooms);
    let mut left = &pulses[..];
    while !left.is_empty() {
        let (piece, rest) = left.split_at(random.within(1..=left.len()));
        decks.call(Call::Run(piece));
        left = rest;
        if random.once_in(2) {
            decks.move_buffers();
        }
        for _ in 0..random.below(4) {
            let place = random.below(rooms.work / 2);
            decks.change_work(2 * place, &some_pair(random));
        }
        decks.change_out(random.below(rooms.out), &[random.byte()]);
    }
    let told = decks.call(Call::End);
    run.count_told("deck with changed buffers", told);
}

/// Two bytes of a working buffer: a good byte, a bad one, or any.
fn some_pair(random: &mut Random) -> [u8; 2] {
    match random.below(4) {
        0 => [random.byte(), random.byte()],
        1 => [0, random.within(1..=11) as u8],
        _ => [random.byte(), 0],
    }
}

/// How many numbers a deck has.
const FIELDS: usize = 16;

fn set_field(deck: &mut Deck, field: usize, number: u32) {
    match field {
        0 => deck.n = number,
        1 => deck.taken = number,
        2 => deck.start = number,
        3 => deck.place = number,
        4 => deck.phase = number as u8,
        5 => deck.heard = number as u8,
        6 => deck.answer = number as u8,
        7 => deck.refused = number as u8,
        8 => deck.bits = number as u16,
        9 => deck.last = number as u8,
        10 => deck.wrong = number as u8,
        11 => deck.lost = number,
        12 => deck.failed = number as u8,
        13 => deck.sum = number as u8,
        14 => deck.cause_one = number as u8,
        _ => deck.cause_two = number as u8,
    }
}

/// A number at a limit of those that a deck for `n` payload bytes has, or any.
fn telling_number(random: &mut Random, n: u32) -> u32 {
    let limits = [1, 3, 5, 8, 10, 11, 20, 36, 61, 256, 512, 65_535];
    match random.below(5) {
        0 => random.bits() as u32,
        1 => random.pick(&[0, 1, 255, u32::MAX - 1, u32::MAX]),
        2 => n.wrapping_add(random.within(0..=12) as u32).wrapping_sub(1),
        _ => random.pick(&limits) + random.below(3) as u32 - 1,
    }
}

/// Payload bytes for a made-up deck: mostly few, so that its copies end soon.
fn some_n(random: &mut Random) -> u32 {
    match random.below(60) {
        0 => random.pick(&[65_533, 65_534]),
        1..=5 => random.within(13..=300) as u32,
        _ => random.within(1..=12) as u32,
    }
}

fn any_deck(random: &mut Random) -> Deck {
    let n = some_n(random);
    let mut deck = Deck::default();
    for field in 0..FIELDS {
        set_field(&mut deck, field, telling_number(random, n));
    }
    deck
}

/// A sound deck with any numbers that a phase may have, and with any or none where
/// its phase does not use them.
fn sound_deck(random: &mut Random) -> Deck {
    let n = some_n(random);
    let unused = match random.below(2) {
        0 => Deck::default(),
        _ => any_deck(random),
    };
    let deck = Deck {
        n,
        taken: some_taken(random),
        phase: random.below(5) as u8,
        refused: random.pick(&[0, 0, 1, 2]),
        ..unused
    };
    match deck.phase {
        phase::SEARCH => {
            let heard = random.below(LEAD);
            Deck {
                heard: heard as u8,
                taken: deck.taken.max(heard as u32),
                ..deck
            }
        }
        phase::BETWEEN => Deck {
            heard: random.below(TRAILER) as u8,
            ..deck
        },
        phase::ANSWERED => Deck {
            refused: 0,
            answer: random.pick(&[0, 3, 4, 5, 6, 7]),
            ..deck
        },
        _ => in_a_byte(random, deck),
    }
}

fn some_taken(random: &mut Random) -> u32 {
    match random.below(6) {
        0 => u32::MAX - random.below(60) as u32,
        1 => random.bits() as u32,
        2 => random.below(40) as u32,
        _ => random.below(10_000) as u32,
    }
}

/// The deck within a byte of a copy, often the last byte, and mostly with nothing
/// wrong so far.
fn in_a_byte(random: &mut Random, deck: Deck) -> Deck {
    let n = deck.n;
    let place = match random.below(4) {
        0 => random.below(n as usize + 10) as u32,
        1 => random.below(10) as u32,
        _ => n + 9 - random.below(2) as u32,
    };
    let mut deck = Deck {
        place,
        heard: match random.below(4) {
            0 => random.below(PULSES) as u8,
            _ => random.pick(&[0, 17, 18, 19]),
        },
        bits: match random.below(4) {
            0 => random.bits() as u16,
            _ => random.below(512) as u16,
        },
        last: match random.below(4) {
            0 => random.byte(),
            _ => random.below(4) as u8,
        },
        wrong: match random.below(4) {
            0 => random.below(CAUSES) as u8,
            _ => 10,
        },
        ..deck
    };
    if random.once_in(2) {
        deck.failed = 9;
        deck.lost = n + 1;
    }
    deck
}

/// Pulses that go on where a deck stands: with what its phase waits for, some
/// bytes, and often some pulses of another class.
fn pulses_for(random: &mut Random, deck: Deck) -> Vec<u32> {
    let heard = usize::from(deck.heard);
    let mut pulses = match deck.phase {
        phase::SEARCH => lead().split_off(heard.min(LEAD)),
        phase::BETWEEN => vec![SHORT; TRAILER.saturating_sub(heard)],
        _ => {
            let value = match deck.place {
                0..9 => COUNTDOWNS[random.below(2)][deck.place as usize],
                _ if random.once_in(2) => deck.sum,
                _ => random.byte(),
            };
            write_byte(value)[heard.min(PULSES)..].to_vec()
        }
    };
    for _ in 0..random.below(4) {
        push_byte(&mut pulses, random.byte());
    }
    if !pulses.is_empty() && random.once_in(3) {
        let hits = random.within(1..=3).min(pulses.len());
        hit(random, &mut pulses, hits);
    }
    if random.once_in(3) {
        drift(random, &mut pulses);
    }
    pulses
}

/// The pulses of the lead: those before a start, and its first byte.
fn lead() -> Vec<u32> {
    let mut lead = vec![SHORT; SHORTS_BEFORE];
    push_byte(&mut lead, 0x89);
    lead
}

/// Rooms for a made-up deck.
fn some_rooms(random: &mut Random, n: usize) -> Rooms {
    match random.below(8) {
        0 => Rooms::too_little(random, n),
        1 | 2 => Rooms::enough(random, n),
        _ => Rooms::of(n),
    }
}

/// Calls on a made-up deck between guarded pages, with any working buffer.
fn play_made_up(run: &mut Run, random: &mut Random, mut deck: Deck) {
    let mut guards = Guards::new();
    if random.once_in(2) {
        guards.turn();
    }
    let n = match deck.n as usize {
        n @ 1..=MAX_DECK_PAYLOAD => n,
        _ if random.once_in(8) => MAX_DECK_PAYLOAD,
        _ => random.within(1..=12),
    };
    let rooms = some_rooms(random, n);
    let mut work: Vec<u8> = (0..rooms.work.div_ceil(2))
        .flat_map(|_| some_pair(random))
        .take(rooms.work)
        .collect();
    let mut out = random.bytes(rooms.out);
    for _ in 0..random.within(1..=3) {
        let pulses = pulses_for(random, deck);
        let call = match random.below(8) {
            0 => Call::End,
            1 => Call::Run(&[]),
            2 | 3 => Call::Pulse(pulses.first().copied().unwrap_or_default()),
            _ => Call::Run(&pulses),
        };
        deck = run.make_up_deck(&mut guards, deck, call, &mut work, &mut out);
    }
}

fn any_numbers(run: &mut Run, random: &mut Random) {
    for _ in 0..4 {
        let mut deck = any_deck(random);
        if random.once_in(2) {
            deck.phase = random.below(6) as u8;
        }
        play_made_up(run, random, deck);
    }
}

/// Sound numbers, and sound ones but for one of them.
fn nearly_sound_numbers(run: &mut Run, random: &mut Random) {
    for _ in 0..4 {
        let mut deck = sound_deck(random);
        if random.once_in(2) {
            let number = telling_number(random, deck.n);
            set_field(&mut deck, random.below(FIELDS), number);
        }
        play_made_up(run, random, deck);
    }
}

/// A deck somewhere in a strip, with one number changed, and the rest of the strip.
fn one_number_changed(run: &mut Run, random: &mut Random) {
    let mut pulses = Vec::new();
    let n = random.within(1..=6);
    let block = push_block(&mut pulses, &random.bytes(n), 64);
    match random.below(3) {
        0 => damage(random, &mut pulses, block),
        1 => spoil(random, &mut pulses, block),
        _ => {}
    }
    let at = random.below(pulses.len() + 1);
    let (heard, left) = pulses.split_at(at);
    let mut deck = deck_after(heard, n);
    if random.below(4) > 0 {
        let number = telling_number(random, deck.n);
        set_field(&mut deck, random.below(FIELDS), number);
    }
    let mut guards = Guards::new();
    let rooms = Rooms::enough(random, n);
    let mut work = random.bytes(rooms.work);
    let mut out = random.bytes(rooms.out);
    fill_work(heard, n, &mut work);
    let (first, last) = left.split_at(random.below(left.len() + 1));
    for call in [Call::Run(first), Call::Run(last), Call::End] {
        deck = run.make_up_deck(&mut guards, deck, call, &mut work, &mut out);
    }
}
