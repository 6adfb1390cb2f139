//! What a deck and its working buffer have to be after some pulses, told from the
//! whole strip of these pulses by document 01's reading rule.

use super::block::{copy_len, find_start, COUNTDOWNS, SHORTS_BEFORE, SYNC, TRAILER};
use super::byte::{read_byte, write_byte, EVEN_ONES, PULSES};
use super::deck::{phase, read_strip, Deck, LEAD};
use super::pulse::{Class, SHORT};

const COUNTDOWN: usize = COUNTDOWNS[0].len();

/// The deck for `n` payload bytes that has heard these pulses, each in a call that
/// was not refused.
pub fn deck_after(pulses: &[u32], n: usize) -> Deck {
    let deck = Deck {
        n: n as u32,
        taken: pulses.len() as u32,
        ..Deck::default()
    };
    let Some(start) = find_start(pulses, 0) else {
        return Deck {
            heard: heard_of_lead(pulses) as u8,
            ..deck
        };
    };
    let deck = Deck {
        start: start as u32,
        ..deck
    };
    let two = start + copy_len(n) + TRAILER;
    let end = two + copy_len(n);
    let heard = pulses.len();
    if heard < two - TRAILER {
        return in_byte(deck, phase::COPY_ONE, &pulses[start..]);
    }
    if heard < two {
        return Deck {
            phase: phase::BETWEEN,
            heard: (heard + TRAILER - two) as u8,
            ..deck
        };
    }
    let deck = with_places(deck, pulses, n);
    if heard < end {
        return in_byte(deck, phase::COPY_TWO, &pulses[two..]);
    }
    let answer = read_strip(pulses, n, &mut vec![0; n]);
    Deck {
        phase: phase::ANSWERED,
        taken: end as u32,
        answer: answer.map_or_else(|refusal| refusal.number as u8, |_| 0),
        ..deck
    }
}

/// The same deck after it was told that there are no more pulses.
pub fn deck_at_end(pulses: &[u32], n: usize) -> Deck {
    let deck = deck_after(pulses, n);
    if deck.phase == phase::ANSWERED {
        return deck;
    }
    let answer = match deck.phase {
        phase::SEARCH => 3,
        _ => 4,
    };
    Deck {
        n: deck.n,
        taken: deck.taken,
        start: deck.start,
        phase: phase::ANSWERED,
        answer,
        ..Deck::default()
    }
}

/// Does to a working buffer what these pulses do.
pub fn fill_work(pulses: &[u32], n: usize, work: &mut [u8]) {
    let Some(start) = find_start(pulses, 0) else {
        return;
    };
    let two = start + copy_len(n) + TRAILER;
    for (place, bytes) in work.chunks_exact_mut(2).take(n + 10).enumerate() {
        let Some(one) = whole_byte(pulses, start, place) else {
            return;
        };
        let replaces = match whole_byte(pulses, two, place) {
            Some(Ok(value)) if place >= COUNTDOWN && one.is_err() => Some(value),
            _ => None,
        };
        let pair = match (one, replaces) {
            (Ok(value), _) | (Err(_), Some(value)) => [value, 0],
            (Err(cause), None) => [0, cause as u8 + 1],
        };
        bytes.copy_from_slice(&pair);
    }
}

/// The most pulses at the end of these that are the first ones of the lead.
fn heard_of_lead(pulses: &[u32]) -> usize {
    let mut lead = vec![SHORT; SHORTS_BEFORE];
    lead.extend(write_byte(SYNC));
    let is_end = |&count: &usize| {
        let heard = &pulses[pulses.len() - count..];
        heard
            .iter()
            .zip(&lead)
            .all(|(&one, &other)| Class::of(one) == Class::of(other))
    };
    let most = pulses.len().min(LEAD - 1);
    (0..=most).rev().find(is_end).unwrap_or(0)
}

/// The byte at a place of a copy, where all its pulses are there.
fn whole_byte(pulses: &[u32], copy: usize, place: usize) -> Option<Result<u8, usize>> {
    let at = copy + PULSES * place;
    (at + PULSES <= pulses.len()).then(|| read_byte(pulses, at))
}

/// The deck with the byte of a copy that is being read. `copy` are the pulses of
/// that copy so far.
fn in_byte(deck: Deck, phase: u8, copy: &[u32]) -> Deck {
    let place = copy.len() / PULSES;
    let heard = &copy[PULSES * place..];
    let classes: Vec<Class> = heard.iter().map(|&pulse| Class::of(pulse)).collect();
    let (pairs, _) = classes.as_chunks::<2>();
    let is_one = |pair: &[Class; 2]| *pair == [Class::Medium, Class::Short];
    let bits = pairs.iter().rev().enumerate().map(|(ago, pair)| {
        // The last pair is the top bit of nine.
        u16::from(is_one(pair)) << (8 - ago)
    });
    // The byte is cut, so that it has a cause.
    let cause = read_byte(heard, 0).err();
    let wrong = cause.filter(|&cause| cause < pairs.len());
    Deck {
        phase,
        place: place as u32,
        heard: heard.len() as u8,
        bits: bits.sum(),
        last: classes.last().map_or(0, |&class| class as u8),
        wrong: wrong.unwrap_or(EVEN_ONES) as u8,
        ..deck
    }
}

/// The deck with what the places that copy two has so far say.
fn with_places(mut deck: Deck, pulses: &[u32], n: usize) -> Deck {
    let start = deck.start as usize;
    let two = start + copy_len(n) + TRAILER;
    deck.lost = n as u32 + 1;
    deck.failed = COUNTDOWN as u8;
    for place in (0..n + COUNTDOWN + 1).rev() {
        let Some(byte_two) = whole_byte(pulses, two, place) else {
            continue;
        };
        let byte_one = read_byte(pulses, start + PULSES * place);
        let Some(i) = place.checked_sub(COUNTDOWN) else {
            let expected = COUNTDOWNS.map(|countdown| Ok(countdown[place]));
            if byte_one != expected[0] && byte_two != expected[1] {
                deck.failed = place as u8;
            }
            continue;
        };
        if let (Err(one), Err(two)) = (byte_one, byte_two) {
            deck.lost = i as u32;
            deck.cause_one = one as u8;
            deck.cause_two = two as u8;
        }
        if i < n {
            deck.sum ^= byte_one.or(byte_two).unwrap_or(0);
        }
    }
    deck
}
