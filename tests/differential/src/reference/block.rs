//! Blocks recorded twice (document 01, "Blocks" and "Reading a block").

use super::byte::{cause_of, value_of, value_or_cause, write_byte, Frame, CAUSES, PULSES};
use super::pulse::{Class, LONG, SHORT};
use super::{refusal, Refusal};

/// The most payload bytes in a block.
pub const MAX_PAYLOAD: usize = 8192;

/// The countdowns of copy one and copy two.
pub const COUNTDOWNS: [[u8; 9]; 2] = [
    [0x89, 0x88, 0x87, 0x86, 0x85, 0x84, 0x83, 0x82, 0x81],
    [0x09, 0x08, 0x07, 0x06, 0x05, 0x04, 0x03, 0x02, 0x01],
];

/// The byte that marks a block's start.
pub const SYNC: u8 = COUNTDOWNS[0][0];

/// Short pulses wanted just before a start.
pub const SHORTS_BEFORE: usize = 16;

/// Pulses after each copy: one long, sixty short.
pub const TRAILER: usize = 61;

const LEADERS: std::ops::RangeInclusive<u64> = 64..=65_535;

/// An accepted block: its payload bytes, its start and the place after copy two.
#[derive(Clone, Copy, Debug, PartialEq, Eq)]
pub struct BlockRead {
    pub n: usize,
    pub start: usize,
    pub end: usize,
}

/// How many places of a block's payload and checksum were taken from copy one,
/// from copy two, and lost.
#[derive(Clone, Copy, Debug, Default, PartialEq, Eq)]
pub struct Places {
    pub one: usize,
    pub two: usize,
    pub lost: usize,
    /// The bad bytes at these places, of both copies together, by cause.
    pub causes: [usize; CAUSES],
}

/// The bytes of a block's two copies, and the place after copy two.
struct Copies<'a> {
    countdowns: [&'a [Frame]; 2],
    values: [&'a [Frame]; 2],
    end: usize,
}

/// Pulses of one copy of a block of `n` payload bytes.
pub const fn copy_len(n: usize) -> usize {
    PULSES * (n + COUNTDOWNS[0].len() + 1)
}

/// Pulses of a whole block of `n` payload bytes.
pub const fn block_len(leader: usize, n: usize) -> usize {
    leader + 2 * (copy_len(n) + TRAILER)
}

/// Puts a block into the start of `out` and answers its number of pulses.
pub fn write_block(payload: &[u8], leader: u64, out: &mut [u32]) -> Result<usize, Refusal> {
    check_payload_len(payload.len())?;
    let leader = check_leader(leader)?;
    let count = block_len(leader, payload.len());
    let out = out.get_mut(..count).ok_or(Refusal::new(refusal::ROOM))?;
    put_block(payload, leader, out);
    Ok(count)
}

/// Reads the first block of `n` payload bytes at or after `from` into the
/// start of `out`.
pub fn read_block(
    pulses: &[u32],
    from: usize,
    n: usize,
    out: &mut [u8],
) -> Result<BlockRead, Refusal> {
    check_payload_len(n)?;
    let out = out.get_mut(..n).ok_or(Refusal::new(refusal::ROOM))?;
    let mut payload = [0; MAX_PAYLOAD];
    let payload = &mut payload[..n];
    let read = decode_block(pulses, from, payload)?;
    out.copy_from_slice(payload);
    Ok(read)
}

fn check_payload_len(n: usize) -> Result<(), Refusal> {
    if (1..=MAX_PAYLOAD).contains(&n) {
        Ok(())
    } else {
        Err(Refusal::new(refusal::SIZE))
    }
}

/// The leader as a number of pulses, if a block can have it.
pub(super) fn check_leader(leader: u64) -> Result<usize, Refusal> {
    if LEADERS.contains(&leader) {
        Ok(leader as usize)
    } else {
        Err(Refusal::new(refusal::LEADER))
    }
}

/// Fills `out`, which is exactly as long as the block, with its pulses.
pub fn put_block(payload: &[u8], leader: usize, out: &mut [u32]) {
    let checksum = payload.iter().fold(0, |sum, byte| sum ^ byte);
    let copy_len = copy_len(payload.len());
    let (shorts, copies) = out.split_at_mut(leader);
    shorts.fill(SHORT);
    for (countdown, copy) in COUNTDOWNS
        .iter()
        .zip(copies.chunks_exact_mut(copy_len + TRAILER))
    {
        let (copy, trailer) = copy.split_at_mut(copy_len);
        let values = countdown.iter().chain(payload).chain([&checksum]);
        let (frames, _) = copy.as_chunks_mut();
        for (frame, &value) in frames.iter_mut().zip(values) {
            *frame = write_byte(value);
        }
        trailer.fill(SHORT);
        trailer[0] = LONG;
    }
}

/// Reads the first block of `payload.len()` bytes at or after `from`. After a
/// refusal the payload holds nothing of use.
pub(super) fn decode_block(
    pulses: &[u32],
    from: usize,
    payload: &mut [u8],
) -> Result<BlockRead, Refusal> {
    let n = payload.len();
    let start = find_start(pulses, from).ok_or(Refusal::new(refusal::NO_START))?;
    let copies = copies_at(pulses, start, n)?;
    check_countdowns(copies.countdowns)?;
    decode_values(copies.values, payload)?;
    let end = copies.end;
    Ok(BlockRead { n, start, end })
}

/// Tries the block of `payload.len()` bytes at this start. The places are
/// counted to the block's end also where it is refused, but not where the
/// strip ends before it. After a refusal the payload holds nothing of use.
pub(super) fn look_at_block(
    pulses: &[u32],
    start: usize,
    payload: &mut [u8],
) -> (Result<BlockRead, Refusal>, Places) {
    let n = payload.len();
    let copies = match copies_at(pulses, start, n) {
        Ok(copies) => copies,
        Err(refusal) => return (Err(refusal), Places::default()),
    };
    let countdowns = check_countdowns(copies.countdowns);
    let (values, places) = count_values(copies.values, payload);
    let end = copies.end;
    let answer = countdowns.and(values);
    (answer.map(|()| BlockRead { n, start, end }), places)
}

/// Rule 2: both copies of the block of `n` payload bytes at this start.
#[inline]
fn copies_at(pulses: &[u32], start: usize, n: usize) -> Result<Copies<'_>, Refusal> {
    let copy_len = copy_len(n);
    let end = start + 2 * copy_len + TRAILER;
    let block = pulses
        .get(start..end)
        .ok_or(Refusal::at(refusal::CUT, start))?;
    let (one, _) = block[..copy_len].as_chunks();
    let (two, _) = block[copy_len + TRAILER..].as_chunks();
    let (countdown_one, values_one) = one.split_at(COUNTDOWNS[0].len());
    let (countdown_two, values_two) = two.split_at(COUNTDOWNS[1].len());
    Ok(Copies {
        countdowns: [countdown_one, countdown_two],
        values: [values_one, values_two],
        end,
    })
}

/// Rule 1: the smallest place with sixteen short pulses just before it, all at
/// or after `from`, and a good $89 from it on.
pub(super) fn find_start(pulses: &[u32], from: usize) -> Option<usize> {
    let strip = pulses.get(from..)?;
    let mut shorts = 0;
    for (i, &pulse) in strip.iter().enumerate() {
        if Class::of(pulse) == Class::Short {
            shorts += 1;
            continue;
        }
        if shorts >= SHORTS_BEFORE && is_sync(&strip[i..]) {
            return Some(from + i);
        }
        shorts = 0;
    }
    None
}

fn is_sync(strip: &[u32]) -> bool {
    strip.first_chunk().and_then(value_of) == Some(SYNC)
}

/// Rule 3: at each countdown place one copy holds its own expected value.
fn check_countdowns([one, two]: [&[Frame]; 2]) -> Result<(), Refusal> {
    let [expected_one, expected_two] = COUNTDOWNS;
    for i in 0..expected_one.len() {
        if value_of(&one[i]) != Some(expected_one[i]) && value_of(&two[i]) != Some(expected_two[i])
        {
            return Err(Refusal::at(refusal::COUNTDOWN, i));
        }
    }
    Ok(())
}

/// Rules 4 and 5: each value from copy one, else from copy two, and the last
/// one the XOR of all before it.
fn decode_values([one, two]: [&[Frame]; 2], payload: &mut [u8]) -> Result<(), Refusal> {
    let n = payload.len();
    let value_at = |i: usize| {
        value_of(&one[i])
            .or_else(|| value_of(&two[i]))
            .ok_or_else(|| lost_place(i, [&one[i], &two[i]]))
    };
    let mut sum = 0;
    for (i, byte) in payload.iter_mut().enumerate() {
        *byte = value_at(i)?;
        sum ^= *byte;
    }
    if sum == value_at(n)? {
        Ok(())
    } else {
        Err(Refusal::at(refusal::CHECKSUM, n))
    }
}

/// The refusal for a place whose byte is bad in both copies. It stays out of the
/// loop over the places.
#[inline(never)]
fn lost_place(place: usize, copies: [&Frame; 2]) -> Refusal {
    Refusal::lost(place, copies.map(cause_of))
}

/// Rules 4 and 5 like [`decode_values`], with all places and all bad bytes
/// counted.
fn count_values([one, two]: [&[Frame]; 2], payload: &mut [u8]) -> (Result<(), Refusal>, Places) {
    let n = payload.len();
    let mut places = Places::default();
    let mut first_lost = None;
    // The XOR of the payload and its checksum, which is 0 where they fit.
    let mut sum = 0;
    for (i, (one, two)) in one.iter().zip(two).enumerate() {
        let bytes = [value_or_cause(one), value_or_cause(two)];
        for cause in bytes.iter().filter_map(|byte| byte.err()) {
            places.causes[cause] += 1;
        }
        let value = match bytes {
            [Ok(value), _] => {
                places.one += 1;
                value
            }
            [Err(_), Ok(value)] => {
                places.two += 1;
                value
            }
            [Err(one), Err(two)] => {
                places.lost += 1;
                first_lost = first_lost.or(Some(Refusal::lost(i, [one, two])));
                continue;
            }
        };
        sum ^= value;
        if let Some(byte) = payload.get_mut(i) {
            *byte = value;
        }
    }
    let answer = match first_lost {
        Some(refusal) => Err(refusal),
        None if sum != 0 => Err(Refusal::at(refusal::CHECKSUM, n)),
        None => Ok(()),
    };
    (answer, places)
}

#[cfg(test)]
mod tests {
    use super::*;

    const LEADER: usize = 64;

    fn strip(payload: &[u8], leader: usize) -> Vec<u32> {
        let mut out = vec![0; block_len(leader, payload.len())];
        let count = write_block(payload, leader as u64, &mut out).unwrap();
        assert_eq!(count, out.len());
        out
    }

    /// Reads with a patterned buffer, and checks that nothing but an accepted
    /// payload went into it.
    fn read(pulses: &[u32], from: usize, n: usize, room: usize) -> Result<Vec<u8>, Refusal> {
        let mut out = vec![0xa5; room];
        match read_block(pulses, from, n, &mut out) {
            Ok(read) => {
                assert_eq!(read.n, n);
                assert_eq!(read.end, read.start + 40 * (n + 10) + 61);
                assert!(out[n..].iter().all(|&b| b == 0xa5));
                out.truncate(n);
                Ok(out)
            }
            Err(refusal) => {
                assert!(out.iter().all(|&b| b == 0xa5));
                Err(refusal)
            }
        }
    }

    fn refused<T>(number: u32, place: usize) -> Result<T, Refusal> {
        Err(Refusal::at(number, place))
    }

    /// Turns bits 0 and 1 round in the byte that starts at `place`.
    fn turn_two_bits(pulses: &mut [u32], place: usize) {
        pulses.swap(place + 2, place + 3);
        pulses.swap(place + 4, place + 5);
    }

    #[test]
    fn one_byte_and_the_shortest_leader_make_626_pulses() {
        let strip = strip(&[0x41], 64);
        assert_eq!(strip.len(), 626);
        assert!(strip[..64].iter().all(|&p| p == SHORT));
        assert_eq!(strip[64..84], write_byte(0x89));
        assert_eq!(strip[224..244], write_byte(0x81));
        assert_eq!(strip[244..264], write_byte(0x41));
        assert_eq!(strip[264..284], write_byte(0x41));
        assert_eq!(strip[284], LONG);
        assert!(strip[285..345].iter().all(|&p| p == SHORT));
        assert_eq!(strip[345..365], write_byte(0x09));
        assert_eq!(strip[565], LONG);
        assert!(strip[566..].iter().all(|&p| p == SHORT));
    }

    #[test]
    fn checksums() {
        let one = strip(&[0x41], LEADER);
        assert_eq!(one[LEADER + 200..][..20], write_byte(0x41));
        let two = strip(&[0x41, 0x41], LEADER);
        assert_eq!(two[LEADER + 220..][..20], write_byte(0x00));
        let mut header = [0x20; 192];
        header[..9].copy_from_slice(&[0x01, 0x01, 0x08, 0x09, 0x97, 0x47, 0x41, 0x4d, 0x45]);
        let header = strip(&header, LEADER);
        assert_eq!(header[LEADER + 20 * 201..][..20], write_byte(0xb8));
    }

    #[test]
    fn limits_of_the_payload_and_the_leader() {
        let mut out = vec![7; block_len(65_535, 8192)];
        let room = out.len();
        assert_eq!(write_block(&[0; 8192], 65_535, &mut out), Ok(room));
        let untouched = vec![7; room];
        out.fill(7);
        assert_eq!(write_block(&[0; 8193], 63, &mut []), refused(1, 0));
        assert_eq!(write_block(&[], 63, &mut []), refused(1, 0));
        assert_eq!(write_block(&[0], 63, &mut []), refused(14, 0));
        assert_eq!(write_block(&[0], 65_536, &mut out), refused(14, 0));
        assert_eq!(write_block(&[0], u64::MAX, &mut out), refused(14, 0));
        assert_eq!(write_block(&[0], 64, &mut out[..625]), refused(2, 0));
        assert_eq!(out, untouched);
        assert_eq!(write_block(&[0], 64, &mut out[..626]), Ok(626));
        assert_eq!(out[626..], untouched[626..]);
        assert_eq!(read(&[], 0, 0, 0), refused(1, 0));
        assert_eq!(read(&[], 0, 8193, 8193), refused(1, 0));
        assert_eq!(read(&[], 0, usize::MAX, 0), refused(1, 0));
        assert_eq!(read(&[], 0, 8192, 8191), refused(2, 0));
        assert_eq!(read(&[], 0, 8192, 8192), refused(3, 0));
    }

    #[test]
    fn the_longest_payload_is_read_as_written() {
        let payload: Vec<u8> = (0..8192u32).map(|i| (i * 37 / 8) as u8).collect();
        assert_eq!(read(&strip(&payload, 64), 0, 8192, 8192), Ok(payload));
    }

    #[test]
    fn fifteen_shorts_are_too_few_and_sixteen_enough() {
        let strip = strip(&[0x41], 64);
        assert_eq!(read(&strip[64 - 15..], 0, 1, 1), refused(3, 0));
        assert_eq!(read(&strip[64 - 16..], 0, 1, 1), Ok(vec![0x41]));
        assert_eq!(read(&strip, 64 - 15, 1, 1), refused(3, 0));
        assert_eq!(read(&strip, 64 - 16, 1, 1), Ok(vec![0x41]));
    }

    #[test]
    fn a_place_past_the_strip_has_no_start() {
        let strip = strip(&[0x41], 64);
        for from in [626, 627, usize::MAX] {
            assert_eq!(read(&strip, from, 1, 1), refused(3, 0));
        }
    }

    #[test]
    fn the_start_is_the_smallest_place() {
        let mut pulses = vec![LONG; 5];
        pulses.extend(strip(&[0x41], 70));
        pulses.extend(strip(&[0x42], 80));
        let mut out = [0];
        let read = read_block(&pulses, 0, 1, &mut out).unwrap();
        assert_eq!((read.start, read.end, out), (75, 576, [0x41]));
        let read = read_block(&pulses, read.end, 1, &mut out).unwrap();
        assert_eq!((read.start, out), (5 + 632 + 80, [0x42]));
    }

    #[test]
    fn a_strip_may_end_with_copy_two() {
        let strip = strip(&[0x41], 64);
        let end = 626 - 61;
        assert_eq!(read(&strip[..end], 0, 1, 1), Ok(vec![0x41]));
        assert_eq!(read(&strip[..end - 1], 0, 1, 1), refused(4, 64));
        assert_eq!(read(&strip[..64 + 20], 0, 1, 1), refused(4, 64));
        assert_eq!(read(&strip[..64 + 19], 0, 1, 1), refused(3, 0));
    }

    #[test]
    fn a_good_byte_with_another_value_fails_the_checksum() {
        let mut pulses = strip(&[0x00], 64);
        turn_two_bits(&mut pulses, 64 + 9 * PULSES);
        assert_eq!(read(&pulses, 0, 1, 1), refused(7, 1));
    }

    #[test]
    fn copy_ones_good_byte_is_taken() {
        let mut pulses = strip(&[0x00], 64);
        turn_two_bits(&mut pulses, 64 + copy_len(1) + TRAILER + 9 * PULSES);
        assert_eq!(read(&pulses, 0, 1, 1), Ok(vec![0x00]));
    }

    #[test]
    fn lost_places_and_failed_countdowns() {
        let n = 3;
        let sound = strip(&[1, 2, 3], 64);
        let two = copy_len(n) + TRAILER;
        for i in 1..n + 10 {
            let mut pulses = sound.clone();
            pulses[64 + i * PULSES] = SHORT;
            assert_eq!(read(&pulses, 0, n, n), Ok(vec![1, 2, 3]));
            pulses[64 + two + i * PULSES + 7] = 0;
            let expected = match i.checked_sub(9) {
                None => refused(5, i),
                Some(place) => Err(Refusal::lost(place, [0, 3])),
            };
            assert_eq!(read(&pulses, 0, n, n), expected);
        }
    }

    #[test]
    fn the_first_lost_place_has_the_causes_of_both_copies() {
        let two = copy_len(3) + TRAILER;
        let mut pulses = strip(&[1, 2, 3], 64);
        pulses[64 + 9 * PULSES] = 0;
        pulses[64 + two + 12 * PULSES] = 0;
        pulses.swap(64 + 10 * PULSES + 2, 64 + 10 * PULSES + 3);
        assert_eq!(read(&pulses, 0, 3, 3), Ok(vec![1, 2, 3]));
        pulses[64 + 12 * PULSES + 19] = LONG;
        let expected = Err(Refusal::lost(3, [9, 0]));
        assert_eq!(read(&pulses, 0, 3, 3), expected);
        pulses[64 + two + 10 * PULSES + 4] = 0;
        pulses[64 + two + 10 * PULSES + 18] = 0;
        let expected = Err(Refusal::lost(1, [10, 2]));
        assert_eq!(read(&pulses, 0, 3, 3), expected);
    }

    #[test]
    fn a_countdown_place_wants_its_own_value() {
        let mut pulses = strip(&[1], 64);
        let two = 64 + copy_len(1) + TRAILER;
        pulses[64 + 20..][..20].copy_from_slice(&write_byte(0x08));
        assert_eq!(read(&pulses, 0, 1, 1), Ok(vec![1]));
        pulses[two + 20..][..20].copy_from_slice(&write_byte(0x88));
        assert_eq!(read(&pulses, 0, 1, 1), refused(5, 1));
    }

    #[test]
    fn the_pulses_between_the_copies_are_not_read() {
        let mut pulses = strip(&[1, 2], 64);
        let gap = 64 + copy_len(2);
        pulses[gap..gap + TRAILER].fill(0);
        assert_eq!(read(&pulses, 0, 2, 2), Ok(vec![1, 2]));
    }
}
