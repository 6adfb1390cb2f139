//! Bytes as twenty pulses (document 01, "Bytes"), and why a byte is bad
//! (document 02, Q-6).

use super::pulse::{Class, LONG, MEDIUM, SHORT};

/// Pulses of a byte.
pub const PULSES: usize = 20;

/// The twenty pulses of a byte: a marker, eight bits lowest first, a parity bit.
pub type Frame = [u32; PULSES];

/// Pairs of pulses of a byte.
const PAIRS: usize = PULSES / 2;

/// The cause of a bad byte whose pairs are all sound: the number of ones is
/// even.
pub const EVEN_ONES: usize = PAIRS;

/// How many causes there are: each of the pairs, and an even number of ones.
pub const CAUSES: usize = PAIRS + 1;

/// What stands past the end of a strip.
const NOISE: u32 = 0;

#[inline]
fn is_odd(ones: u32) -> bool {
    ones % 2 == 1
}

/// The value of the good byte at this place of a strip, or the cause of the
/// bad one. Pulses past the end of the strip are noise.
pub fn read_byte(pulses: &[u32], at: usize) -> Result<u8, usize> {
    let pulses = pulses.get(at..).unwrap_or_default();
    match pulses.first_chunk() {
        Some(frame) => value_or_cause(frame),
        None => Err(cause_of_cut(pulses)),
    }
}

/// The value of a good byte, or the cause of a bad one.
#[inline]
pub fn value_or_cause(frame: &Frame) -> Result<u8, usize> {
    value_of(frame).ok_or_else(|| cause_of(frame))
}

/// The value of a good byte, or none for a bad one.
#[inline]
pub fn value_of(frame: &Frame) -> Option<u8> {
    let [first, second, pairs @ ..] = frame;
    if Class::of(*first) != Class::Long || Class::of(*second) != Class::Medium {
        return None;
    }
    // Every pair is looked at, so that no branch depends on the bits.
    let mut bits = 0u16;
    let mut are_bits = true;
    for (i, pair) in pairs.chunks_exact(2).enumerate() {
        let classes = (Class::of(pair[0]), Class::of(pair[1]));
        let is_zero = classes == (Class::Short, Class::Medium);
        let is_one = classes == (Class::Medium, Class::Short);
        are_bits &= is_zero | is_one;
        bits |= u16::from(is_one) << i;
    }
    if !are_bits || !is_odd(bits.count_ones()) {
        return None;
    }
    let [value, _parity] = bits.to_le_bytes();
    Some(value)
}

/// Why a bad byte is bad: its first wrong pair, 0 for the marker, 1 to 8 for
/// the bits and 9 for the parity bit, or an even number of ones.
#[inline]
pub fn cause_of(frame: &Frame) -> usize {
    let (pairs, _) = frame.as_chunks();
    (0..PAIRS)
        .find(|&i| !is_sound(i, pairs[i]))
        .unwrap_or(EVEN_ONES)
}

/// Whether a pair is what a good byte has there: the marker, or a bit.
#[inline]
fn is_sound(place: usize, pair: [u32; 2]) -> bool {
    let classes = pair.map(Class::of);
    if place == 0 {
        return classes == [Class::Long, Class::Medium];
    }
    let is_zero = classes == [Class::Short, Class::Medium];
    let is_one = classes == [Class::Medium, Class::Short];
    is_zero | is_one
}

/// The cause of a byte of which the strip has fewer than twenty pulses.
fn cause_of_cut(pulses: &[u32]) -> usize {
    let mut frame = [NOISE; PULSES];
    frame[..pulses.len()].copy_from_slice(pulses);
    cause_of(&frame)
}

/// The pair of pulses of a bit.
#[inline]
fn write_bit(bit: bool) -> [u32; 2] {
    if bit {
        [MEDIUM, SHORT]
    } else {
        [SHORT, MEDIUM]
    }
}

/// The twenty pulses of a byte.
#[inline]
pub fn write_byte(value: u8) -> Frame {
    let parity = !is_odd(value.count_ones());
    let bits = u16::from(value) | u16::from(parity) << 8;
    let mut frame = [0; PULSES];
    let (marker, pairs) = frame.split_at_mut(2);
    marker.copy_from_slice(&[LONG, MEDIUM]);
    for (i, pair) in pairs.chunks_exact_mut(2).enumerate() {
        pair.copy_from_slice(&write_bit(bits >> i & 1 == 1));
    }
    frame
}

#[cfg(test)]
mod tests {
    use super::*;

    /// Pulses from letters, spaces left out.
    fn frame(letters: &str) -> Frame {
        let pulses: Vec<u32> = letters
            .chars()
            .filter_map(|letter| match letter {
                'S' => Some(SHORT),
                'M' => Some(MEDIUM),
                'L' => Some(LONG),
                'N' => Some(NOISE),
                _ => None,
            })
            .collect();
        pulses.try_into().expect("twenty letters")
    }

    #[test]
    fn the_pulses_of_89() {
        let sync = frame("LM MS SM SM MS SM SM SM MS SM");
        assert_eq!(write_byte(0x89), sync);
        assert_eq!(value_of(&sync), Some(0x89));
    }

    #[test]
    fn parity_bits() {
        for (value, parity) in [(0x00, 1), (0x01, 0), (0xff, 1), (0x22, 1), (0x07, 0)] {
            let pair = match parity {
                0 => [SHORT, MEDIUM],
                _ => [MEDIUM, SHORT],
            };
            assert_eq!(write_byte(value)[18..], pair, "{value}");
        }
    }

    #[test]
    fn every_byte_is_read_as_written() {
        for value in 0..=255 {
            let frame = write_byte(value);
            assert_eq!(value_of(&frame), Some(value));
            assert_eq!(read_byte(&frame, 0), Ok(value));
        }
    }

    #[test]
    fn one_pulse_of_another_class_makes_a_byte_bad() {
        for value in 0..=255 {
            for i in 0..PULSES {
                for pulse in [SHORT, MEDIUM, LONG, 199, 960] {
                    let mut frame = write_byte(value);
                    let changes = frame[i] != pulse;
                    frame[i] = pulse;
                    let expected = (!changes).then_some(value);
                    assert_eq!(value_of(&frame), expected, "{value} {i} {pulse}");
                    let expected = expected.ok_or(i / 2);
                    assert_eq!(read_byte(&frame, 0), expected, "{value} {i} {pulse}");
                }
            }
        }
    }

    #[test]
    fn one_bit_turned_round_makes_a_byte_bad() {
        for value in 0..=255 {
            for bit in 0..9 {
                let mut frame = write_byte(value);
                frame.swap(2 + 2 * bit, 3 + 2 * bit);
                assert_eq!(value_of(&frame), None);
                assert_eq!(read_byte(&frame, 0), Err(10));
            }
        }
    }

    #[test]
    fn two_bits_turned_round_make_another_good_byte() {
        let mut frame = write_byte(0x00);
        frame.swap(2, 3);
        frame.swap(4, 5);
        assert_eq!(value_of(&frame), Some(0x03));
    }

    #[test]
    fn the_first_wrong_pair_is_the_cause() {
        let cases = [
            ("LM MS SM SM MS SM SM SM MS MS", 10),
            ("LM SM SM SM MS SM SM SM MS SM", 10),
            ("LM MS SM SM MS SM SM SM MS MM", 9),
            ("LM MS SM SM MS SM SM SM MS LM", 9),
            ("LM MS SM SM MS SM SM SM NS MS", 8),
            ("LM SS SM SM MS SM SM SM MS SM", 1),
            ("LM LM SM SM MS SM SM SM MS SM", 1),
            ("ML MS SM SM MS SM SM SM MS SM", 0),
            ("SM MS SM SM MS SM SM SM MS SM", 0),
            ("LN MS SM SM MS SM SM SM MS SM", 0),
            ("LM MS SM NN MS SM SM SM NN NN", 3),
            ("NM MS SM SM MS SM SM SM MS MM", 0),
            ("NN NN NN NN NN NN NN NN NN NN", 0),
            ("SS SS SS SS SS SS SS SS SS SS", 0),
        ];
        for (letters, cause) in cases {
            assert_eq!(read_byte(&frame(letters), 0), Err(cause), "{letters}");
        }
    }

    #[test]
    fn a_cut_byte_has_the_first_pair_that_is_not_whole() {
        let mut strip = write_byte(0x89).to_vec();
        for length in 0..PULSES {
            assert_eq!(read_byte(&strip[..length], 0), Err(length / 2));
        }
        strip[7] = LONG;
        for length in 0..PULSES {
            assert_eq!(read_byte(&strip[..length], 0), Err(3.min(length / 2)));
        }
    }

    #[test]
    fn a_byte_stands_at_any_place() {
        let strip = [[LONG; PULSES], write_byte(0x41), write_byte(0x42)].concat();
        assert_eq!(read_byte(&strip, 0), Err(0));
        assert_eq!(read_byte(&strip, 20), Ok(0x41));
        assert_eq!(read_byte(&strip, 40), Ok(0x42));
        assert_eq!(read_byte(&strip[..59], 40), Err(9));
        for at in [60, 61, usize::MAX - 19, usize::MAX] {
            assert_eq!(read_byte(&strip, at), Err(0));
        }
        assert_eq!(read_byte(&[], 0), Err(0));
    }
}
