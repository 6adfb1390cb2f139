//! How worn strips are: a walk from block to block, and a report over many
//! strips (document 02, Q-1), with bad bytes counted by cause.

use std::iter;

use super::block::{find_start, look_at_block, BlockRead, Places, MAX_PAYLOAD};
use super::byte::CAUSES;
use super::file::check_program;
use super::header::{header_fields, HEADER};
use super::pulse::Class;
use super::{refusal, Refusal};

/// The most strips in a report.
pub const MAX_STRIPS: u64 = 1000;

/// The most pulses of a strip in a report.
pub const MAX_PULSES: usize = 1_048_576;

/// The largest total that a report goes on from.
pub const MAX_TOTAL: u64 = 1_000_000_000_000;

/// How many totals come before those of the causes.
const BEFORE_CAUSES: usize = 8;

/// How many totals a report has.
pub const TOTALS: usize = BEFORE_CAUSES + CAUSES;

/// Where a walk stands: the place to look for a start from, and how many bytes
/// are tried as a data block, or 0 where a header is tried. It begins with 0
/// and 0.
#[derive(Clone, Copy, Debug, Default, PartialEq, Eq)]
pub struct Walk {
    pub from: usize,
    pub length: usize,
}

/// A block that a walk found, and how the walk goes on.
#[derive(Clone, Copy, Debug, PartialEq, Eq)]
pub struct Walked {
    /// The payload bytes that were tried.
    pub n: usize,
    pub start: usize,
    /// The place after copy two, or why the block was refused.
    pub end: Result<usize, Refusal>,
    pub places: Places,
    pub next: Walk,
}

/// The totals of a report: strips, pulses of each class, places of payload and
/// checksum taken from copy one, from copy two, and lost, and the bad bytes
/// there by cause.
#[derive(Clone, Copy, Debug, Default, PartialEq, Eq)]
pub struct Wear {
    pub strips: u64,
    pub shorts: u64,
    pub mediums: u64,
    pub longs: u64,
    pub noises: u64,
    pub one: u64,
    pub two: u64,
    pub lost: u64,
    pub causes: [u64; CAUSES],
}

/// One step of a walk: the first block at or after its place.
pub fn walk_block(pulses: &[u32], at: Walk) -> Result<Walked, Refusal> {
    if at.length > MAX_PAYLOAD {
        return Err(Refusal::new(refusal::SIZE));
    }
    let start = find_start(pulses, at.from).ok_or(Refusal::new(refusal::NO_START))?;
    Ok(match at.length {
        0 => try_header(pulses, start),
        n => try_data(pulses, start, n),
    })
}

/// The blocks of a walk from here to the end of the strip.
pub fn walk(pulses: &[u32], from: Walk) -> impl Iterator<Item = Walked> + '_ {
    let mut at = from;
    iter::from_fn(move || {
        let walked = walk_block(pulses, at).ok()?;
        at = walked.next;
        Some(walked)
    })
}

/// The totals with a strip added.
pub fn report_strip(totals: Wear, pulses: &[u32]) -> Result<Wear, Refusal> {
    if totals.strips >= MAX_STRIPS
        || pulses.len() > MAX_PULSES
        || totals.numbers().iter().any(|&total| total > MAX_TOTAL)
    {
        return Err(Refusal::new(refusal::SIZE));
    }
    let mut totals = totals;
    totals.strips += 1;
    totals.add_classes(pulses);
    for walked in walk(pulses, Walk::default()) {
        totals.add_places(walked.places);
    }
    Ok(totals)
}

fn try_header(pulses: &[u32], start: usize) -> Walked {
    let mut bytes = [0; HEADER];
    let (answer, places) = look_at_block(pulses, start, &mut bytes);
    // Only a program's header is followed by a data block.
    let length = check_program(header_fields(&bytes)).unwrap_or(0);
    walked(HEADER, start, answer, places, length)
}

fn try_data(pulses: &[u32], start: usize, n: usize) -> Walked {
    let mut bytes = [0; MAX_PAYLOAD];
    let (answer, places) = look_at_block(pulses, start, &mut bytes[..n]);
    walked(n, start, answer.map_err(Refusal::of_data), places, 0)
}

/// The walk goes on at the block's end with this length to try, or after a
/// refusal one pulse past the start with a header to try.
fn walked(
    n: usize,
    start: usize,
    answer: Result<BlockRead, Refusal>,
    places: Places,
    length: usize,
) -> Walked {
    let end = answer.map(|read| read.end);
    let next = match end {
        Ok(end) => Walk { from: end, length },
        Err(_) => Walk {
            from: start + 1,
            length: 0,
        },
    };
    Walked {
        n,
        start,
        end,
        places,
        next,
    }
}

impl Wear {
    /// The totals in their order.
    pub fn numbers(self) -> [u64; TOTALS] {
        let mut numbers = [0; TOTALS];
        let (first, causes) = numbers.split_at_mut(BEFORE_CAUSES);
        first.copy_from_slice(&[
            self.strips,
            self.shorts,
            self.mediums,
            self.longs,
            self.noises,
            self.one,
            self.two,
            self.lost,
        ]);
        causes.copy_from_slice(&self.causes);
        numbers
    }

    /// Adds the pulses of each class. A strip has few enough for 32 bits.
    fn add_classes(&mut self, pulses: &[u32]) {
        let (mut shorts, mut mediums, mut longs, mut noises) = (0u32, 0u32, 0u32, 0u32);
        for &pulse in pulses {
            let class = Class::of(pulse);
            shorts += u32::from(class == Class::Short);
            mediums += u32::from(class == Class::Medium);
            longs += u32::from(class == Class::Long);
            noises += u32::from(class == Class::Noise);
        }
        self.shorts += u64::from(shorts);
        self.mediums += u64::from(mediums);
        self.longs += u64::from(longs);
        self.noises += u64::from(noises);
    }

    /// Adds the places of a block, and its bad bytes.
    fn add_places(&mut self, places: Places) {
        self.one += places.one as u64;
        self.two += places.two as u64;
        self.lost += places.lost as u64;
        for (total, count) in self.causes.iter_mut().zip(places.causes) {
            *total += count as u64;
        }
    }
}

impl From<[u64; TOTALS]> for Wear {
    fn from(numbers: [u64; TOTALS]) -> Self {
        let [strips, shorts, mediums, longs, noises, one, two, lost, causes @ ..] = numbers;
        Self {
            strips,
            shorts,
            mediums,
            longs,
            noises,
            one,
            two,
            lost,
            causes,
        }
    }
}

#[cfg(test)]
mod tests {
    use super::*;
    use crate::reference::block::{block_len, copy_len, write_block, COUNTDOWNS, TRAILER};
    use crate::reference::byte::PULSES;
    use crate::reference::header::header_bytes;
    use crate::reference::{write_file, Header};

    const COUNTDOWN: usize = COUNTDOWNS[0].len();
    const LEADER: usize = 64;
    const HEADER_START: usize = LEADER;
    const HEADER_END: usize = HEADER_START + 2 * copy_len(HEADER) + TRAILER;
    const DATA_START: usize = block_len(LEADER, HEADER) + LEADER;

    fn program(n: usize) -> Header {
        Header {
            kind: 1,
            start: 0x0801,
            end: 0x0801 + n as u16,
        }
    }

    fn file(bytes: &[u8]) -> Vec<u32> {
        let mut out = vec![0; block_len(LEADER, HEADER) + block_len(LEADER, bytes.len())];
        let leaders = [LEADER as u64; 2];
        let count = write_file(program(bytes.len()), b"GAME", bytes, leaders, &mut out);
        assert_eq!(count, Ok(out.len()));
        out
    }

    fn block(payload: &[u8]) -> Vec<u32> {
        let mut out = vec![0; block_len(LEADER, payload.len())];
        write_block(payload, LEADER as u64, &mut out).unwrap();
        out
    }

    fn blocks(pulses: &[u32]) -> Vec<Walked> {
        walk(pulses, Walk::default()).collect()
    }

    fn taken(one: usize, two: usize, lost: usize) -> Places {
        Places {
            one,
            two,
            lost,
            ..Places::default()
        }
    }

    /// Counts of bad bytes from the causes that there are, and how many of each.
    fn counts(causes: &[(usize, usize)]) -> [usize; CAUSES] {
        let mut counts = [0; CAUSES];
        for &(cause, count) in causes {
            counts[cause] = count;
        }
        counts
    }

    /// Makes bytes of a copy bad, by their places among payload and checksum and
    /// the pair that is wrong.
    fn lose(pulses: &mut [u32], copy: usize, bytes: &[(usize, usize)]) {
        for (place, pair) in bytes {
            pulses[copy + PULSES * (COUNTDOWN + place) + 2 * pair + 1] = 0;
        }
    }

    #[test]
    fn a_file_is_told_as_its_two_blocks() {
        let strip = file(&[1, 2, 3]);
        let end = DATA_START + 2 * copy_len(3) + TRAILER;
        let expected = [
            Walked {
                n: 192,
                start: HEADER_START,
                end: Ok(HEADER_END),
                places: taken(193, 0, 0),
                next: Walk {
                    from: HEADER_END,
                    length: 3,
                },
            },
            Walked {
                n: 3,
                start: DATA_START,
                end: Ok(end),
                places: taken(4, 0, 0),
                next: Walk {
                    from: end,
                    length: 0,
                },
            },
        ];
        assert_eq!(blocks(&strip), expected);
        let at = expected[1].next;
        assert_eq!(walk_block(&strip, at), Err(Refusal::new(3)));
    }

    #[test]
    fn places_are_counted_to_the_end() {
        let mut strip = file(&[1, 2, 3]);
        let two = DATA_START + copy_len(3) + TRAILER;
        lose(&mut strip, DATA_START, &[(0, 4), (1, 9), (3, 4)]);
        let repaired = Places {
            causes: counts(&[(4, 2), (9, 1)]),
            ..taken(1, 3, 0)
        };
        assert_eq!(blocks(&strip)[1].places, repaired);
        lose(&mut strip, two, &[(1, 4), (2, 0), (3, 7)]);
        let places = Places {
            causes: counts(&[(0, 1), (4, 3), (7, 1), (9, 1)]),
            ..taken(1, 1, 2)
        };
        let refused = blocks(&strip)[1];
        assert_eq!(refused.places, places);
        assert_eq!(refused.end, Err(Refusal::lost(1, [9, 4]).of_data()));
        let next = Walk {
            from: DATA_START + 1,
            length: 0,
        };
        assert_eq!(refused.next, next);
        for copy in [DATA_START, two] {
            strip[copy + PULSES] = 0;
        }
        let refused = blocks(&strip)[1];
        assert_eq!(refused.places, places);
        assert_eq!(refused.end, Err(Refusal::at(5, 1).of_data()));
        let refused = blocks(&strip[..two])[1];
        assert_eq!(refused.places, taken(0, 0, 0));
        assert_eq!(refused.end, Err(Refusal::at(4, DATA_START).of_data()));
    }

    #[test]
    fn data_of_192_bytes_is_no_header() {
        let looks_like = header_bytes(program(5), b"NO");
        let mut strip = file(&looks_like);
        strip.extend(block(&[1, 2, 3, 4, 5]));
        let told = blocks(&strip);
        assert_eq!(told[1].n, 192);
        assert!(told[1].end.is_ok());
        assert_eq!(told[1].next.length, 0);
        assert_eq!((told[2].n, told[2].end.is_err()), (192, true));
        let alone = block(&looks_like);
        assert_eq!(blocks(&alone)[0].next.length, 5);
        let as_data = Walk {
            from: 0,
            length: 192,
        };
        assert_eq!(walk_block(&alone, as_data).unwrap().next.length, 0);
    }

    #[test]
    fn headers_that_are_no_programs() {
        let cases = [
            (1, 5, 5 + 8192, 8192),
            (3, 5, 6, 1),
            (1, 5, 5, 0),
            (1, 5, 4, 0),
            (1, 5, 5 + 8193, 0),
            (0, 5, 6, 0),
            (2, 5, 6, 0),
            (4, 5, 6, 0),
            (5, 5, 6, 0),
            (6, 5, 6, 0),
        ];
        for (kind, start, end, length) in cases {
            let strip = block(&header_bytes(Header { kind, start, end }, b""));
            let next = Walk {
                from: HEADER_END,
                length,
            };
            assert_eq!(blocks(&strip)[0].next, next);
        }
    }

    #[test]
    fn lengths_and_places_of_a_walk() {
        let strip = block(&[1]);
        for length in [8193, usize::MAX] {
            for from in [0, usize::MAX] {
                let at = Walk { from, length };
                assert_eq!(walk_block(&strip, at), Err(Refusal::new(1)));
            }
        }
        for from in [49, strip.len(), strip.len() + 1, usize::MAX] {
            let at = Walk { from, length: 1 };
            assert_eq!(walk_block(&strip, at), Err(Refusal::new(3)));
        }
        let at = Walk {
            from: 48,
            length: 1,
        };
        assert_eq!(walk_block(&strip, at).unwrap().start, 64);
        assert_eq!(walk_block(&[], Walk::default()), Err(Refusal::new(3)));
    }

    #[test]
    fn totals_are_handed_on() {
        let mut strip = file(&[1, 2, 3]);
        lose(&mut strip, DATA_START, &[(0, 8)]);
        let first = report_strip(Wear::default(), &strip).unwrap();
        let classes = [first.shorts, first.mediums, first.longs, first.noises];
        assert_eq!(classes.iter().sum::<u64>(), strip.len() as u64);
        assert_eq!((first.strips, first.noises), (1, 1));
        assert_eq!((first.one, first.two, first.lost), (196, 1, 0));
        assert_eq!(first.causes, [0, 0, 0, 0, 0, 0, 0, 0, 1, 0, 0]);
        let second = report_strip(first, &strip).unwrap();
        assert_eq!(second.numbers(), first.numbers().map(|total| 2 * total));
        let third = report_strip(second, &[]).unwrap();
        assert_eq!(
            third,
            Wear {
                strips: 3,
                ..second
            }
        );
    }

    #[test]
    fn limits_of_a_report() {
        let refused = Err(Refusal::new(1));
        let strips = |strips| Wear {
            strips,
            ..Wear::default()
        };
        assert_eq!(report_strip(strips(999), &[]), Ok(strips(1000)));
        assert_eq!(report_strip(strips(1000), &[]), refused);
        for i in 1..TOTALS {
            let mut numbers = [0; TOTALS];
            numbers[i] = 1_000_000_000_000;
            assert!(report_strip(numbers.into(), &[]).is_ok());
            numbers[i] += 1;
            assert_eq!(report_strip(numbers.into(), &[]), refused);
        }
        let pulses = vec![0; 1_048_577];
        assert_eq!(report_strip(strips(0), &pulses), refused);
        let noises = report_strip(strips(0), &pulses[1..]).unwrap().noises;
        assert_eq!(noises, 1_048_576);
    }
}
