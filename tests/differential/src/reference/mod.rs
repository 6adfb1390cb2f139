//! An independent implementation of document 01: the tapes that the C64
//! writes with SAVE, from pulses up to program files, and TAP files; and of
//! document 02's walk and report, Q-1, causes of bad bytes, Q-6, and deck, Q-7.
//!
//! Each call takes the slices and numbers of the library's call of the same
//! name. A refused call leaves every lent buffer as it was; an accepted one
//! leaves everything past the part it filled. A deck keeps copy one in its
//! working buffer, whatever it answers in the end.

pub mod block;
pub mod byte;
pub mod deck;
pub mod file;
pub mod header;
pub mod pulse;
pub mod strip_deck;
pub mod tap;
pub mod wear;

pub use block::{read_block, write_block, BlockRead};
pub use byte::read_byte;
pub use deck::{Deck, Told};
pub use file::{read_file, write_file, FileRead};
pub use header::{pack_header, shown_name, unpack_header, Header, Span};
pub use tap::{read_tap, write_tap, TapRead};
pub use wear::{report_strip, walk_block, Walk, Walked, Wear};

/// Why a call was refused (document 01, "Refusal numbers").
#[derive(Clone, Copy, Debug, PartialEq, Eq)]
pub struct Refusal {
    /// The number in the table, 1 to 14.
    pub number: u32,
    /// 0 for a header or a lone block, 1 for a program file's data block.
    pub block: u32,
    /// Where, in the terms of that refusal; 0 where the table names none.
    pub place: usize,
    /// Why copy one's byte and copy two's are bad at a lost place; 0 and 0 with
    /// any other refusal.
    pub causes: [u32; 2],
}

impl Refusal {
    /// A refusal that names no place.
    fn new(number: u32) -> Self {
        Self::at(number, 0)
    }

    /// A refusal at a place of a header or a lone block.
    fn at(number: u32, place: usize) -> Self {
        Self {
            number,
            block: 0,
            place,
            causes: [0, 0],
        }
    }

    /// The refusal for a lost place.
    fn lost(place: usize, causes: [usize; 2]) -> Self {
        Self {
            causes: causes.map(|cause| cause as u32),
            ..Self::at(refusal::LOST, place)
        }
    }

    /// The same refusal for a program file's data block.
    fn of_data(self) -> Self {
        Self { block: 1, ..self }
    }
}

/// The numbers of the refusals.
pub mod refusal {
    pub const SIZE: u32 = 1;
    pub const ROOM: u32 = 2;
    pub const NO_START: u32 = 3;
    pub const CUT: u32 = 4;
    pub const COUNTDOWN: u32 = 5;
    pub const LOST: u32 = 6;
    pub const CHECKSUM: u32 = 7;
    pub const TYPE: u32 = 8;
    pub const ADDRESSES: u32 = 9;
    pub const TAP_HEADER: u32 = 10;
    pub const TAP_VERSION: u32 = 11;
    pub const TAP_CUT: u32 = 12;
    pub const DURATION: u32 = 13;
    pub const LEADER: u32 = 14;
}

#[cfg(test)]
mod tests {
    use super::*;

    /// What the listing program prints for the bytes of a TAP file.
    fn listing(tap: &[u8]) -> String {
        let line = match list(tap) {
            Ok(line) => line,
            Err(refusal) => format!(
                "refused {} {} {}",
                refusal.number, refusal.block, refusal.place
            ),
        };
        format!("type start end bytes name\n{line}\n")
    }

    fn list(tap: &[u8]) -> Result<String, Refusal> {
        if tap.len() > 16 * 1024 {
            return Err(Refusal::new(refusal::SIZE));
        }
        let mut pulses = vec![0; tap.len()];
        let read = read_tap(tap, &mut pulses)?;
        let mut header = [0; 192];
        let mut data = vec![0; 8192];
        let file = read_file(&pulses[..read.count], 0, &mut header, &mut data)?;
        let Header { kind, start, end } = file.header;
        let shown = shown_name(&header)?;
        let name: String = header[shown.offset..][..shown.length]
            .iter()
            .map(|&b| match b {
                0x20..=0x7e => char::from(b),
                _ => '.',
            })
            .collect();
        let bytes = end - start;
        Ok(format!("{kind} {start:04X} {end:04X} {bytes} {name}"))
    }

    #[test]
    fn the_example_of_the_listing() {
        let header = Header {
            kind: 1,
            start: 0x0801,
            end: 0x0811,
        };
        let bytes: Vec<u8> = (0..16).collect();
        let mut pulses = [0; 10_000];
        let count = write_file(header, b"GAME", &bytes, [64, 64], &mut pulses).unwrap();
        assert_eq!(count, 9492);
        let mut tap = [0; 10_000];
        let length = write_tap(&pulses[..count], 1, &mut tap).unwrap();
        assert_eq!(length, 9512);
        assert_eq!(
            listing(&tap[..length]),
            "type start end bytes name\n1 0801 0811 16 GAME\n"
        );
    }

    #[test]
    fn a_listing_of_a_refusal() {
        assert_eq!(listing(&[]), "type start end bytes name\nrefused 10 0 0\n");
        assert_eq!(
            listing(&[0; 16 * 1024 + 1]),
            "type start end bytes name\nrefused 1 0 0\n"
        );
    }
}
