//! TAP files (document 01, "TAP files"; the long form by document 02, Q-4).

use super::{refusal, Refusal};

/// The most durations that are written.
pub const MAX_DURATIONS: usize = 1_048_576;

/// Bytes before the data.
pub const TAP_HEADER: usize = 20;

const LETTERS: [u8; 12] = *b"C64-TAPE-RAW";

/// A duration in CPU cycles.
#[derive(Clone, Copy, Debug, PartialEq, Eq, PartialOrd)]
struct Cycles(u32);

impl Cycles {
    /// The most that the long form holds.
    const MAX_LONG: Self = Self(0x00ff_ffff);
}

/// A duration in TAP units of eight cycles: what a single byte counts.
#[derive(Clone, Copy, Debug, PartialEq, Eq)]
struct Units(u32);

impl Units {
    /// What a zero byte stands for in version 0.
    const OVERFLOW: Self = Self(256);

    /// These cycles in units, if they are a multiple of eight.
    fn from_cycles(Cycles(cycles): Cycles) -> Option<Self> {
        // A remainder would stand in the top three bits.
        let units = cycles.rotate_right(3);
        (units <= u32::MAX / 8).then_some(Self(units))
    }

    /// No single byte stands for more than 256 units, so this does not overflow.
    fn to_cycles(self) -> Cycles {
        Cycles(8 * self.0)
    }
}

#[derive(Clone, Copy, Debug, PartialEq, Eq)]
enum Version {
    Zero,
    One,
}

impl Version {
    fn from_byte(byte: u8) -> Result<Self, Refusal> {
        match byte {
            0 => Ok(Self::Zero),
            1 => Ok(Self::One),
            _ => Err(Refusal::new(refusal::TAP_VERSION)),
        }
    }
}

/// How a duration stands in the data.
#[derive(Clone, Copy, Debug, PartialEq, Eq)]
enum Form {
    /// One byte, not zero.
    Short(u8),
    /// A lone zero byte.
    Overflow,
    /// A zero byte, then the cycles in three bytes, low first.
    Long(Cycles),
}

impl Form {
    /// The form in which a duration is written, if it has one.
    fn of(cycles: Cycles, version: Version) -> Option<Self> {
        match (Units::from_cycles(cycles), version) {
            (Some(Units(short @ 1..=255)), _) => Some(Self::Short(short as u8)),
            (Some(Units::OVERFLOW), Version::Zero) => Some(Self::Overflow),
            (_, Version::One) if cycles <= Cycles::MAX_LONG => Some(Self::Long(cycles)),
            _ => None,
        }
    }

    fn cycles(self) -> Cycles {
        match self {
            Self::Short(byte) => Units(u32::from(byte)).to_cycles(),
            Self::Overflow => Units::OVERFLOW.to_cycles(),
            Self::Long(cycles) => cycles,
        }
    }

    fn len(self) -> usize {
        match self {
            Self::Short(_) | Self::Overflow => 1,
            Self::Long(_) => 4,
        }
    }
}

/// The forms in the data, as far as they are there whole.
struct Forms<'a> {
    data: &'a [u8],
    version: Version,
}

impl Iterator for Forms<'_> {
    type Item = Form;

    #[inline]
    fn next(&mut self) -> Option<Form> {
        let (&byte, rest) = self.data.split_first()?;
        let (form, rest) = match (byte, self.version) {
            (1.., _) => (Form::Short(byte), rest),
            (0, Version::Zero) => (Form::Overflow, rest),
            (0, Version::One) => {
                let (&[low, middle, high], rest) = rest.split_first_chunk()?;
                let cycles = u32::from_le_bytes([low, middle, high, 0]);
                (Form::Long(Cycles(cycles)), rest)
            }
        };
        self.data = rest;
        Some(form)
    }
}

/// An accepted TAP file: its version and its number of durations.
#[derive(Clone, Copy, Debug, PartialEq, Eq)]
pub struct TapRead {
    pub version: u8,
    pub count: usize,
}

/// Puts a TAP file into the start of `out` and answers its number of bytes.
pub fn write_tap(durations: &[u32], version: u8, out: &mut [u8]) -> Result<usize, Refusal> {
    if durations.len() > MAX_DURATIONS {
        return Err(Refusal::new(refusal::SIZE));
    }
    let tag = version;
    let version = Version::from_byte(tag)?;
    let data_len = written_len(durations, version)?;
    let length = TAP_HEADER + data_len;
    let out = out.get_mut(..length).ok_or(Refusal::new(refusal::ROOM))?;
    let (head, data) = out.split_at_mut(TAP_HEADER);
    head[..12].copy_from_slice(&LETTERS);
    head[12] = tag;
    head[13..16].fill(0);
    // At most four bytes for each of 1,048,576 durations.
    head[16..].copy_from_slice(&(data_len as u32).to_le_bytes());
    put_durations(durations, version, data);
    Ok(length)
}

/// The data bytes of these durations, if each has a form.
fn written_len(durations: &[u32], version: Version) -> Result<usize, Refusal> {
    let mut length = 0;
    for (i, &duration) in durations.iter().enumerate() {
        length += Form::of(Cycles(duration), version)
            .ok_or(Refusal::at(refusal::DURATION, i))?
            .len();
    }
    Ok(length)
}

/// Fills `data` with durations that all have a form.
fn put_durations(durations: &[u32], version: Version, data: &mut [u8]) {
    let forms = durations
        .iter()
        .filter_map(|&duration| Form::of(Cycles(duration), version));
    let mut rest = data;
    for form in forms {
        rest = match form {
            Form::Short(byte) => put(rest, [byte]),
            Form::Overflow => put(rest, [0]),
            Form::Long(Cycles(cycles)) => {
                let [low, middle, high, _] = cycles.to_le_bytes();
                put(rest, [0, low, middle, high])
            }
        };
    }
}

/// Puts bytes at the head of `data` and answers what follows them.
fn put<const N: usize>(data: &mut [u8], bytes: [u8; N]) -> &mut [u8] {
    let (head, rest) = data.split_at_mut(N);
    head.copy_from_slice(&bytes);
    rest
}

/// Reads the durations of a TAP file, in cycles, into the start of `out`.
pub fn read_tap(file: &[u8], out: &mut [u32]) -> Result<TapRead, Refusal> {
    let bad_header = Refusal::new(refusal::TAP_HEADER);
    let (head, data) = file.split_first_chunk::<TAP_HEADER>().ok_or(bad_header)?;
    let [letters @ .., tag, r1, r2, r3, c1, c2, c3, c4] = *head;
    if letters != LETTERS {
        return Err(bad_header);
    }
    let version = Version::from_byte(tag)?;
    let data_len = u32::from_le_bytes([c1, c2, c3, c4]);
    if [r1, r2, r3] != [0; 3] || u64::from(data_len) != data.len() as u64 {
        return Err(bad_header);
    }
    let count = count_durations(data, version)?;
    let out = out.get_mut(..count).ok_or(Refusal::new(refusal::ROOM))?;
    for (duration, form) in out.iter_mut().zip(Forms { data, version }) {
        *duration = form.cycles().0;
    }
    Ok(TapRead {
        version: tag,
        count,
    })
}

/// The number of durations in the data, if the last one is there whole.
fn count_durations(data: &[u8], version: Version) -> Result<usize, Refusal> {
    let mut forms = Forms { data, version };
    let count = forms.by_ref().count();
    match forms.data.len() {
        0 => Ok(count),
        left => Err(Refusal::at(refusal::TAP_CUT, data.len() - left)),
    }
}

#[cfg(test)]
mod tests {
    use super::*;

    fn tap(version: u8, data: &[u8]) -> Vec<u8> {
        let mut file = b"C64-TAPE-RAW".to_vec();
        file.extend([version, 0, 0, 0]);
        file.extend((data.len() as u32).to_le_bytes());
        file.extend(data);
        file
    }

    fn read(file: &[u8]) -> Result<Vec<u32>, Refusal> {
        let mut out = vec![7; file.len()];
        match read_tap(file, &mut out) {
            Ok(read) => {
                assert_eq!(read.version, file[12]);
                assert!(out[read.count..].iter().all(|&d| d == 7));
                out.truncate(read.count);
                Ok(out)
            }
            Err(refusal) => {
                assert!(out.iter().all(|&d| d == 7));
                Err(refusal)
            }
        }
    }

    fn write(durations: &[u32], version: u8) -> Result<Vec<u8>, Refusal> {
        let mut out = vec![9; 20 + 4 * durations.len()];
        let length = write_tap(durations, version, &mut out)?;
        assert!(out[length..].iter().all(|&b| b == 9));
        out.truncate(length);
        Ok(out)
    }

    fn refused<T>(number: u32, place: usize) -> Result<T, Refusal> {
        Err(Refusal::at(number, place))
    }

    /// The data of the long form.
    fn long(count: u32) -> [u8; 4] {
        [0, count as u8, (count >> 8) as u8, (count >> 16) as u8]
    }

    #[test]
    fn data_as_cycles() {
        assert_eq!(read(&tap(0, &[0x2d, 0x41, 0x56])), Ok(vec![360, 520, 688]));
        assert_eq!(read(&tap(1, &[0x2d, 0x41, 0x56])), Ok(vec![360, 520, 688]));
        assert_eq!(read(&tap(1, &[0, 0x54, 0x03, 0])), Ok(vec![852]));
        assert_eq!(
            read(&tap(0, &[0, 0x54, 0x03, 0])),
            Ok(vec![2048, 672, 24, 2048])
        );
        assert_eq!(read(&tap(1, &[0, 255, 255, 255])), Ok(vec![16_777_215]));
        assert_eq!(read(&tap(1, &[])), Ok(vec![]));
    }

    #[test]
    fn small_counts_in_the_long_form_are_read() {
        for count in 0..=2056 {
            assert_eq!(read(&tap(1, &long(count))), Ok(vec![count]));
        }
        assert_eq!(read(&tap(1, &[0, 1, 0, 0, 0, 8, 0, 0])), Ok(vec![1, 8]));
    }

    #[test]
    fn forms_of_version_0() {
        let has_form = |duration: u32| (8..=2048).contains(&duration) && duration.is_multiple_of(8);
        assert_eq!(write(&[8, 2040, 2048], 0), Ok(tap(0, &[1, 255, 0])));
        for duration in (0..=4096).chain([16_777_208, 16_777_215, 16_777_216, u32::MAX - 7]) {
            let expected = if has_form(duration) {
                // 256 units are the zero byte.
                Ok(tap(0, &[1, (duration / 8) as u8]))
            } else {
                refused(13, 1)
            };
            assert_eq!(write(&[8, duration], 0), expected, "{duration}");
        }
        assert_eq!(write(&[8, 852, 1], 0), refused(13, 1));
    }

    #[test]
    fn forms_of_version_1() {
        assert_eq!(write(&[852], 1), Ok(tap(1, &[0, 0x54, 0x03, 0])));
        for units in 1..=255 {
            assert_eq!(write(&[8 * u32::from(units)], 1), Ok(tap(1, &[units])));
        }
        let edges = [0, 9, 2048, 2049, 2056, 16_777_208, 16_777_214, 16_777_215];
        for duration in (1..=7).chain(2041..=2047).chain(edges) {
            assert_eq!(write(&[duration], 1), Ok(tap(1, &long(duration))));
        }
        for duration in [16_777_216, 16_777_217, 16_777_224, u32::MAX - 7, u32::MAX] {
            assert_eq!(write(&[1, duration, u32::MAX], 1), refused(13, 1));
        }
    }

    #[test]
    fn what_was_written_is_read() {
        let durations = [360, 0, 2048, 852, 8, 16_777_215, 2040, 2047, 1];
        assert_eq!(read(&write(&durations, 1).unwrap()), Ok(durations.to_vec()));
        let durations: Vec<u32> = (0..=4096).collect();
        assert_eq!(read(&write(&durations, 1).unwrap()), Ok(durations));
        let durations = [360, 2048, 8, 2040];
        assert_eq!(read(&write(&durations, 0).unwrap()), Ok(durations.to_vec()));
    }

    #[test]
    fn refusals_of_the_reader_in_their_order() {
        assert_eq!(read(&[]), refused(10, 0));
        assert_eq!(read(&tap(1, &[])[..19]), refused(10, 0));
        for i in 0..20 {
            let mut file = tap(1, &[0, 1, 2]);
            file[i] ^= 0x80;
            let number = if i == 12 { 11 } else { 10 };
            assert_eq!(read(&file), refused(number, 0));
        }
        let mut file = tap(2, &[0, 1, 2]);
        file[13] = 1;
        assert_eq!(read(&file), refused(11, 0));
        file[11] = 0;
        assert_eq!(read(&file), refused(10, 0));
        let mut short = tap(1, &[5, 0, 0, 0, 0, 9]);
        assert_eq!(read_tap(&short, &mut [0; 2]), refused(2, 0));
        assert!(read_tap(&short, &mut [0; 3]).is_ok());
        short.pop();
        assert_eq!(read(&short), refused(10, 0));
        for cut in 1..4 {
            let data = &[5, 0, 0, 0, 0, 9, 0, 1, 1, 1][..6 + cut];
            assert_eq!(read_tap(&tap(1, data), &mut []), refused(12, 6));
        }
    }

    #[test]
    fn refusals_of_the_writer_in_their_order() {
        let durations = vec![16_777_216; MAX_DURATIONS + 1];
        assert_eq!(write_tap(&durations, 2, &mut []), refused(1, 0));
        assert_eq!(write_tap(&durations[1..], 2, &mut []), refused(11, 0));
        assert_eq!(write_tap(&durations[1..], 1, &mut []), refused(13, 0));
        assert_eq!(write_tap(&[8, 9], 0, &mut []), refused(13, 1));
        assert_eq!(write_tap(&[8, 2048], 0, &mut [0; 21]), refused(2, 0));
        assert_eq!(write_tap(&[8, 2048], 1, &mut [0; 24]), refused(2, 0));
        assert_eq!(write_tap(&[8, 2048], 1, &mut [0; 25]), Ok(25));
        assert_eq!(write_tap(&[8, 9], 1, &mut [0; 24]), refused(2, 0));
        assert_eq!(write_tap(&[8, 9], 1, &mut [0; 25]), Ok(25));
        let most = vec![16_777_215; MAX_DURATIONS];
        let mut out = vec![0; 20 + 4 * MAX_DURATIONS];
        assert_eq!(write_tap(&most, 1, &mut out), Ok(out.len()));
    }
}
