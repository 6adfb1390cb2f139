//! Program files: a header block, then a data block (document 01, "Headers
//! and program files").

use super::block::{block_len, check_leader, decode_block, put_block, MAX_PAYLOAD};
use super::header::{check_name, header_bytes, header_fields, Header, HEADER};
use super::{refusal, Refusal};

/// An accepted file: its type and addresses, and the end of its data block.
#[derive(Clone, Copy, Debug, PartialEq, Eq)]
pub struct FileRead {
    pub header: Header,
    pub stop: usize,
}

/// Puts a program file into the start of `out` and answers its number of pulses.
pub fn write_file(
    header: Header,
    name: &[u8],
    bytes: &[u8],
    leaders: [u64; 2],
    out: &mut [u32],
) -> Result<usize, Refusal> {
    check_name(name)?;
    if check_program(header)? != bytes.len() {
        return Err(Refusal::new(refusal::ADDRESSES));
    }
    let header_leader = check_leader(leaders[0])?;
    let data_leader = check_leader(leaders[1]).map_err(Refusal::of_data)?;
    let header_len = block_len(header_leader, HEADER);
    let count = header_len + block_len(data_leader, bytes.len());
    let out = out.get_mut(..count).ok_or(Refusal::new(refusal::ROOM))?;
    let (header_out, data_out) = out.split_at_mut(header_len);
    put_block(&header_bytes(header, name), header_leader, header_out);
    put_block(bytes, data_leader, data_out);
    Ok(count)
}

/// Reads the first program file at or after `from`: its header into the start
/// of `header_out`, its bytes into the start of `data_out`.
pub fn read_file(
    pulses: &[u32],
    from: usize,
    header_out: &mut [u8],
    data_out: &mut [u8],
) -> Result<FileRead, Refusal> {
    let mut bytes = [0; HEADER];
    let header_read = decode_block(pulses, from, &mut bytes)?;
    let header = header_fields(&bytes);
    let n = check_program(header)?;
    let (Some(header_out), Some(data_out)) = (header_out.first_chunk_mut(), data_out.get_mut(..n))
    else {
        return Err(Refusal::new(refusal::ROOM));
    };
    let mut data = [0; MAX_PAYLOAD];
    let data = &mut data[..n];
    let data_read = decode_block(pulses, header_read.end, data).map_err(Refusal::of_data)?;
    *header_out = bytes;
    data_out.copy_from_slice(data);
    Ok(FileRead {
        header,
        stop: data_read.end,
    })
}

/// The number of bytes of a program file with this header.
pub(super) fn check_program(header: Header) -> Result<usize, Refusal> {
    if !matches!(header.kind, 1 | 3) {
        return Err(Refusal::new(refusal::TYPE));
    }
    match header.end.checked_sub(header.start).map(usize::from) {
        Some(n @ 1..=MAX_PAYLOAD) => Ok(n),
        _ => Err(Refusal::new(refusal::ADDRESSES)),
    }
}

#[cfg(test)]
mod tests {
    use super::*;
    use crate::reference::block::{write_block, COUNTDOWNS};

    const GAME: Header = Header {
        kind: 1,
        start: 0x0801,
        end: 0x0811,
    };
    const LEADERS: [u64; 2] = [64, 64];
    const HEADER_LEN: usize = block_len(64, HEADER);

    fn bytes() -> Vec<u8> {
        (0..16).collect()
    }

    fn strip(header: Header, bytes: &[u8]) -> Vec<u32> {
        let mut out = vec![0; HEADER_LEN + block_len(64, bytes.len())];
        let count = write_file(header, b"GAME", bytes, LEADERS, &mut out);
        assert_eq!(count, Ok(out.len()));
        out
    }

    /// A header block of any header, and then a data block.
    fn loose_strip(header: Header, bytes: &[u8]) -> Vec<u32> {
        let mut out = vec![0; HEADER_LEN + block_len(64, bytes.len())];
        write_block(&header_bytes(header, b"GAME"), 64, &mut out).unwrap();
        write_block(bytes, 64, &mut out[HEADER_LEN..]).unwrap();
        out
    }

    /// Reads with patterned buffers, and checks that a refusal leaves both.
    fn read(pulses: &[u32], rooms: [usize; 2]) -> Result<FileRead, Refusal> {
        let mut header = vec![0xa5; rooms[0]];
        let mut data = vec![0x5a; rooms[1]];
        let answer = read_file(pulses, 0, &mut header, &mut data);
        if answer.is_err() {
            assert_eq!(header, vec![0xa5; rooms[0]]);
            assert_eq!(data, vec![0x5a; rooms[1]]);
        }
        answer
    }

    fn refused<T>(number: u32, block: u32, place: usize) -> Result<T, Refusal> {
        Err(Refusal {
            number,
            block,
            place,
            causes: [0, 0],
        })
    }

    fn lost<T>(block: u32, place: usize, causes: [u32; 2]) -> Result<T, Refusal> {
        refused(6, block, place).map_err(|refusal| Refusal { causes, ..refusal })
    }

    #[test]
    fn a_file_is_read_as_written() {
        let strip = strip(GAME, &bytes());
        assert_eq!(strip.len(), 9492);
        let mut header = [0xa5; 200];
        let mut data = [0x5a; 20];
        let read = read_file(&strip, 0, &mut header, &mut data).unwrap();
        assert_eq!(read.header, GAME);
        assert_eq!(read.stop, strip.len() - 61);
        assert_eq!(header[..192], header_bytes(GAME, b"GAME"));
        assert_eq!(header[192..], [0xa5; 8]);
        assert_eq!(data[..16], bytes());
        assert_eq!(data[16..], [0x5a; 4]);
    }

    #[test]
    fn the_header_of_36616_bytes_is_refused() {
        let header = Header {
            end: 0x9709,
            ..GAME
        };
        let strip = loose_strip(header, &bytes());
        assert_eq!(read(&strip, [192, 8192]), refused(9, 0, 0));
        assert_eq!(
            write_file(header, b"GAME", &[0; 36_616], LEADERS, &mut []),
            refused(9, 0, 0)
        );
    }

    #[test]
    fn refusals_of_the_writer_in_their_order() {
        let name = [b'A'; 188];
        let type_2 = Header { kind: 2, ..GAME };
        let write = |header, name_len: usize, len: usize, leaders| {
            let mut out = [0; 9491];
            let answer = write_file(
                header,
                &name[..name_len],
                &[0; 20][..len],
                leaders,
                &mut out,
            );
            assert_eq!(out, [0; 9491]);
            answer
        };
        assert_eq!(write(type_2, 188, 15, [63, 63]), refused(1, 0, 0));
        assert_eq!(write(type_2, 187, 15, [63, 63]), refused(8, 0, 0));
        assert_eq!(write(GAME, 187, 15, [63, 63]), refused(9, 0, 0));
        assert_eq!(write(GAME, 187, 17, [63, 63]), refused(9, 0, 0));
        assert_eq!(write(GAME, 187, 16, [63, 63]), refused(14, 0, 0));
        assert_eq!(write(GAME, 187, 16, [64, 65_536]), refused(14, 1, 0));
        assert_eq!(write(GAME, 187, 16, [64, 64]), refused(2, 0, 0));
    }

    #[test]
    fn edges_of_the_addresses() {
        let mut out = vec![0; HEADER_LEN + block_len(64, 8192)];
        let mut write = |start, end, len| {
            let header = Header {
                kind: 3,
                start,
                end,
            };
            write_file(header, b"", &vec![0; len], LEADERS, &mut out)
        };
        assert_eq!(write(5, 5, 0), refused(9, 0, 0));
        assert_eq!(write(5, 4, 65_535), refused(9, 0, 0));
        assert_eq!(write(0, 8193, 8193), refused(9, 0, 0));
        assert_eq!(write(0, 8192, 8192), Ok(8266 + 64 + 40 * 8202 + 122));
        assert_eq!(write(65_534, 65_535, 1), Ok(8266 + 626));
    }

    #[test]
    fn refusals_of_the_reader_in_their_order() {
        let sound = loose_strip(GAME, &bytes());
        let start = HEADER_LEN + 64;
        let mut bad_header = sound.clone();
        bad_header[64 + 20 * 9] = 0;
        bad_header[64 + 20 * 202 + 61 + 20 * 9 + 12] = 0;
        assert_eq!(read(&bad_header, [0, 0]), lost(0, 0, [0, 6]));
        let type_2 = Header { kind: 2, ..GAME };
        let wrong_end = Header { end: 0, ..type_2 };
        assert_eq!(
            read(&loose_strip(wrong_end, &bytes()), [0, 0]),
            refused(8, 0, 0)
        );
        let wrong_end = Header { end: 0, ..GAME };
        assert_eq!(
            read(&loose_strip(wrong_end, &bytes()), [0, 0]),
            refused(9, 0, 0)
        );
        assert_eq!(read(&sound[..HEADER_LEN], [191, 16]), refused(2, 0, 0));
        assert_eq!(read(&sound[..HEADER_LEN], [192, 15]), refused(2, 0, 0));
        assert_eq!(read(&sound[..HEADER_LEN], [192, 16]), refused(3, 1, 0));
        assert_eq!(read(&sound[..9492 - 62], [192, 16]), refused(4, 1, start));
        assert!(read(&sound[..9492 - 61], [192, 16]).is_ok());
    }

    #[test]
    fn damage_of_the_data_block_names_block_1() {
        let sound = strip(GAME, &bytes());
        let start = HEADER_LEN + 64;
        let two = start + 20 * 26 + 61;
        for i in 1..26 {
            let mut pulses = sound.clone();
            pulses[start + 20 * i + 9] = 0;
            assert!(read(&pulses, [192, 16]).is_ok());
            pulses[two + 20 * i] = 0;
            let countdown = COUNTDOWNS[0].len();
            let expected = match i.checked_sub(countdown) {
                None => refused(5, 1, i),
                Some(place) => lost(1, place, [4, 0]),
            };
            assert_eq!(read(&pulses, [192, 16]), expected);
        }
        let mut pulses = sound;
        pulses.swap(start + 182, start + 183);
        pulses.swap(start + 184, start + 185);
        assert_eq!(read(&pulses, [192, 16]), refused(7, 1, 16));
    }
}
