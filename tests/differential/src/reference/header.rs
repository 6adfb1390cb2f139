//! Headers (document 01, "Headers and program files").

use super::{refusal, Refusal};

/// Bytes of a header.
pub const HEADER: usize = 192;

/// Bytes before the name.
const FIELDS: usize = 5;

/// The most bytes of a name.
pub const NAME: usize = HEADER - FIELDS;

/// Bytes of a name that are shown.
const SHOWN: usize = 16;

/// What a short name is filled with.
const SPACE: u8 = b' ';

/// A header's type and addresses. The end is one past the last byte.
#[derive(Clone, Copy, Debug, PartialEq, Eq)]
pub struct Header {
    pub kind: u8,
    pub start: u16,
    pub end: u16,
}

/// A part of the lent header.
#[derive(Clone, Copy, Debug, PartialEq, Eq)]
pub struct Span {
    pub offset: usize,
    pub length: usize,
}

/// Puts a header into the start of `out` and answers its number of bytes.
pub fn pack_header(header: Header, name: &[u8], out: &mut [u8]) -> Result<usize, Refusal> {
    check_name(name)?;
    check_lone(header)?;
    out.first_chunk_mut()
        .map(|out| *out = header_bytes(header, name))
        .ok_or(Refusal::new(refusal::ROOM))?;
    Ok(HEADER)
}

/// Takes the type and addresses out of a lone header.
pub fn unpack_header(bytes: &[u8]) -> Result<Header, Refusal> {
    let bytes: &[u8; HEADER] = bytes.try_into().map_err(|_| Refusal::new(refusal::SIZE))?;
    let header = header_fields(bytes);
    check_lone(header)?;
    Ok(header)
}

/// The shown name's place in a lone header, without the spaces at its end. It
/// is refused where unpacking is.
pub fn shown_name(bytes: &[u8]) -> Result<Span, Refusal> {
    unpack_header(bytes)?;
    let shown = &bytes[FIELDS..FIELDS + SHOWN];
    let length = shown
        .iter()
        .rposition(|&byte| byte != SPACE)
        .map_or(0, |last| last + 1);
    Ok(Span {
        offset: FIELDS,
        length,
    })
}

pub(super) fn check_name(name: &[u8]) -> Result<(), Refusal> {
    if name.len() <= NAME {
        Ok(())
    } else {
        Err(Refusal::new(refusal::SIZE))
    }
}

fn check_lone(header: Header) -> Result<(), Refusal> {
    match header.kind {
        1..=5 => Ok(()),
        _ => Err(Refusal::new(refusal::TYPE)),
    }
}

/// The bytes of a header with a name that fits.
pub(super) fn header_bytes(header: Header, name: &[u8]) -> [u8; HEADER] {
    let mut bytes = [SPACE; HEADER];
    bytes[0] = header.kind;
    bytes[1..3].copy_from_slice(&header.start.to_le_bytes());
    bytes[3..5].copy_from_slice(&header.end.to_le_bytes());
    bytes[FIELDS..][..name.len()].copy_from_slice(name);
    bytes
}

/// The type and addresses at the head of a header's bytes.
pub(super) fn header_fields(bytes: &[u8; HEADER]) -> Header {
    let [kind, start_low, start_high, end_low, end_high, ..] = *bytes;
    Header {
        kind,
        start: u16::from_le_bytes([start_low, start_high]),
        end: u16::from_le_bytes([end_low, end_high]),
    }
}

#[cfg(test)]
mod tests {
    use super::*;

    const GAME: Header = Header {
        kind: 1,
        start: 0x0801,
        end: 0x9709,
    };

    fn shown(name: &[u8]) -> Vec<u8> {
        let bytes = header_bytes(GAME, name);
        let Span { offset, length } = shown_name(&bytes).expect("a sound header");
        assert_eq!(offset, 5);
        bytes[offset..offset + length].to_vec()
    }

    #[test]
    fn a_header_is_packed_and_unpacked() {
        let mut out = [0xa5; 200];
        assert_eq!(pack_header(GAME, b"GAME", &mut out), Ok(192));
        assert_eq!(
            out[..9],
            [0x01, 0x01, 0x08, 0x09, 0x97, 0x47, 0x41, 0x4d, 0x45]
        );
        assert!(out[9..192].iter().all(|&b| b == 0x20));
        assert_eq!(out[192..], [0xa5; 8]);
        assert_eq!(unpack_header(&out[..192]), Ok(GAME));
        assert_eq!(out[..192].iter().fold(0, |sum, b| sum ^ b), 0xb8);
    }

    #[test]
    fn refusals_in_their_order() {
        let bad = Header { kind: 6, ..GAME };
        let mut out = [0xa5; 192];
        let cases: [(Header, &[u8], usize, u32); 4] = [
            (bad, &[0; 188], 191, 1),
            (bad, &[0; 187], 191, 8),
            (Header { kind: 0, ..GAME }, &[], 192, 8),
            (GAME, &[0; 187], 191, 2),
        ];
        for (header, name, room, number) in cases {
            assert_eq!(
                pack_header(header, name, &mut out[..room]),
                Err(Refusal::new(number))
            );
            assert_eq!(out, [0xa5; 192]);
        }
        for kind in 0..=255 {
            let header = Header { kind, ..GAME };
            let bytes = header_bytes(header, b"A");
            let (fields, span) = match kind {
                1..=5 => (
                    Ok(header),
                    Ok(Span {
                        offset: 5,
                        length: 1,
                    }),
                ),
                _ => (Err(Refusal::new(8)), Err(Refusal::new(8))),
            };
            assert_eq!(unpack_header(&bytes), fields);
            assert_eq!(shown_name(&bytes), span);
        }
        for length in [0, 191, 193] {
            assert_eq!(unpack_header(&[1; 200][..length]), Err(Refusal::new(1)));
            assert_eq!(shown_name(&[1; 200][..length]), Err(Refusal::new(1)));
        }
    }

    #[test]
    fn shown_names() {
        assert_eq!(shown(b"GAME"), b"GAME");
        assert_eq!(shown(b" GA ME  "), b" GA ME");
        assert_eq!(shown(b""), b"");
        assert_eq!(shown(&[0x20; 187]), b"");
        assert_eq!(shown(b"0123456789ABCDEFGHI"), b"0123456789ABCDEF");
        assert_eq!(shown(b"0123456789      GHI"), b"0123456789");
        assert_eq!(shown(b"A\0\xa0"), b"A\0\xa0");
    }
}
