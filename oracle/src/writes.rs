//! Small writes (02, point 9): a text written in pieces beside the same text written at once.

use crate::rules::{build, Operation, Refusal};

/// A text cut into one to six pieces at places that a number settles, some of them empty, some inside a
/// character.
pub fn pieces(text: &[u8], cuts: u64) -> Vec<&[u8]> {
    let mut state = cuts;
    let mut next = |below: usize| {
        state =
            state.wrapping_mul(6_364_136_223_846_793_005).wrapping_add(1_442_695_040_888_963_407);
        (state >> 33) as usize % below
    };
    let mut places: Vec<usize> = (0..next(6)).map(|_| next(text.len() + 1)).collect();
    places.sort_unstable();
    places.push(text.len());
    let mut start = 0;
    places
        .into_iter()
        .map(|end| {
            let piece = &text[start..end];
            start = end;
            piece
        })
        .collect()
}

/// The room and the length after one write, or why it was refused.
fn write(style: u32, room: &mut [u8], length: &mut u64, text: &[u8]) -> Result<(), Refusal> {
    let result = build(Operation::Write { style }, room, *length, text)?;
    room[..result.len()].copy_from_slice(&result);
    *length = result.len() as u64;
    Ok(())
}

/// The pieces written in order, up to one that is refused.
pub fn write_all(
    style: u32,
    room: &mut [u8],
    length: &mut u64,
    pieces: &[&[u8]],
) -> Result<(), Refusal> {
    pieces.iter().try_for_each(|piece| write(style, room, length, piece))
}

/// The kind of a document's last record.
fn last_kind(document: &[u8]) -> Option<u32> {
    let (mut at, mut kind) = (0, None);
    while at < document.len() {
        let byte = |i: usize| u32::from(document[at + i]);
        kind = Some(byte(4) | byte(5) << 8);
        at += 6 + (byte(0) | byte(1) << 8 | byte(2) << 16 | byte(3) << 24) as usize;
    }
    kind
}

/// An empty write, if it is accepted, changes nothing where the last record is text of that style, and
/// else adds one empty record.
fn confirm_empty(style: u32, room: &[u8], length: u64) -> Result<(), String> {
    let (mut after, mut after_length) = (room.to_vec(), length);
    if write(style, &mut after, &mut after_length, b"").is_err() {
        return Ok(());
    }
    let mut expected = room.to_vec();
    let mut expected_length = length as usize;
    if last_kind(&room[..expected_length]) != Some(style) {
        let added = [0, 0, 0, 0, style as u8, 0];
        expected[expected_length..expected_length + 6].copy_from_slice(&added);
        expected_length += 6;
    }
    if (&after, after_length) != (&expected, expected_length as u64) {
        return Err(format!("an empty write: {after:?}, length {after_length}"));
    }
    Ok(())
}

/// 02's laws. Pieces that are all accepted leave what their join leaves, which is then accepted too; and
/// where each piece is UTF-8 by itself, the join is refused as the first piece that is. What an accepted
/// empty write does, before and after the text.
pub fn confirm(style: u32, room: &[u8], length: u64, text: &[u8], cuts: u64) -> Result<(), String> {
    let pieces = pieces(text, cuts);
    let (mut apart, mut apart_length) = (room.to_vec(), length);
    let (mut whole, mut whole_length) = (room.to_vec(), length);
    let one_by_one = write_all(style, &mut apart, &mut apart_length, &pieces);
    let at_once = write(style, &mut whole, &mut whole_length, text);
    let all_utf8 = pieces.iter().all(|piece| std::str::from_utf8(piece).is_ok());
    match (one_by_one, at_once) {
        (Ok(()), Ok(())) if (&apart, apart_length) == (&whole, whole_length) => {}
        (Err(piece), Err(join)) if !all_utf8 || piece == join => {}
        (Err(_), Ok(())) if !all_utf8 => {}
        (one_by_one, at_once) => {
            return Err(format!(
                "one by one {one_by_one:?} {apart:?}, at once {at_once:?} {whole:?}"
            ))
        }
    }
    confirm_empty(style, room, length)?;
    confirm_empty(style, &whole, whole_length)
}

#[cfg(test)]
mod tests {
    use super::*;
    use crate::stored::{put_record, Draft};

    fn records(list: &[(u16, &str)]) -> Vec<u8> {
        let mut out = Vec::new();
        list.iter().for_each(|(kind, body)| put_record(&mut out, *kind, body.as_bytes()));
        out
    }

    /// The document after texts are written in one style, in a room of 100 bytes.
    fn written(so_far: &[u8], texts: &[&[u8]]) -> Result<Vec<u8>, Refusal> {
        let mut room = vec![7; 100];
        room[..so_far.len()].copy_from_slice(so_far);
        let mut length = so_far.len() as u64;
        write_all(3, &mut room, &mut length, texts)?;
        room.truncate(length as usize);
        Ok(room)
    }

    #[test]
    fn joined_or_one_by_one() {
        for so_far in [vec![], records(&[(3, "x")]), records(&[(1, "x")]), records(&[(0x010B, "")])]
        {
            let once = written(&so_far, &["é b".as_bytes()]);
            assert_eq!(written(&so_far, &["é".as_bytes(), b" ", b"b"]), once);
            assert_eq!(written(&so_far, &[b"", "é b".as_bytes(), b""]), once);
        }
    }

    /// An empty write changes nothing after text of that style, and else adds one empty record.
    #[test]
    fn empty_writes() {
        let same = records(&[(3, "x")]);
        assert_eq!(written(&same, &[b""]).unwrap(), same);
        assert_eq!(written(&records(&[(3, "")]), &[b""]).unwrap(), records(&[(3, "")]));
        for so_far in [vec![], records(&[(1, "x")]), records(&[(0x010B, "")])] {
            let with_empty = [&so_far[..], &records(&[(3, "")])].concat();
            assert_eq!(written(&so_far, &[b""]).unwrap(), with_empty);
            assert_eq!(written(&so_far, &[b"", b"", b""]).unwrap(), with_empty);
        }
    }

    /// Where the law ends: documents added, two styles, a text cut inside a character.
    #[test]
    fn where_the_law_ends() {
        let added = |texts: &[&str]| {
            let mut draft = Draft::new();
            for text in texts {
                draft.doc(Draft::new().literal(text));
            }
            draft.stored()
        };
        assert_ne!(added(&["a", "b"]), added(&["ab"]));
        let mut styles = Draft::new();
        assert_ne!(styles.literal("a").text("b").stored(), Draft::new().literal("ab").stored());
        assert!(written(&[], &["é".as_bytes()]).is_ok());
        let cut = written(&[], &[b"\xC3", b"\xA9"]);
        assert_eq!(cut, Err(Refusal { number: 5, place: 0 }));
    }

    /// A piece that has no room stops the writing, and the join has none either.
    #[test]
    fn no_room_for_a_piece_is_none_for_the_join() {
        for room in 0..20 {
            for cuts in 0..40 {
                confirm(3, &vec![7; room], 0, b"abcdefgh", cuts).unwrap();
            }
        }
    }

    #[test]
    fn pieces_join_to_the_text() {
        let text = "é b\n漢".as_bytes();
        let all: Vec<Vec<&[u8]>> = (0..200).map(|cuts| pieces(text, cuts)).collect();
        assert!(all.iter().all(|pieces| pieces.concat() == text));
        assert!(all.iter().any(|pieces| pieces.len() == 1));
        assert!(all.iter().any(|pieces| pieces.len() == 6));
        assert!(all.iter().any(|pieces| pieces.contains(&&b""[..])));
        assert!(all.iter().flatten().any(|piece| std::str::from_utf8(piece).is_err()));
    }
}
