//! One type for a call of any public function and one for its answer, with the list form that
//! `oracle record` writes.

use crate::figures::{self, Figures};
use crate::joined;
use crate::merge;
use crate::notes;
use crate::pages;
use crate::rules::{self, Chunk, Operation, PlainCursor, Refusal, Renderer};
use crate::shape;
use crate::writes;

#[derive(Debug, Clone, Copy, Eq, PartialEq)]
pub enum Call {
    Check,
    Render(Renderer),
    Build(Operation),
    Split,
    /// the chunk at one cursor, of the C interface
    NextChunk {
        at: u64,
        ticks: u32,
    },
    Tabstop,
    PageCount {
        height: u64,
    },
    Page {
        height: u64,
        page: u64,
    },
    Shape,
    Notes,
    Join,
    Unjoin,
    JoinedCheck,
    JoinedRender(Renderer),
    Figures,
    RoomBound,
    /// the case's document is the first side, so many bytes, and then the second
    Merge {
        first: u64,
    },
    /// a text written piece by piece, up to one that is refused; `cuts` settles the pieces
    Writes {
        style: u32,
        cuts: u64,
    },
}

/// A call with all that it reads and all that its room holds before it.
#[derive(Debug, Clone, Eq, PartialEq)]
pub struct Case {
    pub call: Call,
    /// the document; for the builder the text written or the document added; the body to split; the
    /// text to page; the notes; the joined form; the bundle
    pub document: Vec<u8>,
    /// the room before the call: a pattern without zeros, or the builder's document so far and then
    /// such a pattern
    pub room: Vec<u8>,
    /// the builder's length so far
    pub length: u64,
}

#[derive(Debug, Clone, Eq, PartialEq)]
pub struct Answer {
    /// 0 where the call is accepted, else the refusal's number; or which chunk there is
    pub number: u32,
    /// the refusal's place; or the length of an accepted text or of what was made, the cursor after a
    /// chunk, what settles the tabstop, the first record that is not in house shape, the room that is
    /// enough; 0 for other accepted calls
    pub at: u64,
    /// every byte of the room after the call
    pub room: Vec<u8>,
    /// the builder's length after the call
    pub length: u64,
    /// the chunks of a body
    pub chunks: Vec<Chunk>,
    /// the other numbers that the call stores, in the order of the header
    pub numbers: Vec<u64>,
}

/// What a room holds before a call, from `start` on: no byte is 0.
pub fn pattern(start: usize, end: usize) -> impl Iterator<Item = u8> {
    (start..end).map(|i| (i * 31 % 255) as u8 + 1)
}

/// Puts what was written into a room, and gives its length. 01: 0 beyond what was written, all 0 after a
/// refusal.
fn fill(room: &mut [u8], written: Result<Vec<u8>, Refusal>) -> Result<u64, Refusal> {
    room.fill(0);
    written.map(|bytes| {
        room[..bytes.len()].copy_from_slice(&bytes);
        bytes.len() as u64
    })
}

/// The answer by `rules`.
pub fn answer(case: &Case) -> Answer {
    let mut answer = Answer {
        number: 0,
        at: 0,
        room: case.room.clone(),
        length: case.length,
        chunks: Vec::new(),
        numbers: Vec::new(),
    };
    let outcome: Result<u64, Refusal> = match case.call {
        Call::Check => rules::check(&case.document).map(|_| 0),
        Call::Render(renderer) => {
            let run = rules::render(renderer, &case.document, case.room.len());
            fill(&mut answer.room, run.outcome)
        }
        Call::Build(operation) => rules::build(operation, &case.room, case.length, &case.document)
            .map(|result| {
                answer.room[..result.len()].copy_from_slice(&result);
                answer.length = result.len() as u64;
                0
            }),
        Call::Split => {
            answer.chunks = rules::split(&case.document);
            Ok(answer.chunks.len() as u64)
        }
        Call::NextChunk { at, ticks } => {
            put_chunk(&mut answer, (at, ticks), rules::next_chunk(&case.document, (at, ticks)));
            return answer;
        }
        Call::Tabstop => {
            let found = rules::tabstop_of(&case.document);
            answer.numbers = vec![found.map_or(0, |(tabstop, _)| tabstop as u64)];
            found.map(|(_, at)| at as u64)
        }
        Call::PageCount { height } => {
            let count = pages::count(&case.document, height);
            answer.numbers = vec![count.map_or(0, |count| count as u64)];
            count.map(|_| 0)
        }
        Call::Page { height, page } => {
            let part = pages::page(&case.document, height, page);
            let (start, length) = part.unwrap_or((0, 0));
            answer.numbers = vec![start as u64, length as u64];
            part.map(|_| 0)
        }
        Call::Shape => {
            let shape = shape::house_shape(&case.document);
            answer.numbers = vec![(shape == Ok(None)).into()];
            shape.map(|wrong| wrong.unwrap_or(0) as u64)
        }
        Call::Notes => {
            let document = notes::taken_in(&case.document, case.room.len());
            fill(&mut answer.room, document)
        }
        Call::Join => {
            let form = joined::join(&case.document, case.room.len());
            fill(&mut answer.room, form)
        }
        Call::Unjoin => {
            let document = joined::unjoin(&case.document, case.room.len());
            fill(&mut answer.room, document)
        }
        Call::JoinedCheck => joined::check_joined(&case.document).map(|()| 0),
        Call::JoinedRender(renderer) => {
            let run = joined::render(renderer, &case.document, case.room.len());
            fill(&mut answer.room, run.outcome)
        }
        Call::Figures => {
            let found = figures::figures(&case.document);
            let Figures { documents, accepted, refused, characters } = found.unwrap_or_default();
            let numbers = [documents, accepted, refused, characters];
            answer.numbers = numbers.map(|number| number as u64).to_vec();
            found.map(|_| 0)
        }
        Call::RoomBound => {
            rules::check(&case.document).map(|records| rules::room_bound(&records) as u64)
        }
        Call::Merge { first } => {
            let (first, second) = case.document.split_at(first as usize);
            let merged = merge::merge(first, second, case.room.len());
            fill(&mut answer.room, merged)
        }
        Call::Writes { style, cuts } => {
            let pieces = writes::pieces(&case.document, cuts);
            writes::write_all(style, &mut answer.room, &mut answer.length, &pieces).map(|()| 0)
        }
    };
    match outcome {
        Ok(at) => answer.at = at,
        Err(Refusal { number, place }) => (answer.number, answer.at) = (number, place as u64),
    }
    answer
}

/// A chunk as the C interface hands it out: which it is, and the cursor after it; then its ticks, the
/// chunk's start, length and width. Without a chunk the cursor is as it was given, the others are 0.
pub fn put_chunk(answer: &mut Answer, given: PlainCursor, next: Option<(Chunk, PlainCursor)>) {
    let (number, (at, ticks), start, len, width) = match next {
        None => (0, given, 0, 0, 0),
        Some((Chunk::Raw { start, len, width }, after)) => (1, after, start, len, width),
        Some((Chunk::Paragraph { start }, after)) => (2, after, start, 0, 0),
        Some((Chunk::LineBreak { start }, after)) => (3, after, start, 0, 0),
        Some((Chunk::Space { start }, after)) => (4, after, start, 1, 1),
    };
    (answer.number, answer.at) = (number, at);
    answer.numbers = vec![ticks.into(), start as u64, len as u64, width as u64];
}

/// The number of a call in a list, its setting (width, style, block, cursor or length of a side), and
/// its two flags.
/// `None` for a call that no list has.
fn header(call: Call) -> Option<(u8, u64, bool, bool)> {
    Some(match call {
        Call::Check => (0, 0, false, false),
        Call::Render(Renderer::Console { width, full, characters }) => (1, width, full, characters),
        Call::Render(Renderer::Html { full, css, strict: false }) => (2, 0, full, css),
        Call::Render(Renderer::Html { full, css, strict: true }) => (3, 0, full, css),
        Call::Render(Renderer::Markdown { full }) => (4, 0, full, false),
        Call::Render(Renderer::Roff) => (5, 0, false, false),
        Call::Build(Operation::Write { style }) => (6, style.into(), false, false),
        Call::Build(Operation::Open { block }) => (7, block.into(), false, false),
        Call::Build(Operation::Close { block }) => (8, block.into(), false, false),
        Call::Build(Operation::Doc) => (9, 0, false, false),
        Call::Build(Operation::EmDoc) => (10, 0, false, false),
        Call::Split => (11, 0, false, false),
        Call::NextChunk { at, .. } => (12, at, false, false),
        Call::Tabstop => (13, 0, false, false),
        Call::Join => (14, 0, false, false),
        Call::Unjoin => (15, 0, false, false),
        Call::JoinedCheck => (16, 0, false, false),
        // 1 to 5 become 17 to 21
        Call::JoinedRender(renderer) => {
            let (number, setting, full, css) = header(Call::Render(renderer))?;
            (number + 16, setting, full, css)
        }
        Call::Merge { first } => (22, first, false, false),
        Call::PageCount { .. } | Call::Page { .. } | Call::Shape => return None,
        Call::Notes | Call::Figures | Call::RoomBound | Call::Writes { .. } => return None,
    })
}

/// The start that a list gives to the one space of a line end, which is no part of its body.
const NO_START: u32 = 0xFFFF_FFFF;

/// A number: one byte below 255; or a byte 255 and then four bytes, the least first.
fn put(out: &mut Vec<u8>, number: u64) {
    let number = u32::try_from(number).expect("a recorded number fits in 32 bits");
    if number < 255 {
        out.push(number as u8);
    } else {
        out.push(255);
        out.extend_from_slice(&number.to_le_bytes());
    }
}

/// Appends a case and its answer to a list.
///
/// A number `n` is one byte below 255, or a byte 255 and then four bytes, the least first.
/// The pattern has `i * 31 mod 255 + 1` at place `i` of a room.
///
/// ```text
/// n    bytes of this case after this number
/// u8   call: 0 check, 1 console, 2 html, 3 html_strict, 4 markdown, 5 roff,
///      6 write, 7 open, 8 close, 9 doc, 10 em_doc, 11 split, 12 next_chunk, 13 tabstop,
///      14 join, 15 unjoin, 16 joined_check, 17 to 21 the renderers 1 to 5 of a joined form,
///      22 merge
/// n    width (console), style (write), block (open, close), place in the body (next_chunk) or length of
///      the first side (merge); else 0
/// u8   full (console, html, html_strict, markdown), ticks (next_chunk); else 0
/// u8   css (html, html_strict), by characters (console); else 0
/// n    room length R
/// n    document length D
/// D    the document; write: the text; doc, em_doc: the document added; split, next_chunk: the body;
///      15 to 21: the joined form; 22: the first side, then the second
/// 6 to 10 only:
///   n    length so far L (may pass R)
///   the first L bytes of the room before the call, or R if that is less; the others are the pattern
/// the answer:
/// n    number: 0 accepted, else the refusal
/// n    place of a refusal; accepted: length of the text (1 to 5, 17 to 21) or of what was made (14, 15,
///      22), count of chunks (11), else 0
/// accepted 1 to 5, 14, 15, 17 to 22:  the text or what was made; the room's other bytes are 0
/// refused 1 to 5, 14, 15, 17 to 22:   nothing; every byte of the room is 0
/// accepted 6 to 10: n, the new length, and so many bytes; the room's other bytes are the pattern
/// refused 6 to 10:  nothing; length and room are as before
/// 11, for each chunk:
///   u8   0 raw, 1 paragraph, 2 line break
///   n    start in the body; 0xFFFFFFFF for the one space that a line end gives; 0 for tags 1, 2
///   n    length in bytes; 0 for tags 1 and 2
///   n    width; 0 for tags 1 and 2
/// 12, whose number is 0 no chunk, 1 a part of the body, 2 paragraph, 3 line break, 4 line end's space,
/// and whose place is that of the cursor after it:
///   n    ticks of the cursor after it
///   n    where the chunk begins in the body
///   n    length in bytes; 0 for 2 and 3
///   n    width; 0 for 2 and 3
/// 13, whose place, where it is accepted, is that of the record that settles the tabstop:
///   n    the tabstop; 0 after a refusal
/// ```
pub fn list(case: &Case, answer: &Answer, out: &mut Vec<u8>) {
    let mut body = Vec::new();
    let (call, setting, full, css) = header(case.call).expect("a call that lists have");
    body.push(call);
    put(&mut body, setting);
    let full = match case.call {
        Call::NextChunk { ticks, .. } => ticks as u8,
        _ => full.into(),
    };
    body.extend_from_slice(&[full, css.into()]);
    put(&mut body, case.room.len() as u64);
    put(&mut body, case.document.len() as u64);
    body.extend_from_slice(&case.document);
    let builds = matches!(case.call, Call::Build(_));
    if builds {
        put(&mut body, case.length);
        body.extend_from_slice(document_in(&case.room, case.length));
    }
    put(&mut body, answer.number.into());
    put(&mut body, answer.at);
    if answer.number == 0 && builds {
        put(&mut body, answer.length);
        body.extend_from_slice(document_in(&answer.room, answer.length));
    } else if answer.number == 0 && fills_room(case.call) {
        body.extend_from_slice(&answer.room[..answer.at as usize]);
    }
    for chunk in &answer.chunks {
        let (tag, start, len, width) = match *chunk {
            Chunk::Raw { start, len, width } => (0, start as u64, len, width),
            Chunk::Space { .. } => (0, NO_START.into(), 1, 1),
            Chunk::Paragraph { .. } => (1, 0, 0, 0),
            Chunk::LineBreak { .. } => (2, 0, 0, 0),
        };
        body.push(tag);
        [start, len as u64, width as u64].into_iter().for_each(|n| put(&mut body, n));
    }
    answer.numbers.iter().for_each(|&n| put(&mut body, n));
    put(out, body.len() as u64);
    out.extend(body);
}

/// Whether an accepted call fills the first bytes of its room, and zeros the others.
pub fn fills_room(call: Call) -> bool {
    use Call::*;
    matches!(call, Render(_) | Notes | Join | Unjoin | JoinedRender(_) | Merge { .. })
}

/// What a builder's room holds of a document of `length` bytes. The others are the pattern, which a
/// list leaves out.
fn document_in(room: &[u8], length: u64) -> &[u8] {
    let held = length.min(room.len() as u64) as usize;
    assert!(room[held..].iter().copied().eq(pattern(held, room.len())), "a room holds the pattern");
    &room[..held]
}

#[cfg(test)]
mod tests {
    use super::*;

    /// The list form of four cases, byte for byte.
    #[test]
    fn list_form() {
        let form = |case: Case| {
            let mut out = Vec::new();
            list(&case, &answer(&case), &mut out);
            out
        };
        let document = vec![3, 0, 0, 0, 1, 0, b'a', b' ', b'b'];
        let case = Case {
            call: Call::Render(Renderer::Console { width: 2, full: true, characters: true }),
            document: document.clone(),
            room: pattern(0, 4).collect(),
            length: 0,
        };
        let mut expected = vec![20, 1, 2, 1, 1, 4, 9];
        expected.extend(&document);
        expected.extend([0, 3, b'a', b'\n', b'b']);
        assert_eq!(form(case), expected);

        let case = Case {
            call: Call::Build(Operation::Close { block: 11 }),
            document: vec![],
            room: [0, 0, 0, 0, 11, 1].into_iter().chain(pattern(6, 13)).collect(),
            length: 6,
        };
        let mut expected = vec![28, 8, 11, 0, 0, 13, 0, 6, 0, 0, 0, 0, 11, 1];
        expected.extend([0, 0, 12, 0, 0, 0, 0, 11, 1, 0, 0, 0, 0, 11, 2]);
        assert_eq!(form(case), expected);

        // numbers over 254, a length that passes the room, and a refusal
        let case = Case {
            call: Call::Build(Operation::Doc),
            document: vec![7],
            room: pattern(0, 2).collect(),
            length: 0x0102_0304,
        };
        let expected = vec![16, 9, 0, 0, 0, 2, 1, 7, 255, 4, 3, 2, 1, 1, 32, 13, 0];
        assert_eq!(form(case), expected);

        let case = Case { call: Call::Split, document: b"a\nb".to_vec(), room: vec![], length: 0 };
        let mut expected = vec![27, 11, 0, 0, 0, 0, 3];
        expected.extend(b"a\nb");
        expected.extend([0, 3, 0, 0, 1, 1, 0, 255, 255, 255, 255, 255, 1, 1, 0, 2, 1, 1]);
        assert_eq!(form(case), expected);

        let call = Call::NextChunk { at: 1, ticks: 0 };
        let case = Case { call, document: b"a\nb".to_vec(), room: vec![], length: 0 };
        assert_eq!(form(case), [15, 12, 1, 0, 0, 0, 3, b'a', b'\n', b'b', 4, 2, 0, 1, 1, 1]);
    }
}
