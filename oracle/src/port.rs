//! The C interface of the port, where the feature `linked` links it.

use crate::cases::{Answer, Call, Case};
#[cfg(feature = "linked")]
use crate::rules::Renderer;
use crate::rules::{Chunk, Operation};
use crate::writes::pieces;

#[cfg(feature = "linked")]
#[path = "../../wrapper/src/c.rs"]
pub(crate) mod c;

/// Whether the C interface is linked.
pub const LINKED: bool = cfg!(feature = "linked");

/// Bytes before and after each buffer that the port must leave as they are.
const GUARD: usize = 32;
const GUARD_BYTE: u8 = 0xA7;

/// A copy of `bytes` between two guards.
struct Guarded {
    all: Vec<u8>,
}

impl Guarded {
    fn new(bytes: &[u8]) -> Self {
        let guard = [GUARD_BYTE; GUARD];
        Guarded { all: [&guard, bytes, &guard].concat() }
    }

    fn inner(&mut self) -> &mut [u8] {
        let end = self.all.len() - GUARD;
        &mut self.all[GUARD..end]
    }

    fn holds(&mut self, bytes: &[u8]) -> bool {
        self.all == Guarded::new(bytes).all
    }
}

/// No call stores this number, so one that stores nothing is seen.
const UNWRITTEN: usize = usize::MAX / 3;

/// What a call stores besides its room: a length or place, the builder's length, and other numbers.
pub(crate) struct Stored {
    pub at: usize,
    pub length: usize,
    pub numbers: [usize; 4],
}

impl Stored {
    pub(crate) fn new(length: usize) -> Self {
        Stored { at: UNWRITTEN, length, numbers: [UNWRITTEN; 4] }
    }

    /// The other numbers that a call stores.
    fn numbers(&self, call: Call) -> Vec<u64> {
        let count = match call {
            Call::NextChunk { .. } | Call::Figures => 4,
            Call::Tabstop | Call::PageCount { .. } | Call::Shape => 1,
            Call::Page { .. } => 2,
            _ => 0,
        };
        self.numbers[..count].iter().map(|&n| n as u64).collect()
    }
}

/// Makes a case's call. `Err` where a byte outside the room was changed.
pub fn call(case: &Case) -> Result<Answer, String> {
    let mut document = Guarded::new(&case.document);
    let mut room = Guarded::new(&case.room);
    let mut stored = Stored::new(case.length as usize);
    let (mut number_given, mut chunks_given) = (0, Vec::new());
    match case.call {
        Call::Split => {
            chunks_given = chunks(document.inner())?;
            stored.at = chunks_given.len();
        }
        // the port's own writes, one after the other
        Call::Writes { style, cuts } => {
            let write = Call::Build(Operation::Write { style });
            for piece in pieces(document.inner(), cuts) {
                number_given = number(write, piece, room.inner(), &mut stored);
                if number_given != 0 {
                    break;
                }
            }
        }
        call => number_given = number(call, document.inner(), room.inner(), &mut stored),
    }

    let answer = Answer {
        number: number_given,
        at: stored.at as u64,
        room: room.inner().to_vec(),
        length: stored.length as u64,
        chunks: chunks_given,
        numbers: stored.numbers(case.call),
    };
    if !document.holds(&case.document) {
        return Err("the document or a byte beside it was changed".into());
    }
    if !room.holds(&answer.room) {
        return Err("a byte beside the room was changed".into());
    }
    Ok(answer)
}

/// All chunks of a body, each from the cursor that the one before gave back.
fn chunks(body: &[u8]) -> Result<Vec<Chunk>, String> {
    let mut chunks = Vec::new();
    let (mut at, mut ticks) = (0, 0);
    loop {
        let mut stored = Stored::new(0);
        let call = Call::NextChunk { at, ticks };
        let which = number(call, body, &mut [], &mut stored);
        let [after, start, len, width] = stored.numbers;
        chunks.push(match (which, len, width) {
            (0, 0, 0) => return Ok(chunks),
            (1, ..) => Chunk::Raw { start, len, width },
            (2, 0, 0) => Chunk::Paragraph { start },
            (3, 0, 0) => Chunk::LineBreak { start },
            (4, 1, 1) => Chunk::Space { start },
            _ => return Err(format!("chunk {which} of length {len} and width {width}")),
        });
        (at, ticks) = (stored.at as u64, after as u32);
        if chunks.len() > body.len() {
            return Err(format!("more chunks than bytes: {chunks:?}"));
        }
    }
}

/// One call of the C interface: the number that it returns.
#[cfg(feature = "linked")]
pub(crate) fn number(call: Call, document: &[u8], room: &mut [u8], stored: &mut Stored) -> u32 {
    let (d, n) = (document.as_ptr(), document.len());
    let (r, r_len) = (room.as_mut_ptr(), room.len());
    let Stored { at, length, numbers: [first, second, third, fourth] } = stored;
    // SAFETY: every pointer is of a live buffer with the length passed beside it, and no two
    // buffers overlap.
    unsafe {
        match call {
            Call::Check => c::sefgrunn_check(d, n, at),
            Call::Render(Renderer::Console { width, full, characters }) => {
                c::sefgrunn_console(d, n, width as usize, full, characters, r, r_len, at)
            }
            Call::Render(Renderer::Html { full, css, strict: false }) => {
                c::sefgrunn_html(d, n, full, css, r, r_len, at)
            }
            Call::Render(Renderer::Html { full, css, strict: true }) => {
                c::sefgrunn_html_strict(d, n, full, css, r, r_len, at)
            }
            Call::Render(Renderer::Markdown { full }) => {
                c::sefgrunn_markdown(d, n, full, r, r_len, at)
            }
            Call::Render(Renderer::Roff) => c::sefgrunn_roff(d, n, r, r_len, at),
            Call::Build(operation) => match operation {
                Operation::Write { style } => c::sefgrunn_write(r, r_len, length, style, d, n, at),
                Operation::Open { block } => c::sefgrunn_open(r, r_len, length, block, at),
                Operation::Close { block } => c::sefgrunn_close(r, r_len, length, block, at),
                Operation::Doc => c::sefgrunn_doc(r, r_len, length, d, n, at),
                Operation::EmDoc => c::sefgrunn_em_doc(r, r_len, length, d, n, at),
            },
            Call::Split | Call::Writes { .. } => unreachable!("made of several calls"),
            Call::NextChunk { at: from, mut ticks } => {
                *at = from as usize;
                let number = c::sefgrunn_next_chunk(d, n, at, &mut ticks, second, third, fourth);
                *first = ticks as usize;
                number
            }
            Call::Tabstop => c::sefgrunn_tabstop(d, n, first, at),
            // pages have no place
            Call::PageCount { height } => {
                *at = 0;
                c::sefgrunn_page_count(d, n, height as usize, first)
            }
            Call::Page { height, page } => {
                *at = 0;
                c::sefgrunn_page(d, n, height as usize, page as usize, first, second)
            }
            Call::Notes => c::sefgrunn_notes(d, n, r, r_len, at),
            Call::Figures => c::sefgrunn_figures(d, n, first, second, third, fourth, at),
            Call::RoomBound => c::sefgrunn_room_bound(d, n, at),
            Call::Merge { first } => {
                let (a, b) = document.split_at(first as usize);
                c::sefgrunn_merge(a.as_ptr(), a.len(), b.as_ptr(), b.len(), r, r_len, at)
            }
            Call::Join => c::sefgrunn_join(d, n, r, r_len, at),
            Call::Unjoin => c::sefgrunn_unjoin(d, n, r, r_len, at),
            Call::JoinedCheck => c::sefgrunn_joined_check(d, n, at),
            Call::JoinedRender(Renderer::Console { width, full, characters }) => {
                c::sefgrunn_joined_console(d, n, width as usize, full, characters, r, r_len, at)
            }
            Call::JoinedRender(Renderer::Html { full, css, strict: false }) => {
                c::sefgrunn_joined_html(d, n, full, css, r, r_len, at)
            }
            Call::JoinedRender(Renderer::Html { full, css, strict: true }) => {
                c::sefgrunn_joined_html_strict(d, n, full, css, r, r_len, at)
            }
            Call::JoinedRender(Renderer::Markdown { full }) => {
                c::sefgrunn_joined_markdown(d, n, full, r, r_len, at)
            }
            Call::JoinedRender(Renderer::Roff) => c::sefgrunn_joined_roff(d, n, r, r_len, at),
            Call::Shape => {
                let mut shaped = u32::MAX;
                let number = c::sefgrunn_house_shape(d, n, &mut shaped, at);
                *first = shaped as usize;
                number
            }
        }
    }
}

/// A call of the builder by a draft; the number that it returns.
#[cfg(feature = "linked")]
pub(crate) fn number_by_draft(
    operation: Operation,
    text: &[u8],
    room: &mut [u8],
    draft: &mut [u64; 8],
) -> u32 {
    let mut place = UNWRITTEN;
    let (r, r_len, d) = (room.as_mut_ptr(), room.len(), draft.as_mut_ptr());
    let (t, n, at) = (text.as_ptr(), text.len(), &mut place);
    // SAFETY: each pointer is of a live slice or number, none overlap, and the draft has eight words.
    unsafe {
        match operation {
            Operation::Write { style } => c::sefgrunn_draft_write(r, r_len, d, style, t, n, at),
            Operation::Open { block } => c::sefgrunn_draft_open(r, r_len, d, block, at),
            Operation::Close { block } => c::sefgrunn_draft_close(r, r_len, d, block, at),
            Operation::Doc => c::sefgrunn_draft_doc(r, r_len, d, t, n, at),
            Operation::EmDoc => c::sefgrunn_draft_em_doc(r, r_len, d, t, n, at),
        }
    }
}

#[cfg(not(feature = "linked"))]
pub(crate) fn number_by_draft(_: Operation, _: &[u8], _: &mut [u8], _: &mut [u64; 8]) -> u32 {
    unreachable!("asked only where the C interface is linked")
}

#[cfg(not(feature = "linked"))]
pub(crate) fn number(_: Call, _: &[u8], _: &mut [u8], _: &mut Stored) -> u32 {
    unreachable!("asked only where the C interface is linked")
}
