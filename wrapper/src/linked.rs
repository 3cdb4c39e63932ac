//! The functions of `include/sefgrunn.h`, each behind a safe one: number, and length or place, or what
//! else it stores.
//!
//! Every call below meets what the header asks: each pointer is of a live slice (never null, also of
//! an empty one) or of a local number, with the slice's own length beside it, and no two overlap,
//! because a `&mut` overlaps with nothing.

use crate::{c, Figures, Measure, Settings};

pub fn check(document: &[u8]) -> (u32, usize) {
    let mut place = 0;
    // SAFETY: see above.
    let number = unsafe { c::sefgrunn_check(document.as_ptr(), document.len(), &mut place) };
    (number, place)
}

pub fn console(document: &[u8], settings: Settings, room: &mut [u8]) -> (u32, usize) {
    let (d, n, r, len, mut at) = parts(document, room);
    let Settings { width, full, measure } = settings;
    let characters = measure == Measure::Characters;
    // SAFETY: see above.
    let number = unsafe { c::sefgrunn_console(d, n, width, full, characters, r, len, &mut at) };
    (number, at)
}

pub fn html(document: &[u8], full: bool, css: bool, room: &mut [u8]) -> (u32, usize) {
    let (d, n, r, len, mut at) = parts(document, room);
    // SAFETY: see above.
    let number = unsafe { c::sefgrunn_html(d, n, full, css, r, len, &mut at) };
    (number, at)
}

pub fn html_strict(document: &[u8], full: bool, css: bool, room: &mut [u8]) -> (u32, usize) {
    let (d, n, r, len, mut at) = parts(document, room);
    // SAFETY: see above.
    let number = unsafe { c::sefgrunn_html_strict(d, n, full, css, r, len, &mut at) };
    (number, at)
}

pub fn markdown(document: &[u8], full: bool, room: &mut [u8]) -> (u32, usize) {
    let (d, n, r, len, mut at) = parts(document, room);
    // SAFETY: see above.
    let number = unsafe { c::sefgrunn_markdown(d, n, full, r, len, &mut at) };
    (number, at)
}

pub fn roff(document: &[u8], room: &mut [u8]) -> (u32, usize) {
    let (d, n, r, len, mut at) = parts(document, room);
    // SAFETY: see above.
    let number = unsafe { c::sefgrunn_roff(d, n, r, len, &mut at) };
    (number, at)
}

/// A draft of the document in a room; see `include/sefgrunn.h`.
pub type Draft = [u64; 8];

pub fn draft_write(room: &mut [u8], draft: &mut Draft, style: u32, text: &[u8]) -> (u32, usize) {
    let (t, n, r, len, mut place) = parts(text, room);
    let draft = draft.as_mut_ptr();
    // SAFETY: see above; the draft has eight words.
    let number = unsafe { c::sefgrunn_draft_write(r, len, draft, style, t, n, &mut place) };
    (number, place)
}

pub fn draft_open(room: &mut [u8], draft: &mut Draft, block: u32) -> (u32, usize) {
    let (_, _, r, len, mut place) = parts(&[], room);
    // SAFETY: see above; the draft has eight words.
    let number = unsafe { c::sefgrunn_draft_open(r, len, draft.as_mut_ptr(), block, &mut place) };
    (number, place)
}

pub fn draft_close(room: &mut [u8], draft: &mut Draft, block: u32) -> (u32, usize) {
    let (_, _, r, len, mut place) = parts(&[], room);
    // SAFETY: see above; the draft has eight words.
    let number = unsafe { c::sefgrunn_draft_close(r, len, draft.as_mut_ptr(), block, &mut place) };
    (number, place)
}

pub fn draft_doc(room: &mut [u8], draft: &mut Draft, added: &[u8]) -> (u32, usize) {
    let (a, n, r, len, mut place) = parts(added, room);
    // SAFETY: see above; the draft has eight words.
    let number = unsafe { c::sefgrunn_draft_doc(r, len, draft.as_mut_ptr(), a, n, &mut place) };
    (number, place)
}

pub fn draft_em_doc(room: &mut [u8], draft: &mut Draft, added: &[u8]) -> (u32, usize) {
    let (a, n, r, len, mut place) = parts(added, room);
    // SAFETY: see above; the draft has eight words.
    let number = unsafe { c::sefgrunn_draft_em_doc(r, len, draft.as_mut_ptr(), a, n, &mut place) };
    (number, place)
}

/// The number, whether the document has house shape, and the place.
pub fn house_shape(document: &[u8]) -> (u32, bool, usize) {
    let (mut shaped, mut place) = (0, 0);
    let (d, n) = (document.as_ptr(), document.len());
    // SAFETY: see above.
    let number = unsafe { c::sefgrunn_house_shape(d, n, &mut shaped, &mut place) };
    (number, shaped != 0, place)
}

pub fn room_bound(document: &[u8]) -> (u32, usize) {
    let mut at = 0;
    // SAFETY: see above.
    let number = unsafe { c::sefgrunn_room_bound(document.as_ptr(), document.len(), &mut at) };
    (number, at)
}

/// The number, the tabstop, and what settles it or the place.
pub fn tabstop(document: &[u8]) -> (u32, usize, usize) {
    let (mut tabstop, mut at) = (0, 0);
    let (d, n) = (document.as_ptr(), document.len());
    // SAFETY: see above.
    let number = unsafe { c::sefgrunn_tabstop(d, n, &mut tabstop, &mut at) };
    (number, tabstop, at)
}

pub fn join(document: &[u8], room: &mut [u8]) -> (u32, usize) {
    let (d, n, r, len, mut at) = parts(document, room);
    // SAFETY: see above.
    let number = unsafe { c::sefgrunn_join(d, n, r, len, &mut at) };
    (number, at)
}

pub fn unjoin(joined: &[u8], room: &mut [u8]) -> (u32, usize) {
    let (d, n, r, len, mut at) = parts(joined, room);
    // SAFETY: see above.
    let number = unsafe { c::sefgrunn_unjoin(d, n, r, len, &mut at) };
    (number, at)
}

pub fn joined_check(joined: &[u8]) -> (u32, usize) {
    let mut place = 0;
    // SAFETY: see above.
    let number = unsafe { c::sefgrunn_joined_check(joined.as_ptr(), joined.len(), &mut place) };
    (number, place)
}

pub fn joined_console(joined: &[u8], settings: Settings, room: &mut [u8]) -> (u32, usize) {
    let (d, n, r, len, mut at) = parts(joined, room);
    let Settings { width, full, measure } = settings;
    let characters = measure == Measure::Characters;
    // SAFETY: see above.
    let number =
        unsafe { c::sefgrunn_joined_console(d, n, width, full, characters, r, len, &mut at) };
    (number, at)
}

pub fn joined_html(joined: &[u8], full: bool, css: bool, room: &mut [u8]) -> (u32, usize) {
    let (d, n, r, len, mut at) = parts(joined, room);
    // SAFETY: see above.
    let number = unsafe { c::sefgrunn_joined_html(d, n, full, css, r, len, &mut at) };
    (number, at)
}

pub fn joined_html_strict(joined: &[u8], full: bool, css: bool, room: &mut [u8]) -> (u32, usize) {
    let (d, n, r, len, mut at) = parts(joined, room);
    // SAFETY: see above.
    let number = unsafe { c::sefgrunn_joined_html_strict(d, n, full, css, r, len, &mut at) };
    (number, at)
}

pub fn joined_markdown(joined: &[u8], full: bool, room: &mut [u8]) -> (u32, usize) {
    let (d, n, r, len, mut at) = parts(joined, room);
    // SAFETY: see above.
    let number = unsafe { c::sefgrunn_joined_markdown(d, n, full, r, len, &mut at) };
    (number, at)
}

pub fn joined_roff(joined: &[u8], room: &mut [u8]) -> (u32, usize) {
    let (d, n, r, len, mut at) = parts(joined, room);
    // SAFETY: see above.
    let number = unsafe { c::sefgrunn_joined_roff(d, n, r, len, &mut at) };
    (number, at)
}

/// The number, the figures and the place.
pub fn figures(bundle: &[u8]) -> (u32, Figures, usize) {
    let mut found = Figures { documents: 0, accepted: 0, refused: 0, characters: 0 };
    let Figures { documents, accepted, refused, characters } = &mut found;
    let mut place = 0;
    let (b, n) = (bundle.as_ptr(), bundle.len());
    // SAFETY: see above.
    let number =
        unsafe { c::sefgrunn_figures(b, n, documents, accepted, refused, characters, &mut place) };
    (number, found, place)
}

pub fn merge(first: &[u8], second: &[u8], room: &mut [u8]) -> (u32, usize) {
    let (f, n, r, len, mut at) = parts(first, room);
    let (s, m) = (second.as_ptr(), second.len());
    // SAFETY: see above; both sides are only read, so that they may be the same.
    let number = unsafe { c::sefgrunn_merge(f, n, s, m, r, len, &mut at) };
    (number, at)
}

pub fn notes(notes: &[u8], room: &mut [u8]) -> (u32, usize) {
    let (d, n, r, len, mut at) = parts(notes, room);
    // SAFETY: see above.
    let number = unsafe { c::sefgrunn_notes(d, n, r, len, &mut at) };
    (number, at)
}

/// The number and the count.
pub fn page_count(text: &[u8], height: usize) -> (u32, usize) {
    let mut count = 0;
    // SAFETY: see above.
    let number = unsafe { c::sefgrunn_page_count(text.as_ptr(), text.len(), height, &mut count) };
    (number, count)
}

/// The number, and the page's start and length.
pub fn page(text: &[u8], height: usize, page: usize) -> (u32, usize, usize) {
    let (mut start, mut length) = (0, 0);
    let (t, n) = (text.as_ptr(), text.len());
    // SAFETY: see above.
    let number = unsafe { c::sefgrunn_page(t, n, height, page, &mut start, &mut length) };
    (number, start, length)
}

/// Which chunk there is, its start, length and width; the cursor is moved behind it.
pub fn next_chunk(body: &[u8], at: &mut usize, ticks: &mut u32) -> (u32, usize, usize, usize) {
    let (mut start, mut length, mut width) = (0, 0, 0);
    let (b, n) = (body.as_ptr(), body.len());
    // SAFETY: see above.
    let which =
        unsafe { c::sefgrunn_next_chunk(b, n, at, ticks, &mut start, &mut length, &mut width) };
    (which, start, length, width)
}

/// Pointers and lengths of what is read and what is written, and a number for the answer.
fn parts(read: &[u8], room: &mut [u8]) -> (*const u8, usize, *mut u8, usize, usize) {
    (read.as_ptr(), read.len(), room.as_mut_ptr(), room.len(), 0)
}
