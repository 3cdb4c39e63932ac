//! The joined form of a document: its text in one place, then its records without bodies. Whoever
//! searches many documents has their text at hand without walking records.
//!
//! The form is the length of the text in four bytes, the least first, the text, then for each record of
//! the document its four-byte length and two-byte kind; the texts follow one another in the joined
//! text. It renders as its document does. Places of refusals are offsets in the joined form: that of
//! refusal 10 is the chunk's byte in the text.
//!
//! ```
//! use sefgrunn::{joined, Builder, Settings, Style};
//!
//! # fn main() -> Result<(), sefgrunn::Refusal> {
//! let mut page = Builder::new();
//! page.write(Style::Text, "see ")?.write(Style::Literal, "--port")?;
//! let form = joined::from_document(&page.finish()?)?;
//! assert_eq!(joined::text(&form), Some(&b"see --port"[..]));
//! assert_eq!(joined::console_string(&form, Settings::default())?, "see --port");
//! # Ok(())
//! # }
//! ```

use crate::{accepted, grown, in_room_of, linked, made, Html, Refusal, Settings, MOST_BYTES};

/// The most bytes that a joined form may have: four more than a document.
pub const MOST_JOINED_BYTES: usize = MOST_BYTES + 4;

/// The text of a joined form, as a part of it; `None` where it has under four bytes or its text runs
/// past its end. Nothing else is looked at: that the text is UTF-8, and that the records share it out,
/// is for [`check`].
pub fn text(joined: &[u8]) -> Option<&[u8]> {
    let (length, rest) = joined.split_first_chunk::<4>()?;
    rest.get(..usize::try_from(u32::from_le_bytes(*length)).ok()?)
}

/// Whether bytes are a joined form: refusals 1, 17, 2 to 8 and 18.
pub fn check(joined: &[u8]) -> Result<(), Refusal> {
    let (number, place) = linked::joined_check(joined);
    accepted(number, place)
}

/// A document moved over into a room. Refusals 1 to 8 of the document, then 13.
///
/// Every byte of the room is written: the joined form, then zeros; only zeros where the call is
/// refused.
pub fn join<'r>(document: &[u8], room: &'r mut [u8]) -> Result<&'r [u8], Refusal> {
    let answer = linked::join(document, room);
    made(room, answer)
}

/// A joined form moved back into a room. Refusals 1, 17, 2 to 8 and 18, then 13. The room as for
/// [`join`].
pub fn unjoin<'r>(joined: &[u8], room: &'r mut [u8]) -> Result<&'r [u8], Refusal> {
    let answer = linked::unjoin(joined, room);
    made(room, answer)
}

/// [`join`] as a `Vec`.
pub fn from_document(document: &[u8]) -> Result<Vec<u8>, Refusal> {
    in_room_of(MOST_JOINED_BYTES, |room| join(document, room).map(<[u8]>::len))
}

/// [`unjoin`] as a `Vec`.
pub fn to_document(joined: &[u8]) -> Result<Vec<u8>, Refusal> {
    in_room_of(MOST_BYTES, |room| unjoin(joined, room).map(<[u8]>::len))
}

/// As [`crate::console`], of a joined form; refusals 17 and 18 too.
pub fn console<'r>(
    joined: &[u8],
    settings: Settings,
    room: &'r mut [u8],
) -> Result<&'r str, Refusal> {
    let answer = linked::joined_console(joined, settings, room);
    crate::text(room, answer)
}

/// As [`crate::html`], of a joined form; refusals 17 and 18 too.
pub fn html<'r>(joined: &[u8], html: Html, room: &'r mut [u8]) -> Result<&'r str, Refusal> {
    let answer = linked::joined_html(joined, html.full, html.css, room);
    crate::text(room, answer)
}

/// As [`crate::html_strict`], of a joined form; refusals 17 and 18 too.
pub fn html_strict<'r>(joined: &[u8], html: Html, room: &'r mut [u8]) -> Result<&'r str, Refusal> {
    let answer = linked::joined_html_strict(joined, html.full, html.css, room);
    crate::text(room, answer)
}

/// As [`crate::markdown`], of a joined form; refusals 17 and 18 too.
pub fn markdown<'r>(joined: &[u8], full: bool, room: &'r mut [u8]) -> Result<&'r str, Refusal> {
    let answer = linked::joined_markdown(joined, full, room);
    crate::text(room, answer)
}

/// As [`crate::roff`], of a joined form; refusals 17 and 18 too.
pub fn roff<'r>(joined: &[u8], room: &'r mut [u8]) -> Result<&'r str, Refusal> {
    let answer = linked::joined_roff(joined, room);
    crate::text(room, answer)
}

/// [`console`] as a `String`; 13 only where [`crate::MOST_ROOM`] is too small.
pub fn console_string(joined: &[u8], settings: Settings) -> Result<String, Refusal> {
    grown(|room| console(joined, settings, room).map(str::len))
}
