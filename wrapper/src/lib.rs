//! Help text of stored documents: a safe interface to `libsefgrunn.a`.
//!
//! A stored document is bytes: text in five styles, and starts and ends of blocks. A [`Builder`]
//! makes one; [`check`] says whether bytes are one; [`console`], [`html`], [`html_strict`],
//! [`markdown`] and [`roff`] write its text into a room that the caller lends, and the functions
//! whose names end in `_string` do so into a `String`. Whatever the bytes, the width and the room
//! are, the answer is a text or one [`Refusal`]. [`chunks`] takes a text apart as the renderers do.
//! The library keeps nothing between calls, so any thread may call it. `docs/FORMAT.md` describes
//! stored documents and what each renderer writes.
//!
//! ```
//! use sefgrunn::{Block, Builder, Settings, Style};
//!
//! # fn main() -> Result<(), sefgrunn::Refusal> {
//! let mut page = Builder::new();
//! page.open(Block::DefinitionList)?;
//! page.open(Block::ItemTerm)?.write(Style::Literal, "-p")?.close(Block::ItemTerm)?;
//! page.open(Block::ItemBody)?.write(Style::Text, "port")?.close(Block::ItemBody)?;
//! page.close(Block::DefinitionList)?;
//! let document = page.finish()?;
//! assert_eq!(sefgrunn::console_string(&document, Settings::default())?, "    -p  port");
//! # Ok(())
//! # }
//! ```

use std::error::Error;
use std::fmt;

mod c;
pub mod joined;
mod linked;

/// The most bytes that a document may have.
pub const MOST_BYTES: usize = 32_768;
/// The largest width of console text, in columns.
pub const MOST_WIDTH: usize = 10_000;
/// The largest room that a function whose name ends in `_string`, but [`console_string`], tries: 1 MiB.
pub const MOST_ROOM: usize = 1 << 20;

/// The room that such a function tries first; each next one is twice as large.
const FIRST_ROOM: usize = 4_096;

// ---------------------------------------------------------------------------------------------
// Refusals

/// Why a call was refused, by the names and numbers of `include/sefgrunn.h`.
#[derive(Debug, Clone, Copy, PartialEq, Eq, Hash, PartialOrd, Ord)]
#[repr(u32)]
pub enum Number {
    /// The document, or notes, are over 32,768 bytes, or a joined form over 32,772. Place 0.
    TooLong = 1,
    /// Under 6 bytes are left, or a body is longer than what is left. Place of the record.
    CutShort = 2,
    /// A record's kind is unknown. Place of the record.
    UnknownKind = 3,
    /// A block record has a body. Place of the record.
    BlockWithBody = 4,
    /// A text is not UTF-8 by itself. Place of the record; 0 for text given to [`Builder::write`].
    NotUtf8 = 5,
    /// An end is not of the innermost open block. Place of the record.
    WrongEnd = 6,
    /// A block starts where 32 are open. Place of the record.
    TooDeep = 7,
    /// The document ends with a block open. The place is its length.
    LeftOpen = 8,
    /// The width is over 10,000. Place 0.
    TooWide = 9,
    /// A chunk misses more than 50 columns to its margin. Place of the chunk's first byte, or where an
    /// empty chunk would stand.
    BeyondMargin = 10,
    /// Meta in HTML or Markdown, TermRef in roff. Place of the record.
    NoForm = 11,
    // 12 is not used again.
    /// The room is too small. Place 0.
    NoRoom = 13,
    /// A record of a bundle has another kind than 0x0300. Place of the record.
    BundleKind = 14,
    /// A record of a bundle is cut short. Place of the record.
    BundleCutShort = 15,
    /// A bundle is over 65,536 bytes. Place 0.
    BundleTooLong = 16,
    /// A joined form has under four bytes, or its text runs past its end. Place 0.
    NoJoinedText = 17,
    /// A record's text passes the end of the joined text: place of the record. Or joined text is left
    /// over: the place is the form's length.
    WrongShare = 18,
    /// Notes are not UTF-8. Place 0.
    NotesNotUtf8 = 19,
    /// The height of a page is outside 1 to 200. Place 0.
    WrongHeight = 20,
    /// A page is 0 or beyond the last. Place 0.
    NoPage = 21,
    /// A side to merge is not a single list in house shape. Place 0.
    NotAList = 22,
    /// The terms of a side to merge do not strictly ascend. Place 0.
    NotAscending = 23,
}

impl Number {
    /// All of them, in order.
    pub const ALL: [Number; 22] = [
        Number::TooLong,
        Number::CutShort,
        Number::UnknownKind,
        Number::BlockWithBody,
        Number::NotUtf8,
        Number::WrongEnd,
        Number::TooDeep,
        Number::LeftOpen,
        Number::TooWide,
        Number::BeyondMargin,
        Number::NoForm,
        Number::NoRoom,
        Number::BundleKind,
        Number::BundleCutShort,
        Number::BundleTooLong,
        Number::NoJoinedText,
        Number::WrongShare,
        Number::NotesNotUtf8,
        Number::WrongHeight,
        Number::NoPage,
        Number::NotAList,
        Number::NotAscending,
    ];

    /// The header's number.
    pub fn get(self) -> u32 {
        self as u32
    }

    fn meaning(self) -> &'static str {
        match self {
            Number::TooLong => "the document is over 32,768 bytes",
            Number::CutShort => "a record is cut short",
            Number::UnknownKind => "unknown kind",
            Number::BlockWithBody => "a block record has a body",
            Number::NotUtf8 => "text is not UTF-8",
            Number::WrongEnd => "an end is not of the innermost open block",
            Number::TooDeep => "more than 32 blocks are open",
            Number::LeftOpen => "the document ends with a block open",
            Number::TooWide => "the width is over 10,000",
            Number::BeyondMargin => "text is more than 50 columns before its margin",
            Number::NoForm => "this form has no such block",
            Number::NoRoom => "no room",
            Number::BundleKind => "a record of a bundle is no document",
            Number::BundleCutShort => "a record of a bundle is cut short",
            Number::BundleTooLong => "the bundle is over 65,536 bytes",
            Number::NoJoinedText => "a joined form without its text",
            Number::WrongShare => "the records do not share out the joined text",
            Number::NotesNotUtf8 => "notes are not UTF-8",
            Number::WrongHeight => "the height of a page is outside 1 to 200",
            Number::NoPage => "there is no such page",
            Number::NotAList => "a side to merge is not a single list",
            Number::NotAscending => "the terms of a side to merge do not ascend",
        }
    }
}

impl fmt::Display for Number {
    fn fmt(&self, f: &mut fmt::Formatter<'_>) -> fmt::Result {
        f.write_str(self.meaning())
    }
}

/// A refused call: why, and where in the document.
#[derive(Debug, Clone, Copy, PartialEq, Eq, Hash)]
pub struct Refusal {
    /// Why the call was refused.
    pub number: Number,
    /// The place, in bytes from the document's start; [`Number`] says of what.
    pub place: usize,
}

impl fmt::Display for Refusal {
    fn fmt(&self, f: &mut fmt::Formatter<'_>) -> fmt::Result {
        write!(f, "refused {} at {}: {}", self.number.get(), self.place, self.number)
    }
}

impl Error for Refusal {}

/// What the library answers: 0, or the number of a refusal.
fn accepted(number: u32, place: usize) -> Result<(), Refusal> {
    if number == 0 {
        return Ok(());
    }
    match Number::ALL.into_iter().find(|known| known.get() == number) {
        Some(number) => Err(Refusal { number, place }),
        None => panic!("libsefgrunn.a answered {number}, which is no number of a refusal"),
    }
}

// ---------------------------------------------------------------------------------------------
// Checking and rendering

/// Whether bytes are a stored document: refusals 1 to 8.
pub fn check(document: &[u8]) -> Result<(), Refusal> {
    let (number, place) = linked::check(document);
    accepted(number, place)
}

/// What the test that folds a line adds to the columns so far.
#[derive(Debug, Clone, Copy, PartialEq, Eq, Hash, Default)]
pub enum Measure {
    /// The bytes of the next word, as bpaf does: `é é` folds at width 3.
    #[default]
    Bytes,
    /// The characters of the next word, each counting one, a combining one too: `é é` folds at
    /// width 2.
    Characters,
}

/// Whether a document has house shape.
#[derive(Debug, Clone, Copy, PartialEq, Eq, Hash)]
pub enum Shape {
    /// It has.
    House,
    /// It has not. The place is the start of the first record after which no further records could
    /// lead to a document of that shape.
    Other(usize),
}

/// Whether a document has house shape, which rendering does not ask for: a run of parts. A part is
/// text, a DefinitionList, or one of the other blocks around parts. A list holds pairs of an ItemTerm
/// and an ItemBody, a body holds parts, and a term holds text, TermRef, Mono and InlineBlock, these
/// around the same. Terms and bodies stand nowhere else. Refusals 1 to 8.
///
/// ```
/// use sefgrunn::{house_shape, Block, Builder, Shape, Style};
///
/// # fn main() -> Result<(), sefgrunn::Refusal> {
/// let mut page = Builder::new();
/// page.open(Block::DefinitionList)?.write(Style::Text, "no term")?;
/// page.close(Block::DefinitionList)?;
/// assert_eq!(house_shape(&page.finish()?)?, Shape::Other(6));
/// # Ok(())
/// # }
/// ```
pub fn house_shape(document: &[u8]) -> Result<Shape, Refusal> {
    let (number, shaped, place) = linked::house_shape(document);
    accepted(number, place)?;
    Ok(if shaped { Shape::House } else { Shape::Other(place) })
}

/// How console text is laid out.
///
/// ```
/// use sefgrunn::{Measure, Settings};
///
/// let french = Settings { width: 80, measure: Measure::Characters, ..Settings::default() };
/// assert!(french.full);
/// ```
#[derive(Debug, Clone, Copy, PartialEq, Eq)]
pub struct Settings {
    /// Columns, at most [`MOST_WIDTH`].
    pub width: usize,
    /// All of the text; or else the first empty line in a text ends it, and text is left out until
    /// an InlineBlock ends that was open there, or to the document's end.
    pub full: bool,
    /// What a line is folded by.
    pub measure: Measure,
}

impl Default for Settings {
    /// All of the text, 100 columns wide, folded by bytes.
    fn default() -> Self {
        Settings { width: 100, full: true, measure: Measure::Bytes }
    }
}

/// What of a document HTML shows.
#[derive(Debug, Clone, Copy, PartialEq, Eq)]
pub struct Html {
    /// All of the text; or else the first empty line in a text ends it, and text is left out until
    /// an InlineBlock ends that was open there, or to the document's end.
    pub full: bool,
    /// With the style sheet after it.
    pub css: bool,
}

impl Default for Html {
    /// All of the text, without a style sheet.
    fn default() -> Self {
        Html { full: true, css: false }
    }
}

/// The text that a call left in a room. Every byte behind it is 0, and all are after a refusal.
fn text(room: &[u8], (number, at): (u32, usize)) -> Result<&str, Refusal> {
    accepted(number, at)?;
    Ok(std::str::from_utf8(&room[..at]).expect("the text of an accepted document is UTF-8"))
}

/// Monochrome console text. Refusals 1 to 10 and 13.
///
/// Every byte of the room is written: the text, then zeros; only zeros where the call is refused.
pub fn console<'r>(
    document: &[u8],
    settings: Settings,
    room: &'r mut [u8],
) -> Result<&'r str, Refusal> {
    let answer = linked::console(document, settings, room);
    text(room, answer)
}

/// HTML. Refusals 1 to 8, 11 and 13. The room as for [`console`].
pub fn html<'r>(document: &[u8], html: Html, room: &'r mut [u8]) -> Result<&'r str, Refusal> {
    let answer = linked::html(document, html.full, html.css, room);
    text(room, answer)
}

/// HTML in which every `&` of the text becomes `&amp;`, also one that opens `&amp;`, `&lt;` or
/// `&gt;`: the page shows the text as it is. Refusals and room as for [`html`].
pub fn html_strict<'r>(
    document: &[u8],
    html: Html,
    room: &'r mut [u8],
) -> Result<&'r str, Refusal> {
    let answer = linked::html_strict(document, html.full, html.css, room);
    text(room, answer)
}

/// Markdown. Refusals 1 to 8, 11 and 13. The room as for [`console`].
pub fn markdown<'r>(document: &[u8], full: bool, room: &'r mut [u8]) -> Result<&'r str, Refusal> {
    let answer = linked::markdown(document, full, room);
    text(room, answer)
}

/// Roff, for man pages. Refusals 1 to 8, 11 and 13. The room as for [`console`].
///
/// Headings are upper-cased by the full mapping of Unicode 17.0.0, in which some characters become two
/// or three: `ß` becomes `SS`.
///
/// The text is a page's body. Write two lines before it, a title and one that turns hyphenation off:
///
/// ```text
/// .TH NAME 1
/// .nh
/// ```
///
/// Without `.TH`, groff shows no headings and other characters for `-` and backticks. Without `.nh`,
/// it hyphenates words at line ends, options too: `--certificate` becomes `--cer`, a hyphen that the
/// document does not have, and `tificate` on the next line.
pub fn roff<'r>(document: &[u8], room: &'r mut [u8]) -> Result<&'r str, Refusal> {
    let answer = linked::roff(document, room);
    text(room, answer)
}

/// Where console text puts the bodies of a list.
#[derive(Debug, Clone, Copy, PartialEq, Eq)]
pub struct Tabstop {
    /// The characters of the widest ItemTerm that has at most 24, or 0 where there is none, plus 4.
    /// One count serves nested terms: each start sets it back to 0, each end stops it.
    pub columns: usize,
    /// The start of the first ItemTerm end whose count is 24, after which no term changes the
    /// tabstop; the document's length where there is none.
    pub settled: usize,
}

/// The tabstop of a document. Refusals 1 to 8.
pub fn tabstop(document: &[u8]) -> Result<Tabstop, Refusal> {
    let (number, columns, at) = linked::tabstop(document);
    accepted(number, at)?;
    Ok(Tabstop { columns, settled: at })
}

/// The bytes that a call made in a room.
fn made(room: &[u8], (number, at): (u32, usize)) -> Result<&[u8], Refusal> {
    accepted(number, at)?;
    Ok(&room[..at])
}

/// What is made in a room of so many bytes, as a `Vec`.
fn in_room_of(
    most: usize,
    make: impl FnOnce(&mut [u8]) -> Result<usize, Refusal>,
) -> Result<Vec<u8>, Refusal> {
    let mut room = vec![0; most];
    let length = make(&mut room)?;
    room.truncate(length);
    Ok(room)
}

/// The text in the first room that is large enough, up to [`MOST_ROOM`].
fn grown(render: impl Fn(&mut [u8]) -> Result<usize, Refusal>) -> Result<String, Refusal> {
    let mut room = vec![0; FIRST_ROOM];
    loop {
        match render(&mut room) {
            Ok(length) => {
                room.truncate(length);
                return Ok(String::from_utf8(room).expect("what was a &str is UTF-8"));
            }
            Err(refusal) if refusal.number == Number::NoRoom && room.len() < MOST_ROOM => {
                room = vec![0; 2 * room.len()];
            }
            Err(refusal) => return Err(refusal),
        }
    }
}

/// How much room to lend to [`console`]: 54 times the bytes of the document's text, plus the number of
/// TermRef starts and ends, plus 1. With so much it never refuses by 13, whatever the settings are.
/// Refusals 1 to 8.
pub fn room_bound(document: &[u8]) -> Result<usize, Refusal> {
    let (number, at) = linked::room_bound(document);
    accepted(number, at)?;
    Ok(at)
}

/// [`console`] as a `String`, in a room of [`room_bound`], so never refused by 13.
pub fn console_string(document: &[u8], settings: Settings) -> Result<String, Refusal> {
    // a refused document has no bound: in no room it is refused as in any, by 9 before 2 to 8
    let mut room = vec![0; room_bound(document).unwrap_or(0)];
    let length = console(document, settings, &mut room)?.len();
    room.truncate(length);
    room.shrink_to_fit();
    Ok(String::from_utf8(room).expect("what was a &str is UTF-8"))
}

/// [`html`] as a `String`; 13 only where [`MOST_ROOM`] is too small.
pub fn html_string(document: &[u8], settings: Html) -> Result<String, Refusal> {
    grown(|room| html(document, settings, room).map(str::len))
}

/// [`html_strict`] as a `String`; 13 only where [`MOST_ROOM`] is too small.
pub fn html_strict_string(document: &[u8], settings: Html) -> Result<String, Refusal> {
    grown(|room| html_strict(document, settings, room).map(str::len))
}

/// [`markdown`] as a `String`; 13 only where [`MOST_ROOM`] is too small.
pub fn markdown_string(document: &[u8], full: bool) -> Result<String, Refusal> {
    grown(|room| markdown(document, full, room).map(str::len))
}

/// [`roff`] as a `String`, without the two lines that it needs before it; 13 only where
/// [`MOST_ROOM`] is too small.
pub fn roff_string(document: &[u8]) -> Result<String, Refusal> {
    grown(|room| roff(document, room).map(str::len))
}

// ---------------------------------------------------------------------------------------------
// Bundles

/// The most bytes that a bundle may have.
pub const MOST_BUNDLE_BYTES: usize = 65_536;

/// The figures of a bundle of documents.
#[derive(Debug, Clone, Copy, PartialEq, Eq, Hash)]
pub struct Figures {
    /// Documents in the bundle.
    pub documents: usize,
    /// Those whose console text, all of it, 100 columns wide and folded by bytes, is accepted in a
    /// room of 65,536 bytes.
    pub accepted: usize,
    /// The others.
    pub refused: usize,
    /// Characters of the accepted texts outside White_Space; the backticks of TermRefs count.
    pub characters: usize,
}

impl fmt::Display for Figures {
    /// The line that the program `help_figures` prints, without its line end.
    fn fmt(&self, f: &mut fmt::Formatter<'_>) -> fmt::Result {
        let Figures { documents, accepted, refused, characters } = self;
        write!(f, "documents {documents} accepted {accepted} ")?;
        write!(f, "refused {refused} characters {characters}")
    }
}

/// A bundle of documents: each is the body of a record of kind 0x0300. Nothing is checked; a bundle
/// over [`MOST_BUNDLE_BYTES`] is for [`figures`] to refuse.
pub fn bundle<D: AsRef<[u8]>>(documents: impl IntoIterator<Item = D>) -> Vec<u8> {
    let mut bundle = Vec::new();
    for document in documents {
        let document = document.as_ref();
        // a length that four bytes do not hold is past every limit
        bundle.extend(u32::try_from(document.len()).unwrap_or(u32::MAX).to_le_bytes());
        bundle.extend(0x0300u16.to_le_bytes());
        bundle.extend(document);
    }
    bundle
}

/// The figures of a bundle. Refusals 16, then at each record 15, then 14.
///
/// ```
/// # fn main() -> Result<(), sefgrunn::Refusal> {
/// let a_b = [3, 0, 0, 0, 1, 0, b'a', b' ', b'b'];
/// let bare_end = [0, 0, 0, 0, 0, 2];
/// let figures = sefgrunn::figures(&sefgrunn::bundle([&a_b[..], &bare_end]))?;
/// assert_eq!(figures.to_string(), "documents 2 accepted 1 refused 1 characters 2");
/// # Ok(())
/// # }
/// ```
pub fn figures(bundle: &[u8]) -> Result<Figures, Refusal> {
    let (number, figures, place) = linked::figures(bundle);
    accepted(number, place)?;
    Ok(figures)
}

// ---------------------------------------------------------------------------------------------
// Merging

/// One option list from two, in a room. Each side is a single DefinitionList in house shape and nothing
/// else, its terms strictly ascending by the bytes of their text, joined over records. The result has
/// every term of either side once, ascending, each item's records unchanged; where both have a term,
/// the first side's item stands. Refusals 1 to 8 of the first side, then of the second, each with
/// places in that side ([`check`] tells which it was); 22 of the first, then of the second; 23
/// likewise; 13 last, also for a list over 32,768 bytes.
///
/// Every byte of the room is written: the list, then zeros; only zeros where the call is refused.
pub fn merge<'r>(first: &[u8], second: &[u8], room: &'r mut [u8]) -> Result<&'r [u8], Refusal> {
    let answer = linked::merge(first, second, room);
    made(room, answer)
}

/// [`merge`] as a `Vec`.
pub fn merged(first: &[u8], second: &[u8]) -> Result<Vec<u8>, Refusal> {
    in_room_of(MOST_BYTES, |room| merge(first, second, room).map(<[u8]>::len))
}

// ---------------------------------------------------------------------------------------------
// Notes

/// The document of a writer's notes, in a room. A line starting `# ` becomes a Header, one starting
/// `- ` an ItemBody, each holding the rest of the line. A line that is empty or all spaces separates.
/// Other neighbouring lines, joined by line feeds, become one Block. Within each such text backticks
/// pair from the left: what stands between a pair is Literal, the rest Text, an unpaired last backtick
/// too. Refusals 1 for notes over 32,768 bytes, then 19, then 13, also for a document over 32,768 bytes.
///
/// Every byte of the room is written: the document, then zeros; only zeros where the call is refused.
pub fn notes<'r>(notes: &[u8], room: &'r mut [u8]) -> Result<&'r [u8], Refusal> {
    let answer = linked::notes(notes, room);
    made(room, answer)
}

/// [`notes`] as a `Vec`.
///
/// ```
/// # fn main() -> Result<(), sefgrunn::Refusal> {
/// let document = sefgrunn::notes_document("# Ports\n\nSee `--port`.\n")?;
/// let markdown = sefgrunn::markdown_string(&document, true)?;
/// assert_eq!(markdown, "# Ports\n\nSee **`--port`**.\n");
/// # Ok(())
/// # }
/// ```
pub fn notes_document(notes: impl AsRef<[u8]>) -> Result<Vec<u8>, Refusal> {
    in_room_of(MOST_BYTES, |room| self::notes(notes.as_ref(), room).map(<[u8]>::len))
}

// ---------------------------------------------------------------------------------------------
// Pages

/// The largest height of a page, in rows.
pub const MOST_HEIGHT: usize = 200;

/// How many pages of `height` rows a console text has: rows divided by height, rounded up. Any bytes
/// are a text. A row ends at a line feed; a non-empty rest is a row. Refusal 20.
pub fn page_count(text: &[u8], height: usize) -> Result<usize, Refusal> {
    let (number, count) = linked::page_count(text, height);
    accepted(number, 0)?;
    Ok(count)
}

/// A page of a console text: whole rows, `height` of them, in the last page maybe fewer. The first is
/// page 1. Refusals 20, then 21.
pub fn page(text: &[u8], height: usize, page: usize) -> Result<&[u8], Refusal> {
    let (number, start, length) = linked::page(text, height, page);
    accepted(number, 0)?;
    Ok(&text[start..start + length])
}

/// The pages of a console text, in order; joined they are the text. Refusal 20.
///
/// ```
/// # fn main() -> Result<(), sefgrunn::Refusal> {
/// let shown: Vec<&[u8]> = sefgrunn::pages(b"a\nb\nc", 2)?.collect();
/// assert_eq!(shown, [&b"a\nb\n"[..], b"c"]);
/// # Ok(())
/// # }
/// ```
pub fn pages(text: &[u8], height: usize) -> Result<Pages<'_>, Refusal> {
    page_count(b"", height)?;
    Ok(Pages { rest: text, height })
}

/// The pages of a text; see [`pages`].
#[derive(Debug, Clone)]
pub struct Pages<'t> {
    /// The text without the pages handed out: its first page is the next one.
    rest: &'t [u8],
    height: usize,
}

impl<'t> Iterator for Pages<'t> {
    type Item = &'t [u8];

    fn next(&mut self) -> Option<&'t [u8]> {
        let page = page(self.rest, self.height, 1).ok()?;
        self.rest = &self.rest[page.len()..];
        Some(page)
    }
}

impl std::iter::FusedIterator for Pages<'_> {}

// ---------------------------------------------------------------------------------------------
// The splitter

/// The width of a code line, which follows a line end and four spaces.
pub const WIDTH_CODE: usize = 1_000_000;
/// The width of a line between lines of three backticks, these included.
pub const WIDTH_TICKED: usize = 1_000_001;

/// What a chunk of a text is.
#[derive(Debug, Clone, Copy, PartialEq, Eq)]
pub enum Piece<'t> {
    /// A part of the text: a word, a space, a code line, a line in ticks.
    Part {
        /// Its bytes.
        bytes: &'t [u8],
        /// Its columns: characters of a word, or [`WIDTH_CODE`], or [`WIDTH_TICKED`].
        width: usize,
    },
    /// An empty line.
    Paragraph,
    /// A line end before a space.
    LineBreak,
    /// One space, which stands for a line end and is no part of the text.
    Space,
}

/// A chunk of a text.
#[derive(Debug, Clone, Copy, PartialEq, Eq)]
pub struct Chunk<'t> {
    /// Where in the text it begins: a part at its first byte or, if it is empty, where it would
    /// stand; the others at their first line end.
    pub start: usize,
    /// What it is.
    pub piece: Piece<'t>,
}

/// The chunks of a text; see [`chunks`].
#[derive(Debug, Clone)]
pub struct Chunks<'t> {
    text: &'t [u8],
    at: usize,
    ticks: u32,
}

/// Takes a text record's body apart as the renderers do. Any bytes are a body: where they are not
/// UTF-8, each byte outside 0x80 to 0xBF counts as a character.
///
/// ```
/// use sefgrunn::{chunks, Chunk, Piece};
///
/// let word = |start, text: &'static str, width| {
///     Chunk { start, piece: Piece::Part { bytes: text.as_bytes(), width } }
/// };
/// let paragraph = Chunk { start: 2, piece: Piece::Paragraph };
/// assert!(chunks("é\n\nport".as_bytes()).eq([word(0, "é", 1), paragraph, word(4, "port", 4)]));
/// ```
pub fn chunks(text: &[u8]) -> Chunks<'_> {
    Chunks { text, at: 0, ticks: 0 }
}

impl<'t> Iterator for Chunks<'t> {
    type Item = Chunk<'t>;

    fn next(&mut self) -> Option<Chunk<'t>> {
        let (which, start, length, width) =
            linked::next_chunk(self.text, &mut self.at, &mut self.ticks);
        let piece = match which {
            0 => return None,
            1 => Piece::Part { bytes: &self.text[start..start + length], width },
            2 => Piece::Paragraph,
            3 => Piece::LineBreak,
            4 => Piece::Space,
            _ => panic!("libsefgrunn.a answered {which}, which is no chunk"),
        };
        Some(Chunk { start, piece })
    }
}

impl std::iter::FusedIterator for Chunks<'_> {}

// ---------------------------------------------------------------------------------------------
// The builder

/// The style of a text.
#[derive(Debug, Clone, Copy, PartialEq, Eq, Hash)]
#[repr(u32)]
pub enum Style {
    /// Plain text.
    Text = 1,
    /// Words that stand out, as `Usage` does.
    Emphasis = 2,
    /// What is typed as it stands, as an option's name.
    Literal = 3,
    /// What stands for something else, as `FILE` does.
    Metavar = 4,
    /// Input that was wrong.
    Invalid = 5,
}

/// A block, which has a start and an end.
#[derive(Debug, Clone, Copy, PartialEq, Eq, Hash)]
#[repr(u32)]
pub enum Block {
    /// A heading of the first level.
    Header = 0,
    /// A heading of the second level.
    Section2 = 1,
    /// A heading of the third level.
    Section3 = 2,
    /// As `Section3`; Markdown makes it an item of a list.
    Section4 = 3,
    /// What an item of a list is about, as an option.
    ItemTerm = 4,
    /// What is said about it.
    ItemBody = 5,
    /// A list of terms and bodies.
    DefinitionList = 6,
    /// A block of text; on the console a blank line follows it.
    Block = 7,
    /// A document inside another. Where not all of the text is shown, its end also ends what an
    /// empty line in it left out.
    InlineBlock = 8,
    /// A term that is explained elsewhere, in backticks on the console. Roff has none.
    TermRef = 9,
    /// Metavariables in a man page. HTML and Markdown have none.
    Meta = 10,
    /// Text in a font of one width, as a usage line.
    Mono = 11,
}

/// A document under construction, in a room of [`MOST_BYTES`]. A refused call changes nothing.
///
/// A draft of the document is carried from call to call, so that a call takes time by what it adds.
#[derive(Clone)]
pub struct Builder {
    room: Vec<u8>,
    /// Holds of the room at every call: nobody else can change either.
    draft: linked::Draft,
}

impl Builder {
    /// An empty document.
    pub fn new() -> Self {
        Builder { room: vec![0; MOST_BYTES], draft: [0; 8] }
    }

    /// The document so far; its blocks may be open.
    pub fn document(&self) -> &[u8] {
        &self.room[..self.length()]
    }

    /// Text in a style. Refused: 5 for bytes that are not UTF-8, 13 over 32,768 bytes.
    ///
    /// A text written in pieces, each of them UTF-8, leaves the same document as the text written at
    /// once. An empty text adds an empty record, or changes nothing where the last record is text of
    /// that style.
    pub fn write(&mut self, style: Style, text: impl AsRef<[u8]>) -> Result<&mut Self, Refusal> {
        let answer =
            linked::draft_write(&mut self.room, &mut self.draft, style as u32, text.as_ref());
        self.built(answer)
    }

    /// The start of a block. Refused: 7 where 32 are open, 13 over 32,768 bytes.
    pub fn open(&mut self, block: Block) -> Result<&mut Self, Refusal> {
        let answer = linked::draft_open(&mut self.room, &mut self.draft, block as u32);
        self.built(answer)
    }

    /// The end of a block. Refused: 6 where it is not the innermost open one, 13 over 32,768 bytes.
    pub fn close(&mut self, block: Block) -> Result<&mut Self, Refusal> {
        let answer = linked::draft_close(&mut self.room, &mut self.draft, block as u32);
        self.built(answer)
    }

    /// A document inside an InlineBlock. Refused: 1 to 8 of the document added, with places from its
    /// own start; 7 where more than 32 blocks would be open; 13 over 32,768 bytes.
    pub fn doc(&mut self, added: &[u8]) -> Result<&mut Self, Refusal> {
        let answer = linked::draft_doc(&mut self.room, &mut self.draft, added);
        self.built(answer)
    }

    /// As [`Builder::doc`], where the first record is not plain text. Where it is, its first line
    /// becomes Emphasis and the rest of it text in a Section3, followed by the other records; if it
    /// has one line only, the other records are left out.
    pub fn em_doc(&mut self, added: &[u8]) -> Result<&mut Self, Refusal> {
        let answer = linked::draft_em_doc(&mut self.room, &mut self.draft, added);
        self.built(answer)
    }

    /// The finished document. Refused: 8 where a block is open.
    pub fn finish(mut self) -> Result<Vec<u8>, Refusal> {
        check(self.document())?;
        self.room.truncate(self.length());
        self.room.shrink_to_fit();
        Ok(self.room)
    }

    fn built(&mut self, (number, place): (u32, usize)) -> Result<&mut Self, Refusal> {
        accepted(number, place)?;
        Ok(self)
    }

    /// The length so far, the draft's first word.
    fn length(&self) -> usize {
        self.draft[0] as usize
    }
}

impl Default for Builder {
    fn default() -> Self {
        Self::new()
    }
}

impl fmt::Debug for Builder {
    fn fmt(&self, f: &mut fmt::Formatter<'_>) -> fmt::Result {
        f.debug_struct("Builder").field("document", &self.document()).finish()
    }
}

#[cfg(test)]
mod tests {
    use super::*;

    #[test]
    fn numbers_are_those_of_the_header() {
        let numbers: Vec<u32> = Number::ALL.map(Number::get).to_vec();
        assert_eq!(numbers, (1..=23).filter(|&number| number != 12).collect::<Vec<u32>>());
        for number in Number::ALL {
            assert_eq!(accepted(number.get(), 7), Err(Refusal { number, place: 7 }));
        }
        assert_eq!(accepted(0, 7), Ok(()));
    }

    #[test]
    fn each_refusal_says_what_it_is() {
        let said: Vec<String> =
            Number::ALL.map(|number| Refusal { number, place: 3 }.to_string()).to_vec();
        assert_eq!(said[5], "refused 6 at 3: an end is not of the innermost open block");
        for (index, text) in said.iter().enumerate() {
            let number = Number::ALL[index].get();
            assert!(text.starts_with(&format!("refused {number} at 3: ")), "{text}");
            assert!(!said[..index]
                .iter()
                .any(|other| other.split(": ").nth(1) == text.split(": ").nth(1)));
        }
    }

    #[test]
    #[should_panic(expected = "no number of a refusal")]
    fn no_other_number_is_passed_on() {
        let _ = accepted(12, 0);
    }
}
