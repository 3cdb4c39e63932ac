//! 01 read again, with 02's requests: refusals with their numbers, places and order, the text of each
//! renderer in a room, and the builder. Nothing here calls the kept Rust, so that `kept` can hold one beside the
//! other. Everything is read from bytes.

/// A refusal: 01's number, and the place.
#[derive(Debug, Clone, Copy, Eq, PartialEq)]
pub struct Refusal {
    pub number: u32,
    pub place: usize,
}

pub type Ruled<T> = Result<T, Refusal>;

fn refused<T>(number: u32, place: usize) -> Ruled<T> {
    Err(Refusal { number, place })
}

// ---------------------------------------------------------------------------------------------
// Characters

/// 01: "every byte outside 0x80 to 0xBF counts as a character"; in UTF-8 this counts characters.
pub fn characters(text: &[u8]) -> usize {
    text.iter().filter(|&&b| !(0x80..=0xBF).contains(&b)).count()
}

/// The 25 characters with the property White_Space, from the Unicode standard's PropList.txt.
pub fn is_white_space(c: char) -> bool {
    matches!(
        c,
        '\u{9}'..='\u{D}'
            | '\u{20}'
            | '\u{85}'
            | '\u{A0}'
            | '\u{1680}'
            | '\u{2000}'..='\u{200A}'
            | '\u{2028}'
            | '\u{2029}'
            | '\u{202F}'
            | '\u{205F}'
            | '\u{3000}'
    )
}

/// The printing characters of a text that is UTF-8.
pub fn printing(text: &[u8]) -> String {
    let text = std::str::from_utf8(text).expect("only accepted text is asked for");
    text.chars().filter(|&c| !is_white_space(c)).collect()
}

/// 02, point 6: the upper-case mapping of UnicodeData.txt with the unconditional entries of
/// SpecialCasing.txt, in the version that the compiler reports; a character without an entry maps to
/// itself. The compiler's `char::to_uppercase` is that mapping.
pub fn upper(c: char) -> String {
    c.to_uppercase().collect()
}

/// A text in upper case, character by character.
fn upper_text(text: &[u8]) -> Vec<u8> {
    let text = std::str::from_utf8(text).expect("bodies that are UTF-8, joined");
    text.chars().map(upper).collect::<String>().into_bytes()
}

/// Each mapped character, ascending.
pub fn mapped() -> impl Iterator<Item = (char, String)> {
    ('\0'..=char::MAX).map(|c| (c, upper(c))).filter(|(c, upper)| *upper != c.to_string())
}

// ---------------------------------------------------------------------------------------------
// Records, refusals 1 to 8

const HEADER: usize = 0;
const SECTION2: usize = 1;
const SECTION3: usize = 2;
const SECTION4: usize = 3;
const ITEM_TERM: usize = 4;
const ITEM_BODY: usize = 5;
const DEFINITION_LIST: usize = 6;
const BLOCK: usize = 7;
const INLINE_BLOCK: usize = 8;
const TERM_REF: usize = 9;
const META: usize = 10;
const MONO: usize = 11;

const TEXT: usize = 1;
const EMPHASIS: usize = 2;

const MOST_BYTES: usize = 32_768;
const MOST_OPEN: usize = 32;
const MOST_WIDTH: u64 = 10_000;
/// Refusal 10: "misses more than 50 columns".
const MOST_MISSING: usize = 50;

/// A style is its kind, 1 to 5; a block is its index, 0 to 11.
#[derive(Debug, Clone, Copy, Eq, PartialEq)]
pub enum Kind {
    Text(usize),
    Start(usize),
    End(usize),
}

impl Kind {
    /// The number that a record has for it.
    pub fn number(self) -> u16 {
        (match self {
            Kind::Text(style) => style,
            Kind::Start(block) => 0x0100 + block,
            Kind::End(block) => 0x0200 + block,
        }) as u16
    }
}

#[derive(Debug, Clone, Copy, Eq, PartialEq)]
pub struct Record<'a> {
    pub place: usize,
    pub kind: Kind,
    pub body: &'a [u8],
}

/// 1: the size alone.
fn size(document: &[u8]) -> Ruled<()> {
    if document.len() > MOST_BYTES {
        return refused(1, 0);
    }
    Ok(())
}

/// 6 and 7 of one record, with the blocks open before it.
fn nest(open: &mut Vec<usize>, kind: Kind, place: usize) -> Ruled<()> {
    match kind {
        Kind::Text(_) => {}
        Kind::End(block) => {
            if open.last() != Some(&block) {
                return refused(6, place);
            }
            open.pop();
        }
        Kind::Start(block) => {
            if open.len() == MOST_OPEN {
                return refused(7, place);
            }
            open.push(block);
        }
    }
    Ok(())
}

/// 2 to 7, record by record: the records, and the blocks still open after them.
fn records(document: &[u8]) -> Ruled<(Vec<Record<'_>>, Vec<usize>)> {
    let mut records = Vec::new();
    let mut open = Vec::new();
    let mut place = 0;
    while place < document.len() {
        let left = document.len() - place;
        if left < 6 {
            return refused(2, place);
        }
        let byte = |i: usize| usize::from(document[place + i]);
        let size = byte(0) | byte(1) << 8 | byte(2) << 16 | byte(3) << 24;
        if size > left - 6 {
            return refused(2, place);
        }
        let kind = match byte(4) | byte(5) << 8 {
            style @ 0x0001..=0x0005 => Kind::Text(style),
            start @ 0x0100..=0x010B => Kind::Start(start - 0x0100),
            end @ 0x0200..=0x020B => Kind::End(end - 0x0200),
            _ => return refused(3, place),
        };
        let body = &document[place + 6..place + 6 + size];
        match kind {
            Kind::Start(_) | Kind::End(_) if !body.is_empty() => return refused(4, place),
            Kind::Text(_) if std::str::from_utf8(body).is_err() => return refused(5, place),
            _ => nest(&mut open, kind, place)?,
        }
        records.push(Record { place, kind, body });
        place += 6 + size;
    }
    Ok((records, open))
}

/// 2 to 7, then 8.
fn closed(document: &[u8]) -> Ruled<Vec<Record<'_>>> {
    let (records, open) = records(document)?;
    if !open.is_empty() {
        return refused(8, document.len());
    }
    Ok(records)
}

/// 1 to 8: the records of an accepted document.
pub fn check(document: &[u8]) -> Ruled<Vec<Record<'_>>> {
    size(document)?;
    closed(document)
}

/// 02, point 10: the room that console text needs at most, at any moment of being written: 54 times the
/// bytes of the document's text, plus the number of TermRef starts and ends, plus 1.
pub fn room_bound(records: &[Record]) -> usize {
    let text: usize = records.iter().map(|record| record.body.len()).sum();
    let is_ref = |r: &&Record| matches!(r.kind, Kind::Start(TERM_REF) | Kind::End(TERM_REF));
    54 * text + records.iter().filter(is_ref).count() + 1
}

/// 01's printing order of a document, from its records.
pub fn printing_order(records: &[Record]) -> String {
    let mut order = String::new();
    for record in records {
        match record.kind {
            Kind::Text(_) => order.push_str(&printing(record.body)),
            Kind::Start(TERM_REF) | Kind::End(TERM_REF) => order.push('`'),
            _ => {}
        }
    }
    order
}

// ---------------------------------------------------------------------------------------------
// The splitter

pub const CODE: usize = 1_000_000;
pub const TICKED: usize = 1_000_001;

/// `start` is where in its body a chunk begins (02, point 2): at its first byte, or where an empty one
/// would stand; a paragraph, a break and a line end's space at their first line end.
#[derive(Debug, Clone, Copy, Eq, PartialEq)]
pub enum Chunk {
    Raw {
        start: usize,
        len: usize,
        width: usize,
    },
    /// The one space that a line end gives: it is no part of the body.
    Space {
        start: usize,
    },
    Paragraph {
        start: usize,
    },
    LineBreak {
        start: usize,
    },
}

#[derive(Debug, Clone, Copy, Eq, PartialEq)]
enum Ticks {
    Outside,
    FirstLine,
    LaterLine,
}

/// Where the next chunk of a body starts, and whether that is in ticks.
#[derive(Debug, Clone, Copy, Eq, PartialEq)]
pub struct Cursor {
    at: usize,
    ticks: Ticks,
}

impl Cursor {
    pub const START: Cursor = Cursor { at: 0, ticks: Ticks::Outside };
}

/// A cursor as the C interface has it: 0 outside ticks, 1 before the first line in ticks, any other
/// number after it. A chunk's cursor is handed back with 0, 1 or 2.
pub type PlainCursor = (u64, u32);

/// The chunk at any cursor, and the cursor after it.
pub fn next_chunk(body: &[u8], (at, ticks): PlainCursor) -> Option<(Chunk, PlainCursor)> {
    let at = usize::try_from(at).ok()?;
    let ticks = match ticks {
        0 => Ticks::Outside,
        1 => Ticks::FirstLine,
        _ => Ticks::LaterLine,
    };
    let (chunk, after) = step(body, Cursor { at, ticks })?;
    Some((chunk, (after.at as u64, after.ticks as u32)))
}

fn part(start: usize, end: usize, width: usize) -> Chunk {
    Chunk::Raw { start, len: end - start, width }
}

/// The chunk at a cursor and the cursor after it; `None` at or past the body's end.
pub fn step(body: &[u8], cursor: Cursor) -> Option<(Chunk, Cursor)> {
    let at = cursor.at;
    let rest = body.get(at..).filter(|rest| !rest.is_empty())?;
    let outside = |at| Cursor { at, ticks: Ticks::Outside };
    let line_end = |from: usize| {
        let found = body[from..].iter().position(|&b| b == b'\n');
        found.map_or(body.len(), |n| from + n)
    };

    if cursor.ticks != Ticks::Outside {
        let end = line_end(at);
        let last = cursor.ticks == Ticks::LaterLine && rest.starts_with(b"```");
        let kept = last && body[end..].starts_with(b"\n\n");
        let next = if kept { end } else { body.len().min(end + 1) };
        let ticks = if last { Ticks::Outside } else { Ticks::LaterLine };
        return Some((part(at, end, TICKED), Cursor { at: next, ticks }));
    }

    Some(if rest.starts_with(b"\n    ") {
        let end = line_end(at + 5);
        (part(at + 5, end, CODE), outside(end))
    } else if rest.starts_with(b"\n\n```") {
        (Chunk::Paragraph { start: at }, Cursor { at: at + 2, ticks: Ticks::FirstLine })
    } else if rest.starts_with(b"\n\n    ") {
        (Chunk::Paragraph { start: at }, outside(at + 1))
    } else if rest.starts_with(b"\n\n") {
        (Chunk::Paragraph { start: at }, outside(at + 2))
    } else if rest.starts_with(b"\n ") {
        (Chunk::LineBreak { start: at }, outside(at + 2))
    } else if rest[0] == b'\n' {
        (Chunk::Space { start: at }, outside(at + 1))
    } else if rest[0] == b' ' {
        (part(at, at + 1, 1), outside(at + 1))
    } else {
        let found = rest.iter().position(|&b| b == b'\n' || b == b' ');
        let word = &rest[..found.unwrap_or(rest.len())];
        let end = at + word.len();
        (part(at, end, characters(word)), outside(end))
    })
}

/// All chunks of a body.
pub fn split(body: &[u8]) -> Vec<Chunk> {
    let mut chunks = Vec::new();
    let mut cursor = Cursor::START;
    while let Some((chunk, next)) = step(body, cursor) {
        chunks.push(chunk);
        cursor = next;
    }
    chunks
}

/// What a chunk writes and its width; `None` for a paragraph and a break.
fn written(body: &[u8], chunk: Chunk) -> Option<(&[u8], usize)> {
    match chunk {
        Chunk::Raw { start, len, width } => Some((&body[start..start + len], width)),
        Chunk::Space { .. } => Some((b" ", 1)),
        Chunk::Paragraph { .. } | Chunk::LineBreak { .. } => None,
    }
}

// ---------------------------------------------------------------------------------------------
// The text in a room

/// 13 is given the moment the text is longer than the room. `most` is the longest the text was.
struct Text {
    bytes: Vec<u8>,
    room: usize,
    most: usize,
}

impl Text {
    fn put(&mut self, bytes: impl AsRef<[u8]>) -> Ruled<()> {
        self.bytes.extend_from_slice(bytes.as_ref());
        self.most = self.most.max(self.bytes.len());
        if self.bytes.len() > self.room {
            return refused(13, 0);
        }
        Ok(())
    }

    fn ends_with(&self, end: &str) -> bool {
        self.bytes.ends_with(end.as_bytes())
    }

    /// Drops trailing White_Space; the text is UTF-8, its documents were accepted.
    fn trim(&mut self, white: fn(char) -> bool) {
        let text = std::str::from_utf8(&self.bytes).expect("accepted text is UTF-8");
        let blanks: usize = text.chars().rev().take_while(|&c| white(c)).map(char::len_utf8).sum();
        self.bytes.truncate(self.bytes.len() - blanks);
    }
}

/// 01's skip counter.
#[derive(Default)]
struct Skip(usize);

impl Skip {
    fn start(&mut self, block: usize) {
        if block == INLINE_BLOCK && self.0 > 0 {
            self.0 += 1;
        }
    }

    fn end(&mut self, block: usize) {
        if block == INLINE_BLOCK && self.0 > 0 {
            self.0 -= 1;
        }
    }
}

// ---------------------------------------------------------------------------------------------
// Renderers

#[derive(Debug, Clone, Copy, Eq, PartialEq)]
pub enum Renderer {
    /// `characters`: the fold test adds a chunk's characters (02, point 3), not its bytes.
    Console {
        width: u64,
        full: bool,
        characters: bool,
    },
    Html {
        full: bool,
        css: bool,
        strict: bool,
    },
    Markdown {
        full: bool,
    },
    Roff,
}

/// What a renderer gives, and the longest its text was until then.
#[derive(Debug, Clone, Eq, PartialEq)]
pub struct Run {
    pub outcome: Ruled<Vec<u8>>,
    pub most: usize,
}

/// The misreadings that 01 warns of, and two of 02's measure by characters; the generator must tell
/// each from the paper's own reading. The last two are 01's worthless splitters (see `worthless`).
#[derive(Debug, Clone, Copy, Eq, PartialEq)]
pub enum Misreading {
    None,
    JoinBodies,
    FoldByCharacters,
    PopOwnMarginsOnly,
    TrimAsciiOnly,
    HideBackticks,
    FoldByWidth,
    AdvanceByMeasure,
    WholeBodyFirst,
    NoChunk,
}

impl Misreading {
    /// 01's list, then 02's two.
    pub const ALL: [Misreading; 7] = {
        use Misreading::*;
        [
            JoinBodies,
            FoldByCharacters,
            PopOwnMarginsOnly,
            TrimAsciiOnly,
            HideBackticks,
            FoldByWidth,
            AdvanceByMeasure,
        ]
    };
}

pub fn render(renderer: Renderer, document: &[u8], room: usize) -> Run {
    render_misread(renderer, document, room, Misreading::None)
}

/// `render` with one misreading of the console's rules put in.
pub fn render_misread(
    renderer: Renderer,
    document: &[u8],
    room: usize,
    misread: Misreading,
) -> Run {
    let mut text = Text { bytes: Vec::new(), room, most: 0 };
    let outcome = walk(renderer, document, &mut text, misread);
    Run { outcome: outcome.map(|()| text.bytes), most: text.most }
}

/// Order: 1, 9, then 2 to 8, then the first of 10 to 13 that the walk meets.
fn walk(renderer: Renderer, document: &[u8], text: &mut Text, misread: Misreading) -> Ruled<()> {
    size(document)?;
    if matches!(renderer, Renderer::Console { width, .. } if width > MOST_WIDTH) {
        return refused(9, 0);
    }
    let records = closed(document)?;
    match renderer {
        Renderer::Console { width, full, characters } => {
            console(&records, width, full, characters, text, misread)
        }
        Renderer::Html { full, css, strict } => html(&records, full, css, strict, text),
        Renderer::Markdown { full } => markdown(&records, full, text),
        Renderer::Roff => roff(&records, text),
    }
}

// Console

/// The most characters of a term that the tabstop goes by.
const MOST_TERM: usize = 24;

/// Each ItemTerm end, its place and its count: a nested term's start sets the count back to 0, its end
/// stops it, and the outer end has that same count.
fn term_counts(records: &[Record]) -> Vec<(usize, usize)> {
    let (mut ends, mut count, mut counting) = (Vec::new(), 0, false);
    for record in records {
        match record.kind {
            Kind::Text(_) if counting => count += characters(record.body),
            Kind::Start(ITEM_TERM) => (counting, count) = (true, 0),
            Kind::End(ITEM_TERM) => {
                counting = false;
                ends.push((record.place, count));
            }
            _ => {}
        }
    }
    ends
}

/// The widest ItemTerm of at most 24 characters, plus 4.
pub fn tabstop(records: &[Record]) -> usize {
    let counts = term_counts(records).into_iter().map(|(_, count)| count);
    counts.filter(|&count| count <= MOST_TERM).max().unwrap_or(0) + 4
}

/// 02, point 4: the start of the first ItemTerm end whose count is 24, or the document's length.
fn settled(records: &[Record], length: usize) -> usize {
    term_counts(records)
        .into_iter()
        .find(|&(_, count)| count == MOST_TERM)
        .map_or(length, |(place, _)| place)
}

/// 02, point 4: the tabstop of a document, and where the search for it may stop.
pub fn tabstop_of(document: &[u8]) -> Ruled<(usize, usize)> {
    let records = check(document)?;
    Ok((tabstop(&records), settled(&records, document.len())))
}

/// The index of the Section4 end after `start`, if a Block start and end follow it at once.
fn gap(records: &[Record], start: usize) -> Option<usize> {
    let is = |index: usize, kind| records.get(index).is_some_and(|r| r.kind == kind);
    let end = (start..records.len()).find(|&i| is(i, Kind::End(SECTION4)))?;
    (is(end + 1, Kind::Start(BLOCK)) && is(end + 2, Kind::End(BLOCK))).then_some(end)
}

/// `step`, or what a worthless splitter does in its place.
fn misread_step(misread: Misreading, body: &[u8], cursor: Cursor) -> Option<(Chunk, Cursor)> {
    let (start, end) = (0, body.len());
    let outside = |at| Cursor { at, ticks: Ticks::Outside };
    match misread {
        Misreading::NoChunk => None,
        // the whole body, then a blank
        Misreading::WholeBodyFirst => match cursor.at {
            _ if body.is_empty() => None,
            at if at == start => Some((part(start, end, characters(body)), outside(end))),
            at if at == end => Some((Chunk::Space { start: end }, outside(end + 1))),
            _ => None,
        },
        _ => step(body, cursor),
    }
}

struct Page<'t> {
    text: &'t mut Text,
    width: u64,
    characters: bool,
    misread: Misreading,
    column: usize,
    line_due: bool,
    blank_line_due: bool,
    /// an ItemBody has started and nothing was printed since
    body_due: bool,
}

impl Page<'_> {
    /// One chunk of `width` columns that begins at `place` of the document.
    fn chunk(&mut self, chunk: &[u8], width: usize, margin: usize, place: usize) -> Ruled<()> {
        if !self.text.bytes.is_empty() {
            if (self.line_due || self.blank_line_due) && !self.text.ends_with("\n") {
                self.text.put("\n")?;
                self.column = 0;
            }
            if self.blank_line_due && !self.text.ends_with("\n\n") {
                self.text.put("\n")?;
            }
            let measure = match self.misread {
                Misreading::FoldByWidth if self.characters => width,
                Misreading::FoldByCharacters => characters(chunk),
                _ if self.characters => characters(chunk),
                _ => chunk.len(),
            };
            if (self.column + measure) as u64 > self.width {
                self.text.trim(match self.misread {
                    Misreading::TrimAsciiOnly => |c| c.is_ascii() && is_white_space(c),
                    _ => is_white_space,
                });
                self.text.put("\n")?;
                self.column = 0;
                if chunk == b" " {
                    return Ok(());
                }
            }
        }

        let missing = margin.saturating_sub(self.column);
        if missing > MOST_MISSING {
            return refused(10, place);
        }
        let mut spaces = missing;
        // MAX_TAB + 4 = 28: from there on a body keeps at least two columns from its term
        if self.body_due && self.column + missing >= 28 {
            spaces = missing.max(2);
        }
        self.text.put(" ".repeat(spaces))?;
        (self.line_due, self.blank_line_due, self.body_due) = (false, false, false);
        self.text.put(chunk)?;
        self.column += match self.misread {
            Misreading::AdvanceByMeasure if self.characters => spaces + characters(chunk),
            _ => spaces + width,
        };
        Ok(())
    }

    fn line_end(&mut self) -> Ruled<()> {
        self.column = 0;
        self.text.put("\n")
    }

    fn backtick(&mut self, skip: &Skip) -> Ruled<()> {
        if self.misread == Misreading::HideBackticks && skip.0 > 0 {
            return Ok(());
        }
        self.column += 1;
        self.text.put("`")
    }
}

fn console(
    records: &[Record],
    width: u64,
    full: bool,
    characters: bool,
    text: &mut Text,
    misread: Misreading,
) -> Ruled<()> {
    let tabstop = tabstop(records);
    let mut passed_over = vec![false; records.len()];
    let mut margins: Vec<usize> = Vec::new();
    let mut skip = Skip::default();
    let mut page = Page {
        text,
        width,
        characters,
        misread,
        column: 0,
        line_due: false,
        blank_line_due: false,
        body_due: false,
    };
    let mut joined: Vec<u8>;

    for (index, record) in records.iter().enumerate() {
        if passed_over[index] {
            continue;
        }
        let margin = margins.last().copied().unwrap_or(0);
        match record.kind {
            Kind::Text(_) => {
                let mut body = record.body;
                if misread == Misreading::JoinBodies {
                    let is_text = |r: &&Record| matches!(r.kind, Kind::Text(_));
                    if index > 0 && is_text(&&records[index - 1]) {
                        continue;
                    }
                    joined = records[index..]
                        .iter()
                        .take_while(is_text)
                        .flat_map(|r| r.body)
                        .copied()
                        .collect();
                    body = &joined;
                }
                if skip.0 > 0 {
                    continue;
                }
                let mut cursor = Cursor::START;
                while let Some((chunk, next)) = misread_step(misread, body, cursor) {
                    cursor = next;
                    match chunk {
                        Chunk::Raw { start, .. } | Chunk::Space { start } => {
                            let (bytes, width) = written(body, chunk).expect("it is written");
                            page.chunk(bytes, width, margin, record.place + 6 + start)?;
                        }
                        Chunk::LineBreak { .. } => page.line_end()?,
                        Chunk::Paragraph { .. } => {
                            page.line_end()?;
                            if !full {
                                skip.0 = 1;
                                break;
                            }
                        }
                    }
                }
            }
            Kind::Start(block) => {
                skip.start(block);
                match block {
                    HEADER | SECTION2 | BLOCK => margins.push(margin),
                    SECTION3 => margins.push(margin + 2),
                    SECTION4 => match gap(records, index) {
                        Some(end) => {
                            margins.push(margin + 4);
                            passed_over[end + 1..end + 3].fill(true);
                        }
                        None => margins.push(margin + 2),
                    },
                    ITEM_TERM => margins.push(margin + 4),
                    ITEM_BODY => {
                        margins.push(margin + tabstop + 2);
                        page.body_due = true;
                    }
                    TERM_REF => page.backtick(&skip)?,
                    _ => {}
                }
                if matches!(block, HEADER | SECTION2 | SECTION3 | SECTION4 | ITEM_TERM) {
                    page.line_due = true;
                }
            }
            Kind::End(block) => {
                let pushed_none = block == DEFINITION_LIST || block >= INLINE_BLOCK;
                if !(misread == Misreading::PopOwnMarginsOnly && pushed_none) {
                    margins.pop();
                }
                skip.end(block);
                match block {
                    ITEM_BODY => page.body_due = false,
                    BLOCK => page.blank_line_due = true,
                    TERM_REF => page.backtick(&skip)?,
                    _ => {}
                }
            }
        }
    }
    if page.line_due || page.blank_line_due {
        page.text.put("\n")?;
    }
    Ok(())
}

// HTML and Markdown

/// What opens and closes a style: index 0 is none, then 1 to 5.
type StyleTags = [(&'static str, &'static str); 6];

const HTML_STYLES: StyleTags = [
    ("", ""),
    ("", ""),
    ("<b>", "</b>"),
    ("<tt><b>", "</b></tt>"),
    ("<tt><i>", "</i></tt>"),
    ("<b>", "</b>"),
];

const MARKDOWN_STYLES: StyleTags =
    [("", ""), ("", ""), ("**", "**"), ("**`", "`**"), ("_`", "`_"), ("**", "**")];

/// Ends the open style and starts another, even the same one.
fn restyle(text: &mut Text, tags: &StyleTags, style: &mut usize, new: usize) -> Ruled<()> {
    text.put(tags[*style].1)?;
    *style = new;
    text.put(tags[new].0)
}

const CSS: &str = "\n<style>\ndiv.bpaf-doc {\n    padding: 14px;\n    \
    background-color:var(--code-block-background-color);\n    \
    font-family: \"Source Code Pro\", monospace;\n    margin-bottom: 0.75em;\n}\n\
    div.bpaf-doc dt { margin-left: 1em; }\n\
    div.bpaf-doc dd { margin-left: 3em; }\n\
    div.bpaf-doc dl { margin-top: 0; padding-left: 1em; }\n\
    div.bpaf-doc  { padding-left: 1em; }\n</style>";

/// A chunk in HTML. Strict (02, point 5): every `&` too.
fn html_chunk(chunk: &[u8], strict: bool) -> Vec<u8> {
    let mut out = Vec::new();
    for &byte in chunk {
        match byte {
            b'<' => out.extend(b"&lt;"),
            b'>' => out.extend(b"&gt;"),
            b'&' if strict => out.extend(b"&amp;"),
            _ => out.push(byte),
        }
    }
    out
}

/// What a strict page shows, with each `<br>` as a line end: its elements left out, then the three
/// escapes read back. It is a reading of its own, which the pages written above must bear.
pub fn shown_in_strict(page: &str) -> String {
    let mut shown = String::new();
    let mut rest = page;
    while let Some(c) = rest.chars().next() {
        let (read, taken) = match c {
            '<' => {
                let end = rest.find('>').map_or(rest.len(), |end| end + 1);
                (if &rest[..end] == "<br>" { "\n" } else { "" }, end)
            }
            '&' if rest.starts_with("&amp;") => ("&", 5),
            '&' if rest.starts_with("&lt;") => ("<", 4),
            '&' if rest.starts_with("&gt;") => (">", 4),
            _ => (&rest[..c.len_utf8()], c.len_utf8()),
        };
        shown.push_str(read);
        rest = &rest[taken..];
    }
    shown
}

fn html(records: &[Record], full: bool, css: bool, strict: bool, text: &mut Text) -> Ruled<()> {
    fn blank_line(text: &mut Text) -> Ruled<()> {
        if text.bytes.is_empty() || text.ends_with("<br>\n") {
            return Ok(());
        }
        text.put("<br>\n")
    }

    let mut style = 0;
    let mut skip = Skip::default();
    let mut open: Vec<usize> = Vec::new();
    for record in records {
        match record.kind {
            Kind::Text(new) => {
                if skip.0 > 0 {
                    continue;
                }
                restyle(text, &HTML_STYLES, &mut style, new)?;
                let mut cursor = Cursor::START;
                while let Some((chunk, next)) = step(record.body, cursor) {
                    cursor = next;
                    match (written(record.body, chunk), chunk) {
                        (Some((bytes, _)), _) => text.put(html_chunk(bytes, strict))?,
                        (None, Chunk::Paragraph { .. }) if !full => {
                            skip.0 = 1;
                            break;
                        }
                        (None, _) => text.put("<br>\n")?,
                    }
                }
            }
            Kind::Start(block) => {
                restyle(text, &HTML_STYLES, &mut style, 0)?;
                skip.start(block);
                if block == HEADER {
                    blank_line(text)?;
                }
                let in_list = open.last() == Some(&DEFINITION_LIST);
                text.put(match block {
                    HEADER => "# ",
                    SECTION2 => "<div>\n",
                    SECTION3 | SECTION4 => "<div style='padding-left: 0.5em'>",
                    ITEM_TERM => "<dt>",
                    ITEM_BODY if in_list => "<dd>",
                    ITEM_BODY => "<li>",
                    DEFINITION_LIST => "<dl>",
                    BLOCK => "<p>",
                    META => return refused(11, record.place),
                    _ => "",
                })?;
                open.push(block);
            }
            Kind::End(block) => {
                restyle(text, &HTML_STYLES, &mut style, 0)?;
                skip.end(block);
                open.pop();
                if block == HEADER {
                    blank_line(text)?;
                }
                let in_list = open.last() == Some(&DEFINITION_LIST);
                text.put(match block {
                    SECTION2 | SECTION3 | SECTION4 => "</div>",
                    ITEM_TERM => "</dt>\n",
                    ITEM_BODY if in_list => "</dd>\n",
                    ITEM_BODY => "</li>\n",
                    DEFINITION_LIST => "</dl>\n",
                    BLOCK => "</p>",
                    _ => "",
                })?;
            }
        }
    }
    restyle(text, &HTML_STYLES, &mut style, 0)?;
    text.put(if css { CSS } else { "" })
}

/// `[` and `]` inside Mono are written with a backslash before them.
fn bracketed(chunk: &[u8]) -> Vec<u8> {
    let mut out = Vec::new();
    for &byte in chunk {
        if byte == b'[' || byte == b']' {
            out.push(b'\\');
        }
        out.push(byte);
    }
    out
}

fn markdown(records: &[Record], full: bool, text: &mut Text) -> Ruled<()> {
    fn new_line(text: &mut Text) -> Ruled<()> {
        if text.bytes.is_empty() || text.ends_with("\n") {
            return Ok(());
        }
        text.put("\n")
    }

    let mut style = 0;
    let mut skip = Skip::default();
    let mut empty_term = false;
    let mut mono = 0;
    let mut in_list = false;
    let mut name_seen = false;
    for (index, record) in records.iter().enumerate() {
        match record.kind {
            Kind::Text(new) => {
                if skip.0 > 0 {
                    continue;
                }
                restyle(text, &MARKDOWN_STYLES, &mut style, new)?;
                // a run of code lines is open; it never outlives its body
                let mut code = false;
                let mut cursor = Cursor::START;
                while let Some((chunk, next)) = step(record.body, cursor) {
                    cursor = next;
                    match (written(record.body, chunk), chunk) {
                        (Some((bytes, TICKED)), _) => {
                            new_line(text)?;
                            text.put([b"  ", bytes, b"\n"].concat())?;
                        }
                        (Some((bytes, CODE)), _) => {
                            text.put(if code { "" } else { "\n\n  ```text\n" })?;
                            text.put([b"  ", bytes, b"\n"].concat())?;
                            code = true;
                        }
                        (Some((bytes, _)), _) => {
                            text.put(if code { "\n  ```\n" } else { "" })?;
                            code = false;
                            if mono > 0 {
                                text.put(bracketed(bytes))?;
                            } else {
                                text.put(bytes)?;
                            }
                        }
                        (None, Chunk::Paragraph { .. }) if !full => {
                            skip.0 = 1;
                            break;
                        }
                        (None, Chunk::Paragraph { .. }) => {
                            text.put(if in_list { "\n\n  " } else { "\n\n" })?
                        }
                        (None, _) => text.put("\n")?,
                    }
                }
                text.put(if code { "  ```\n" } else { "" })?;
            }
            Kind::Start(block) => {
                restyle(text, &MARKDOWN_STYLES, &mut style, 0)?;
                skip.start(block);
                match block {
                    HEADER => {
                        if !(text.bytes.is_empty() || text.ends_with("\n\n")) {
                            text.put("\n\n")?;
                        }
                        text.put(if name_seen { "## " } else { "# " })?;
                        name_seen = true;
                    }
                    SECTION3 => text.put("### ")?,
                    ITEM_TERM | SECTION4 => {
                        new_line(text)?;
                        let next = records.get(index + 1);
                        empty_term = next.is_some_and(|r| r.kind == Kind::End(ITEM_TERM));
                        text.put(if empty_term { "  " } else { "- " })?;
                    }
                    ITEM_BODY => {
                        if in_list {
                            text.put(if empty_term { " " } else { " &mdash; " })?;
                        }
                        new_line(text)?;
                        text.put("  ")?;
                    }
                    DEFINITION_LIST => in_list = true,
                    BLOCK => text.put("\n")?,
                    META => return refused(11, record.place),
                    MONO => mono += 1,
                    _ => {}
                }
            }
            Kind::End(block) => {
                restyle(text, &MARKDOWN_STYLES, &mut style, 0)?;
                skip.end(block);
                match block {
                    HEADER | SECTION2 | SECTION3 | SECTION4 | BLOCK => text.put("\n")?,
                    ITEM_BODY if in_list => text.put("\n")?,
                    DEFINITION_LIST => {
                        in_list = false;
                        text.put("\n")?;
                    }
                    MONO => mono -= 1,
                    _ => {}
                }
            }
        }
    }
    restyle(text, &MARKDOWN_STYLES, &mut style, 0)
}

// Roff

const PREAMBLE: &str = ".ie \\n(.g .ds Aq \\(aq\n.el .ds Aq '\n";

/// The text, and whether the escape rules take the next byte as the first of its line. This is not
/// the same as the text ending in `\n`: a `\n` in a control line's argument is written `\ ` and
/// starts a line all the same.
struct Lines<'t> {
    text: &'t mut Text,
    line_start: bool,
}

impl Lines<'_> {
    /// A line end unless a line starts here.
    fn new_line(&mut self) -> Ruled<()> {
        if !self.line_start {
            self.line_start = true;
            self.text.put("\n")?;
        }
        Ok(())
    }

    /// As it stands; nothing given here ends in `\n`.
    fn plain(&mut self, bytes: &str) -> Ruled<()> {
        self.line_start = false;
        self.text.put(bytes)
    }

    /// A control line, with one argument where there is one.
    fn control(&mut self, name: &str, argument: Option<&[u8]>) -> Ruled<()> {
        self.new_line()?;
        self.plain(".")?;
        self.plain(name)?;
        if let Some(argument) = argument {
            self.plain(" ")?;
            let argument = if argument.is_empty() { b"\"\"" } else { argument };
            for &byte in argument {
                match byte {
                    b' ' | b'\n' => self.text.put("\\ ")?,
                    _ => self.text.put([byte])?,
                }
                self.line_start = byte == b'\n';
            }
        }
        self.new_line()
    }

    /// Text outside headings; `no_newline` inside a term, where `\n` becomes a space.
    fn special(&mut self, body: &[u8], no_newline: bool) -> Ruled<()> {
        for &byte in body {
            if self.line_start && (byte == b'.' || byte == b'\'') {
                self.text.put("\\&")?;
            }
            self.line_start = byte == b'\n' && !no_newline;
            match byte {
                b'\\' => self.text.put("\\\\")?,
                b'-' => self.text.put("\\-")?,
                b'\'' => self.text.put("\\*(Aq")?,
                b'\n' if no_newline => self.text.put(" ")?,
                _ => self.text.put([byte])?,
            }
        }
        Ok(())
    }
}

fn roff(records: &[Record], text: &mut Text) -> Ruled<()> {
    text.put(PREAMBLE)?;
    let mut lines = Lines { text, line_start: true };
    let mut heading: Vec<u8> = Vec::new();
    let mut capturing = false;
    let mut no_newline = false;
    for record in records {
        match record.kind {
            Kind::Text(_) if capturing => heading.extend_from_slice(record.body),
            Kind::Text(style) => {
                if style == EMPHASIS {
                    lines.control("SS", None)?;
                }
                lines.plain(match style {
                    TEXT => "\\fR",
                    2 | 3 => "\\fB",
                    _ => "\\fI",
                })?;
                lines.special(record.body, no_newline)?;
                lines.plain("\\fP")?;
            }
            Kind::Start(block) => match block {
                HEADER | SECTION2 | SECTION3 | SECTION4 => capturing = true,
                ITEM_TERM => {
                    lines.control("TP", None)?;
                    no_newline = true;
                }
                BLOCK => lines.control("PP", None)?,
                META => lines.control("nf", None)?,
                TERM_REF => return refused(11, record.place),
                _ => {}
            },
            Kind::End(block) => match block {
                HEADER | SECTION2 | SECTION3 | SECTION4 => {
                    capturing = false;
                    let name = if block == HEADER { "SH" } else { "SS" };
                    lines.control(name, Some(&upper_text(&heading)))?;
                    heading.clear();
                }
                ITEM_TERM => {
                    lines.new_line()?;
                    no_newline = false;
                }
                ITEM_BODY => {
                    lines.control("PP", None)?;
                    no_newline = false;
                }
                META => lines.control("fi", None)?,
                _ => {}
            },
        }
    }
    Ok(())
}

// ---------------------------------------------------------------------------------------------
// The builder

/// Style 1 to 5, block 0 to 11; other numbers are refused as 3 by the C interface.
#[derive(Debug, Clone, Copy, Eq, PartialEq)]
pub enum Operation {
    Write { style: u32 },
    Open { block: u32 },
    Close { block: u32 },
    Doc,
    EmDoc,
}

/// A document that grows by whole records; 6 and 7 are tested where each would stand.
struct Grown {
    bytes: Vec<u8>,
    open: Vec<usize>,
}

impl Grown {
    fn add(&mut self, kind: Kind, body: &[u8]) -> Ruled<()> {
        nest(&mut self.open, kind, self.bytes.len())?;
        crate::stored::put_record(&mut self.bytes, kind.number(), body);
        Ok(())
    }

    fn add_all(&mut self, records: &[Record]) -> Ruled<()> {
        records.iter().try_for_each(|record| self.add(record.kind, record.body))
    }
}

/// The document after an operation on `so_far`, before the room is looked at: all refusals but 13.
/// `argument` is the text written or the document added.
pub fn result(operation: Operation, so_far: &[u8], argument: &[u8]) -> Ruled<Vec<u8>> {
    size(so_far)?;
    let (records, open) = records(so_far)?;
    let mut grown = Grown { bytes: so_far.to_vec(), open };
    match operation {
        Operation::Write { style } => {
            if std::str::from_utf8(argument).is_err() {
                return refused(5, 0);
            }
            match records.last() {
                Some(last) if last.kind == Kind::Text(style as usize) => {
                    let size = (last.body.len() + argument.len()) as u32;
                    grown.bytes[last.place..last.place + 4].copy_from_slice(&size.to_le_bytes());
                    grown.bytes.extend_from_slice(argument);
                }
                _ => grown.add(Kind::Text(style as usize), argument)?,
            }
        }
        Operation::Open { block } => grown.add(Kind::Start(block as usize), b"")?,
        Operation::Close { block } => grown.add(Kind::End(block as usize), b"")?,
        Operation::Doc => {
            let added = check(argument)?;
            grown.add(Kind::Start(INLINE_BLOCK), b"")?;
            grown.add_all(&added)?;
            grown.add(Kind::End(INLINE_BLOCK), b"")?;
        }
        Operation::EmDoc => {
            let added = check(argument)?;
            grown.add(Kind::Start(INLINE_BLOCK), b"")?;
            match added.split_first() {
                Some((first, others)) if first.kind == Kind::Text(TEXT) => {
                    match first.body.iter().position(|&b| b == b'\n') {
                        Some(at) => {
                            grown.add(Kind::Text(EMPHASIS), &first.body[..at])?;
                            grown.add(Kind::Start(SECTION3), b"")?;
                            grown.add(Kind::Text(TEXT), &first.body[at + 1..])?;
                            grown.add_all(others)?;
                            grown.add(Kind::End(SECTION3), b"")?;
                        }
                        None => grown.add(Kind::Text(EMPHASIS), first.body)?,
                    }
                }
                _ => grown.add_all(&added)?,
            }
            grown.add(Kind::End(INLINE_BLOCK), b"")?;
        }
    }
    Ok(grown.bytes)
}

/// The document after an operation on the first `length` bytes of `room`.
pub fn build(operation: Operation, room: &[u8], length: u64, argument: &[u8]) -> Ruled<Vec<u8>> {
    // include/sefgrunn.h: a number outside its range is 3 at 0 before anything else
    let known = match operation {
        Operation::Write { style } => (1..=5).contains(&style),
        Operation::Open { block } | Operation::Close { block } => block <= 11,
        Operation::Doc | Operation::EmDoc => true,
    };
    if !known {
        return refused(3, 0);
    }
    if length > room.len() as u64 {
        return refused(13, 0);
    }
    let result = result(operation, &room[..length as usize], argument)?;
    if result.len() > room.len().min(MOST_BYTES) {
        return refused(13, 0);
    }
    Ok(result)
}
