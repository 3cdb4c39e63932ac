//! Seeded cases: documents valid, damaged and random, settings, rooms near what a text needs, and
//! builder calls. A case is a function of subject, seed, index and limits alone.

use std::sync::OnceLock;

use crate::cases::{answer, pattern, Call, Case};
use crate::rules::{self, Misreading, Operation, Renderer};
use crate::stored::{put_record, MOST_BYTES, MOST_OPEN};

/// What a case is about.
#[derive(Debug, Clone, Copy, Eq, PartialEq)]
pub enum Subject {
    Check,
    Console,
    Html,
    HtmlStrict,
    Markdown,
    Roff,
    /// every scalar value in a heading, as roff
    Headings,
    Builder,
    Split,
    NextChunk,
    Tabstop,
    Pages,
    Shape,
    Notes,
    Join,
    /// a joined form: checked, moved back, rendered
    Joined,
    Figures,
    RoomBound,
    Merge,
    Writes,
}

impl Subject {
    pub const ALL: [(Subject, &'static str); 20] = [
        (Subject::Check, "check"),
        (Subject::Console, "console"),
        (Subject::Html, "html"),
        (Subject::HtmlStrict, "html_strict"),
        (Subject::Markdown, "markdown"),
        (Subject::Roff, "roff"),
        (Subject::Headings, "headings"),
        (Subject::Builder, "builder"),
        (Subject::Split, "split"),
        (Subject::NextChunk, "next_chunk"),
        (Subject::Tabstop, "tabstop"),
        (Subject::Pages, "pages"),
        (Subject::Shape, "shape"),
        (Subject::Notes, "notes"),
        (Subject::Join, "join"),
        (Subject::Joined, "joined"),
        (Subject::Figures, "figures"),
        (Subject::RoomBound, "room_bound"),
        (Subject::Merge, "merge"),
        (Subject::Writes, "writes"),
    ];

    /// Whether lists have its calls.
    pub fn is_listed(self) -> bool {
        use Subject::*;
        !matches!(self, Pages | Shape | Notes | Figures | RoomBound | Writes)
    }

    pub fn named(name: &str) -> Option<Subject> {
        Self::ALL.iter().find(|(_, n)| *n == name).map(|(subject, _)| *subject)
    }
}

/// Bounds on what is generated.
#[derive(Debug, Clone, Copy)]
pub struct Limits {
    /// most bytes of a document; those about the limit of 32,768 come only where this admits them
    pub bytes: usize,
    /// only what a list can hold and a caller can say without the C interface: numbers of 32 bits,
    /// styles and blocks that exist
    pub recorded: bool,
}

impl Limits {
    pub const COMPARED: Limits = Limits { bytes: 40_000, recorded: false };
    pub const RECORDED: Limits = Limits { bytes: 720, recorded: true };

    /// The most bytes of one document: few are long, fewer in lists.
    fn one(self, rng: &mut Rng) -> usize {
        let sizes =
            if self.recorded { [30, 60, 60, 90, 120, 400] } else { [60, 60, 150, 150, 400, 1_500] };
        rng.pick(&sizes).min(self.bytes)
    }
}

/// splitmix64.
#[derive(Debug, Clone)]
pub struct Rng(u64);

impl Rng {
    pub fn new(seed: u64, index: u64) -> Self {
        let mut rng = Rng(seed);
        rng.0 = rng.next() ^ index.wrapping_mul(0xD134_2543_DE82_EF95);
        rng.next();
        rng
    }

    pub(crate) fn next(&mut self) -> u64 {
        self.0 = self.0.wrapping_add(0x9E37_79B9_7F4A_7C15);
        let mut z = self.0;
        z = (z ^ (z >> 30)).wrapping_mul(0xBF58_476D_1CE4_E5B9);
        z = (z ^ (z >> 27)).wrapping_mul(0x94D0_49BB_1331_11EB);
        z ^ (z >> 31)
    }

    /// 0 to `n - 1`
    fn below(&mut self, n: usize) -> usize {
        (self.next() % n as u64) as usize
    }

    /// `low` to `high`
    fn within(&mut self, low: usize, high: usize) -> usize {
        low + self.below(high - low + 1)
    }

    /// true once in `n`
    fn once_in(&mut self, n: usize) -> bool {
        self.below(n) == 0
    }

    fn pick<T: Copy>(&mut self, from: &[T]) -> T {
        from[self.below(from.len())]
    }
}

// ---------------------------------------------------------------------------------------------
// Bodies

const WORDS: &[&str] = &[
    "a",
    "b",
    "x",
    "y",
    "of",
    "port",
    "word",
    "-p",
    "--listen",
    "0",
    "UPPER",
    "longer-word-to-fold",
    "end.",
];
const WIDE: &[&str] =
    &["é", "ß", "漢字", "ア", "😀", "e\u{301}", "ﬁ", "\u{200B}", "\u{FEFF}", "\u{10FFFF}"];
const MARKS: &[&str] = &[
    "<", ">", "&", "&amp;", "&lt;", "&gt;", "&am", "amp;", "lt;", "gt;", "&&lt;", "'", "\\", "-",
    ".", "[", "]", "*", "_", "`", "``", "```", "#", "\"", "\\fB", "\\&", "\0",
];
const BREAKS: &[&str] = &[
    "\n",
    "\n",
    "\n\n",
    "\n\n",
    "\n\n\n",
    "\n ",
    "\n  ",
    "\n    ",
    "\n\n    ",
    "\n\n     ",
    "\n\n```",
    "\n\n```\n",
    "\n```",
    "\n```\n",
    "\n```\n\n",
    "\n```\n\n\n",
    "\n.",
    "\n'",
    "    ",
    " \n",
    "\n\n ",
];
/// White_Space without space and line feed.
const BLANKS: &[&str] = &[
    "\t", "\u{B}", "\u{C}", "\r", "\u{85}", "\u{A0}", "\u{1680}", "\u{2000}", "\u{2001}",
    "\u{2002}", "\u{2003}", "\u{2004}", "\u{2005}", "\u{2006}", "\u{2007}", "\u{2008}", "\u{2009}",
    "\u{200A}", "\u{2028}", "\u{2029}", "\u{202F}", "\u{205F}", "\u{3000}",
];

fn body(rng: &mut Rng, ascii: bool) -> String {
    let mut out = String::new();
    let pieces = if rng.once_in(8) { 0 } else { rng.within(1, 9) };
    for _ in 0..pieces {
        let group = match rng.below(20) {
            0..=6 => WORDS,
            7..=11 => &[" "][..],
            12..=14 => BREAKS,
            15..=16 => MARKS,
            17 => BLANKS,
            _ => WIDE,
        };
        let piece = rng.pick(group);
        if !ascii || piece.is_ascii() {
            out.push_str(piece);
        }
    }
    out
}

/// Characters that an upper-case mapping may get wrong: mapped ones, those that grow, any scalar value.
fn heading(rng: &mut Rng) -> String {
    static MAPPED: OnceLock<Vec<char>> = OnceLock::new();
    let mapped = MAPPED.get_or_init(|| rules::mapped().map(|(c, _)| c).collect());
    let one = |rng: &mut Rng| match rng.below(8) {
        0..=2 => rng.pick(mapped),
        3 => rng.pick(&['ß', 'ŉ', 'ΐ', 'ﬃ', 'ᾳ', 'և', 'ς', 'ǆ', 'ǅ', 'ı', 'ÿ', 'ﬀ']),
        4 => char::from_u32(rng.below(0x11_0000) as u32).unwrap_or('é'),
        5 => rng.pick(&[mapped[0], mapped[mapped.len() - 1], 'À', 'é', '京', '\u{10FFFF}']),
        _ => rng.pick(&['a', 'z', ' ', '\n', '-', '\\', '.', '\'', '"']),
    };
    (0..rng.below(8)).map(|_| one(rng)).collect()
}

/// A term of 0 to 30 characters, often about the 24 that the tabstop admits.
fn term(rng: &mut Rng, ascii: bool) -> String {
    let count = if rng.once_in(3) { rng.within(22, 27) } else { rng.below(31) };
    let letter = if ascii { "t" } else { rng.pick(&["t", "t", "é", "漢"]) };
    letter.repeat(count)
}

// ---------------------------------------------------------------------------------------------
// Documents

const ITEM_TERM: usize = 4;
const ITEM_BODY: usize = 5;
const LIST: usize = 6;
const BLOCK: usize = 7;
const INLINE: usize = 8;
const TERM_REF: usize = 9;
const META: usize = 10;
const MONO: usize = 11;

/// What a valid document may hold.
#[derive(Debug, Clone, Copy)]
struct Palette {
    ascii: bool,
    term_refs: bool,
    metas: bool,
}

impl Palette {
    /// Renderers refuse some blocks and some text: mostly without these, so that walks get far.
    fn of(subject: Subject, rng: &mut Rng) -> Self {
        match subject {
            Subject::Roff => {
                Palette { ascii: rng.once_in(3), term_refs: rng.once_in(8), metas: rng.once_in(2) }
            }
            Subject::Html | Subject::HtmlStrict | Subject::Markdown => {
                Palette { ascii: rng.once_in(3), term_refs: true, metas: rng.once_in(4) }
            }
            _ => Palette { ascii: rng.once_in(3), term_refs: true, metas: true },
        }
    }
}

/// A valid document under construction, its open blocks, and the most bytes it may have when closed.
struct Maker<'r> {
    rng: &'r mut Rng,
    palette: Palette,
    bytes: Vec<u8>,
    open: Vec<usize>,
    most: usize,
}

impl Maker<'_> {
    fn fits(&self, bytes: usize) -> bool {
        self.bytes.len() + bytes + 6 * self.open.len() <= self.most
    }

    fn text(&mut self, body: &str) {
        if self.fits(6 + body.len()) {
            let style = if self.rng.once_in(2) { 1 } else { self.rng.within(1, 5) };
            put_record(&mut self.bytes, style as u16, body.as_bytes());
        }
    }

    fn some_text(&mut self) {
        let body = body(self.rng, self.palette.ascii);
        self.text(&body);
    }

    /// Whether a block may be opened, and is then open.
    fn start(&mut self, block: usize) -> bool {
        let shut_out =
            block == META && !self.palette.metas || block == TERM_REF && !self.palette.term_refs;
        let starts = !shut_out && self.open.len() < MOST_OPEN && self.fits(12);
        if starts {
            put_record(&mut self.bytes, 0x0100 + block as u16, b"");
            self.open.push(block);
        }
        starts
    }

    fn end(&mut self) {
        if let Some(block) = self.open.pop() {
            put_record(&mut self.bytes, 0x0200 + block as u16, b"");
        }
    }

    fn around(&mut self, block: usize, inner: impl FnOnce(&mut Self)) {
        let depth = self.open.len();
        if self.start(block) {
            inner(self);
            while self.open.len() > depth {
                self.end();
            }
        }
    }

    /// A line that has reached a margin past 50 columns, and a body that leaves the line after some
    /// words: refusal 10 falls inside it, at a word, a space, a code line or the first line in ticks.
    fn past_the_margin(&mut self) {
        let line = "u".repeat(self.rng.within(0, 70));
        let words: String =
            (0..self.rng.below(6)).map(|_| self.rng.pick(&["a ", "é ", "é", "word\n"])).collect();
        let leaves = [
            "\n ",
            "\n\n",
            "\n    ",
            "\n\n    ",
            "\n \n    ",
            "\n\n```",
            "\n\n```\n",
            "\n",
            " ",
            "",
        ];
        let leave = self.rng.pick(&leaves);
        let rest = match self.rng.once_in(3) {
            true => "",
            false => self.rng.pick(&["x", "é y", " ", "\n", "    ", "\n\n", "```\nx"]),
        };
        self.text("\n ");
        self.text(&line);
        for _ in 0..self.rng.within(8, 10) {
            self.start(ITEM_BODY);
        }
        self.text(&(words + leave + rest));
        self.some_text();
    }

    /// A term about the 24 characters that settle the tabstop, in one record or several, and maybe
    /// terms in it, whose ends stop the count.
    fn nested_terms(&mut self, depth: usize) {
        let count = if self.rng.once_in(4) { self.rng.below(24) } else { self.rng.within(23, 25) };
        let letter = self.rng.pick(if self.palette.ascii { &["t"] } else { &["t", "é", "漢"] });
        let cut = if self.rng.once_in(2) { count } else { self.rng.below(count + 1) };
        let inner = depth > 0 && self.rng.once_in(2);
        let after = self.rng.pick(&["", "t", "tt"]);
        self.around(ITEM_TERM, |m| {
            m.text(&letter.repeat(cut));
            if cut < count {
                m.text(&letter.repeat(count - cut));
            }
            if inner {
                m.nested_terms(depth - 1);
                m.text(after);
            }
        });
    }

    /// One part of a document in house shape.
    fn part(&mut self, depth: usize) {
        match self.rng.below(if depth == 0 { 2 } else { 5 }) {
            0..=1 => self.some_text(),
            2..=3 => self.list(depth - 1),
            _ => {
                let block = self.rng.pick(&[0, 1, 2, 3, BLOCK, INLINE, TERM_REF, META, MONO]);
                self.around(block, |m| m.parts(depth - 1));
            }
        }
    }

    fn parts(&mut self, depth: usize) {
        for _ in 0..self.rng.below(3) {
            self.part(depth);
        }
    }

    /// A list in house shape. A pair is left out where it may not fit.
    fn list(&mut self, depth: usize) {
        self.around(LIST, |m| {
            for _ in 0..m.rng.below(4) {
                if !m.fits(6 * 24) || m.open.len() + 8 > MOST_OPEN {
                    break;
                }
                let inner = m.rng.pick(&[INLINE, TERM_REF, MONO]);
                let (within, term) = (m.rng.once_in(3), m.rng.pick(&["", "-p", "--port"]));
                m.around(ITEM_TERM, |m| {
                    if within {
                        m.around(inner, |m| m.text("-p"));
                    }
                    m.text(term);
                });
                m.around(ITEM_BODY, |m| m.parts(depth));
            }
        });
    }

    /// Little text that writes much: far from its margin, after an empty Block, before another.
    fn much_of_little(&mut self) {
        self.around(TERM_REF, |_| {});
        self.start(2);
        for _ in 0..self.rng.within(7, 8) {
            self.start(ITEM_BODY);
        }
        for _ in 0..self.rng.below(4) {
            self.around(BLOCK, |_| {});
            let text = self.rng.pick(&["x", "x ", "\nx", "x\n", "\u{A0}", "", " ", "\n    "]);
            self.text(text);
        }
        self.around(BLOCK, |_| {});
    }

    /// An item of an option list. The term's text may be cut over records and blocks.
    fn item(&mut self, term: &str) {
        let cut = (0..=term.len()).filter(|&at| term.is_char_boundary(at)).collect::<Vec<_>>();
        let (cut, around) = (self.rng.pick(&cut), self.rng.pick(&[INLINE, TERM_REF, MONO]));
        let (bracketed, filled) = (self.rng.once_in(3), !self.rng.once_in(3));
        self.around(ITEM_TERM, |m| {
            m.text(&term[..cut]);
            if bracketed {
                m.around(around, |m| m.text(&term[cut..]));
            } else if cut < term.len() {
                m.text(&term[cut..]);
            }
        });
        self.around(ITEM_BODY, |m| {
            if filled {
                m.parts(1)
            }
        });
    }

    fn act(&mut self) {
        match self.rng.below(30) {
            0..=5 => self.some_text(),
            // bodies that would split or escape otherwise if they were joined
            6 => {
                let pairs = [
                    ("\n", "\n"),
                    ("a\n", "\nb"),
                    ("&", "amp;"),
                    ("\n", "    a"),
                    ("\n\n``", "`"),
                    ("é", " é"),
                ];
                let (first, second) = self.rng.pick(&pairs);
                self.text(first);
                self.text(second);
            }
            7..=9 => {
                let block = self.rng.below(12);
                self.start(block);
            }
            10..=12 => self.end(),
            13..=14 => {
                let in_list = !self.rng.once_in(3);
                if in_list {
                    self.start(LIST);
                }
                for _ in 0..self.rng.within(1, 2) {
                    let term = term(self.rng, self.palette.ascii);
                    let empty = self.rng.once_in(5);
                    self.around(ITEM_TERM, |m| {
                        if !empty {
                            m.text(&term)
                        }
                    });
                    self.around(ITEM_BODY, Self::some_text);
                }
                if in_list && !self.rng.once_in(4) {
                    self.end();
                }
            }
            // Section4, mostly with the adjacent gap
            15 => {
                let (nested, gap) = (self.rng.once_in(4), !self.rng.once_in(3));
                self.around(3, |m| {
                    m.some_text();
                    if nested {
                        m.around(3, Self::some_text);
                        m.around(BLOCK, |_| {});
                    }
                });
                self.around(BLOCK, |m| {
                    if !gap {
                        m.some_text()
                    }
                });
                self.some_text();
            }
            // margins far to the right
            16 => {
                let block = self.rng.pick(&[ITEM_BODY, ITEM_BODY, 2, 3, ITEM_TERM]);
                for _ in 0..self.rng.within(4, 27) {
                    let other = self.rng.pick(&[2, ITEM_BODY]);
                    let mixed = self.rng.once_in(6);
                    self.start(if mixed { other } else { block });
                }
                self.some_text();
            }
            17 => self.around(TERM_REF, Self::some_text),
            // a paragraph in a bracket: with `full` off what follows is skipped up to its end
            18..=19 => {
                let inner = self.rng.once_in(3);
                self.around(INLINE, |m| {
                    m.text("a\n\nb");
                    m.around(TERM_REF, Self::some_text);
                    if inner {
                        m.around(INLINE, Self::some_text);
                        m.some_text();
                    }
                });
                self.some_text();
            }
            // headings, also within headings
            20 => {
                let (outer, inner) = (self.rng.below(4), self.rng.below(4));
                let nested = self.rng.once_in(3);
                let text = if self.palette.ascii { String::new() } else { heading(self.rng) };
                self.around(outer, |m| {
                    m.some_text();
                    m.text(&text);
                    if nested {
                        m.around(inner, Self::some_text);
                        m.some_text();
                    }
                });
            }
            // about column 28, from which a body keeps two columns before it; maybe an empty body
            21 => {
                let line = "u".repeat(self.rng.within(24, 31));
                let (before, empty) = (self.rng.pick(&["\n ", "\n\n"]), self.rng.once_in(3));
                self.text(before);
                self.text(&line);
                self.around(ITEM_BODY, |m| {
                    if !empty {
                        m.some_text();
                    }
                });
                self.some_text();
            }
            // an empty code line leaves the column far out at the start of a line
            22 => {
                let line = self.rng.pick(&["a\n \n    ", "\n    ", "a\n\n    ", "a\n \n    \n"]);
                let block = self.rng.pick(&[BLOCK, BLOCK, 1, ITEM_TERM]);
                let after = self.rng.pick(&["b", " b", "\nb c", " "]);
                self.text(line);
                self.around(block, |_| {});
                self.text(after);
            }
            // terms and bodies in a term, line ends in it, and what follows each
            23 => {
                let inner = self.rng.pick(&[ITEM_TERM, ITEM_TERM, ITEM_BODY]);
                let after = self.rng.pick(&["a\n.b", "x\n'y", "tttt", "\n"]);
                self.around(ITEM_TERM, |m| {
                    m.text("tt\n.t");
                    m.around(inner, Self::some_text);
                    m.text(after);
                });
                self.around(ITEM_BODY, Self::some_text);
            }
            24 => {
                self.around(11, |m| m.text("[x]"));
                self.text("[y]");
            }
            25..=26 => self.past_the_margin(),
            28 => self.nested_terms(2),
            // a line whose bytes and characters differ by far: a word, a code line, a line in ticks
            27 => {
                let first = self.rng.pick(&["", " ", "\n ", "\n    ", "\n\n    ", "\n\n```\n"]);
                let ascii = self.palette.ascii;
                let one =
                    self.rng.pick(if ascii { &["t"] } else { &["é", "漢", "😀", "e\u{301}"] });
                let line = first.to_string() + &one.repeat(self.rng.below(30));
                self.text(&line);
                self.some_text();
            }
            // an empty block
            _ => {
                let block = self.rng.below(12);
                self.around(block, |_| {});
            }
        }
    }
}

const FAR_BYTES: usize = 10 * 12 + 400;

/// A valid document with text past its margin, and little else.
fn far(rng: &mut Rng, palette: Palette) -> Vec<u8> {
    let mut maker = Maker { rng, palette, bytes: Vec::new(), open: Vec::new(), most: FAR_BYTES };
    maker.past_the_margin();
    while !maker.open.is_empty() {
        maker.end();
    }
    maker.bytes
}

/// A valid document whose text needs much room.
fn roomy(rng: &mut Rng, palette: Palette) -> Vec<u8> {
    let mut maker = Maker { rng, palette, bytes: Vec::new(), open: Vec::new(), most: FAR_BYTES };
    maker.much_of_little();
    while !maker.open.is_empty() {
        maker.end();
    }
    maker.bytes
}

/// A valid document of terms, and little else.
fn terms(rng: &mut Rng, palette: Palette) -> Vec<u8> {
    let mut maker = Maker { rng, palette, bytes: Vec::new(), open: Vec::new(), most: FAR_BYTES };
    for _ in 0..maker.rng.within(1, 4) {
        maker.nested_terms(3);
        maker.some_text();
    }
    maker.bytes
}

/// A document in house shape.
fn shaped(rng: &mut Rng, palette: Palette, most: usize) -> Vec<u8> {
    let mut maker = Maker { rng, palette, bytes: Vec::new(), open: Vec::new(), most };
    for _ in 0..maker.rng.below(5) {
        let depth = maker.rng.within(1, 4);
        maker.part(depth);
    }
    maker.bytes
}

/// One change of a valid document that leaves it valid and may spoil its shape: a block becomes
/// another, loses its bracket or goes with all that it holds; a text or an empty block is put in.
fn misshape(rng: &mut Rng, document: &[u8]) -> Vec<u8> {
    let records = rules::check(document).expect("a valid document");
    let mut list: Vec<(u16, Vec<u8>)> =
        records.iter().map(|r| (r.kind.number(), r.body.to_vec())).collect();
    let at = rng.below(list.len() + 1);
    let starts: Vec<usize> = (0..list.len()).filter(|&i| list[i].0 >> 8 == 1).collect();
    let block = rng.pick(&[ITEM_TERM, ITEM_BODY, LIST, LIST, BLOCK, INLINE, TERM_REF, 0]) as u16;
    if starts.is_empty() || rng.once_in(3) {
        let put: Vec<(u16, Vec<u8>)> = match rng.below(3) {
            0 => vec![(1, b"x".to_vec())],
            1 => vec![(2, vec![])],
            _ => vec![(0x0100 + block, vec![]), (0x0200 + block, vec![])],
        };
        list.splice(at..at, put);
    } else {
        let start = rng.pick(&starts);
        let mut depth = 0;
        let end = (start..list.len())
            .find(|&i| {
                depth += (list[i].0 >> 8 == 1) as i32 - (list[i].0 >> 8 == 2) as i32;
                depth == 0
            })
            .expect("its end");
        match rng.below(3) {
            0 => (list[start].0, list[end].0) = (0x0100 + block, 0x0200 + block),
            1 => {
                list.remove(end);
                list.remove(start);
            }
            _ => drop(list.drain(start..=end)),
        }
    }
    let mut out = Vec::new();
    list.iter().for_each(|(kind, body)| put_record(&mut out, *kind, body));
    out
}

/// A valid document of at most `most` bytes; its blocks are all closed, or some may be open.
fn valid(rng: &mut Rng, palette: Palette, most: usize, may_stay_open: bool) -> Vec<u8> {
    let most = if rng.once_in(2) { most } else { rng.below(most + 1) };
    let steps = rng.within(1, 24);
    let stays_open = may_stay_open && rng.once_in(2);
    let mut maker = Maker { rng, palette, bytes: Vec::new(), open: Vec::new(), most };
    for _ in 0..steps {
        maker.act();
    }
    while !stays_open && !maker.open.is_empty() {
        maker.end();
    }
    maker.bytes
}

/// A document of exactly `size` bytes, `size` at least 200.
fn sized(rng: &mut Rng, palette: Palette, size: usize) -> Vec<u8> {
    let mut bytes = valid(rng, palette, 190, false);
    let filler = rng.pick(&["ab cd\nef ", "word ", "x", "a\n\n    b\n", " ", "<&>'-.\n"]);
    let body: String = filler.chars().cycle().take(size - bytes.len() - 6).collect();
    put_record(&mut bytes, 1, body.as_bytes());
    bytes
}

/// 31, 32 or 33 blocks open at once around a text, closed or not.
fn deep(rng: &mut Rng, palette: Palette) -> Vec<u8> {
    let one = rng.pick(&[11, 11, 8, 2, 5, 0, 7, 6]);
    let blocks: Vec<usize> =
        (0..rng.within(31, 33)).map(|_| if rng.once_in(6) { rng.below(9) } else { one }).collect();
    let mut bytes = Vec::new();
    for &block in &blocks {
        put_record(&mut bytes, 0x0100 + block as u16, b"");
    }
    let text = body(rng, palette.ascii);
    put_record(&mut bytes, 1, text.as_bytes());
    for &block in blocks.iter().rev().skip(if rng.once_in(5) { 1 } else { 0 }) {
        put_record(&mut bytes, 0x0200 + block as u16, b"");
    }
    bytes
}

const DEEP_BYTES: usize = 33 * 12 + 6 + 300;

/// A document about a limit of 01, where `most` bytes admit one.
fn boundary(rng: &mut Rng, palette: Palette, most: usize) -> Option<Vec<u8>> {
    if most > MOST_BYTES && rng.once_in(6) {
        let size = rng.within(MOST_BYTES - 1, MOST_BYTES + 1);
        return Some(if rng.once_in(8) { vec![0; size] } else { sized(rng, palette, size) });
    }
    (most >= DEEP_BYTES).then(|| deep(rng, palette))
}

/// Sequences that are not UTF-8, or become so only beside other bytes.
const NOT_UTF8: &[&[u8]] = &[
    b"\x80",
    b"\xBF",
    b"\xC3",
    b"\xC0\x80",
    b"\xE0\x80\x80",
    b"\xED\xA0\x80",
    b"\xF4\x90\x80\x80",
    b"\xF0\x9F\x98",
    b"\xFF",
    b"\xE6\xBC",
    b"\xC1\xBF",
    b"\xF5\x80\x80\x80",
];

/// One change: a byte, a byte put in or taken out, the end cut off, a record's fields, a sequence
/// that is not UTF-8, a record taken out or put in.
fn damage(rng: &mut Rng, bytes: &mut Vec<u8>) {
    if bytes.is_empty() {
        bytes.push(rng.next() as u8);
        return;
    }
    let places: Vec<(usize, usize)> = match rules::check(bytes) {
        Ok(records) => records.iter().map(|r| (r.place, r.body.len())).collect(),
        Err(_) => vec![(0, 0)],
    };
    let at = rng.below(bytes.len());
    let (record, size) = if places.is_empty() { (0, 0) } else { rng.pick(&places) };
    let record_end = bytes.len().min(record + 6 + size);
    match rng.below(18) {
        0 => bytes[at] ^= 1 << rng.below(8),
        1 => bytes[at] = rng.next() as u8,
        2 => bytes.insert(at, rng.pick(&[0, 1, 2, 0x61, 0xC3])),
        3 => drop(bytes.remove(at)),
        4 => bytes.truncate(at),
        5..=6 if record + 6 <= bytes.len() => {
            let kinds = [
                0x0000, 0x0006, 0x0100, 0x010B, 0x010C, 0x0200, 0x020B, 0x020C, 0x0300, 0x0001,
                0xFFFF,
            ];
            let kind: u16 = rng.pick(&kinds);
            bytes[record + 4..record + 6].copy_from_slice(&kind.to_le_bytes());
        }
        7 if record + 6 <= bytes.len() => {
            let left = (bytes.len() - record - 6) as u32;
            let size = rng.pick(&[0, 1, left, left.wrapping_add(1), u32::MAX, 0x0100_0000]);
            bytes[record..record + 4].copy_from_slice(&size.to_le_bytes());
        }
        8..=10 if size > 0 && record_end <= bytes.len() => {
            let bad = rng.pick(NOT_UTF8);
            let from = record + 6 + rng.below(size);
            bad.iter().zip(&mut bytes[from..record_end]).for_each(|(b, to)| *to = *b);
        }
        11 => bytes.truncate(record),
        12..=13 => drop(bytes.drain(record..record_end)),
        14..=16 => {
            let mut new = Vec::new();
            let kind = rng.pick(&[0x0100, 0x0200]) + rng.below(12) as u16;
            put_record(&mut new, kind, if rng.once_in(3) { b"x" } else { b"" });
            bytes.splice(record..record, new);
        }
        _ => bytes.extend_from_slice(rng.pick(NOT_UTF8)),
    }
}

/// Any document: mostly valid, also damaged, random and about limits.
fn document(rng: &mut Rng, subject: Subject, limits: Limits, faulty_once_in: usize) -> Vec<u8> {
    let palette = Palette::of(subject, rng);
    if rng.once_in(40) {
        if let Some(bytes) = boundary(rng, palette, limits.bytes) {
            return bytes;
        }
    }
    if subject == Subject::Console && limits.bytes >= FAR_BYTES && rng.once_in(12) {
        return far(rng, palette);
    }
    if matches!(subject, Subject::Console | Subject::RoomBound)
        && limits.bytes >= FAR_BYTES
        && rng.once_in(8)
    {
        return roomy(rng, palette);
    }
    if subject == Subject::Shape && !rng.once_in(5) {
        let most = limits.one(rng).max(300);
        let shaped = shaped(rng, palette, most);
        return if rng.once_in(2) { shaped } else { misshape(rng, &shaped) };
    }
    if subject == Subject::Tabstop && limits.bytes >= FAR_BYTES && rng.once_in(2) {
        return terms(rng, palette);
    }
    if !rng.once_in(faulty_once_in) {
        let most = limits.one(rng);
        return valid(rng, palette, most, false);
    }
    if rng.once_in(6) {
        let common = [0, 0, 0, 0, 0, 1, 1, 2, 3, 5, 6, 9, 11, 12, 0x61, 0xC3, 0xA9, 0x80];
        return (0..rng.below(40))
            .map(|_| if rng.once_in(9) { rng.next() as u8 } else { rng.pick(&common) })
            .collect();
    }
    let most = limits.one(rng).saturating_sub(12);
    let mut bytes = valid(rng, palette, most, true);
    for _ in 0..rng.pick(&[1, 1, 1, 2, 3]) {
        damage(rng, &mut bytes);
    }
    bytes
}

// ---------------------------------------------------------------------------------------------
// Cases

fn width(rng: &mut Rng, limits: Limits) -> u64 {
    match rng.below(20) {
        0..=5 => rng.below(13) as u64,
        6..=9 => rng.within(13, 40) as u64,
        10..=15 => rng.below(111) as u64,
        16..=17 => 100,
        18 => rng.pick(&[9_999, 10_000]),
        _ if limits.recorded => rng.pick(&[10_000, 10_001, u32::MAX.into()]),
        _ => rng.pick(&[10_000, 10_001, u64::MAX]),
    }
}

/// Lengths of rooms about `need`.
fn room_length(rng: &mut Rng, need: usize) -> usize {
    match rng.below(16) {
        0..=4 => need,
        5..=7 => need.saturating_sub(1),
        8 => need + 1,
        9 => 0,
        10..=11 => rng.below(need + 1),
        _ => need + rng.below(60),
    }
}

/// The renderer of a subject, in settings of chance.
fn renderer(rng: &mut Rng, subject: Subject, limits: Limits) -> Renderer {
    let (full, css) = (!rng.once_in(3), rng.once_in(6));
    match subject {
        Subject::Console => {
            Renderer::Console { width: width(rng, limits), full, characters: rng.once_in(2) }
        }
        Subject::Html => Renderer::Html { full, css, strict: false },
        Subject::HtmlStrict => Renderer::Html { full, css, strict: true },
        Subject::Markdown => Renderer::Markdown { full },
        _ => Renderer::Roff,
    }
}

fn rendering(rng: &mut Rng, subject: Subject, limits: Limits) -> Case {
    let document = document(rng, subject, limits, 10);
    let renderer = renderer(rng, subject, limits);
    let need = rules::render(renderer, &document, usize::MAX).most;
    let bound = rules::check(&document).map_or(0, |records| rules::room_bound(&records));
    // the room that 02 says is enough, in which the console never answers 13
    let as_bound = subject == Subject::Console && bound < 40_000 && rng.once_in(6);
    let length = if as_bound && !limits.recorded { bound } else { room_length(rng, need) };
    let room = pattern(0, length).collect();
    Case { call: Call::Render(renderer), document, room, length: 0 }
}

/// Scalar values in one heading.
const HEADING_VALUES: usize = 512;
/// Cases after which every scalar value was in a heading.
pub const HEADING_CASES: u64 = (0x11_0000 - 0x800) / HEADING_VALUES as u64;

/// A heading of the scalar values of this index, cut into several records, as roff.
fn heading_of_all(rng: &mut Rng, index: u64) -> Case {
    let from = (index % HEADING_CASES) as usize * HEADING_VALUES;
    // surrogates are no scalar values
    let scalar = |n: usize| char::from_u32(if n < 0xD800 { n } else { n + 0x800 } as u32);
    let values: Vec<char> = (from..from + HEADING_VALUES).filter_map(scalar).collect();
    let block = rng.below(4) as u16;
    let mut document = Vec::new();
    put_record(&mut document, 0x0100 + block, b"");
    let mut rest = &values[..];
    while !rest.is_empty() {
        let (part, after) = rest.split_at(rng.within(1, rest.len()));
        put_record(&mut document, rng.within(1, 5) as u16, String::from_iter(part).as_bytes());
        rest = after;
    }
    put_record(&mut document, 0x0200 + block, b"");
    let need = rules::render(Renderer::Roff, &document, usize::MAX).most;
    // mostly all of it, and else 13 where the heading grows
    let room = match rng.below(4) {
        0 => need.saturating_sub(rng.below(HEADING_VALUES)),
        _ => need + rng.below(3),
    };
    let room = pattern(0, room).collect();
    Case { call: Call::Render(Renderer::Roff), document, room, length: 0 }
}

/// The document so far of a builder call.
fn so_far(rng: &mut Rng, palette: Palette, limits: Limits) -> Vec<u8> {
    let most = limits.one(rng);
    match rng.below(16) {
        0 => Vec::new(),
        1 if limits.bytes >= DEEP_BYTES => {
            let mut bytes = deep(rng, palette);
            // mostly cut among the ends, so that about 32 blocks stay open
            if !rng.once_in(4) {
                bytes.truncate(bytes.len().saturating_sub(6 * rng.within(25, 33)));
            }
            bytes
        }
        2..=3 => {
            let mut bytes = valid(rng, palette, most, true);
            damage(rng, &mut bytes);
            bytes
        }
        _ => valid(rng, palette, most, true),
    }
}

/// A document to add: often with a first record in style Text, which `em_doc` takes apart.
fn added(rng: &mut Rng, palette: Palette, limits: Limits) -> Vec<u8> {
    let mut bytes = Vec::new();
    if rng.once_in(2) {
        let first = rng.pick(&["", "a", "a\nb", "\n", "title\n\nrest of it", "é\n", "a b"]);
        put_record(&mut bytes, 1, first.as_bytes());
    }
    let most = limits.one(rng);
    bytes.extend(match rng.below(8) {
        0 if limits.bytes >= DEEP_BYTES => deep(rng, palette),
        1 => document(rng, Subject::Builder, limits, 1),
        _ => valid(rng, palette, most, false),
    });
    bytes
}

fn building(rng: &mut Rng, limits: Limits) -> Case {
    let palette = Palette::of(Subject::Builder, rng);
    let mut so_far = so_far(rng, palette, limits);
    // the last record's style, if it is text, and the innermost open block
    let (mut style, mut block) = (rng.within(1, 5), rng.below(12));
    let mut open = Vec::new();
    let mut place = 0;
    while let Some(head) = so_far.get(place..place + 6) {
        let size = u32::from_le_bytes([head[0], head[1], head[2], head[3]]) as usize;
        match (head[5], head[4] as usize) {
            (0, s @ 1..=5) if !rng.once_in(3) => style = s,
            (1, b) => open.push(b),
            (2, _) => drop(open.pop()),
            _ => {}
        }
        place = place.saturating_add(6).saturating_add(size);
    }
    if let (Some(&innermost), false) = (open.last(), rng.once_in(4)) {
        block = innermost;
    }
    let out_of_range = !limits.recorded && rng.once_in(40);
    let outside = |rng: &mut Rng, first: u32| rng.pick(&[first, first + 1, 0x0100, u32::MAX]);
    let (style, block) = match out_of_range {
        true => (rng.pick(&[0, 6, 7, 0x0100, u32::MAX]), outside(rng, 12)),
        false => (style as u32, block as u32),
    };
    let operation = match rng.below(10) {
        0..=3 => Operation::Write { style },
        4 => Operation::Open { block: if out_of_range { block } else { rng.below(12) as u32 } },
        5 => Operation::Close { block },
        6..=7 => Operation::Doc,
        _ => Operation::EmDoc,
    };
    // what is closed is mostly open
    let closes = matches!(operation, Operation::Close { .. });
    if closes && open.is_empty() && !out_of_range && !rng.once_in(3) {
        put_record(&mut so_far, 0x0100 + block as u16, b"");
    }
    let mut argument = match operation {
        Operation::Write { .. } => body(rng, palette.ascii).into_bytes(),
        Operation::Doc | Operation::EmDoc => added(rng, palette, limits),
        _ => Vec::new(),
    };
    if matches!(operation, Operation::Write { .. }) && rng.once_in(8) {
        let at = rng.below(argument.len() + 1);
        argument.splice(at..at, rng.pick(NOT_UTF8).iter().copied());
    }
    // a result about the limit of 32,768 bytes, in a room that is larger
    let large = limits.bytes > MOST_BYTES && rng.once_in(150);
    if large {
        let grown = rules::result(operation, &sized(rng, palette, 200), &argument)
            .map_or(0, |r| r.len() - 200);
        let size = rng.within(MOST_BYTES - 1, MOST_BYTES + 1).saturating_sub(grown.min(20_000));
        so_far = sized(rng, palette, size);
    }
    let need =
        rules::result(operation, &so_far, &argument).map_or(so_far.len(), |result| result.len());
    let mut room_len = match rng.below(12) {
        0..=3 => need,
        4..=5 => need.saturating_sub(1),
        6 => so_far.len(),
        7 => so_far.len().saturating_sub(1),
        8 => rng.below(need + 1),
        _ => need + rng.below(40),
    };
    if large && !rng.once_in(4) {
        room_len = need + rng.below(40);
    }
    // the length so far may pass the room: then the room holds what it can
    let mut length = so_far.len() as u64;
    if rng.once_in(60) {
        length = if limits.recorded {
            length + 100_000
        } else {
            rng.pick(&[u64::MAX, length + 1, 1 << 32])
        };
    }
    let mut room: Vec<u8> = so_far.into_iter().take(room_len).collect();
    room.extend(pattern(room.len(), room_len));
    Case { call: Call::Build(operation), document: argument, room, length }
}

fn splitting(rng: &mut Rng, limits: Limits) -> Case {
    let mut bytes: Vec<u8> = Vec::new();
    for _ in 0..rng.within(1, 5) {
        bytes.extend(body(rng, false).bytes());
    }
    if rng.once_in(4) {
        for _ in 0..rng.within(1, 3) {
            let at = rng.below(bytes.len() + 1);
            bytes.splice(at..at, rng.pick(NOT_UTF8).iter().copied());
        }
    }
    bytes.truncate(limits.bytes);
    Case { call: Call::Split, document: bytes, room: Vec::new(), length: 0 }
}

/// A cursor anywhere in a body, at its end or past it, in any state.
fn stepping(rng: &mut Rng, limits: Limits) -> Case {
    let body = splitting(rng, limits).document;
    let length = body.len() as u64;
    let at = match rng.below(12) {
        0 => length,
        1 => length + 1,
        2 if !limits.recorded => rng.pick(&[u64::MAX, u64::MAX - 4, 1 << 32]),
        3 => 0,
        4..=7 => body.iter().position(|&b| b == b'\n').unwrap_or(0) as u64,
        _ => rng.below(body.len() + 1) as u64,
    };
    let ticks = match limits.recorded {
        true => rng.pick(&[0, 0, 1, 2]),
        false => rng.pick(&[0, 0, 0, 1, 1, 2, 2, 3, 1 << 31, u32::MAX]),
    };
    Case { call: Call::NextChunk { at, ticks }, document: body, room: Vec::new(), length: 0 }
}

/// A text to page: rows of chance, a console text, any bytes; empty, short and long.
fn paging(rng: &mut Rng, limits: Limits) -> Case {
    let mut text: Vec<u8> = match rng.below(8) {
        0 => Vec::new(),
        1 => vec![b'\n'; rng.below(450)],
        2..=4 => {
            let document = document(rng, Subject::Console, limits, 1_000);
            let renderer =
                Renderer::Console { width: rng.below(60) as u64, full: true, characters: true };
            rules::render(renderer, &document, usize::MAX).outcome.unwrap_or_default()
        }
        5 => (0..rng.below(300)).map(|_| rng.next() as u8 % 14).collect(),
        _ => (0..rng.below(60)).map(|_| rng.pick(b"ab\n\n\n\xC3\0\r")).collect(),
    };
    if rng.once_in(60) {
        text = text.repeat(rng.below(60));
    }
    let rows = text.split_inclusive(|&b| b == b'\n').count() as u64;
    let far = [0, 201, 202, u64::MAX, u64::MAX - 1, 1 << 32];
    let height = match rng.below(12) {
        0 => rng.pick(&far),
        1 => rng.pick(&[1, 199, 200]),
        2 => rows.clamp(1, 200),
        3 => (rows / 2).clamp(1, 200),
        4..=7 => rng.within(1, 4) as u64,
        _ => rng.within(1, 30) as u64,
    };
    if rng.once_in(4) {
        return Case { call: Call::PageCount { height }, document: text, room: vec![], length: 0 };
    }
    let count = rows.div_ceil(height.clamp(1, 200));
    let page = match rng.below(8) {
        0 => rng.pick(&far),
        1 => count + 1,
        2..=3 => count,
        _ => rng.below(count as usize + 1) as u64,
    };
    Case { call: Call::Page { height, page }, document: text, room: vec![], length: 0 }
}

/// Lines of notes: marked, nearly marked, blank, nearly blank, with backticks.
const LINES: &[&str] = &[
    "# Title",
    "# ",
    "#",
    "#x",
    "## x",
    "# `a` b",
    "- item",
    "- ",
    "-",
    "-x",
    "- a `b` c `d",
    " - x",
    "",
    "",
    "",
    " ",
    "   ",
    "\t",
    "\r",
    "\u{A0}",
    "text",
    "more text here",
    "  indented ",
    "é 漢字 😀",
    "`code`",
    "a `b` c",
    "`",
    "``",
    "```",
    "a``b",
    "`a``b`",
    "`a` `b` `",
    "* star",
    "\0",
];

/// Notes: lines of chance, sometimes not UTF-8, too long, or of a document that is.
fn noting(rng: &mut Rng) -> Case {
    let mut notes = Vec::new();
    for _ in 0..rng.below(12) {
        notes.extend_from_slice(rng.pick(LINES).as_bytes());
        if !rng.once_in(8) {
            notes.push(b'\n');
        }
    }
    if rng.once_in(3) && notes.ends_with(b"\n") {
        notes.pop();
    }
    match rng.below(60) {
        // about the limit of the notes, or of the document: each part costs 12 bytes, each text 6
        0 => {
            let line = rng.pick(&["- a\n", "word ", "a `b` ", "a\n\n", "# x\n", "`", "\n"]);
            let limit = rng.pick(&[MOST_BYTES, MOST_BYTES, MOST_BYTES - 18, 6_000, 24_000]);
            let size = rng.within(limit - 1, limit + 1);
            notes.extend(line.bytes().cycle().take(size.saturating_sub(notes.len())));
        }
        1..=4 => {
            let at = rng.below(notes.len() + 1);
            notes.splice(at..at, rng.pick(NOT_UTF8).iter().copied());
        }
        // a text with backticks far apart
        5..=9 => {
            for _ in 0..rng.within(1, 6) {
                notes.extend("word and é ".bytes().cycle().take(11 * rng.below(14)));
                notes.extend_from_slice(rng.pick(&["`", "``", "x", "\n"]).as_bytes());
            }
        }
        _ => {}
    }
    let need = crate::notes::document(&notes).map_or(0, |document| document.len());
    let room = pattern(0, room_length(rng, need)).collect();
    Case { call: Call::Notes, document: notes, room, length: 0 }
}

/// A joined form: of a valid document, and in a third of the cases changed.
fn joined_form(rng: &mut Rng, subject: Subject, limits: Limits) -> Vec<u8> {
    let palette = Palette::of(subject, rng);
    let document = match rng.below(40) {
        0 if limits.bytes > MOST_BYTES => {
            let size = rng.within(MOST_BYTES - 1, MOST_BYTES);
            sized(rng, palette, size)
        }
        1 if limits.bytes >= DEEP_BYTES => deep(rng, palette),
        _ => document(rng, subject, limits, 1_000_000),
    };
    // record by record, so that documents which nest too deep are moved too
    let (mut text, mut heads, mut rest) = (Vec::new(), Vec::new(), &document[..]);
    while let Some((head, tail)) = rest.split_first_chunk::<6>() {
        let size = u32::from_le_bytes([head[0], head[1], head[2], head[3]]) as usize;
        let Some((body, after)) = tail.split_at_checked(size) else { break };
        text.extend_from_slice(body);
        heads.extend_from_slice(head);
        rest = after;
    }
    let mut form = (text.len() as u32).to_le_bytes().to_vec();
    form.extend(text);
    form.extend(heads);
    if !rng.once_in(3) {
        return form;
    }
    let text = u32::from_le_bytes([form[0], form[1], form[2], form[3]]) as usize;
    let records = (form.len() - 4 - text) / 6;
    let some_record = 4 + text + 6 * rng.below(records.max(1));
    let add = |form: &mut Vec<u8>, at: usize, n: i64| {
        if let Some(bytes) = form.get_mut(at..at + 4) {
            let size = u32::from_le_bytes([bytes[0], bytes[1], bytes[2], bytes[3]]);
            bytes.copy_from_slice(&(i64::from(size) + n).max(0).to_le_bytes()[..4]);
        }
    };
    let one = rng.pick(&[-1, 1]);
    match rng.below(16) {
        // the text's length, alone or with a byte of text put in or taken out
        0 => add(&mut form, 0, one),
        1 => form[..4].copy_from_slice(&rng.pick(&[u32::MAX, 0x0100_0000, 0]).to_le_bytes()),
        2 => {
            add(&mut form, 0, 1);
            form.insert(4 + rng.below(text + 1), rng.pick(&[b'x', b' ', 0xC3]));
        }
        3 if text > 0 => {
            add(&mut form, 0, -1);
            form.remove(4 + rng.below(text));
        }
        // one share grows, another shrinks, or both
        4..=5 => add(&mut form, some_record, one),
        6..=8 => {
            let other = 4 + text + 6 * rng.below(records.max(1));
            add(&mut form, some_record, one);
            add(&mut form, other, -one);
        }
        // a byte of the text
        9 if text > 0 => form[4 + rng.below(text)] = rng.pick(&[0x80, 0xFF, 0xC3, b'x', b'\n']),
        // a record's kind, a record taken out or put in
        10..=11 if some_record + 6 <= form.len() => {
            let kind = rng.pick(&[0, 6, 0x0300, 0x010C, 1, 3, 0x0100, 0x010B, 0x0200, 0x020B]);
            form[some_record + 4..some_record + 6].copy_from_slice(&u16::to_le_bytes(kind));
        }
        12 if some_record + 6 <= form.len() => drop(form.drain(some_record..some_record + 6)),
        13 => {
            let mut new = Vec::new();
            put_record(&mut new, rng.pick(&[1, 2, 0x0100, 0x010B, 0x020B, 7]), b"");
            form.splice(some_record.min(form.len())..some_record.min(form.len()), new);
        }
        14 => form.truncate(rng.below(form.len() + 1)),
        _ => form.extend((0..rng.within(1, 7)).map(|_| rng.pick(&[0, 0, 1, 2, 11]))),
    }
    form
}

/// A call on a joined form.
fn joining(rng: &mut Rng, limits: Limits) -> Case {
    use Subject::*;
    let subject = rng.pick(&[Console, Console, Console, Html, HtmlStrict, Markdown, Roff]);
    let form = joined_form(rng, subject, limits);
    let (call, need) = match rng.below(4) {
        0 => (Call::JoinedCheck, 0),
        1 => (Call::Unjoin, form.len().saturating_sub(4)),
        _ => {
            let renderer = renderer(rng, subject, limits);
            let most = crate::joined::render(renderer, &form, usize::MAX).most;
            (Call::JoinedRender(renderer), most)
        }
    };
    let room_len = if call == Call::JoinedCheck { 0 } else { room_length(rng, need) };
    Case { call, document: form, room: pattern(0, room_len).collect(), length: 0 }
}

/// A bundle of documents of chance; sometimes faulty, or about its limit.
fn bundling(rng: &mut Rng, limits: Limits) -> Case {
    let mut bundle = Vec::new();
    let most = crate::figures::MOST_BYTES;
    for _ in 0..rng.below(6) {
        let document = match rng.below(12) {
            0 => Vec::new(),
            // a text that a room of 65,536 does not hold
            1 if limits.bytes > MOST_BYTES && rng.once_in(40) => {
                let mut document = Vec::new();
                (0..8).for_each(|_| put_record(&mut document, 0x0105, b""));
                put_record(&mut document, 1, "a\n ".repeat(rng.within(1_150, 1_300)).as_bytes());
                (0..8).for_each(|_| put_record(&mut document, 0x0205, b""));
                document
            }
            _ => document(rng, Subject::Console, limits, 4),
        };
        put_record(&mut bundle, crate::figures::BUNDLED, &document);
    }
    match rng.below(30) {
        0 => bundle.truncate(rng.below(bundle.len() + 1)),
        1 => {
            let kind = rng.pick(&[0, 1, 3, 0x0100, 0x0200, 0x0301, 0x0003, 0xFF00]);
            put_record(&mut bundle, kind, if rng.once_in(2) { b"" } else { b"abc" });
        }
        2 => bundle.extend((0..rng.within(1, 8)).map(|_| rng.pick(&[0, 0, 1, 3]))),
        3 => {
            let at = rng.below(bundle.len() + 1);
            bundle.insert(at, rng.pick(&[0, 1, 3, 0xFF]));
        }
        4 if limits.bytes > MOST_BYTES && rng.once_in(8) => {
            let left = rng.within(most - 1, most + 1).saturating_sub(bundle.len() + 6);
            put_record(&mut bundle, crate::figures::BUNDLED, &vec![0; left]);
        }
        5 if rng.once_in(40) => {
            bundle = crate::figures::bundle(std::iter::repeat_n(&b""[..], rng.below(10_924)));
        }
        _ => {}
    }
    Case { call: Call::Figures, document: bundle, room: Vec::new(), length: 0 }
}

/// Terms that ascend.
const TERMS: &[&str] =
    &["", "-", "--", "--all", "--allow", "-a", "-aa", "-b", "-é", "A", "a", "z", "é", "漢", "😀"];

/// One side to merge: an option list of some of the terms; sometimes not ascending, not a list, or no
/// document.
fn side(rng: &mut Rng, limits: Limits) -> Vec<u8> {
    let palette = Palette { ascii: false, term_refs: true, metas: true };
    // few terms in lists, which are to stay small
    let often = if limits.recorded { 5 } else { rng.pick(&[1, 2, 4, 8]) };
    let mut terms: Vec<&str> = TERMS.iter().copied().filter(|_| rng.once_in(often)).collect();
    if rng.once_in(12) && terms.len() > 1 {
        let at = rng.below(terms.len() - 1);
        match rng.once_in(2) {
            true => terms.swap(at, at + 1),
            false => terms[at + 1] = terms[at],
        }
    }
    let most = if limits.recorded { 120 } else { 300 } * (terms.len() + 1);
    let mut maker = Maker { rng, palette, bytes: Vec::new(), open: Vec::new(), most };
    maker.start(LIST);
    terms.iter().for_each(|term| maker.item(term));
    maker.end();
    let mut list = maker.bytes;
    match rng.below(40) {
        0 => misshape(rng, &list),
        1 => document(rng, Subject::Shape, limits, 2),
        2 => {
            damage(rng, &mut list);
            list
        }
        3 => {
            put_record(&mut list, 1, rng.pick(&[&b""[..], b"x"]));
            list
        }
        4 => list.repeat(rng.pick(&[0, 2])),
        _ => list,
    }
}

/// Two sides, sometimes the same, sometimes of a list about the limit of 32,768 bytes.
fn merging(rng: &mut Rng, limits: Limits) -> Case {
    let first = side(rng, limits);
    let mut second = if rng.once_in(8) { first.clone() } else { side(rng, limits) };
    let large = limits.bytes > MOST_BYTES && rng.once_in(100);
    if large {
        // one term that the first side has not
        let long = |bytes: usize| {
            let mut list = Vec::new();
            put_record(&mut list, 0x0106, b"");
            put_record(&mut list, 0x0104, b"");
            put_record(&mut list, 3, "\u{10FFFF}".as_bytes());
            put_record(&mut list, 0x0204, b"");
            put_record(&mut list, 0x0105, b"");
            put_record(&mut list, 1, &vec![b'x'; bytes]);
            put_record(&mut list, 0x0205, b"");
            put_record(&mut list, 0x0206, b"");
            list
        };
        let need = crate::merge::merged(&first, &long(0)).map_or(0, |list| list.len());
        let size = rng.within(MOST_BYTES - 1, MOST_BYTES + 1);
        second = long(size.saturating_sub(need));
    }
    let need = crate::merge::merged(&first, &second).map_or(0, |list| list.len());
    let room_len = if large { need + rng.below(40) } else { room_length(rng, need) };
    let call = Call::Merge { first: first.len() as u64 };
    let room = pattern(0, room_len).collect();
    Case { call, document: [first, second].concat(), room, length: 0 }
}

/// The case of a subject with this seed and index.
pub fn case(subject: Subject, seed: u64, index: u64, limits: Limits) -> Case {
    let rng = &mut Rng::new(seed, index);
    match subject {
        Subject::Check | Subject::Tabstop | Subject::Shape | Subject::RoomBound => {
            let (call, faulty_once_in) = match subject {
                Subject::Check => (Call::Check, 2),
                Subject::RoomBound => (Call::RoomBound, 4),
                Subject::Tabstop => (Call::Tabstop, 4),
                _ => (Call::Shape, 2),
            };
            let document = document(rng, subject, limits, faulty_once_in);
            Case { call, document, room: Vec::new(), length: 0 }
        }
        Subject::Builder => building(rng, limits),
        Subject::Headings => heading_of_all(rng, index),
        Subject::Pages => paging(rng, limits),
        Subject::Notes => noting(rng),
        Subject::Join => {
            let document = document(rng, subject, limits, 4);
            let room = pattern(0, room_length(rng, document.len() + 4)).collect();
            Case { call: Call::Join, document, room, length: 0 }
        }
        Subject::Joined => joining(rng, limits),
        Subject::Figures => bundling(rng, limits),
        Subject::Merge => merging(rng, limits),
        // a case of the builder that writes, its text cut
        Subject::Writes => loop {
            let case = building(rng, limits);
            if let Call::Build(Operation::Write { style }) = case.call {
                let call = Call::Writes { style, cuts: rng.next() };
                break Case { call, ..case };
            }
        },
        Subject::Split => splitting(rng, limits),
        Subject::NextChunk => stepping(rng, limits),
        _ => rendering(rng, subject, limits),
    }
}

// ---------------------------------------------------------------------------------------------
// Reach

/// How many console cases tell a misreading of 01 from 01's own reading, and the first of them.
pub fn told_apart(
    misread: Misreading,
    seed: u64,
    cases: u64,
    limits: Limits,
) -> (u64, Option<u64>) {
    let (mut told, mut first) = (0, None);
    for index in 0..cases {
        let case = case(Subject::Console, seed, index, limits);
        let Call::Render(renderer) = case.call else { unreachable!("console cases render") };
        let room = case.room.len();
        let read = rules::render(renderer, &case.document, room).outcome;
        if read != rules::render_misread(renderer, &case.document, room, misread).outcome {
            told += 1;
            first = first.or(Some(index));
        }
    }
    (told, first)
}

/// How often each number is answered; index 0 is acceptance.
pub fn numbers(subject: Subject, seed: u64, cases: u64) -> [u64; 24] {
    let mut counts = [0; 24];
    for index in 0..cases {
        counts[answer(&case(subject, seed, index, Limits::COMPARED)).number as usize] += 1;
    }
    counts
}

/// The numbers that a subject can answer.
pub fn owed(subject: Subject) -> &'static [u32] {
    match subject {
        Subject::Check | Subject::Tabstop | Subject::Shape | Subject::RoomBound => {
            &[0, 1, 2, 3, 4, 5, 6, 7, 8]
        }
        Subject::Console => &[0, 1, 2, 3, 4, 5, 6, 7, 8, 9, 10, 13],
        Subject::Html | Subject::HtmlStrict | Subject::Markdown => {
            &[0, 1, 2, 3, 4, 5, 6, 7, 8, 11, 13]
        }
        Subject::Roff => &[0, 1, 2, 3, 4, 5, 6, 7, 8, 11, 13],
        Subject::Headings => &[0, 13],
        Subject::Builder => &[0, 1, 2, 3, 4, 5, 6, 7, 8, 13],
        Subject::Writes => &[0, 2, 3, 4, 5, 6, 7, 13],
        Subject::Split => &[0],
        // which chunk it is
        Subject::NextChunk => &[0, 1, 2, 3, 4],
        Subject::Pages => &[0, 20, 21],
        Subject::Notes => &[0, 1, 13, 19],
        Subject::Figures => &[0, 14, 15, 16],
        Subject::Merge => &[0, 2, 3, 4, 5, 6, 8, 13, 22, 23],
        Subject::Join => &[0, 1, 2, 3, 4, 5, 6, 7, 8, 13],
        Subject::Joined => &[0, 1, 2, 3, 4, 5, 6, 7, 8, 9, 10, 11, 13, 17, 18],
    }
}

#[cfg(test)]
mod tests {
    use super::*;
    use crate::kept::confirm;

    /// The first numbers of splitmix64 from 0, as published with it.
    #[test]
    fn numbers_of_splitmix64() {
        let mut rng = Rng(0);
        let first = [rng.next(), rng.next(), rng.next()];
        assert_eq!(first, [0xE220_A839_7B1D_CDAF, 0x6E78_9E6A_A1B9_65F4, 0x06C4_5D18_8009_454F]);
    }

    #[test]
    fn a_case_is_a_function_of_seed_and_index() {
        for (subject, _) in Subject::ALL {
            let cases = |seed| (0..50).map(move |i| case(subject, seed, i, Limits::COMPARED));
            assert!(cases(1).eq(cases(1)));
            assert!(!cases(1).eq(cases(2)));
        }
    }

    /// A short run of `oracle selfcheck`; here the kept console's own assertions are compiled in.
    #[test]
    fn rules_and_kept_rust_agree() {
        for (subject, name) in Subject::ALL {
            for index in 0..800 {
                let case = case(subject, 11, index, Limits::COMPARED);
                if let Err(message) = confirm(&case, &answer(&case)) {
                    panic!("{name} case {index}: {message}\n{case:?}");
                }
            }
        }
    }

    /// Every scalar value stands in a heading, and the kept Rust agrees on each.
    #[test]
    fn headings_of_every_scalar_value() {
        let mut seen = 0;
        for index in 0..HEADING_CASES {
            let case = case(Subject::Headings, 1, index, Limits::COMPARED);
            let answer = answer(&case);
            confirm(&case, &answer).unwrap();
            let records = rules::check(&case.document).unwrap();
            seen += records.iter().map(|r| rules::characters(r.body)).sum::<usize>();
        }
        assert_eq!(seen, ('\0'..=char::MAX).count());
    }

    /// 01's misreadings are told apart within far fewer than 20,000 cases, in lists too.
    #[test]
    fn misreadings_are_told_apart() {
        for misread in Misreading::ALL {
            for limits in [Limits::COMPARED, Limits::RECORDED] {
                assert!(told_apart(misread, 11, 2_000, limits).0 > 0, "{misread:?} {limits:?}");
            }
        }
    }

    /// The house shape is met and missed, at each kind of record.
    #[test]
    fn shapes_are_met_and_missed() {
        let mut met = std::collections::BTreeMap::new();
        for index in 0..4_000 {
            let case = case(Subject::Shape, 6, index, Limits::COMPARED);
            let answer = answer(&case);
            if answer.number == 0 {
                let records = rules::check(&case.document).unwrap();
                let wrong = records.iter().find(|r| r.place as u64 == answer.at);
                let kind = wrong.map(|r| match r.kind {
                    rules::Kind::Text(_) => 0,
                    kind => kind.number(),
                });
                *met.entry(kind.filter(|_| answer.numbers == [0])).or_insert(0) += 1;
            }
        }
        assert!(met[&None] > 1_000, "{met:?}");
        // text, a term, a body, a list, a Block; the end of a list
        for kind in [0, 0x0104, 0x0105, 0x0106, 0x0107, 0x0206] {
            assert!(met.get(&Some(kind)).is_some_and(|&n| n > 5), "{kind:04x} {met:?}");
        }
    }

    /// Refusal 10 is met at each kind of chunk, also late in a body and at its end, in lists too.
    #[test]
    fn refusal_10_falls_inside_bodies() {
        for limits in [Limits::COMPARED, Limits::RECORDED] {
            let mut met = std::collections::BTreeSet::new();
            for index in 0..4_000 {
                let case = case(Subject::Console, 6, index, limits);
                let answer = answer(&case);
                if answer.number != 10 {
                    continue;
                }
                let records = rules::check(&case.document).unwrap();
                let place = answer.at as usize;
                let text = records.iter().rfind(|r| r.place + 6 <= place && !r.body.is_empty());
                let text = text.unwrap();
                let at = place - text.place - 6;
                let here = |c: &&rules::Chunk| match **c {
                    rules::Chunk::Raw { start, .. } | rules::Chunk::Space { start } => start == at,
                    _ => false,
                };
                met.insert(match rules::split(text.body).iter().find(here).unwrap() {
                    rules::Chunk::Space { .. } => "a line end's space",
                    rules::Chunk::Raw { len: 0, .. } if at == text.body.len() => "at the end",
                    rules::Chunk::Raw { len: 0, .. } => "an empty code line",
                    rules::Chunk::Raw { width: rules::CODE, .. } => "a code line",
                    rules::Chunk::Raw { width: rules::TICKED, .. } => "a line in ticks",
                    _ if at == 0 => "the first byte",
                    _ => "a later word",
                });
            }
            assert_eq!(met.len(), 7, "{limits:?} {met:?}");
        }
    }

    #[test]
    fn recorded_cases_keep_their_limits() {
        for (subject, name) in Subject::ALL {
            // headings and lists to merge have sizes of their own
            let own = matches!(subject, Subject::Headings | Subject::Merge);
            let limited = !own && subject.is_listed();
            for index in if limited { 0..300 } else { 0..0 } {
                let case = case(subject, 11, index, Limits { bytes: 100, ..Limits::RECORDED });
                assert!(case.document.len() <= 140, "{name}: {}", case.document.len());
            }
        }
    }
}
