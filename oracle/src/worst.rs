//! Pages of nearly 32 KB that cost a renderer much for each byte of the document: records without text, long
//! words, blanks that a fold takes away, escapes alone. All of them are accepted documents.

use crate::stored::{put_record, Block, Style, MOST_BYTES, MOST_OPEN};
use Block::*;

/// A page, and whether all of it is rendered or each text up to its first paragraph.
pub struct Page {
    pub name: &'static str,
    pub full: bool,
    make: fn() -> Vec<u8>,
}

impl Page {
    pub fn document(&self) -> Vec<u8> {
        (self.make)()
    }
}

const fn whole(name: &'static str, make: fn() -> Vec<u8>) -> Page {
    Page { name, full: true, make }
}

const fn shortened(name: &'static str, make: fn() -> Vec<u8>) -> Page {
    Page { name, full: false, make }
}

/// The pages, by what they are made of.
pub const PAGES: &[Page] = &[
    // text records without a byte
    whole("empty texts", || many(&text(""))),
    // headings without text: roff writes each as two quotes
    whole("pairs of Header", || many(&pair(Header))),
    // line ends that are due, again and again
    whole("pairs of Section2", || many(&pair(Section2))),
    // a margin that comes and goes
    whole("pairs of Section3", || many(&pair(Section3))),
    // each start looks for the next end
    whole("pairs of Section4", || many(&pair(Section4))),
    // terms without text, each counted for the tabstop
    whole("pairs of ItemTerm", || many(&pair(ItemTerm))),
    // bodies without text
    whole("pairs of ItemBody", || many(&pair(ItemBody))),
    // lists without items
    whole("pairs of DefinitionList", || many(&pair(DefinitionList))),
    // blocks without text
    whole("pairs of Block", || many(&pair(Block))),
    // starts and ends that write nothing
    whole("pairs of InlineBlock", || many(&pair(InlineBlock))),
    // two backticks for each 12 bytes; roff refuses them
    whole("pairs of TermRef", || many(&pair(TermRef))),
    // HTML and Markdown refuse them
    whole("pairs of Meta", || many(&pair(Meta))),
    // starts and ends of code
    whole("pairs of Mono", || many(&pair(Mono))),
    // the deepest nesting, without text
    whole("InlineBlocks 32 deep", || many(&nested(&[InlineBlock; MOST_OPEN], &[]))),
    // a text record for each letter
    whole("texts of a letter", || many(&text("a"))),
    // a text record for each space
    whole("texts of a space", || many(&text(" "))),
    // a line end alone is a space
    whole("texts of a line end", || many(&text("\n"))),
    // a paragraph in each record
    whole("texts of an empty line", || many(&text("\n\n"))),
    // the same, where the paragraph ends each text
    shortened("texts of an empty line, cut", || many(&text("\n\n"))),
    // text before and after each paragraph
    shortened("texts cut at a paragraph", || many(&text("a\n\nb"))),
    // each text is cut inside a block that counts as skipped
    shortened("cut texts in InlineBlocks", || many(&nested(&[InlineBlock], &text("a\n\nb")))),
    // a character of two bytes in each record
    whole("texts of an accented letter", || many(&text("é"))),
    // a character of four bytes in each record
    whole("texts of an emoji", || many(&text("😀"))),
    // one escape of HTML in each record
    whole("texts of a less-than sign", || many(&text("<"))),
    // one escape of roff in each record
    whole("texts of a minus", || many(&text("-"))),
    // a change of style at each letter
    whole("letters of two styles", || {
        many(&[styled(Style::Literal, "a"), styled(Style::Metavar, "b")].concat())
    }),
    // a change of style before and after each space
    whole("letters, then spaces", || many(&[styled(Style::Literal, "a"), text(" ")].concat())),
    // one word of ASCII
    whole("one word", || full_of("a")),
    // one word of four-byte characters
    whole("one word of emoji", || full_of("😀")),
    // one word of three-byte characters
    whole("one word of CJK", || full_of("文")),
    // spaces alone
    whole("spaces", || full_of(" ")),
    // as many words as can be
    whole("words of 1", || full_of("a ")),
    // words as they are in prose
    whole("words of 8", || full_of("aaaaaaaa ")),
    // words longer than a line
    whole("words of 119", || full_of(&("a".repeat(119) + " "))),
    // short words of other alphabets
    whole("Cyrillic words", || full_of("слово ")),
    // one wide character and a space
    whole("words of a CJK character", || full_of("文 ")),
    // one four-byte character and a space
    whole("words of an emoji", || full_of("😀 ")),
    // line ends alone: paragraphs
    whole("line ends", || full_of("\n")),
    // a line break for each two bytes
    whole("line breaks", || full_of("\n ")),
    // a letter between paragraphs
    whole("paragraphs of a letter", || full_of("a\n\n")),
    // lines of four letters
    whole("short lines", || full_of("aaaa\n")),
    // code lines of a letter
    whole("code lines", || full_of("\n    x")),
    // code lines without text
    whole("empty code lines", || full_of("\n    ")),
    // ticks around lines of a letter
    whole("ticks, lines of a letter", || after("a\n\n```", "\nx")),
    // ticks around empty lines
    whole("ticks, empty lines", || after("a\n\n```", "\n")),
    // ticks that end where they began
    whole("ticks without lines", || full_of("a\n\n```\n```\n\n")),
    // spaces that a fold takes away
    whole("spaces before folds", || full_of(&("x".to_string() + &" ".repeat(120)))),
    // blanks of two bytes that a fold takes away
    whole("no-break spaces before folds", || {
        full_of(&("x".to_string() + &"\u{a0}".repeat(60) + " "))
    }),
    // a blank word, which a fold takes away, before each letter
    whole("no-break spaces between words", || full_of("\u{a0} a ")),
    // one word that is blank
    whole("no-break spaces alone", || full_of("\u{a0}")),
    // blanks of three bytes
    whole("ideographic spaces", || full_of("\u{3000} ")),
    // tabs, which are blank and are parts of words
    whole("tabs", || full_of("\t")),
    // words of a control character
    whole("control characters", || full_of("\u{1} ")),
    // an escape of HTML at each byte
    whole("less-than signs", || full_of("<")),
    // a byte that strict HTML looks ahead from
    whole("ampersands", || full_of("&")),
    // all escapes of HTML, with letters between them
    whole("tags", || full_of("<a>&b;")),
    // an escape of Markdown at each byte
    whole("brackets", || full_of("[]")),
    // an escape of roff at each byte
    whole("minus signs", || full_of("-")),
    // another escape of roff
    whole("apostrophes", || full_of("'")),
    // the longest escape of roff
    whole("backslashes", || full_of("\\")),
    // escapes of roff at the starts of lines
    whole("lines of a dot", || full_of(".\n")),
    // ticks of Markdown
    whole("backticks", || full_of("`")),
    // starts that all look for one far end
    whole("Section4 32 deep, empty texts", || inside(&[Section4; MOST_OPEN], &text(""))),
    // the same, with pairs of blocks to pass over
    whole("Section4 31 deep, blocks", || inside(&[Section4; MOST_OPEN - 1], &pair(Block))),
    // each start looks over many records of its own
    whole("Section4 in turn, with a gap", || {
        many(&[nested(&[Section4], &text("a")), pair(Block)].concat())
    }),
    // the deepest nesting of Section4, again and again
    whole("Section4 32 deep, in turn", || many(&nested(&[Section4; MOST_OPEN], &text("")))),
    // one heading of one long word
    whole("a heading of one text", || around(&[Header], "a")),
    // many short headings
    whole("headings of a word", || many(&nested(&[Header], &text("abcdefgh")))),
    // one heading, which roff reads twice
    whole("a heading of many texts", || inside(&[Header], &text("ab"))),
    // the same without text
    whole("a heading of empty texts", || inside(&[Header], &text(""))),
    // a heading whose characters are mapped beyond ASCII
    whole("a heading of accented letters", || inside(&[Header], &text("é"))),
    // characters that grow in upper case
    whole("a heading of sharp s", || around(&[Header], "ß")),
    // an inner end that ends capture for the outer heading
    whole("headings 16 deep", || many(&nested(&[Header; 16], &text("a")))),
    // blocks inside a heading
    whole("a heading of blocks", || inside(&[Header], &pair(Mono))),
    // options of four bytes
    whole("short options", || {
        let term = nested(&[ItemTerm], &styled(Style::Literal, "-p"));
        inside(&[DefinitionList], &[term, nested(&[ItemBody], &text("port"))].concat())
    }),
    // one term of one long word
    whole("a term of one text", || around(&[DefinitionList, ItemTerm], "a")),
    // one term of many records
    whole("a term of many texts", || inside(&[ItemTerm], &text("a"))),
    // lines at a margin of 50: far more text than document
    whole("lines at the margin of 50", || around(&DEEP, "\n a")),
    // terms and bodies at a margin of 48
    whole("items at the margin of 48", || {
        inside(&DEEP[..7], &[pair(ItemBody), nested(&[ItemTerm], &text("a"))].concat())
    }),
    // a backtick before and after each letter
    whole("references of a letter", || many(&nested(&[TermRef], &text("a")))),
];

/// Blocks around a margin of 50 where no term has text, the deepest at which the console accepts text.
const DEEP: [Block; 9] =
    [Section3, ItemBody, ItemBody, ItemBody, ItemBody, ItemBody, ItemBody, ItemBody, ItemBody];

fn styled(style: Style, body: &str) -> Vec<u8> {
    let mut bytes = Vec::new();
    put_record(&mut bytes, 1 + style as u16, body.as_bytes());
    bytes
}

fn text(body: &str) -> Vec<u8> {
    styled(Style::Text, body)
}

/// The starts of blocks, something, and their ends.
fn nested(blocks: &[Block], inner: &[u8]) -> Vec<u8> {
    let mut bytes = Vec::new();
    for &block in blocks {
        put_record(&mut bytes, 0x0100 + block as u16, b"");
    }
    bytes.extend_from_slice(inner);
    for &block in blocks.iter().rev() {
        put_record(&mut bytes, 0x0200 + block as u16, b"");
    }
    bytes
}

fn pair(block: Block) -> Vec<u8> {
    nested(&[block], &[])
}

/// As many of some records as fit.
fn many(records: &[u8]) -> Vec<u8> {
    records.repeat(MOST_BYTES / records.len())
}

/// As many of some records as fit inside blocks that are open around them all.
fn inside(blocks: &[Block], records: &[u8]) -> Vec<u8> {
    let room = MOST_BYTES - nested(blocks, &[]).len();
    nested(blocks, &records.repeat(room / records.len()))
}

/// Blocks around one text, which is a part again and again.
fn around(blocks: &[Block], part: &str) -> Vec<u8> {
    let room = MOST_BYTES - nested(blocks, &text("")).len();
    nested(blocks, &text(&part.repeat(room / part.len())))
}

/// One text: a part again and again.
fn full_of(part: &str) -> Vec<u8> {
    around(&[], part)
}

/// One text: its beginning, then a part again and again.
fn after(beginning: &str, part: &str) -> Vec<u8> {
    let room = MOST_BYTES - text(beginning).len();
    text(&(beginning.to_string() + &part.repeat(room / part.len())))
}

#[cfg(test)]
mod tests {
    use super::*;
    use crate::rules;

    /// Every page is accepted, nearly as long as a document may be, and named once.
    #[test]
    fn pages_are_documents_of_nearly_32_kb() {
        for (index, page) in PAGES.iter().enumerate() {
            let document = page.document();
            assert!(rules::check(&document).is_ok(), "{}", page.name);
            assert!((MOST_BYTES - 400..=MOST_BYTES).contains(&document.len()), "{}", page.name);
            assert!(PAGES[..index].iter().all(|other| other.name != page.name), "{}", page.name);
        }
    }
}
