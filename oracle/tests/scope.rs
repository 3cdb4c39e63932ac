//! 01's samples and examples, the chunk lists, and the readings that 01 leaves to its reader, one test for each.
//! Every answer is by `rules` and confirmed by the kept Rust.

use oracle::cases::{answer, pattern, Answer, Call, Case};
use oracle::kept::confirm;
use oracle::rules::{self, Chunk, Operation, Renderer};
use oracle::stored::{put_record, Block, Draft, Style};

const HTML: Renderer = Renderer::Html { full: true, css: false, strict: false };
const STRICT: Renderer = Renderer::Html { full: true, css: false, strict: true };
const MARKDOWN: Renderer = Renderer::Markdown { full: true };
const ROFF: Renderer = Renderer::Roff;
const PREAMBLE: &str = ".ie \\n(.g .ds Aq \\(aq\n.el .ds Aq '\n";
const ROOM: usize = 65_536;

fn console(width: u64) -> Renderer {
    Renderer::Console { width, full: true, characters: false }
}

fn by_characters(width: u64) -> Renderer {
    Renderer::Console { width, full: true, characters: true }
}

fn run(call: Call, document: &[u8], room: Vec<u8>, length: u64) -> Answer {
    let case = Case { call, document: document.to_vec(), room, length };
    let answer = answer(&case);
    confirm(&case, &answer).unwrap();
    answer
}

fn render(renderer: Renderer, document: &[u8], room: usize) -> Answer {
    run(Call::Render(renderer), document, pattern(0, room).collect(), 0)
}

fn shown(renderer: Renderer, document: &[u8]) -> String {
    let answer = render(renderer, document, ROOM);
    assert_eq!(answer.number, 0, "refused at {}", answer.at);
    String::from_utf8(answer.room[..answer.at as usize].to_vec()).unwrap()
}

fn refusal(renderer: Renderer, document: &[u8], room: usize) -> (u32, u64) {
    let answer = render(renderer, document, room);
    assert_ne!(answer.number, 0);
    assert!(answer.room.iter().all(|&b| b == 0));
    (answer.number, answer.at)
}

fn check(document: &[u8]) -> (u32, u64) {
    let answer = run(Call::Check, document, vec![], 0);
    (answer.number, answer.at)
}

fn made(write: impl FnOnce(&mut Draft) -> &mut Draft) -> Vec<u8> {
    write(&mut Draft::new()).stored()
}

fn text(body: &str) -> Vec<u8> {
    made(|d| d.text(body))
}

/// Several blocks around one text, the first outermost.
fn nested<'d>(draft: &'d mut Draft, blocks: &[Block], text: &str) -> &'d mut Draft {
    let draft = blocks.iter().fold(draft, |draft, &block| draft.open(block)).text(text);
    blocks.iter().rev().fold(draft, |draft, &block| draft.close(block))
}

/// Records given as kind and body.
fn records(list: &[(u16, &str)]) -> Vec<u8> {
    let mut out = Vec::new();
    list.iter().for_each(|(kind, body)| put_record(&mut out, *kind, body.as_bytes()));
    out
}

// Samples from the help text

#[test]
fn sample_empty() {
    assert_eq!(shown(console(100), b""), "");
    assert_eq!(shown(HTML, b""), "");
}

#[test]
fn sample_a_b() {
    assert_eq!(text("a b"), [3, 0, 0, 0, 1, 0, b'a', b' ', b'b']);
    assert_eq!(shown(console(3), &text("a b")), "a b");
    assert_eq!(shown(console(2), &text("a b")), "a\nb");
    assert_eq!(shown(console(0), &text("a b")), "a\nb");
}

#[test]
fn sample_bytes_fold() {
    assert_eq!(shown(console(3), &text("é é")), "é\né");
}

#[test]
fn sample_white_space_is_trimmed() {
    assert_eq!(shown(console(3), &text("a\u{A0} b")), "a\nb");
}

#[test]
fn sample_paragraph() {
    assert_eq!(shown(console(100), &text("a\n\nb")), "a\nb");
    let short = Renderer::Console { width: 100, full: false, characters: false };
    assert_eq!(shown(short, &text("a\n\nb")), "a\n");
}

#[test]
fn sample_definition_list() {
    let document = made(|d| {
        d.within(Block::DefinitionList, |d| {
            d.within(Block::ItemTerm, |d| d.literal("-p"))
                .within(Block::ItemBody, |d| d.text("port"))
        })
    });
    assert_eq!(shown(console(100), &document), "    -p  port");
}

#[test]
fn sample_term_ref() {
    let document = made(|d| d.text("see ").within(Block::TermRef, |d| d.literal("-p")));
    assert_eq!(shown(console(100), &document), "see `-p`");
}

#[test]
fn sample_backtick_before_line_end() {
    let document = made(|d| nested(d.text("a"), &[Block::Section2, Block::TermRef], "b"));
    assert_eq!(shown(console(100), &document), "a`\nb`");
}

#[test]
fn sample_margin_of_fifty() {
    let mut blocks = vec![Block::Section3];
    blocks.extend([Block::ItemBody; 8]);
    let document = made(|d| nested(d, &blocks, "x"));
    assert_eq!(shown(console(100), &document), " ".repeat(50) + "x");
    blocks.insert(0, Block::Section3);
    let document = made(|d| nested(d, &blocks, "x"));
    assert_eq!(refusal(console(100), &document, ROOM), (10, 66));
}

#[test]
fn sample_html_literal() {
    let document = made(|d| d.literal("<p>"));
    assert_eq!(shown(HTML, &document), "<tt><b>&lt;p&gt;</b></tt>");
}

#[test]
fn sample_roff_term() {
    let document = made(|d| d.within(Block::ItemTerm, |d| d.literal("-p")));
    assert_eq!(shown(ROFF, &document), PREAMBLE.to_string() + ".TP\n\\fB\\-p\\fP\n");
}

#[test]
fn sample_roff_heading_with_line_end() {
    let document = made(|d| d.within(Block::Header, |d| d.text("A\n")).within(Block::Block, |d| d));
    assert_eq!(shown(ROFF, &document), PREAMBLE.to_string() + ".SH A\\ .PP\n");
}

#[test]
fn sample_tabstop() {
    for (count, tabstop) in [(24, 28), (25, 4)] {
        let document = made(|d| {
            d.within(Block::ItemTerm, |d| d.text(&"é".repeat(count)))
                .within(Block::ItemBody, |d| d.text("\n y"))
        });
        assert_eq!(rules::tabstop(&rules::check(&document).unwrap()), tabstop);
        let expected = format!("    {}\n{}y", "é".repeat(count), " ".repeat(tabstop + 2));
        assert_eq!(shown(console(100), &document), expected);
    }
}

// The chunk lists of splitter.rs, by `rules`; the kept splitter has them as its own tests

fn raw(start: usize, len: usize, width: usize) -> Chunk {
    Chunk::Raw { start, len, width }
}

#[test]
fn chunks_of_spaced_code() {
    let body = "a\n\n    a\n    b\n\ndf\n\n    c\n    d\n";
    let expected = [
        raw(0, 1, 1),
        Chunk::Paragraph { start: 1 },
        raw(7, 1, rules::CODE),
        raw(13, 1, rules::CODE),
        Chunk::Paragraph { start: 14 },
        raw(16, 2, 2),
        Chunk::Paragraph { start: 18 },
        raw(24, 1, rules::CODE),
        raw(30, 1, rules::CODE),
        Chunk::Space { start: 31 },
    ];
    assert_eq!(run(Call::Split, body.as_bytes(), vec![], 0).chunks, expected);
}

#[test]
fn chunks_of_ticked_code() {
    let body = "a\n\n```text\na\nb\n```\n\ndf\n\n```\nc\nd\n```\n";
    let expected = [
        raw(0, 1, 1),
        Chunk::Paragraph { start: 1 },
        raw(3, 7, rules::TICKED),
        raw(11, 1, rules::TICKED),
        raw(13, 1, rules::TICKED),
        raw(15, 3, rules::TICKED),
        Chunk::Paragraph { start: 18 },
        raw(20, 2, 2),
        Chunk::Paragraph { start: 22 },
        raw(24, 3, rules::TICKED),
        raw(28, 1, rules::TICKED),
        raw(30, 1, rules::TICKED),
        raw(32, 3, rules::TICKED),
    ];
    assert_eq!(run(Call::Split, body.as_bytes(), vec![], 0).chunks, expected);
}

#[test]
fn chunks_of_a_body_that_is_not_utf8() {
    let chunks = run(Call::Split, b"\xC3\x80\x80\xFF \xBF\n\n\x80", vec![], 0).chunks;
    let paragraph = Chunk::Paragraph { start: 6 };
    assert_eq!(chunks, [raw(0, 4, 2), raw(4, 1, 1), raw(5, 1, 0), paragraph, raw(8, 1, 0)]);
}

// 02, point 2: where a chunk begins

/// Where the chunks of a body begin.
fn starts(body: &str) -> Vec<usize> {
    let start = |chunk: &Chunk| match *chunk {
        Chunk::Raw { start, .. } | Chunk::Space { start } => start,
        Chunk::Paragraph { start } | Chunk::LineBreak { start } => start,
    };
    run(Call::Split, body.as_bytes(), vec![], 0).chunks.iter().map(start).collect()
}

#[test]
fn chunks_say_where_they_begin() {
    assert_eq!(starts("é b"), [0, 2, 3]);
    // a code line after its line end and four spaces; an empty one where it would stand
    assert_eq!(starts("a\n    b"), [0, 6]);
    assert_eq!(starts("a\n    \nb"), [0, 6, 6, 7]);
    assert_eq!(starts("a\n    "), [0, 6]);
    // a paragraph, a break and a line end's space at their first line end
    assert_eq!(starts("a\n\nb"), [0, 1, 3]);
    assert_eq!(starts("a\n b"), [0, 1, 3]);
    assert_eq!(starts("a\nb"), [0, 1, 2]);
    assert_eq!(starts("a\n\n    b"), [0, 1, 7]);
    // lines in ticks at their start, empty ones too
    assert_eq!(starts("\n\n```\n\nb\n```"), [0, 2, 6, 7, 9]);
}

/// One chunk at a cursor: which it is, the cursor after it, its start, length and width.
fn next(body: &[u8], at: u64, ticks: u32) -> (u32, u64, Vec<u64>) {
    let answer = run(Call::NextChunk { at, ticks }, body, vec![], 0);
    (answer.number, answer.at, answer.numbers)
}

#[test]
fn next_chunk_takes_any_cursor() {
    assert_eq!(next(b"a\nb", 1, 0), (4, 2, vec![0, 1, 1, 1]));
    assert_eq!(next(b"a\n\n```", 1, 0), (2, 3, vec![1, 1, 0, 0]));
    assert_eq!(next(b"\n b", 0, 0), (3, 2, vec![0, 0, 0, 0]));
    // the first line in ticks does not end them, a later one does, whatever number says so
    assert_eq!(next(b"```\nb", 0, 1), (1, 4, vec![2, 0, 3, 1_000_001]));
    assert_eq!(next(b"```\nb", 0, 2), (1, 4, vec![0, 0, 3, 1_000_001]));
    assert_eq!(next(b"```\nb", 0, u32::MAX), (1, 4, vec![0, 0, 3, 1_000_001]));
    // inside a character: its second byte counts none
    assert_eq!(next("é".as_bytes(), 1, 0), (1, 2, vec![0, 1, 1, 0]));
    // no further chunk: the cursor as given, all else 0
    assert_eq!(next(b"a", 1, 7), (0, 1, vec![7, 0, 0, 0]));
    assert_eq!(next(b"a", u64::MAX, 0), (0, u64::MAX, vec![0, 0, 0, 0]));
    assert_eq!(next(b"", 0, 1), (0, 0, vec![1, 0, 0, 0]));
}

/// 10 is at the byte of the chunk that is too far from its margin. Nine bodies in, the margin is 54.
#[test]
fn refusal_10_is_at_the_chunk() {
    // what `line` leaves of a body in nine ItemBody, from its first byte on
    let at = |line: &str, body: &str, width: u64| {
        let document = made(|d| nested(d.text(line), &[Block::ItemBody; 9], body));
        let (number, place) = refusal(console(width), &document, ROOM);
        assert_eq!(number, 10);
        place as usize - (6 + line.len()) - 9 * 6 - 6
    };
    let far = "u".repeat(60);
    // a word late in a body, after non-ASCII text; its last byte; its first
    let pages = "é ".repeat(2_000);
    assert_eq!(at(&far, &(pages.clone() + "\n x"), 10_000), pages.len() + 2);
    assert_eq!(at(&far, "a b c\n x", 100), 7);
    assert_eq!(at("", "x", 100), 0);
    // a fold leaves the line
    assert_eq!(at(&far, " a b", 64), 3);
    // a code line, an empty one, an empty one at the body's end: there the next record starts
    assert_eq!(at(&far, "a\n    b", 61), 6);
    assert_eq!(at(&far, "a\n \n    \nb", 100), 8);
    assert_eq!(at(&far, "a\n \n    ", 100), 8);
    assert_eq!(at("", "\n    ", 100), 5);
    // a line end's space at its line end; a space at itself
    assert_eq!(at("", "\nx", 100), 0);
    assert_eq!(at(&far, "a\n\n\nx", 100), 3);
    assert_eq!(at(&far, "a\n  x", 100), 3);
    // the first line in ticks
    assert_eq!(at(&far, "a\n\n```\nb", 100), 3);
}

/// Places count in the record that is refused, not in the text joined.
#[test]
fn refusal_10_in_the_second_of_three_texts() {
    let mut document = records(&[(1, &"u".repeat(60))]);
    for _ in 0..9 {
        put_record(&mut document, 0x0105, b"");
    }
    let from = document.len();
    put_record(&mut document, 1, b"a ");
    put_record(&mut document, 3, b"b\n c");
    put_record(&mut document, 1, b"d");
    for _ in 0..9 {
        put_record(&mut document, 0x0205, b"");
    }
    assert_eq!(refusal(console(100), &document, ROOM), (10, (from + 8 + 6 + 3) as u64));
}

/// Every row of up to five of these pieces.
#[test]
fn chunks_of_short_bodies() {
    const PIECES: [&str; 7] = ["a", " ", "\n", "```", "    ", "é", "`"];
    for count in 0..=5 {
        for mut row in 0..PIECES.len().pow(count) {
            let mut body = String::new();
            for _ in 0..count {
                body.push_str(PIECES[row % PIECES.len()]);
                row /= PIECES.len();
            }
            run(Call::Split, body.as_bytes(), vec![], 0);
        }
    }
}

#[test]
fn white_space_is_the_property() {
    assert!(('\0'..=char::MAX).all(|c| rules::is_white_space(c) == c.is_whitespace()));
}

// 02, point 3: the measure by characters

#[test]
fn characters_fold_by_what_fits() {
    for (width, bytes, characters) in
        [(0, "é\né", "é\né"), (1, "é\né", "é\né"), (2, "é\né", "é\né"), (3, "é\né", "é é")]
    {
        assert_eq!(shown(console(width), &text("é é")), bytes, "{width}");
        assert_eq!(shown(by_characters(width), &text("é é")), characters, "{width}");
    }
    // four-byte characters; a combining character counts one
    assert_eq!(shown(console(10), &text("😀😀 😀😀")), "😀😀\n😀😀");
    assert_eq!(shown(by_characters(5), &text("😀😀 😀😀")), "😀😀 😀😀");
    assert_eq!(shown(by_characters(4), &text("😀😀 😀😀")), "😀😀\n😀😀");
    assert_eq!(shown(by_characters(3), &text("a e\u{301}")), "a\ne\u{301}");
    assert_eq!(shown(by_characters(4), &text("a e\u{301}")), "a e\u{301}");
    assert_eq!(shown(by_characters(10_000), &text("é é")), "é é");
    assert_eq!(refusal(by_characters(10_001), &text("é"), ROOM), (9, 0));
}

/// A code line and a line in ticks are measured by the characters that they hold, and still leave the
/// column past every width.
#[test]
fn characters_of_code_lines() {
    // five characters of ten bytes at column 95
    let line = "u".repeat(95) + "\n    ééééé";
    let unfolded = "u".repeat(95) + "ééééé";
    assert_eq!(shown(by_characters(100), &text(&line)), unfolded);
    assert_eq!(shown(console(104), &text(&line)), "u".repeat(95) + "\nééééé");
    assert_eq!(shown(console(105), &text(&line)), unfolded);
    assert_eq!(shown(by_characters(99), &text(&line)), "u".repeat(95) + "\nééééé");
    // a line in ticks: a fold before it trims the space that ends the line before
    let ticks = text("a \n\n```ééééé\nb");
    assert_eq!(shown(by_characters(8), &ticks), "a \n```ééééé\nb");
    assert_eq!(shown(by_characters(7), &ticks), "a\n```ééééé\nb");
    assert_eq!(shown(console(12), &ticks), "a\n```ééééé\nb");
    assert_eq!(shown(console(13), &ticks), "a \n```ééééé\nb");
    // the column advanced by 1,000,000: what follows folds
    let after = made(|d| d.text("\n    é").literal("b"));
    assert_eq!(shown(by_characters(10_000), &after), "é\nb");
}

/// 10 stands at the chunk that folds by this measure.
#[test]
fn characters_decide_where_10_is_met() {
    let document = made(|d| nested(d.text(&"u".repeat(54)), &[Block::ItemBody; 9], "é é"));
    let from = (60 + 54 + 6) as u64;
    // the first word keeps two columns from what is before it, so its last column is 57
    assert_eq!(refusal(console(55), &document, ROOM), (10, from));
    assert_eq!(refusal(console(56), &document, ROOM), (10, from + 3));
    assert_eq!(refusal(by_characters(55), &document, ROOM), (10, from + 3));
    assert_eq!(refusal(by_characters(58), &document, ROOM), (10, from + 3));
    assert_eq!(shown(by_characters(59), &document), "u".repeat(54) + "  é é");
    assert_eq!(refusal(console(59), &document, ROOM), (10, from + 3));
    assert_eq!(shown(console(60), &document), "u".repeat(54) + "  é é");
}

// 02, point 4: what settles the tabstop

/// The tabstop and the record that settles it.
fn tabstop(document: &[u8]) -> (u64, u64) {
    let answer = run(Call::Tabstop, document, vec![], 0);
    assert_eq!(answer.number, 0);
    (answer.numbers[0], answer.at)
}

#[test]
fn a_term_of_24_characters_settles_the_tabstop() {
    let term = |count: usize, letter: &str| {
        made(|d| d.within(Block::ItemTerm, |d| d.text(&letter.repeat(count))).text("x"))
    };
    let length = |document: &[u8]| document.len() as u64;
    assert_eq!(tabstop(&term(23, "t")), (27, length(&term(23, "t"))));
    assert_eq!(tabstop(&term(24, "t")), (28, 6 + 6 + 24));
    assert_eq!(tabstop(&term(25, "t")), (4, length(&term(25, "t"))));
    // characters, not bytes
    assert_eq!(tabstop(&term(24, "é")), (28, 6 + 6 + 48));
    assert_eq!(tabstop(&term(12, "é")), (16, length(&term(12, "é"))));
    // no term, an empty one, an empty document
    assert_eq!(tabstop(&text("a")), (4, 7));
    assert_eq!(tabstop(&term(0, "t")), (4, length(&term(0, "t"))));
    assert_eq!(tabstop(b""), (4, 0));
    // a term in several records, with blocks between them; the first of two counts
    let pieces = [(0x0104, ""), (1, "tttttttt"), (0x010B, ""), (3, "tttttttt"), (0x020B, "")];
    let document = records(&[&pieces[..], &[(1, "tttttttt"), (0x0204, "")]].concat());
    assert_eq!(tabstop(&document), (28, length(&document) - 6));
    let both = [&document[..], &document].concat();
    assert_eq!(tabstop(&both), (28, length(&document) - 6));
    // a wider one before it and a narrower one after it
    let three = [term(25, "t"), term(24, "t"), term(3, "t")].concat();
    assert_eq!(tabstop(&three), (28, length(&term(25, "t")) + 36));
}

#[test]
fn nested_terms_share_one_count() {
    let t = |count: usize| "t".repeat(count);
    // the inner end stops the count, and the outer end tests that same count: the inner end is first
    let (outer, inner) = (t(5), t(24));
    let document = records(&[
        (0x0104, ""),
        (1, &outer),
        (0x0104, ""),
        (1, &inner),
        (0x0204, ""),
        (0x0204, ""),
    ]);
    assert_eq!(tabstop(&document), (28, 6 + 11 + 6 + 30));
    // the outer term's own 24 characters are forgotten at the inner start, and not counted after its end
    let nested = [(0x0104, ""), (1, &inner), (0x0104, ""), (1, "t"), (0x0204, ""), (1, &inner)];
    let document = records(&[&nested[..], &[(0x0204, "")]].concat());
    assert_eq!(tabstop(&document), (5, document.len() as u64));
}

#[test]
fn tabstop_is_refused_as_the_check() {
    let term = records(&[(0x0104, ""), (1, &"t".repeat(24)), (0x0204, "")]);
    for fault in [&[1, 0][..], &[0, 0, 0, 0, 6, 0], &[0, 0, 0, 0, 11, 1], &[0, 0, 0, 0, 11, 2]] {
        let document = [&term[..], fault].concat();
        let answer = run(Call::Tabstop, &document, vec![], 0);
        assert_eq!((answer.number, answer.at), check(&document));
        assert_ne!(answer.number, 0);
        assert_eq!(answer.numbers, [0]);
    }
    assert_eq!(run(Call::Tabstop, &[0; 32_769], vec![], 0).number, 1);
}

// 02, point 10: how much room to lend

fn bound(document: &[u8]) -> u64 {
    let answer = run(Call::RoomBound, document, vec![], 0);
    assert_eq!(answer.number, 0);
    answer.at
}

#[test]
fn room_bound() {
    assert_eq!(bound(b""), 1);
    // bytes, not characters; the starts and ends of TermRefs, not other blocks
    assert_eq!(bound(&text("é")), 2 * 54 + 1);
    let document = made(|d| nested(d, &[Block::TermRef, Block::Mono, Block::TermRef], ""));
    assert_eq!(bound(&document), 4 + 1);
    assert_eq!(shown(console(100), &document), "````");
    // a document that the console refuses by 9 or 10 has a bound too
    assert_eq!(bound(&made(|d| nested(d, &[Block::ItemBody; 9], "x"))), 55);
    for fault in [&[1, 0][..], &[0, 0, 0, 0, 6, 0], &[0, 0, 0, 0, 11, 1], &[0; 32_769]] {
        let answer = run(Call::RoomBound, fault, vec![], 0);
        assert_eq!((answer.number, answer.at), check(fault));
    }
}

/// The tightest document found: 53 times its text, plus its backticks, plus 1, one below the bound.
#[test]
fn room_bound_is_nearly_met() {
    let document = made(|d| {
        let d = d.within(Block::TermRef, |d| d).open(Block::Section3);
        let d = (0..8).fold(d, |d, _| d.open(Block::ItemBody));
        let d = d.within(Block::Block, |d| d).text("x").within(Block::Block, |d| d);
        (0..8).fold(d, |d, _| d.close(Block::ItemBody)).close(Block::Section3)
    });
    assert_eq!(bound(&document), 57);
    assert_eq!(shown(console(100), &document), format!("``\n\n{}x\n", " ".repeat(50)));
    assert_eq!(render(console(100), &document, 56).number, 0);
    assert_eq!(refusal(console(100), &document, 55), (13, 0));
}

// The rows of the refusal table

#[test]
fn refusals_1_to_8() {
    let rows: [(&[u8], u32, u64); 8] = [
        (&[0; 32_769], 1, 0),
        (&[0x01, 0x00], 2, 0),
        (&[0, 0, 0, 0, 0x06, 0], 3, 0),
        (&[1, 0, 0, 0, 0, 1, 0x61], 4, 0),
        (&[1, 0, 0, 0, 1, 0, 0xC3], 5, 0),
        (&[0, 0, 0, 0, 0, 2], 6, 0),
        (&records(&[(0x010B, ""); 33]), 7, 192),
        (&[0, 0, 0, 0, 0x0B, 1], 8, 6),
    ];
    for (document, number, place) in rows {
        assert_eq!(check(document), (number, place));
        for renderer in [console(100), by_characters(100), HTML, STRICT, MARKDOWN, ROFF] {
            assert_eq!(refusal(renderer, document, ROOM), (number, place));
        }
    }
}

#[test]
fn refusal_9_comes_after_1() {
    assert_eq!(refusal(console(10_001), b"", ROOM), (9, 0));
    assert_eq!(refusal(console(u64::MAX), &[1, 0], ROOM), (9, 0));
    assert_eq!(refusal(console(10_001), &[0; 32_769], ROOM), (1, 0));
    assert_eq!(shown(console(10_000), &text("a b")), "a b");
}

#[test]
fn refusals_10_11_and_13() {
    let document = made(|d| nested(d, &[Block::ItemBody; 9], "x"));
    assert_eq!(refusal(console(100), &document, ROOM), (10, 60));
    let meta = [0, 0, 0, 0, 0x0A, 1, 0, 0, 0, 0, 0x0A, 2];
    assert_eq!(refusal(HTML, &meta, ROOM), (11, 0));
    assert_eq!(refusal(STRICT, &meta, ROOM), (11, 0));
    assert_eq!(refusal(MARKDOWN, &meta, ROOM), (11, 0));
    assert_eq!(shown(console(100), &meta), "");
    assert_eq!(shown(ROFF, &meta), PREAMBLE.to_string() + ".nf\n.fi\n");
    let term_ref = made(|d| d.text("a").within(Block::TermRef, |d| d));
    assert_eq!(refusal(ROFF, &term_ref, ROOM), (11, 7));
    assert_eq!(refusal(console(100), &text("a"), 0), (13, 0));
}

// 02, point 6: headings beyond ASCII

/// A heading's line, without the preamble.
fn heading(body: &str) -> String {
    let shown = shown(ROFF, &made(|d| d.within(Block::Header, |d| d.text(body))));
    shown.strip_prefix(PREAMBLE).unwrap().to_string()
}

#[test]
fn headings_beyond_ascii() {
    assert_eq!(heading("é"), ".SH É\n");
    assert_eq!(heading("Aperçu général"), ".SH APERÇU\\ GÉNÉRAL\n");
    // no entry: the character itself; also what is upper case already
    assert_eq!(heading("京1À"), ".SH 京1À\n");
    // some grow
    assert_eq!(heading("ß"), ".SH SS\n");
    assert_eq!(heading("ΐ"), ".SH \u{399}\u{308}\u{301}\n");
    assert_eq!(heading("ﬃ"), ".SH FFI\n");
    // no conditions: both small sigmas, a dotless and a dotted i; title case too
    assert_eq!(heading("σς ıi ǅ"), ".SH ΣΣ\\ II\\ Ǆ\n");
    // the first entry beyond ASCII and the last of all
    assert_eq!(heading("µ"), ".SH Μ\n");
    let (last, upper) = rules::mapped().last().unwrap();
    assert_eq!(heading(&last.to_string()), format!(".SH {upper}\n"));
}

/// A heading cut over several records and styles; text outside headings, also after an inner heading's
/// end, is not changed. 12 is not given any more.
#[test]
fn headings_over_records() {
    let document = records(&[(1, "é"), (0x0100, ""), (1, "a"), (3, "é"), (1, "ß"), (0x0200, "")]);
    assert_eq!(shown(ROFF, &document), PREAMBLE.to_string() + "\\fRé\\fP\n.SH AÉSS\n");
    let document = records(&[(0x0100, ""), (0x0101, ""), (0x0201, ""), (1, "é"), (0x0200, "")]);
    assert_eq!(shown(ROFF, &document), PREAMBLE.to_string() + ".SS \"\"\n\\fRé\\fP\n.SH \"\"\n");
    // a TermRef after such a heading is refused as anywhere
    let heading = [(0x0100, ""), (1, "é"), (0x0200, "")];
    let document = records(&[&heading[..], &[(0x0109, ""), (0x0209, "")]].concat());
    assert_eq!(refusal(ROFF, &document, ROOM), (11, 20));
}

/// 13 is met as the longer heading is written.
#[test]
fn headings_grow_at_the_edge_of_the_room() {
    // `ŉ` has two bytes, its upper case, an apostrophe of two bytes and N, has three
    let document = made(|d| d.within(Block::Header, |d| d.text("ŉ")));
    let need = PREAMBLE.len() + ".SH ".len() + "\u{2BC}N".len() + 1;
    assert_eq!(render(ROFF, &document, need).number, 0);
    assert_eq!(refusal(ROFF, &document, need - 1), (13, 0));
}

/// The compiler's mapping is that of the port's version, and bpaf's `str::to_uppercase` is its
/// `char::to_uppercase` on each character: no condition looks at neighbours. (`to_lowercase` does, for a
/// sigma at a word's end.)
#[test]
fn upper_case_goes_by_characters() {
    let grown = rules::mapped().filter(|(_, upper)| upper.chars().count() > 1).count();
    // a compiler of another version may have others; the example `upper` then says so
    if char::UNICODE_VERSION == (17, 0, 0) {
        assert_eq!((rules::mapped().count(), grown), (1_580, 102));
    }
    assert!(rules::mapped().all(|(_, upper)| upper.chars().count() <= 3));
    for c in '\0'..=char::MAX {
        assert_eq!(c.to_string().to_uppercase(), rules::upper(c));
    }
    for neighbours in ["ας", "ΑΣ ς", "i\u{307}", "\u{345}α", "ΐσς.", "ŉß"] {
        let each: String = neighbours.chars().map(rules::upper).collect();
        assert_eq!(neighbours.to_uppercase(), each);
    }
    assert_eq!("ΑΣ".to_lowercase(), "ας");
}

#[test]
fn order_within_a_record() {
    // 2 before 3 before 4; 5 before 8; 6 and 7 in their turn
    assert_eq!(check(&[1, 0, 0, 0, 0x06, 0]), (2, 0));
    assert_eq!(check(&[1, 0, 0, 0, 0x06, 0, 0x61]), (3, 0));
    assert_eq!(check(&[1, 0, 0, 0, 0, 2, 0x61]), (4, 0));
    assert_eq!(check(&[0, 0, 0, 0, 0, 1, 1, 0, 0, 0, 1, 0, 0xFF]), (5, 6));
    assert_eq!(check(&[0, 0, 0, 0, 0, 1, 0, 0, 0, 0, 1, 2]), (6, 6));
    assert_eq!(check(&[0xFF, 0xFF, 0xFF, 0xFF, 1, 0]), (2, 0));
    assert_eq!(check(&records(&[(0x010B, ""); 32])), (8, 192));
    assert_eq!(check(&text(&"a".repeat(32_762))), (0, 0));
    assert_eq!(check(&text(&"a".repeat(32_763))), (1, 0));
}

// Strict HTML

#[test]
fn strict_html() {
    assert_eq!(
        shown(STRICT, &text("& &amp; &lt; &gt; &am; &quot; &<")),
        "&amp; &amp;amp; &amp;lt; &amp;gt; &amp;am; &amp;quot; &amp;&lt;"
    );
    // the crate's own mode is as it was
    assert_eq!(shown(HTML, &text("& &amp; &lt; &<")), "& &amp; &lt; &&lt;");
    assert_eq!(shown(STRICT, &records(&[(1, "&"), (1, "amp;")])), "&amp;amp;");
    assert_eq!(shown(STRICT, &text("&amp;lt;")), "&amp;amp;lt;");
    // at a chunk's end, in a code line, in ticks
    assert_eq!(
        shown(STRICT, &text("a& &\n    & &lt;\n\n```&\n&gt;")),
        "a&amp; &amp;&amp; &amp;lt;<br>\n```&amp;&amp;gt;"
    );
}

/// 02, point 5: different bodies in one style, free of space and line end, have different escaped
/// forms; all rows of up to five of these.
#[test]
fn strict_html_tells_bodies_apart() {
    const PIECES: [&str; 8] = ["&", "<", ">", ";", "a", "amp;", "lt;", "gt"];
    let mut forms = std::collections::BTreeMap::new();
    for count in 0..=5 {
        for mut row in 0..PIECES.len().pow(count) {
            let mut body = String::new();
            for _ in 0..count {
                body.push_str(PIECES[row % PIECES.len()]);
                row /= PIECES.len();
            }
            let page = rules::render(STRICT, &text(&body), ROOM).outcome.unwrap();
            let page = String::from_utf8(page).unwrap();
            assert_eq!(rules::shown_in_strict(&page), body);
            let before = forms.insert(page, body.clone());
            assert!(before.is_none_or(|before| before == body), "{body}");
        }
    }
}

// What 01 leaves to its reader

#[test]
fn reading_1_line_ends_then_10_then_padding() {
    let mut blocks = vec![Block::Section2];
    blocks.extend([Block::ItemBody; 9]);
    let document = made(|d| nested(d.text("a"), &blocks, "x"));
    assert_eq!(refusal(console(100), &document, 1), (13, 0));
    assert_eq!(refusal(console(100), &document, 2), (10, 73));
    let document =
        made(|d| nested(d.text("a").within(Block::Block, |d| d), &[Block::ItemBody; 9], "x"));
    assert_eq!(refusal(console(0), &document, 2), (13, 0));
    assert_eq!(refusal(console(0), &document, 3), (10, 79));
}

#[test]
fn reading_2_which_chunks_give_10() {
    let deep = |body: &str| made(|d| nested(d, &[Block::Section3; 26], body));
    assert_eq!(refusal(console(100), &deep("\n    "), ROOM), (10, 156 + 6 + 5));
    assert_eq!(shown(console(100), &deep("\n \n\n")), "\n\n\n");
    // the space is dropped by the fold, so its margin is not asked for
    let document = made(|d| nested(d.text("a"), &[Block::Section3; 26], " "));
    assert_eq!(shown(console(0), &document), "a\n\n");
    assert_eq!(refusal(console(1), &document, ROOM), (10, 169));
}

#[test]
fn reading_3_style_and_preamble_before_11() {
    let document = made(|d| d.literal("a").within(Block::Meta, |d| d));
    assert_eq!(refusal(HTML, &document, 16), (13, 0));
    assert_eq!(refusal(HTML, &document, 17), (11, 7));
    assert_eq!(refusal(MARKDOWN, &document, 6), (13, 0));
    assert_eq!(refusal(MARKDOWN, &document, 7), (11, 7));
    let document = made(|d| d.within(Block::TermRef, |d| d));
    assert_eq!(refusal(ROFF, &document, 34), (13, 0));
    assert_eq!(refusal(ROFF, &document, 35), (11, 0));
}

#[test]
fn reading_4_zeros_after_a_trim() {
    let document = text("a\u{A0} ");
    let answer = render(console(2), &document, 5);
    assert_eq!((answer.number, answer.at, &answer.room[..]), (0, 2, &b"a\n\0\0\0"[..]));
    assert_eq!(render(console(2), &document, 3).room, b"a\n\0");
    assert_eq!(refusal(console(2), &document, 2), (13, 0));
}

#[test]
fn reading_5_what_is_written_and_due() {
    assert_eq!(shown(console(100), &records(&[(1, "\n    "), (1, "x y")])), "x\ny");
    // a blank line that is due leaves the column far out, so `b` folds and the blank line is trimmed
    let far_out =
        |after: &str| made(|d| d.text("a\n \n    ").within(Block::Block, |d| d).text(after));
    assert_eq!(shown(console(100), &far_out("b")), "a\nb");
    // the fold drops the space and its trim takes the blank line, which is still due for `b`
    assert_eq!(shown(console(100), &far_out(" b")), "a\n\nb");
    let document = made(|d| d.text("a").within(Block::Block, |d| d).text(" "));
    assert_eq!(shown(console(0), &document), "a\n\n");
    let document = made(|d| d.within(Block::Section2, |d| d));
    assert_eq!(shown(console(100), &document), "\n");
    assert_eq!(refusal(console(100), &document, 0), (13, 0));
}

#[test]
fn reading_6_a_gap_serves_both_sections() {
    let document = made(|d| {
        d.within(Block::Section4, |d| {
            d.text("a").within(Block::Section4, |d| d.text("b")).within(Block::Block, |d| d)
        })
    });
    assert_eq!(shown(console(100), &document), "    a\n        b");
}

#[test]
fn reading_7_two_columns_before_a_body() {
    let document = made(|d| {
        d.within(Block::ItemTerm, |d| d.text(&"t".repeat(26)))
            .within(Block::ItemBody, |d| d.text("y"))
    });
    assert_eq!(shown(console(100), &document), format!("    {}  y", "t".repeat(26)));
    // up to column 27 none are added
    let document = made(|d| {
        d.text("a")
            .within(Block::ItemTerm, |d| d.text(&"t".repeat(25)))
            .text("\n ")
            .text(&"u".repeat(27))
            .within(Block::ItemBody, |d| d.text("y"))
    });
    assert_eq!(
        shown(console(100), &document),
        format!("a\n    {}\n{}y", "t".repeat(25), "u".repeat(27))
    );
}

#[test]
fn reading_8_heading_in_a_heading() {
    let document = made(|d| {
        d.within(Block::Header, |d| d.text("a").within(Block::Section2, |d| d.text("b")).text("c"))
    });
    assert_eq!(shown(ROFF, &document), PREAMBLE.to_string() + ".SS AB\n\\fRc\\fP\n.SH \"\"\n");
}

// The builder

fn build(operation: Operation, so_far: &[u8], argument: &[u8], room: usize) -> Answer {
    let before: Vec<u8> =
        so_far.iter().copied().chain(pattern(so_far.len(), room)).take(room).collect();
    let answer = run(Call::Build(operation), argument, before.clone(), so_far.len() as u64);
    match answer.number {
        0 => assert_eq!(answer.room[answer.length as usize..], before[answer.length as usize..]),
        _ => assert_eq!((&answer.room, answer.length), (&before, so_far.len() as u64)),
    }
    answer
}

fn built(operation: Operation, so_far: &[u8], argument: &[u8]) -> Vec<u8> {
    let answer = build(operation, so_far, argument, 40_000);
    assert_eq!(answer.number, 0, "refused at {}", answer.at);
    answer.room[..answer.length as usize].to_vec()
}

fn not_built(operation: Operation, so_far: &[u8], argument: &[u8], room: usize) -> (u32, u64) {
    let answer = build(operation, so_far, argument, room);
    (answer.number, answer.at)
}

const WRITE: Operation = Operation::Write { style: 1 };

#[test]
fn builder_writes() {
    assert_eq!(built(WRITE, b"", b""), records(&[(1, "")]));
    assert_eq!(built(WRITE, &text("a"), b"b"), records(&[(1, "ab")]));
    assert_eq!(built(WRITE, &records(&[(3, "a")]), b""), records(&[(3, "a"), (1, "")]));
    assert_eq!(built(Operation::Open { block: 10 }, b"", b""), records(&[(0x010A, "")]));
    let open = records(&[(0x010A, "")]);
    assert_eq!(
        built(Operation::Close { block: 10 }, &open, b""),
        records(&[(0x010A, ""), (0x020A, "")])
    );
    let added = records(&[(1, "a\nb\nc"), (1, "d"), (2, "e")]);
    let bracket =
        |inner: &[(u16, &str)]| records(&[&[(0x0108, "")], inner, &[(0x0208, "")]].concat());
    assert_eq!(built(Operation::Doc, b"", &added), bracket(&[(1, "a\nb\nc"), (1, "d"), (2, "e")]));
    let expected = [(2, "a"), (0x0102, ""), (1, "b\nc"), (1, "d"), (2, "e"), (0x0202, "")];
    assert_eq!(built(Operation::EmDoc, b"", &added), bracket(&expected));
    assert_eq!(built(Operation::EmDoc, b"", &records(&[(1, ""), (2, "x")])), bracket(&[(2, "")]));
    assert_eq!(built(Operation::EmDoc, b"", &records(&[(3, "x\ny")])), bracket(&[(3, "x\ny")]));
    assert_eq!(built(Operation::EmDoc, b"", b""), bracket(&[]));
}

#[test]
fn builder_refuses_in_order() {
    let bad = b"\xC3";
    // the length so far passes the room: before all faults of the document
    let case = |length, room: usize, argument: &[u8]| {
        let answer = run(Call::Build(WRITE), argument, pattern(0, room).collect(), length);
        (answer.number, answer.at)
    };
    assert_eq!(case(7, 6, bad), (13, 0));
    assert_eq!(case(u64::MAX, 40_000, bad), (13, 0));
    assert_eq!(case(32_769, 40_000, bad), (1, 0));
    assert_eq!(not_built(WRITE, &[1, 0], bad, 40), (2, 0));
    assert_eq!(not_built(WRITE, &text("a"), bad, 40), (5, 0));
    assert_eq!(not_built(WRITE, &text("a"), b"bc", 8), (13, 0));
    assert_eq!(build(WRITE, &text("a"), b"bc", 9).number, 0);
    // an added document: 1 to 8 in its own places, before 7 of the result
    let full = records(&[(0x010B, ""); 32]);
    assert_eq!(not_built(Operation::Doc, &full, &records(&[(1, "a"), (0x010B, "")]), 400), (8, 13));
    assert_eq!(not_built(Operation::Doc, &full, &[0; 32_769], 400), (1, 0));
    assert_eq!(not_built(Operation::Doc, &full, &text("a"), 400), (7, 192));
    assert_eq!(not_built(Operation::Open { block: 0 }, &full, b"", 192), (7, 192));
    assert_eq!(not_built(Operation::Close { block: 0 }, &full, b"", 192), (6, 192));
    assert_eq!(not_built(Operation::Close { block: 11 }, &full, b"", 192), (13, 0));
    // 13 for a result over 32,768 bytes in a room that is larger
    let large = text(&"a".repeat(32_761));
    assert_eq!(large.len(), 32_767);
    assert_eq!(built(WRITE, &large, b"b").len(), 32_768);
    assert_eq!(not_built(WRITE, &large, b"bc", 40_000), (13, 0));
    // numbers outside their range, before anything else
    assert_eq!(not_built(Operation::Write { style: 0 }, &[1, 0], bad, 40), (3, 0));
    assert_eq!(not_built(Operation::Write { style: 6 }, b"", bad, 40), (3, 0));
    assert_eq!(not_built(Operation::Open { block: 12 }, &[1, 0], b"", 40), (3, 0));
}

#[test]
fn reading_9_7_of_a_result() {
    let thirty_one = records(&[(0x010B, ""); 31]);
    // the bracket is the 32nd, so a block of the added document is one too many
    let added = records(&[(1, "a"), (0x010B, ""), (0x020B, "")]);
    assert_eq!(not_built(Operation::Doc, &thirty_one, &added, 400), (7, 186 + 6 + 7));
    // dropped records don't count
    assert_eq!(build(Operation::EmDoc, &thirty_one, &added, 400).number, 0);
    // Section3 does
    let added = records(&[(1, "a\nb")]);
    assert_eq!(not_built(Operation::EmDoc, &thirty_one, &added, 400), (7, 186 + 6 + 7));
    let thirty = records(&[(0x010B, ""); 30]);
    assert_eq!(build(Operation::EmDoc, &thirty, &added, 400).number, 0);
    let added = records(&[(1, "a\nb"), (0x010B, ""), (0x020B, "")]);
    assert_eq!(not_built(Operation::EmDoc, &thirty, &added, 400), (7, 180 + 6 + 7 + 6 + 7));
}

#[test]
fn draft_is_what_the_builder_builds() {
    let added = made(|d| d.text("a\nb").literal("c"));
    let mut draft = Draft::new();
    draft.write("x", Style::Metavar).em_doc(Draft::new().text("a\nb").literal("c"));
    let metavar = built(Operation::Write { style: 4 }, b"", b"x");
    assert_eq!(built(Operation::EmDoc, &metavar, &added), draft.stored());
}
