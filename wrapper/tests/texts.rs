//! The samples of document 01 ("01"), through the library, and what a room holds after a call.

use sefgrunn::{
    Block, Builder, Chunk, Html, Measure, Number, Piece, Refusal, Settings, Style, Tabstop,
    WIDTH_CODE, WIDTH_TICKED,
};

const PREAMBLE: &str = ".ie \\n(.g .ds Aq \\(aq\n.el .ds Aq '\n";

type Built<'b> = Result<&'b mut Builder, Refusal>;

fn made(write: impl FnOnce(&mut Builder) -> Built<'_>) -> Vec<u8> {
    let mut builder = Builder::new();
    write(&mut builder).unwrap();
    builder.finish().unwrap()
}

fn text(body: &str) -> Vec<u8> {
    made(|b| b.write(Style::Text, body))
}

/// Blocks around one text, the first outermost.
fn nested(blocks: &[Block], style: Style, body: &str) -> Vec<u8> {
    made(|b| {
        blocks.iter().try_for_each(|&block| b.open(block).map(drop))?;
        b.write(style, body)?;
        blocks.iter().rev().try_for_each(|&block| b.close(block).map(drop))?;
        Ok(b)
    })
}

fn console(document: &[u8], width: usize) -> String {
    sefgrunn::console_string(document, Settings { width, ..Settings::default() }).unwrap()
}

fn by_characters(document: &[u8], width: usize) -> String {
    let settings = Settings { width, full: true, measure: Measure::Characters };
    sefgrunn::console_string(document, settings).unwrap()
}

#[test]
fn empty_document() {
    assert_eq!(console(b"", 100), "");
    assert_eq!(sefgrunn::html_string(b"", Html::default()).unwrap(), "");
}

#[test]
fn folding() {
    assert_eq!(text("a b"), [3, 0, 0, 0, 1, 0, b'a', b' ', b'b']);
    for (width, shown) in [(3, "a b"), (2, "a\nb"), (0, "a\nb")] {
        assert_eq!(console(&text("a b"), width), shown);
    }
    assert_eq!(console(&text("é é"), 3), "é\né");
    assert_eq!(by_characters(&text("é é"), 3), "é é");
    assert_eq!(by_characters(&text("é é"), 2), "é\né");
    let line = "u".repeat(95) + "\n    ééééé";
    assert_eq!(by_characters(&text(&line), 100), "u".repeat(95) + "ééééé");
    assert_eq!(console(&text(&line), 100), "u".repeat(95) + "\nééééé");
    assert_eq!(console(&text("a\u{A0} b"), 3), "a\nb");
}

#[test]
fn paragraph() {
    let document = text("a\n\nb");
    assert_eq!(console(&document, 100), "a\nb");
    let short = Settings { full: false, ..Settings::default() };
    assert_eq!(sefgrunn::console_string(&document, short).unwrap(), "a\n");
    assert_eq!(sefgrunn::markdown_string(&document, true).unwrap(), "a\n\nb");
    assert_eq!(sefgrunn::markdown_string(&document, false).unwrap(), "a");
}

#[test]
fn options_and_references() {
    let document = made(|b| {
        b.open(Block::DefinitionList)?;
        b.open(Block::ItemTerm)?.write(Style::Literal, "-p")?.close(Block::ItemTerm)?;
        b.open(Block::ItemBody)?.write(Style::Text, "port")?.close(Block::ItemBody)?;
        b.close(Block::DefinitionList)
    });
    assert_eq!(console(&document, 100), "    -p  port");
    let document = made(|b| {
        b.write(Style::Text, "see ")?.open(Block::TermRef)?;
        b.write(Style::Literal, "-p")?.close(Block::TermRef)
    });
    assert_eq!(console(&document, 100), "see `-p`");
    let document = made(|b| {
        b.write(Style::Text, "a")?.open(Block::Section2)?.open(Block::TermRef)?;
        b.write(Style::Text, "b")?.close(Block::TermRef)?.close(Block::Section2)
    });
    assert_eq!(console(&document, 100), "a`\nb`");
}

#[test]
fn tabstop() {
    for (count, spaces) in [(24, 30), (25, 6)] {
        let document = made(|b| {
            b.open(Block::ItemTerm)?.write(Style::Text, "é".repeat(count))?;
            b.close(Block::ItemTerm)?.open(Block::ItemBody)?;
            b.write(Style::Text, "\n y")?.close(Block::ItemBody)
        });
        let expected = format!("    {}\n{}y", "é".repeat(count), " ".repeat(spaces));
        assert_eq!(console(&document, 100), expected);
        let settled = if count == 24 { 6 + 6 + 48 } else { document.len() };
        assert_eq!(sefgrunn::tabstop(&document), Ok(Tabstop { columns: spaces - 2, settled }));
    }
    assert_eq!(sefgrunn::tabstop(b""), Ok(Tabstop { columns: 4, settled: 0 }));
    let cut = Refusal { number: Number::CutShort, place: 0 };
    assert_eq!(sefgrunn::tabstop(&[1, 0]), Err(cut));
}

#[test]
fn markup() {
    let document = made(|b| b.write(Style::Literal, "<p>"));
    assert_eq!(
        sefgrunn::html_string(&document, Html::default()).unwrap(),
        "<tt><b>&lt;p&gt;</b></tt>"
    );
    let document = text("& &amp; &am; &<");
    assert_eq!(sefgrunn::html_string(&document, Html::default()).unwrap(), "& &amp; &am; &&lt;");
    assert_eq!(
        sefgrunn::html_strict_string(&document, Html::default()).unwrap(),
        "&amp; &amp;amp; &amp;am; &amp;&lt;"
    );
    let styled = sefgrunn::html_string(&document, Html { full: true, css: true }).unwrap();
    assert!(styled.starts_with("& &amp; &am; &&lt;\n<style>\n") && styled.ends_with("</style>"));
}

#[test]
fn man_pages() {
    let document = nested(&[Block::ItemTerm], Style::Literal, "-p");
    let shown = sefgrunn::roff_string(&document).unwrap();
    assert_eq!(shown, format!("{PREAMBLE}.TP\n\\fB\\-p\\fP\n"));
    let document = made(|b| {
        b.open(Block::Header)?.write(Style::Text, "A\n")?.close(Block::Header)?;
        b.open(Block::Block)?.close(Block::Block)
    });
    assert_eq!(sefgrunn::roff_string(&document).unwrap(), format!("{PREAMBLE}.SH A\\ .PP\n"));
    for (heading, upper) in [("é", "É"), ("ß", "SS"), ("ΐ", "\u{399}\u{308}\u{301}"), ("京", "京")]
    {
        let document = nested(&[Block::Header], Style::Text, heading);
        let shown = sefgrunn::roff_string(&document).unwrap();
        assert_eq!(shown, format!("{PREAMBLE}.SH {upper}\n"));
    }
}

/// The chunk lists of bpaf's splitter, with their places, and bodies that are not UTF-8.
#[test]
fn chunks_and_their_places() {
    fn shown(body: &[u8]) -> Vec<(usize, &str, usize)> {
        let shown = |chunk: Chunk<'_>| match chunk.piece {
            Piece::Part { bytes, width } => {
                let text = &body[chunk.start..chunk.start + bytes.len()];
                assert_eq!(text.as_ptr(), bytes.as_ptr());
                (chunk.start, if text.is_ascii() { "part" } else { "part beyond ASCII" }, width)
            }
            Piece::Paragraph => (chunk.start, "paragraph", 0),
            Piece::LineBreak => (chunk.start, "break", 0),
            Piece::Space => (chunk.start, "space", 1),
        };
        sefgrunn::chunks(body).map(shown).collect()
    }
    let paragraph = |start| (start, "paragraph", 0);
    let part = |start, width| (start, "part", width);
    assert_eq!(
        shown(b"a\n\n    a\n    b\n\ndf\n c\n"),
        [
            part(0, 1),
            paragraph(1),
            part(7, WIDTH_CODE),
            part(13, WIDTH_CODE),
            paragraph(14),
            part(16, 2),
            (18, "break", 0),
            part(20, 1),
            (21, "space", 1),
        ]
    );
    assert_eq!(
        shown(b"\n\n```\n\n```\n\nb"),
        [
            paragraph(0),
            part(2, WIDTH_TICKED),
            part(6, WIDTH_TICKED),
            part(7, WIDTH_TICKED),
            paragraph(10),
            part(12, 1),
        ]
    );
    let beyond = |start, width| (start, "part beyond ASCII", width);
    assert_eq!(
        shown(b"\xC3\x80\x80\xFF \xBF\n\n\x80"),
        [beyond(0, 2), part(4, 1), beyond(5, 0), paragraph(6), beyond(8, 0)]
    );
    let mut ended = sefgrunn::chunks(b"a\n    ");
    assert_eq!(ended.by_ref().count(), 2);
    assert_eq!(ended.next(), None);
    assert_eq!(sefgrunn::chunks(b"").next(), None);
}

/// Notes make the document that the builder makes, in a room of its length and of no less.
#[test]
fn notes_as_a_document() {
    let expected = made(|b| {
        b.open(Block::Header)?.write(Style::Text, "Ports")?.close(Block::Header)?;
        b.open(Block::Block)?.write(Style::Text, "a ")?.write(Style::Literal, "b\nc")?;
        b.write(Style::Text, " `d")?.close(Block::Block)?;
        b.open(Block::ItemBody)?.close(Block::ItemBody)
    });
    let notes = "# Ports\n  \na `b\nc` `d\n- ";
    assert_eq!(sefgrunn::notes_document(notes).unwrap(), expected);
    let mut room = vec![0xEE; expected.len() + 2];
    assert_eq!(sefgrunn::notes(notes.as_bytes(), &mut room).unwrap(), expected);
    assert!(room.ends_with(&[0, 0]));
    let mut room = vec![0xEE; expected.len() - 1];
    let at = |number| Refusal { number, place: 0 };
    assert_eq!(sefgrunn::notes(notes.as_bytes(), &mut room), Err(at(Number::NoRoom)));
    assert!(room.iter().all(|&byte| byte == 0));
    assert_eq!(sefgrunn::notes_document(b"\xC3"), Err(at(Number::NotesNotUtf8)));
    assert_eq!(sefgrunn::notes_document([0xC3; 32_769]), Err(at(Number::TooLong)));
    assert_eq!(sefgrunn::notes_document("a".repeat(32_751)), Err(at(Number::NoRoom)));
    assert_eq!(sefgrunn::notes_document("").unwrap(), b"");
}

/// A list of terms, each with a body.
fn list(items: &[(&str, &str)]) -> Vec<u8> {
    made(|b| {
        b.open(Block::DefinitionList)?;
        for (term, body) in items {
            b.open(Block::ItemTerm)?.write(Style::Literal, term)?.close(Block::ItemTerm)?;
            b.open(Block::ItemBody)?.write(Style::Text, body)?.close(Block::ItemBody)?;
        }
        b.close(Block::DefinitionList)
    })
}

#[test]
fn lists_merged() {
    let first = list(&[("-a", "1"), ("-c", "1"), ("é", "1")]);
    let second = list(&[("", "2"), ("-b", "2"), ("-c", "2"), ("z", "2")]);
    let both = [("", "2"), ("-a", "1"), ("-b", "2"), ("-c", "1"), ("z", "2"), ("é", "1")];
    assert_eq!(sefgrunn::merged(&first, &second).unwrap(), list(&both));
    assert_eq!(sefgrunn::merged(&first, &first).unwrap(), first);
    assert_eq!(sefgrunn::merged(&list(&[]), &second).unwrap(), second);
    let need = list(&both).len();
    let mut room = vec![0xEE; need + 1];
    assert_eq!(sefgrunn::merge(&first, &second, &mut room).unwrap(), list(&both));
    assert_eq!(room[need..], [0]);
    let at = |number, place| Refusal { number, place };
    let mut room = vec![0xEE; need - 1];
    assert_eq!(sefgrunn::merge(&first, &second, &mut room), Err(at(Number::NoRoom, 0)));
    assert!(room.iter().all(|&byte| byte == 0));
    let refused = |first: &[u8], second: &[u8]| sefgrunn::merged(first, second).unwrap_err();
    let unsorted = list(&[("-b", ""), ("-a", "")]);
    assert_eq!(refused(&first, &[&second[..], &[1]].concat()), at(Number::CutShort, second.len()));
    assert_eq!(refused(&unsorted, &text("x")), at(Number::NotAList, 0));
    assert_eq!(refused(b"", &first), at(Number::NotAList, 0));
    assert_eq!(refused(&first, &unsorted), at(Number::NotAscending, 0));
    assert_eq!(refused(&list(&[("a", ""), ("a", "")]), &first), at(Number::NotAscending, 0));
}

/// Pages joined are the text, whichever way they are asked for.
#[test]
fn pages_of_a_text() {
    let document = text("one\n two\n three\n four\n five");
    let shown = console(&document, 100);
    let shown = shown.as_bytes();
    assert_eq!(sefgrunn::page_count(shown, 2), Ok(3));
    assert_eq!(sefgrunn::page(shown, 2, 1), Ok(&b"one\ntwo\n"[..]));
    assert_eq!(sefgrunn::page(shown, 2, 3), Ok(&b"five"[..]));
    for height in 1..=6 {
        let pages: Vec<&[u8]> = sefgrunn::pages(shown, height).unwrap().collect();
        assert_eq!(pages.len(), sefgrunn::page_count(shown, height).unwrap());
        assert_eq!(pages.concat(), shown);
        for (index, page) in pages.into_iter().enumerate() {
            assert_eq!(sefgrunn::page(shown, height, index + 1), Ok(page));
        }
    }
    assert_eq!(sefgrunn::page_count(b"", 1), Ok(0));
    assert_eq!(sefgrunn::pages(b"", 1).unwrap().next(), None);
    assert_eq!(sefgrunn::pages(b"a\n", 1).unwrap().count(), 1);
    let at = |number| Refusal { number, place: 0 };
    for height in [0, 201, usize::MAX] {
        assert_eq!(sefgrunn::page_count(shown, height), Err(at(Number::WrongHeight)));
        assert_eq!(sefgrunn::page(shown, height, 0), Err(at(Number::WrongHeight)));
        assert_eq!(sefgrunn::pages(shown, height).map(drop), Err(at(Number::WrongHeight)));
    }
    assert_eq!(sefgrunn::page(shown, sefgrunn::MOST_HEIGHT, 0), Err(at(Number::NoPage)));
    assert_eq!(sefgrunn::page(shown, sefgrunn::MOST_HEIGHT, 2), Err(at(Number::NoPage)));
    assert_eq!(sefgrunn::page(b"", 1, 1), Err(at(Number::NoPage)));
}

/// The text, then zeros; in a room that is too small only zeros.
#[test]
fn what_a_room_holds() {
    let document = text("a\u{A0} ");
    let settings = Settings { width: 2, ..Settings::default() };
    let mut room = [0xEE; 5];
    assert_eq!(sefgrunn::console(&document, settings, &mut room), Ok("a\n"));
    assert_eq!(room, *b"a\n\0\0\0");
    // the text was 3 bytes long before its end was trimmed
    let mut room = [0xEE; 2];
    let no_room = Refusal { number: Number::NoRoom, place: 0 };
    assert_eq!(sefgrunn::console(&document, settings, &mut room), Err(no_room));
    assert_eq!(room, [0; 2]);
    let mut room = [0xEE; 8];
    assert_eq!(sefgrunn::markdown(&text("a b"), true, &mut room), Ok("a b"));
    assert_eq!(room, *b"a b\0\0\0\0\0");
    assert_eq!(sefgrunn::html(&text("a"), Html::default(), &mut []), Err(no_room));
    assert_eq!(sefgrunn::roff(b"", &mut [0; 34]), Err(no_room));
    assert_eq!(sefgrunn::roff(b"", &mut [0; 35]), Ok(PREAMBLE));
}

/// Texts far longer than the first room that is tried, and the longest that a page of one-letter words makes:
/// each word on a line of its own, 50 columns in.
#[test]
fn strings_grow() {
    let long = "word ".repeat(6_000);
    assert!(console(&text(&long), 10_000).replace('\n', " ") == long);
    assert!(sefgrunn::markdown_string(&text(&long), true).unwrap() == long);

    let mut blocks = vec![Block::Section3];
    blocks.extend([Block::ItemBody; 8]);
    let words = 16_326;
    let document = nested(&blocks, Style::Text, &"a ".repeat(words));
    assert_eq!(document.len(), 32_766);
    let shown = console(&document, 0);
    assert_eq!(shown.lines().count(), words);
    assert!(shown.lines().all(|line| line.len() == 51 && line.ends_with(" a")));
    let bound = sefgrunn::room_bound(&document).unwrap();
    assert!(shown.len() < bound && bound == 54 * 2 * words + 1);
}

/// In the room that is said to be enough every width is accepted; a refused document has none.
#[test]
fn how_much_room_to_lend() {
    let document = made(|b| {
        b.write(Style::Text, "é b c\n d")?.open(Block::TermRef)?;
        b.write(Style::Literal, "-p")?.close(Block::TermRef)
    });
    let bound = sefgrunn::room_bound(&document).unwrap();
    assert_eq!(bound, 54 * (9 + 2) + 2 + 1);
    for width in [0, 1, 3, 100, 10_000] {
        for measure in [Measure::Bytes, Measure::Characters] {
            let settings = Settings { width, full: true, measure };
            assert!(sefgrunn::console(&document, settings, &mut vec![0; bound]).is_ok());
        }
    }
    let cut = Refusal { number: Number::CutShort, place: 0 };
    assert_eq!(sefgrunn::room_bound(&[1, 0]), Err(cut));
    // as the console refuses: 9 before 2
    let wide = Settings { width: 10_001, ..Settings::default() };
    let too_wide = Refusal { number: Number::TooWide, place: 0 };
    assert_eq!(sefgrunn::console_string(&[1, 0], wide), Err(too_wide));
}
