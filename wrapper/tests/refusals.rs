//! Each refusal with its place, by 01's table, and a builder that a refused call leaves as it was.

use sefgrunn::{check, Block, Builder, Figures, Html, Number, Refusal, Settings, Shape, Style};

fn refusal<T>(number: Number, place: usize) -> Result<T, Refusal> {
    Err(Refusal { number, place })
}

/// Blocks around one text, the first outermost.
fn nested(blocks: &[Block], body: &str) -> Vec<u8> {
    let mut builder = Builder::new();
    for &block in blocks {
        builder.open(block).unwrap();
    }
    builder.write(Style::Text, body).unwrap();
    for &block in blocks.iter().rev() {
        builder.close(block).unwrap();
    }
    builder.finish().unwrap()
}

#[test]
fn of_documents() {
    let deep = [0, 0, 0, 0, 11, 1].repeat(33);
    let rows: [(&[u8], Number, usize); 8] = [
        (&[0; 32_769], Number::TooLong, 0),
        (&[1, 0], Number::CutShort, 0),
        (&[0, 0, 0, 0, 6, 0], Number::UnknownKind, 0),
        (&[1, 0, 0, 0, 0, 1, 0x61], Number::BlockWithBody, 0),
        (&[1, 0, 0, 0, 1, 0, 0xC3], Number::NotUtf8, 0),
        (&[0, 0, 0, 0, 0, 2], Number::WrongEnd, 0),
        (&deep, Number::TooDeep, 192),
        (&[0, 0, 0, 0, 11, 1], Number::LeftOpen, 6),
    ];
    for (document, number, place) in rows {
        assert_eq!(check(document), refusal(number, place));
        let console = sefgrunn::console_string(document, Settings::default());
        assert_eq!(console, refusal(number, place));
        let html = Html::default();
        assert_eq!(sefgrunn::html_string(document, html), refusal(number, place));
        assert_eq!(sefgrunn::html_strict_string(document, html), refusal(number, place));
        assert_eq!(sefgrunn::markdown_string(document, true), refusal(number, place));
        assert_eq!(sefgrunn::roff_string(document), refusal(number, place));
    }
    assert_eq!(check(&nested(&[Block::Mono; 32], "x")), Ok(()));
}

#[test]
fn of_renderers() {
    let wide = |width| sefgrunn::console_string(b"", Settings { width, ..Settings::default() });
    assert_eq!(wide(10_000), Ok(String::new()));
    assert_eq!(wide(10_001), refusal(Number::TooWide, 0));
    assert_eq!(wide(usize::MAX), refusal(Number::TooWide, 0));

    let far = nested(&[Block::ItemBody; 9], "x");
    assert_eq!(
        sefgrunn::console_string(&far, Settings::default()),
        refusal(Number::BeyondMargin, 60)
    );
    let meta = nested(&[Block::Meta], "x");
    let html = Html::default();
    assert_eq!(sefgrunn::html_string(&meta, html), refusal(Number::NoForm, 0));
    assert_eq!(sefgrunn::html_strict_string(&meta, html), refusal(Number::NoForm, 0));
    assert_eq!(sefgrunn::markdown_string(&meta, true), refusal(Number::NoForm, 0));
    let term_ref = nested(&[Block::Mono, Block::TermRef], "x");
    assert_eq!(sefgrunn::roff_string(&term_ref), refusal(Number::NoForm, 6));
}

#[test]
fn of_bundles() {
    let far = nested(&[Block::ItemBody; 9], "x");
    let long = vec![0; 32_769];
    let shelf = sefgrunn::bundle([&far[..], &long, &nested(&[Block::TermRef], "é"), b""]);
    let expected = Figures { documents: 4, accepted: 2, refused: 2, characters: 3 };
    assert_eq!(sefgrunn::figures(&shelf), Ok(expected));
    let none = Figures { documents: 0, accepted: 0, refused: 0, characters: 0 };
    assert_eq!(sefgrunn::figures(b""), Ok(none));
    let good = sefgrunn::bundle([b""]);
    let with = |rest: &[u8]| sefgrunn::figures(&[&good[..], rest].concat());
    assert_eq!(with(&[0; 5]), refusal(Number::BundleCutShort, 6));
    assert_eq!(with(&[1, 0, 0, 0, 1, 0]), refusal(Number::BundleCutShort, 6));
    assert_eq!(with(&[0, 0, 0, 0, 1, 0]), refusal(Number::BundleKind, 6));
    assert_eq!(sefgrunn::figures(&[0xFF; 65_537]), refusal(Number::BundleTooLong, 0));
    assert_eq!(sefgrunn::figures(&[0xFF; 65_536]), refusal(Number::BundleCutShort, 0));
}

#[test]
fn house_shape() {
    let shape = |blocks: &[Block]| sefgrunn::house_shape(&nested(blocks, "x"));
    let list = Block::DefinitionList;
    assert_eq!(sefgrunn::house_shape(b""), Ok(Shape::House));
    assert_eq!(shape(&[Block::Block, Block::Mono]), Ok(Shape::House));
    // text in a list, a body before its term, the end of a list after a term
    assert_eq!(shape(&[list]), Ok(Shape::Other(6)));
    assert_eq!(shape(&[list, Block::ItemBody]), Ok(Shape::Other(6)));
    assert_eq!(shape(&[list, Block::ItemTerm]), Ok(Shape::Other(6 + 6 + 7 + 6)));
    assert_eq!(shape(&[Block::ItemTerm]), Ok(Shape::Other(0)));
    assert_eq!(sefgrunn::house_shape(&[1, 0]), refusal(Number::CutShort, 0));
    assert_eq!(sefgrunn::house_shape(&[0, 0, 0, 0, 6, 1]), refusal(Number::LeftOpen, 6));
}

/// Asserts that a call is refused and changes nothing.
fn unchanged(
    builder: &mut Builder,
    call: impl FnOnce(&mut Builder) -> Result<&mut Builder, Refusal>,
    expected: Refusal,
) {
    let before = builder.document().to_vec();
    assert_eq!(call(builder).map(drop), Err(expected));
    assert_eq!(builder.document(), before);
}

#[test]
fn of_the_builder() {
    let at = |number, place| Refusal { number, place };
    let mut builder = Builder::new();
    builder.open(Block::Mono).unwrap().write(Style::Text, "a").unwrap();
    unchanged(&mut builder, |b| b.close(Block::Block), at(Number::WrongEnd, 13));
    unchanged(&mut builder, |b| b.write(Style::Text, b"\xC3"), at(Number::NotUtf8, 0));
    unchanged(&mut builder, |b| b.doc(&[0, 0, 0, 0, 11, 1]), at(Number::LeftOpen, 6));
    unchanged(&mut builder, |b| b.em_doc(&[1, 0]), at(Number::CutShort, 0));
    unchanged(&mut builder, |b| b.write(Style::Text, "x".repeat(32_756)), at(Number::NoRoom, 0));
    assert_eq!(builder.clone().finish(), refusal(Number::LeftOpen, 13));
    builder.close(Block::Mono).unwrap();
    assert_eq!(builder.finish().unwrap(), nested(&[Block::Mono], "a"));

    let mut builder = Builder::new();
    for _ in 0..32 {
        builder.open(Block::Mono).unwrap();
    }
    unchanged(&mut builder, |b| b.open(Block::Mono), at(Number::TooDeep, 192));
    unchanged(&mut builder, |b| b.doc(b""), at(Number::TooDeep, 192));
}

/// Word by word, or all at once.
#[test]
fn small_writes() {
    let written = |texts: &[&str]| {
        let mut builder = Builder::new();
        builder.write(Style::Text, "x").unwrap();
        for text in texts {
            builder.write(Style::Literal, text).unwrap();
        }
        builder.finish().unwrap()
    };
    assert_eq!(written(&["é", " ", "", "b"]), written(&["é b"]));
    assert_eq!(written(&["", "", ""]), written(&[""]));
    assert_eq!(written(&["a", ""]), written(&["a"]));
    assert_ne!(written(&[""]), written(&[]));
}

#[test]
fn a_document_up_to_the_last_byte() {
    let mut builder = Builder::new();
    builder.write(Style::Text, "x".repeat(32_761)).unwrap();
    unchanged(
        &mut builder,
        |b| b.write(Style::Text, "yz"),
        Refusal { number: Number::NoRoom, place: 0 },
    );
    builder.write(Style::Text, "y").unwrap();
    unchanged(&mut builder, |b| b.open(Block::Mono), Refusal { number: Number::NoRoom, place: 0 });
    let document = builder.finish().unwrap();
    assert_eq!((document.len(), document[0], document[1]), (32_768, 0xFA, 0x7F));
}

#[test]
fn documents_in_documents() {
    let record = |kind: u16, body: &str| {
        let mut bytes = (body.len() as u32).to_le_bytes().to_vec();
        bytes.extend(kind.to_le_bytes());
        bytes.extend(body.as_bytes());
        bytes
    };
    let added = [record(1, "a\nb"), record(3, "c")].concat();
    let mut builder = Builder::new();
    builder.doc(&added).unwrap();
    assert_eq!(
        builder.finish().unwrap(),
        [record(0x0108, ""), added.clone(), record(0x0208, "")].concat()
    );
    let mut builder = Builder::new();
    builder.em_doc(&added).unwrap();
    let titled = [
        record(0x0108, ""),
        record(2, "a"),
        record(0x0102, ""),
        record(1, "b"),
        record(3, "c"),
        record(0x0202, ""),
        record(0x0208, ""),
    ];
    assert_eq!(builder.finish().unwrap(), titled.concat());
}

/// Every style and block has the header's number.
#[test]
fn kinds() {
    let styles = [Style::Text, Style::Emphasis, Style::Literal, Style::Metavar, Style::Invalid];
    for (index, style) in styles.into_iter().enumerate() {
        let mut builder = Builder::new();
        builder.write(style, "").unwrap();
        assert_eq!(builder.document(), [0, 0, 0, 0, index as u8 + 1, 0]);
    }
    let blocks = [
        Block::Header,
        Block::Section2,
        Block::Section3,
        Block::Section4,
        Block::ItemTerm,
        Block::ItemBody,
        Block::DefinitionList,
        Block::Block,
        Block::InlineBlock,
        Block::TermRef,
        Block::Meta,
        Block::Mono,
    ];
    for (index, block) in blocks.into_iter().enumerate() {
        let mut builder = Builder::new();
        builder.open(block).unwrap().close(block).unwrap();
        let index = index as u8;
        assert_eq!(builder.document(), [0, 0, 0, 0, index, 1, 0, 0, 0, 0, index, 2]);
    }
}
