//! The joined form: moved over and back, rendered alike, each refusal with its place.

use sefgrunn::{joined, Block, Builder, Html, Measure, Number, Refusal, Settings, Style};

fn refusal<T>(number: Number, place: usize) -> Result<T, Refusal> {
    Err(Refusal { number, place })
}

fn page() -> Vec<u8> {
    let mut page = Builder::new();
    page.open(Block::Header).unwrap().write(Style::Text, "Réglages").unwrap();
    page.close(Block::Header).unwrap().write(Style::Literal, "").unwrap();
    page.open(Block::Mono).unwrap().write(Style::Metavar, "a <b> & c").unwrap();
    page.close(Block::Mono).unwrap();
    page.finish().unwrap()
}

/// A joined form of a text and of records given as length and kind.
fn form(text: &[u8], records: &[(u32, u16)]) -> Vec<u8> {
    let mut out = (text.len() as u32).to_le_bytes().to_vec();
    out.extend(text);
    for (length, kind) in records {
        out.extend(length.to_le_bytes());
        out.extend(kind.to_le_bytes());
    }
    out
}

#[test]
fn over_and_back() {
    let document = page();
    let moved = joined::from_document(&document).unwrap();
    assert_eq!(moved.len(), document.len() + 4);
    assert_eq!(joined::check(&moved), Ok(()));
    assert_eq!(joined::to_document(&moved).unwrap(), document);
    assert_eq!(joined::text(&moved), Some("Réglagesa <b> & c".as_bytes()));
    assert_eq!(joined::from_document(b"").unwrap(), [0; 4]);
    assert_eq!(joined::to_document(&[0; 4]).unwrap(), b"");

    let mut room = vec![0xEE; moved.len() + 1];
    assert_eq!(joined::join(&document, &mut room).unwrap(), moved);
    assert_eq!(room[moved.len()..], [0]);
    let mut room = vec![0xEE; moved.len() - 1];
    assert_eq!(joined::join(&document, &mut room), refusal(Number::NoRoom, 0));
    assert!(room.iter().all(|&byte| byte == 0));
    let mut room = vec![0xEE; document.len() - 1];
    assert_eq!(joined::unjoin(&moved, &mut room), refusal(Number::NoRoom, 0));
    assert!(room.iter().all(|&byte| byte == 0));
}

#[test]
fn rendered_alike() {
    let document = page();
    let moved = joined::from_document(&document).unwrap();
    let mut room = vec![0; 4_096];
    let mut text =
        |render: &dyn Fn(&mut [u8]) -> Result<String, Refusal>| render(&mut room).unwrap();
    let owned = |text: &str| text.to_string();
    for measure in [Measure::Bytes, Measure::Characters] {
        let settings = Settings { width: 5, full: true, measure };
        let new = joined::console_string(&moved, settings);
        assert_eq!(new, sefgrunn::console_string(&document, settings));
    }
    let html = Html::default();
    let new = text(&|room| joined::html(&moved, html, room).map(owned));
    assert_eq!(new, sefgrunn::html_string(&document, html).unwrap());
    let new = text(&|room| joined::html_strict(&moved, html, room).map(owned));
    assert_eq!(new, sefgrunn::html_strict_string(&document, html).unwrap());
    let new = text(&|room| joined::markdown(&moved, true, room).map(owned));
    assert_eq!(new, sefgrunn::markdown_string(&document, true).unwrap());
    let new = text(&|room| joined::roff(&moved, room).map(owned));
    assert_eq!(new, sefgrunn::roff_string(&document).unwrap());
}

#[test]
fn refusals() {
    let rows: [(Vec<u8>, Number, usize); 12] = [
        (vec![0; 32_773], Number::TooLong, 0),
        (vec![0; 3], Number::NoJoinedText, 0),
        (vec![1, 0, 0, 0], Number::NoJoinedText, 0),
        ([form(b"a", &[(1, 1)]), vec![0; 5]].concat(), Number::CutShort, 11),
        (form(b"a", &[(9, 6)]), Number::UnknownKind, 5),
        (form(b"a", &[(9, 0x0100)]), Number::BlockWithBody, 5),
        (form(b"\xC3", &[(2, 1)]), Number::WrongShare, 5),
        (form("é".as_bytes(), &[(1, 1), (1, 1)]), Number::NotUtf8, 6),
        (form(b"", &[(0, 0x0200)]), Number::WrongEnd, 4),
        (form(b"", &[(0, 0x010B); 33]), Number::TooDeep, 4 + 32 * 6),
        (form(b"a", &[(0, 0x010B)]), Number::LeftOpen, 11),
        (form(b"ab", &[(1, 1)]), Number::WrongShare, 12),
    ];
    for (form, number, place) in rows {
        assert_eq!(joined::check(&form), refusal(number, place));
        assert_eq!(joined::to_document(&form), refusal(number, place));
        let console = joined::console_string(&form, Settings::default());
        assert_eq!(console, refusal(number, place));
        assert_eq!(joined::roff(&form, &mut [0; 99]), refusal(number, place));
    }
    let wide = Settings { width: 10_001, ..Settings::default() };
    assert_eq!(joined::console_string(&[0; 3], wide), refusal(Number::NoJoinedText, 0));
    assert_eq!(joined::console_string(&form(b"a", &[]), wide), refusal(Number::TooWide, 0));
    assert_eq!(joined::from_document(&[1, 0]), refusal(Number::CutShort, 0));

    // 10 in the text, 11 at its record
    let bodies = [vec![(0, 0x0105); 9], vec![(3, 1)], vec![(0, 0x0205); 9]].concat();
    let far = form(b"\n x", &bodies);
    let console = joined::console_string(&far, Settings::default());
    assert_eq!(console, refusal(Number::BeyondMargin, 4 + 2));
    let meta = form(b"a", &[(1, 1), (0, 0x010A), (0, 0x020A)]);
    assert_eq!(joined::markdown(&meta, true, &mut [0; 99]), refusal(Number::NoForm, 11));
}
