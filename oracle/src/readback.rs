//! A man page's text read back (02, point 8): from what one text record outside headings writes to its
//! text. Nothing here looks at how it was written.

use crate::kept::kept_roff;
use crate::rules::{Kind, Record};

const TERM: usize = 4;
const BODY: usize = 5;
const EMPHASIS: usize = 2;

/// The font mark of a style: what its text begins with.
fn font(style: usize) -> &'static str {
    match style {
        1 => "\\fR",
        2 | 3 => "\\fB",
        _ => "\\fI",
    }
}

/// The text of an escaped body, read from the left up to the font mark that ends it; `None` where the
/// bytes are not such a body, also where a line of it would be a control line. A plain search would find
/// the mark inside `\\fP`, the text `\fP`.
fn body(mut written: &str) -> Option<String> {
    const ESCAPES: [(&str, &str); 4] = [("\\\\", "\\"), ("\\-", "-"), ("\\*(Aq", "'"), ("\\&", "")];
    let mut text = String::new();
    let mut line_start = false;
    while written != "\\fP" {
        if let Some((escape, read)) = ESCAPES.iter().find(|(escape, _)| written.starts_with(escape))
        {
            text.push_str(read);
            written = &written[escape.len()..];
            line_start = false;
        } else {
            let c = written.chars().next().filter(|&c| c != '\\')?;
            if line_start && (c == '.' || c == '\'') {
                return None;
            }
            text.push(c);
            written = &written[c.len_utf8()..];
            line_start = c == '\n';
        }
    }
    Some(text)
}

/// The text of a record of a style, from all that it writes: for Emphasis a line `.SS` first, with the
/// line end that it may need before it; then the font mark, the body and the closing mark.
pub fn read_back(style: usize, written: &str) -> Option<String> {
    let rest = match style {
        EMPHASIS => written.strip_prefix('\n').unwrap_or(written).strip_prefix(".SS\n")?,
        _ => written,
    };
    body(rest.strip_prefix(font(style))?)
}

/// What holds of the records before one: whether a heading captures it, and whether it stands inside an
/// ItemTerm before any inner term or body has ended, where line ends become spaces.
#[derive(Debug, Clone, Copy, Default, Eq, PartialEq)]
pub struct Before {
    pub captured: bool,
    pub in_term: bool,
}

impl Before {
    pub fn of(records: &[Record]) -> Before {
        let mut before = Before::default();
        for record in records {
            match record.kind {
                Kind::Start(0..=3) => before.captured = true,
                Kind::End(0..=3) => before.captured = false,
                Kind::Start(TERM) => before.in_term = true,
                Kind::End(TERM | BODY) => before.in_term = false,
                _ => {}
            }
        }
        before
    }
}

/// What a record's text is read back as.
fn expected(before: Before, text: &str) -> String {
    match before.in_term {
        true => text.replace('\n', " "),
        false => text.to_string(),
    }
}

/// What the last of some records writes, by the kept Rust: the page with it behind the page without it.
fn written(records: &[Record]) -> String {
    let (all, without) = (kept_roff(records), kept_roff(&records[..records.len() - 1]));
    all.strip_prefix(&without).expect("a page grows at its end").to_string()
}

/// Reads back every text record outside headings of a document that roff accepts, from bpaf's own bytes.
pub fn confirm(records: &[Record]) -> Result<(), String> {
    for (index, record) in records.iter().enumerate() {
        let (Kind::Text(style), before) = (record.kind, Before::of(&records[..index])) else {
            continue;
        };
        if before.captured {
            continue;
        }
        let text = std::str::from_utf8(record.body).expect("accepted text is UTF-8");
        let written = written(&records[..=index]);
        let read = read_back(style, &written);
        if read.as_deref() != Some(&expected(before, text)) {
            return Err(format!("record {index} writes {written:?}, read back as {read:?}"));
        }
    }
    Ok(())
}

#[cfg(test)]
mod tests {
    use super::*;

    /// Records from kinds and bodies.
    fn records<'a>(list: &[(u16, &'a str)]) -> Vec<Record<'a>> {
        let kind = |number: u16| match (number >> 8, (number & 0xFF) as usize) {
            (0, style) => Kind::Text(style),
            (1, block) => Kind::Start(block),
            (_, block) => Kind::End(block),
        };
        let record = |&(number, body): &(u16, &'a str)| Record {
            place: 0,
            kind: kind(number),
            body: body.as_bytes(),
        };
        list.iter().map(record).collect()
    }

    /// What a text writes after the records of a place.
    fn written_at(place: &[(u16, &str)], style: u16, text: &str) -> String {
        let mut all = place.to_vec();
        all.push((style, text));
        written(&records(&all))
    }

    #[test]
    fn escapes_are_read_from_the_left() {
        for text in
            ["", "a", "\\", "-", "'", ".", "\n.", "\n'a", "\\fP", "\\-", "\\&", "\\*(Aq", "é\n\n-"]
        {
            for style in 1..=5 {
                let written = written_at(&[], style, text);
                assert_eq!(
                    read_back(style as usize, &written).as_deref(),
                    Some(text),
                    "{written:?}"
                );
            }
        }
        assert_eq!(written_at(&[], 1, "\\fP"), "\\fR\\\\fP\\fP");
        assert_eq!(written_at(&[], 1, "\n.a"), "\\fR\n\\&.a\\fP");
        assert_eq!(written_at(&[(1, "a")], 2, "b"), "\n.SS\n\\fBb\\fP");
        // bytes that no text writes
        for other in [
            "\\fRa",
            "a\\fP",
            "\\fRa\\x\\fP",
            "\\fRa\\",
            "\\fBa\\fP",
            "\\fR\n.a\\fP",
            "\\fR\n'\\fP",
        ] {
            assert_eq!(read_back(1, other), None);
        }
    }

    /// Places of a text: what stands before it.
    const PLACES: [&[(u16, &str)]; 9] = [
        &[],
        &[(1, "a")],
        &[(1, "a\n")],
        &[(0x0104, "")],
        &[(0x0104, ""), (1, "t\n")],
        &[(0x0104, ""), (0x0105, "")],
        &[(0x0104, ""), (0x0104, ""), (0x0204, "")],
        &[(0x0104, ""), (0x0105, ""), (0x0205, "")],
        &[(0x0100, ""), (0x0200, ""), (0x010A, "")],
    ];

    fn all_texts(pieces: &[&str], most: u32) -> Vec<String> {
        let mut all = Vec::new();
        for count in 0..=most {
            for mut row in 0..pieces.len().pow(count) {
                let mut text = String::new();
                for _ in 0..count {
                    text.push_str(pieces[row % pieces.len()]);
                    row /= pieces.len();
                }
                all.push(text);
            }
        }
        all
    }

    /// Every text of up to four of these in each place and style. Outside a term no two give the same
    /// bytes. Inside one, before any inner term or body has ended, two give the same bytes exactly where
    /// they agree with line ends as spaces: 02 excepts a dot or an apostrophe after a line end, and by
    /// the Rust nothing is excepted.
    #[test]
    fn short_texts_in_each_place() {
        let texts = all_texts(&["a", "\n", " ", ".", "'", "-", "\\", "&"], 4);
        for place in PLACES {
            let before = Before::of(&records(place));
            for style in 1..=5 {
                let mut seen = std::collections::HashMap::new();
                for text in &texts {
                    let written = written_at(place, style, text);
                    let read = read_back(style as usize, &written);
                    let expected = expected(before, text);
                    assert_eq!(read.as_ref(), Some(&expected), "{place:?} {style} {text:?}");
                    // the same bytes for all texts that are expected to be read alike
                    let first = seen.entry(expected).or_insert_with(|| written.clone());
                    assert_eq!(*first, written, "{place:?} {style} {text:?}");
                }
            }
        }
    }

    /// 02's exception is empty: a stripped line end starts no line.
    #[test]
    fn the_exception_is_empty() {
        let term = [(0x0104, "")];
        for mark in [".", "'"] {
            let (end, space) = (format!("\n{mark}"), format!(" {mark}"));
            assert_eq!(written_at(&term, 1, &end), written_at(&term, 1, &space));
        }
        assert_eq!(written_at(&term, 1, "\n."), "\\fR .\\fP");
    }

    /// The law is of one record whose place and style are known. Two documents may share a page.
    #[test]
    fn documents_that_share_a_page() {
        let page = |list: &[(u16, &str)]| kept_roff(&records(list));
        assert_eq!(page(&[(4, "a")]), page(&[(5, "a")]));
        assert_eq!(page(&[]), page(&[(0x010B, ""), (0x020B, "")]));
    }
}
