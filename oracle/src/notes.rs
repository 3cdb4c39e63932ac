//! The writers' notes as a document (02, point 11).

use crate::rules::{check, printing, Refusal, Ruled};
use crate::stored::{put_record, Block, Draft, Style, MOST_BYTES};

const HEADER: u16 = 0;
const ITEM_BODY: u16 = 5;
const BLOCK: u16 = 7;
const TEXT: u16 = 1;
const LITERAL: u16 = 3;

/// A block, and the text that it holds.
type Part = (u16, String);

/// Lines end at a line feed; a last line without one counts.
fn lines(notes: &str) -> Vec<&str> {
    notes.split_inclusive('\n').map(|line| line.strip_suffix('\n').unwrap_or(line)).collect()
}

/// Marked lines, and neighbouring other lines joined by line feeds; an empty line or one of spaces
/// separates.
fn parts(notes: &str) -> Vec<Part> {
    let mut parts: Vec<Part> = Vec::new();
    let mut together = false;
    for line in lines(notes) {
        let mut joins = false;
        if let Some(rest) = line.strip_prefix("# ") {
            parts.push((HEADER, rest.to_string()));
        } else if let Some(rest) = line.strip_prefix("- ") {
            parts.push((ITEM_BODY, rest.to_string()));
        } else if line.chars().any(|c| c != ' ') {
            joins = true;
            match parts.last_mut() {
                Some((_, text)) if together => {
                    text.push('\n');
                    text.push_str(line);
                }
                _ => parts.push((BLOCK, line.to_string())),
            }
        }
        together = joins;
    }
    parts
}

/// The records of a text: backticks pair from the left, what stands between a pair is Literal, the rest
/// Text. A record begins with a character of another style, so empty stretches give none and neighbours
/// of one style are one.
fn stretches(text: &str) -> Vec<(u16, String)> {
    let paired = text.matches('`').count() / 2 * 2;
    let mut seen = 0;
    let mut records: Vec<(u16, String)> = Vec::new();
    for c in text.chars() {
        if c == '`' && seen < paired {
            seen += 1;
            continue;
        }
        let style = if seen % 2 == 1 { LITERAL } else { TEXT };
        match records.last_mut() {
            Some((last, body)) if *last == style => body.push(c),
            _ => records.push((style, c.to_string())),
        }
    }
    records
}

/// The document of some notes, before the room is looked at: 1, then 19.
pub fn document(notes: &[u8]) -> Ruled<Vec<u8>> {
    if notes.len() > MOST_BYTES {
        return Err(Refusal { number: 1, place: 0 });
    }
    let notes = std::str::from_utf8(notes).map_err(|_| Refusal { number: 19, place: 0 })?;
    let mut out = Vec::new();
    for (block, text) in parts(notes) {
        put_record(&mut out, 0x0100 + block, b"");
        stretches(&text)
            .iter()
            .for_each(|(style, body)| put_record(&mut out, *style, body.as_bytes()));
        put_record(&mut out, 0x0200 + block, b"");
    }
    Ok(out)
}

/// The document in a room; last, 13 where it exceeds the room or 32,768 bytes.
pub fn taken_in(notes: &[u8], room: usize) -> Ruled<Vec<u8>> {
    let document = document(notes)?;
    if document.len() > room.min(MOST_BYTES) {
        return Err(Refusal { number: 13, place: 0 });
    }
    Ok(document)
}

// 02's law, and a second reading

/// The notes without markers and paired backticks, from their bytes: a marker goes from a line's start,
/// and of the backticks of a text all go but the last of an odd number.
fn without(notes: &str) -> String {
    let mut out = String::new();
    // the backtick that is still unpaired in this text
    let mut open: Option<usize> = None;
    let mut line_start = true;
    let mut block = false;
    let mut rest = notes;
    while let Some(c) = rest.chars().next() {
        if line_start {
            let line = rest.split('\n').next().unwrap_or_default();
            let marked = line.starts_with("# ") || line.starts_with("- ");
            let separates = line.bytes().all(|b| b == b' ');
            if marked || separates || !block {
                open = None;
            }
            block = !marked && !separates;
            if marked {
                rest = &rest[2..];
                line_start = false;
                continue;
            }
        }
        match (c, open) {
            ('`', Some(at)) => {
                out.remove(at);
                open = None;
            }
            ('`', None) => {
                open = Some(out.len());
                out.push(c);
            }
            _ => out.push(c),
        }
        line_start = c == '\n';
        rest = &rest[c.len_utf8()..];
    }
    out
}

/// The same document through bpaf's `Doc`, whose writing joins neighbours of one style, each text cut at
/// its backticks.
fn built(notes: &str) -> Vec<u8> {
    let mut draft = Draft::new();
    for (block, text) in parts(notes) {
        let block = Block::ALL[block as usize];
        draft.open(block);
        let pieces: Vec<&str> = text.split('`').collect();
        for (index, piece) in pieces.iter().enumerate() {
            let unpaired = index % 2 == 1 && index + 1 == pieces.len();
            if unpaired {
                draft.write("`", Style::Text);
            }
            let literal = index % 2 == 1 && !unpaired;
            if !piece.is_empty() {
                draft.write(piece, if literal { Style::Literal } else { Style::Text });
            }
        }
        draft.close(block);
    }
    draft.stored()
}

/// The document is the one built, is one that the check accepts unless it is too long, and has the
/// printing characters of the notes without markers and paired backticks.
pub fn confirm(notes: &[u8]) -> Result<(), String> {
    let text = match (document(notes), std::str::from_utf8(notes)) {
        (Err(Refusal { number: 1, .. }), _) if notes.len() > MOST_BYTES => return Ok(()),
        (Err(Refusal { number: 19, .. }), Err(_)) => return Ok(()),
        (Ok(document), Ok(text)) if document == built(text) => text,
        (got, text) => return Err(format!("{got:?}, built {:?}", text.map(built))),
    };
    let document = document(notes).expect("it was accepted");
    if document.len() > MOST_BYTES {
        return Ok(());
    }
    let records = check(&document).map_err(|refusal| format!("no document: {refusal:?}"))?;
    let shown: String = records.iter().map(|record| printing(record.body)).collect();
    let expected = printing(without(text).as_bytes());
    if shown != expected {
        return Err(format!("printing characters {shown:?}, of the notes {expected:?}"));
    }
    Ok(())
}

#[cfg(test)]
mod tests {
    use super::*;

    /// The records of some notes: a block's start and end by its name, texts by their style's letter.
    fn records(notes: &str) -> String {
        confirm(notes.as_bytes()).unwrap();
        let document = document(notes.as_bytes()).unwrap();
        let shown = check(&document).unwrap().into_iter().map(|record| {
            let body = String::from_utf8(record.body.to_vec()).unwrap();
            match record.kind.number() {
                0x0100 => "H(".to_string(),
                0x0105 => "B(".to_string(),
                0x0107 => "K(".to_string(),
                0x0001 => format!("t:{body};"),
                0x0003 => format!("l:{body};"),
                _ => ")".to_string(),
            }
        });
        shown.collect()
    }

    #[test]
    fn lines_and_parts() {
        assert_eq!(records("# Title\n\nOne\ntwo\n- item\n"), "H(t:Title;)K(t:One\ntwo;)B(t:item;)");
        // a last line without a line feed counts; after a last one there is no further line
        assert_eq!(records("a"), "K(t:a;)");
        assert_eq!(records("a\n"), "K(t:a;)");
        assert_eq!(records(""), "");
        assert_eq!(records("\n\n"), "");
        // a line of spaces separates; spaces of other lines stay
        assert_eq!(records("a\n   \nb"), "K(t:a;)K(t:b;)");
        assert_eq!(records("  a  \n b "), "K(t:  a  \n b ;)");
        // a marked line ends a Block
        assert_eq!(records("a\n# b\nc"), "K(t:a;)H(t:b;)K(t:c;)");
        assert_eq!(records("- a\n- b\nc\n- d"), "B(t:a;)B(t:b;)K(t:c;)B(t:d;)");
        // the rest of a marked line may be empty or a marker again
        assert_eq!(records("# \n- "), "H()B()");
        assert_eq!(records("# # a\n-  - b"), "H(t:# a;)B(t: - b;)");
        // no marker without its space, or after one
        assert_eq!(records("#a\n-b\n#\n-\n## c\n # d"), "K(t:#a\n-b\n#\n-\n## c\n # d;)");
        // only U+0020 is a space, only a line feed ends a line
        for line in ["\t", "\r", "\u{A0}", "\u{2028}", " \t"] {
            assert_eq!(records(&format!("a\n{line}\nb")), format!("K(t:a\n{line}\nb;)"));
        }
    }

    #[test]
    fn backticks() {
        assert_eq!(records("a `b` c"), "K(t:a ;l:b;t: c;)");
        // empty stretches give no record, neighbours of one style are one
        assert_eq!(records("``"), "K()");
        assert_eq!(records("a``b"), "K(t:ab;)");
        assert_eq!(records("`a``b`"), "K(l:ab;)");
        // an unpaired last backtick is Text
        assert_eq!(records("`"), "K(t:`;)");
        assert_eq!(records("`a`b`c"), "K(l:a;t:b`c;)");
        assert_eq!(records("```a"), "K(t:`a;)");
        // pairs cross the lines of one Block, never a separator or a marked line
        assert_eq!(records("a `b\nc` d"), "K(t:a ;l:b\nc;t: d;)");
        assert_eq!(records("`a\n\nb`"), "K(t:`a;)K(t:b`;)");
        assert_eq!(records("`a\n- b`"), "K(t:`a;)B(t:b`;)");
        assert_eq!(records("# `a\n# b`"), "H(t:`a;)H(t:b`;)");
    }

    #[test]
    fn refusals_in_order() {
        let refusal = |notes: &[u8], room| taken_in(notes, room).unwrap_err();
        let long = vec![0xFF; MOST_BYTES + 1];
        assert_eq!(refusal(&long, 0), Refusal { number: 1, place: 0 });
        assert_eq!(refusal(&long[1..], 0), Refusal { number: 19, place: 0 });
        assert_eq!(refusal(b"a\n\xC3", 0), Refusal { number: 19, place: 0 });
        assert_eq!(refusal(b"a", 18), Refusal { number: 13, place: 0 });
        assert_eq!(taken_in(b"a", 19).unwrap().len(), 19);
        // past 32,768 bytes in a larger room
        let most = "a".repeat(MOST_BYTES - 18);
        assert_eq!(taken_in(most.as_bytes(), 40_000).unwrap().len(), MOST_BYTES);
        let over = "a".repeat(MOST_BYTES - 17);
        assert_eq!(refusal(over.as_bytes(), 40_000), Refusal { number: 13, place: 0 });
        assert_eq!(taken_in(b"", 0), Ok(vec![]));
    }

    /// Every row of up to six of these, by both readings.
    #[test]
    fn short_notes() {
        const PIECES: [&str; 6] = ["`", "\n", " ", "# ", "- ", "é"];
        for count in 0..=6 {
            for mut row in 0..PIECES.len().pow(count) {
                let mut notes = String::new();
                for _ in 0..count {
                    notes.push_str(PIECES[row % PIECES.len()]);
                    row /= PIECES.len();
                }
                confirm(notes.as_bytes()).unwrap();
            }
        }
    }
}
