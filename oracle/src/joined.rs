//! The joined form of a document (02, point 7): the text in one place, then the records without bodies.
//!
//! bpaf's `Doc` is such a pair, a payload and its tokens, which `confirm` uses.

use crate::cases::{self, Call, Case};
use crate::kept;
use crate::rules::{self, check, Kind, Record, Refusal, Renderer, Ruled};
use crate::stored::put_record;

/// Four bytes more than a document may have.
const MOST_BYTES: usize = 32_772;
const MOST_OPEN: usize = 32;
const MOST_WIDTH: u64 = 10_000;

fn refused<T>(number: u32, place: usize) -> Ruled<T> {
    Err(Refusal { number, place })
}

/// A four-byte length, the least byte first.
fn length(bytes: &[u8]) -> usize {
    bytes.iter().take(4).rev().fold(0, |sum, &byte| sum << 8 | usize::from(byte))
}

/// The joined form of an accepted document: the length of the text, the text, then for each record its
/// length and kind.
fn joined(records: &[Record]) -> Vec<u8> {
    let text: Vec<u8> = records.iter().flat_map(|record| record.body).copied().collect();
    let mut out = (text.len() as u32).to_le_bytes().to_vec();
    out.extend(&text);
    for record in records {
        out.extend((record.body.len() as u32).to_le_bytes());
        out.extend(record.kind.number().to_le_bytes());
    }
    out
}

/// A record of the joined form: where it starts, its kind, and where in the form its body stands.
#[derive(Debug, Clone, Copy)]
struct Apart {
    place: usize,
    kind: Kind,
    start: usize,
    end: usize,
}

/// 1, then 17.
fn text(form: &[u8]) -> Ruled<&[u8]> {
    if form.len() > MOST_BYTES {
        return refused(1, 0);
    }
    match form.split_at_checked(4) {
        Some((size, rest)) => rest.get(..length(size)).ok_or(Refusal { number: 17, place: 0 }),
        None => refused(17, 0),
    }
}

/// 2 to 7 and 18 at each record, then 8, then 18 for text left over.
fn records(form: &[u8]) -> Ruled<Vec<Apart>> {
    let text_end = 4 + text(form)?.len();
    let mut open: Vec<usize> = Vec::new();
    let mut found = Vec::new();
    let mut taken = 4;
    let mut place = text_end;
    while place < form.len() {
        let Some(head) = form.get(place..place + 6) else { return refused(2, place) };
        let size = length(head);
        let kind = match (head[5], usize::from(head[4])) {
            (0, style @ 1..=5) => Kind::Text(style),
            (1, block @ 0..=11) => Kind::Start(block),
            (2, block @ 0..=11) => Kind::End(block),
            _ => return refused(3, place),
        };
        if !matches!(kind, Kind::Text(_)) && size != 0 {
            return refused(4, place);
        }
        if size > text_end - taken {
            return refused(18, place);
        }
        if std::str::from_utf8(&form[taken..taken + size]).is_err() {
            return refused(5, place);
        }
        match kind {
            Kind::End(block) if open.pop() != Some(block) => return refused(6, place),
            Kind::Start(_) if open.len() == MOST_OPEN => return refused(7, place),
            Kind::Start(block) => open.push(block),
            _ => {}
        }
        found.push(Apart { place, kind, start: taken, end: taken + size });
        taken += size;
        place += 6;
    }
    if !open.is_empty() {
        return refused(8, form.len());
    }
    if taken < text_end {
        return refused(18, form.len());
    }
    Ok(found)
}

/// Whether a joined form is accepted.
pub fn check_joined(form: &[u8]) -> Ruled<()> {
    records(form).map(|_| ())
}

/// The document of an accepted joined form.
fn apart(form: &[u8], records: &[Apart]) -> Vec<u8> {
    let mut out = Vec::new();
    for record in records {
        put_record(&mut out, record.kind.number(), &form[record.start..record.end]);
    }
    out
}

/// 13 last, when moving lacks room.
fn in_room(moved: Vec<u8>, room: usize) -> Ruled<Vec<u8>> {
    if moved.len() > room {
        return refused(13, 0);
    }
    Ok(moved)
}

/// A document moved over.
pub fn join(document: &[u8], room: usize) -> Ruled<Vec<u8>> {
    in_room(joined(&check(document)?), room)
}

/// A joined form moved back.
pub fn unjoin(form: &[u8], room: usize) -> Ruled<Vec<u8>> {
    in_room(apart(form, &records(form)?), room)
}

/// A renderer's text of the joined form: that of the document, and 1, 17, then 9, then the records. A
/// place in the document becomes the one in the joined form: 10's in the text, 11's the record's start.
pub fn render(renderer: Renderer, form: &[u8], room: usize) -> rules::Run {
    let refuse = |refusal| rules::Run { outcome: Err(refusal), most: 0 };
    if let Err(refusal) = text(form) {
        return refuse(refusal);
    }
    if matches!(renderer, Renderer::Console { width, .. } if width > MOST_WIDTH) {
        return refuse(Refusal { number: 9, place: 0 });
    }
    let moved = match records(form) {
        Ok(moved) => moved,
        Err(refusal) => return refuse(refusal),
    };
    let mut run = rules::render(renderer, &apart(form, &moved), room);
    if let Err(refusal) = &mut run.outcome {
        // where the records start in the document
        let mut old = 0;
        for record in &moved {
            let size = record.end - record.start;
            let body = old + 6..=old + 6 + size;
            match (refusal.number, record.kind) {
                (10, Kind::Text(_)) if body.contains(&refusal.place) => {
                    refusal.place = record.start + refusal.place - body.start();
                    break;
                }
                (11, _) if refusal.place == old => {
                    refusal.place = record.place;
                    break;
                }
                _ => old += 6 + size,
            }
        }
    }
    run
}

// Laws, and bpaf's own pair

/// A document moved over and back yields its bytes, and is accepted on both sides.
pub fn confirm_join(document: &[u8]) -> Result<(), String> {
    let Ok(records) = check(document) else { return Ok(()) };
    let form = joined(&records);
    if unjoin(&form, usize::MAX).as_deref() != Ok(document) {
        return Err(format!("moved over {form:?} and not back"));
    }
    if kept::unjoined(&form[4..form.len() - 6 * records.len()], &records) != document {
        return Err("a Doc of this text and these tokens is another document".into());
    }
    Ok(())
}

/// The same from the new side; and where a renderer is called, it renders alike in both forms, and the
/// kept Rust agrees on the document's text.
pub fn confirm_joined(case: &Case) -> Result<(), String> {
    let form = &case.document;
    let Ok(moved) = records(form) else { return Ok(()) };
    let document = apart(form, &moved);
    confirm_join(&document)?;
    if join(&document, usize::MAX).as_ref() != Ok(form) {
        return Err("moved back and not over".into());
    }
    if let Call::JoinedRender(renderer) = case.call {
        let old = Case { call: Call::Render(renderer), document, ..case.clone() };
        let (old_answer, answer) = (cases::answer(&old), cases::answer(case));
        kept::confirm(&old, &old_answer)?;
        let alike = old_answer.number == answer.number && old_answer.room == answer.room;
        if !alike || (answer.number == 0 && answer.at != old_answer.at) {
            return Err(format!("rendered as {answer:?}, the document as {old_answer:?}"));
        }
    }
    Ok(())
}

#[cfg(test)]
mod tests {
    use super::*;

    /// A joined form of a text and of records given as length and kind.
    fn form(text: &[u8], records: &[(u32, u16)]) -> Vec<u8> {
        let mut out = (text.len() as u32).to_le_bytes().to_vec();
        out.extend(text);
        for (size, kind) in records {
            out.extend(size.to_le_bytes());
            out.extend(kind.to_le_bytes());
        }
        out
    }

    fn refusal(form: &[u8]) -> (u32, usize) {
        let Refusal { number, place } = check_joined(form).unwrap_err();
        assert_eq!(unjoin(form, 0).unwrap_err(), Refusal { number, place });
        (number, place)
    }

    const MONO: (u32, u16) = (0, 0x010B);
    const MONO_END: (u32, u16) = (0, 0x020B);

    #[test]
    fn over_and_back() {
        // 01's `a b`, and one with empty texts and blocks
        let a_b = [3, 0, 0, 0, 1, 0, b'a', b' ', b'b'];
        let moved = [3, 0, 0, 0, b'a', b' ', b'b', 3, 0, 0, 0, 1, 0];
        assert_eq!(join(&a_b, 13).unwrap(), moved);
        assert_eq!(unjoin(&moved, 9).unwrap(), a_b);
        assert_eq!(join(&a_b, 12), refused(13, 0));
        assert_eq!(unjoin(&moved, 8), refused(13, 0));
        let joined =
            form("éb".as_bytes(), &[(0, 3), MONO, (2, 1), (0, 1), MONO_END, (1, 5), (0, 2)]);
        let document = unjoin(&joined, 1_000).unwrap();
        assert_eq!(document.len() + 4, joined.len());
        assert_eq!(join(&document, joined.len()).unwrap(), joined);
        // the empty document is four zeros
        assert_eq!(join(b"", 4).unwrap(), [0; 4]);
        assert_eq!(unjoin(&[0; 4], 0).unwrap(), b"");
        assert_eq!(join(&[1, 0], 0), refused(2, 0));
    }

    #[test]
    fn limits() {
        let text = vec![b'x'; 32_762];
        let most = form(&text, &[(32_762, 1)]);
        assert_eq!(most.len(), 32_772);
        assert_eq!(unjoin(&most, 40_000).unwrap().len(), 32_768);
        let over = [&most[..], &[0]].concat();
        assert_eq!(refusal(&over), (1, 0));
        assert_eq!(refusal(&[0xFF; 32_773]), (1, 0));
        assert_eq!(refusal(&[0xFF; 32_772]), (17, 0));
    }

    #[test]
    fn seventeen() {
        for short in [&[][..], &[0], &[0, 0, 0], &[1, 0, 0, 0], &[0, 0, 0, 1, 7], &[0xFF; 4]] {
            assert_eq!(refusal(short), (17, 0), "{short:?}");
        }
        assert!(check_joined(&form(b"a", &[(1, 1)])).is_ok());
    }

    #[test]
    fn at_a_record() {
        // 2 only for under 6 bytes left; its place is after the text
        assert_eq!(refusal(&[&form(b"a", &[(1, 1)])[..], &[0; 5]].concat()), (2, 11));
        // 3 whatever its length
        assert_eq!(refusal(&form(b"a", &[(9, 6)])), (3, 5));
        assert_eq!(refusal(&form(b"", &[(0, 0x0300)])), (3, 4));
        // 4 on any length but 0, also where it passes the text
        assert_eq!(refusal(&form(b"a", &[(1, 0x0100)])), (4, 5));
        assert_eq!(refusal(&form(b"", &[(u32::MAX, 0x0200)])), (4, 4));
        // 18 past the text by one, before 5
        assert_eq!(refusal(&form(b"a", &[(2, 1)])), (18, 5));
        assert_eq!(refusal(&form(b"\xC3", &[(2, 1)])), (18, 5));
        assert_eq!(refusal(&form(b"ab", &[(1, 1), (2, 1)])), (18, 12));
        assert_eq!(refusal(&form(b"a", &[(u32::MAX, 1)])), (18, 5));
        // 5: a share that cuts a character
        assert_eq!(refusal(&form("é".as_bytes(), &[(1, 1), (1, 1)])), (5, 6));
        assert_eq!(refusal(&form(b"a\xFF", &[(1, 1), (1, 3)])), (5, 12));
        // 6 and 7
        assert_eq!(refusal(&form(b"", &[MONO, (0, 0x0200)])), (6, 10));
        assert_eq!(refusal(&form(b"", &[MONO_END])), (6, 4));
        assert_eq!(refusal(&form(b"ab", &[&[(2, 1)][..], &[MONO; 33]].concat())), (7, 6 + 33 * 6));
        assert!(check_joined(&form(b"", &[[MONO; 32], [MONO_END; 32]].concat())).is_ok());
    }

    #[test]
    fn after_the_records() {
        // 8, then 18 for text left over, both at the form's length
        assert_eq!(refusal(&form(b"a", &[MONO])), (8, 11));
        assert_eq!(refusal(&form(b"a", &[])), (18, 5));
        assert_eq!(refusal(&form(b"ab", &[(1, 1)])), (18, 12));
        assert_eq!(refusal(&form(b"ab", &[MONO, (1, 1), MONO_END])), (18, 24));
    }

    #[test]
    fn rendered_alike() {
        let console = |width| Renderer::Console { width, full: true, characters: false };
        let outcome = |renderer, form: &[u8], room| render(renderer, form, room).outcome;
        let joined = form(b"a b", &[(1, 1), (2, 3)]);
        assert_eq!(outcome(console(100), &joined, 3).unwrap(), b"a b");
        assert_eq!(outcome(console(100), &joined, 2), refused(13, 0));
        // 17 before 9 before the records
        assert_eq!(outcome(console(10_001), &[0; 3], 9), refused(17, 0));
        assert_eq!(outcome(console(10_001), &form(b"a", &[]), 9), refused(9, 0));
        assert_eq!(outcome(console(10_001), &[0; 32_773], 9), refused(1, 0));
        assert_eq!(outcome(console(100), &form(b"a", &[]), 9), refused(18, 5));
        // 11 at its record, 10 at the chunk's byte in the text
        let meta = form(b"a", &[(1, 1), (0, 0x010A), (0, 0x020A)]);
        let html = Renderer::Html { full: true, css: false, strict: false };
        assert_eq!(outcome(html, &meta, 9), refused(11, 11));
        let body = (0, 0x0105);
        let end = (0, 0x0205);
        let deep = |text: &[u8], texts: &[(u32, u16)]| {
            let records = [&texts[..1], &[body; 9], &texts[1..], &[end; 9]].concat();
            form(text, &records)
        };
        let far = deep(b"u\n v", &[(1, 1), (3, 1)]);
        assert_eq!(outcome(console(100), &far, 99), refused(10, 4 + 1 + 2));
        // at the end of a share: where the next one begins
        let far = deep(b"u\n \n    v", &[(1, 1), (7, 1), (1, 1)]);
        assert_eq!(outcome(console(100), &far, 99), refused(10, 4 + 1 + 7));
    }
}
