//! The house shape of a document (02, point 13). bpaf has none, so there are two readings here: the
//! grammar with its place for no stated literally, and a machine that goes record by record. `confirm`
//! holds one against the other.

use crate::rules::{check, Kind, Record, Ruled};

const TERM: usize = 4;
const BODY: usize = 5;
const LIST: usize = 6;
const INLINE: usize = 8;
const TERM_REF: usize = 9;
const MONO: usize = 11;

// The grammar

/// The records after a run of parts: text, a list, or one of the other blocks around parts.
fn after_parts(mut records: &[Kind]) -> &[Kind] {
    while let Some(rest) = after_part(records) {
        records = rest;
    }
    records
}

fn after_part(records: &[Kind]) -> Option<&[Kind]> {
    match *records.first()? {
        Kind::Text(_) => Some(&records[1..]),
        Kind::Start(LIST) => after_end(LIST, after_pairs(&records[1..])),
        Kind::Start(TERM | BODY) | Kind::End(_) => None,
        Kind::Start(block) => after_end(block, after_parts(&records[1..])),
    }
}

/// The records after zero or more pairs of a term and a body.
fn after_pairs(mut records: &[Kind]) -> &[Kind] {
    while let Some(rest) = after_term(records).and_then(after_body) {
        records = rest;
    }
    records
}

fn after_term(records: &[Kind]) -> Option<&[Kind]> {
    match *records.first()? {
        Kind::Start(TERM) => after_end(TERM, after_term_parts(&records[1..])),
        _ => None,
    }
}

fn after_body(records: &[Kind]) -> Option<&[Kind]> {
    match *records.first()? {
        Kind::Start(BODY) => after_end(BODY, after_parts(&records[1..])),
        _ => None,
    }
}

/// The records after what a term holds: text, TermRef, Mono and InlineBlock, these around the same.
fn after_term_parts(mut records: &[Kind]) -> &[Kind] {
    loop {
        let rest = match records.first() {
            Some(Kind::Text(_)) => Some(&records[1..]),
            Some(&Kind::Start(block)) if [TERM_REF, MONO, INLINE].contains(&block) => {
                after_end(block, after_term_parts(&records[1..]))
            }
            _ => None,
        };
        match rest {
            Some(rest) => records = rest,
            None => return records,
        }
    }
}

fn after_end(block: usize, records: &[Kind]) -> Option<&[Kind]> {
    let (first, rest) = records.split_first()?;
    (*first == Kind::End(block)).then_some(rest)
}

/// A document is a run of parts.
fn is_shaped(records: &[Kind]) -> bool {
    after_parts(records).is_empty()
}

/// Records that end all that is open, the innermost first. A list that would end directly after a term
/// gets an empty body first. If these make no document of the shape, none do (`completions` below).
fn completion(records: &[Kind]) -> Vec<Kind> {
    let mut open: Vec<usize> = Vec::new();
    let mut last = None;
    for &kind in records {
        match kind {
            Kind::Start(block) => open.push(block),
            Kind::End(_) => drop(open.pop()),
            Kind::Text(_) => {}
        }
        last = Some(kind);
    }
    let mut ends = Vec::new();
    while let Some(block) = open.pop() {
        if block == LIST && last == Some(Kind::End(TERM)) {
            ends.extend([Kind::Start(BODY), Kind::End(BODY)]);
        }
        ends.push(Kind::End(block));
        last = ends.last().copied();
    }
    ends
}

/// Whether some further records, depth and length aside, lead to a document of the shape.
fn can_lead_to_shape(records: &[Kind]) -> bool {
    is_shaped(&[records, &completion(records)].concat())
}

/// `None` for yes; for no the place of the first record after which no further records could lead to a
/// document of the shape.
pub fn house_shape(document: &[u8]) -> Ruled<Option<usize>> {
    let records = check(document)?;
    let kinds: Vec<Kind> = records.iter().map(|record| record.kind).collect();
    if is_shaped(&kinds) {
        return Ok(None);
    }
    let first = (1..=kinds.len()).find(|&count| !can_lead_to_shape(&kinds[..count]));
    Ok(first.map(|count| records[count - 1].place))
}

// The machine

/// What may stand where the next record is.
#[derive(Debug, Clone, Copy, Eq, PartialEq)]
enum Inside {
    Parts,
    /// a list, before a pair
    List,
    /// a list, between a term and its body
    ListAfterTerm,
    Term,
}

/// The first record that may not stand where it does, in a document whose blocks are all closed.
fn misplaced(records: &[Record]) -> Option<usize> {
    let mut open = Vec::new();
    let mut inside = Inside::Parts;
    for record in records {
        let fits = match (record.kind, inside) {
            (Kind::Text(_), Inside::Parts | Inside::Term) => true,
            (Kind::Text(_), _) => false,
            (Kind::Start(TERM), Inside::List) => true,
            (Kind::Start(BODY), Inside::ListAfterTerm) => true,
            (Kind::Start(TERM | BODY), _) => false,
            (Kind::Start(TERM_REF | MONO | INLINE), Inside::Term) => true,
            (Kind::Start(_), _) => inside == Inside::Parts,
            (Kind::End(_), _) => inside != Inside::ListAfterTerm,
        };
        if !fits {
            return Some(record.place);
        }
        match record.kind {
            Kind::Start(block) => {
                open.push(inside);
                inside = match block {
                    LIST => Inside::List,
                    TERM => Inside::Term,
                    _ if inside == Inside::Term => Inside::Term,
                    _ => Inside::Parts,
                };
            }
            Kind::End(block) => {
                inside = open.pop().expect("an accepted document's ends have starts");
                inside = match block {
                    TERM => Inside::ListAfterTerm,
                    BODY => Inside::List,
                    _ => inside,
                };
            }
            Kind::Text(_) => {}
        }
    }
    None
}

/// Holds the grammar's answer against the machine's.
pub fn confirm(document: &[u8]) -> Result<(), String> {
    let Ok(records) = check(document) else { return Ok(()) };
    let (shape, misplaced) = (house_shape(document), misplaced(&records));
    if shape != Ok(misplaced) {
        return Err(format!("grammar {shape:?}, machine {misplaced:?}"));
    }
    Ok(())
}

#[cfg(test)]
mod tests {
    use super::*;
    use crate::stored::put_record;
    use std::collections::BTreeSet;

    const BLOCKS: [&str; 12] = ["H", "S2", "S3", "S4", "T", "B", "L", "K", "I", "R", "M", "O"];

    /// A document from words: `t` is a text, `e` an empty one, +L and -L are a list's start and end.
    fn stored(words: &str) -> Vec<u8> {
        let mut out = Vec::new();
        for word in words.split_whitespace() {
            let block = BLOCKS.iter().position(|name| *name == &word[1..]);
            match (word, block) {
                ("t", _) => put_record(&mut out, 1, b"x"),
                ("e", _) => put_record(&mut out, 3, b""),
                (_, Some(block)) if word.starts_with('+') => {
                    put_record(&mut out, 0x0100 + block as u16, b"")
                }
                (_, Some(block)) => put_record(&mut out, 0x0200 + block as u16, b""),
                _ => panic!("{word}"),
            }
        }
        out
    }

    /// The index of the first wrong record.
    fn wrong(words: &str) -> Option<usize> {
        let document = stored(words);
        confirm(&document).unwrap();
        let place = house_shape(&document).unwrap()?;
        check(&document).unwrap().iter().position(|record| record.place == place)
    }

    #[test]
    fn shaped() {
        for words in [
            "",
            "t",
            "e t",
            "+L -L",
            "+L +T -T +B -B -L",
            "+L +T t -T +B t -B +T t e -T +B t t -B -L",
            "+L +T +R +O t -O -R -T +B -B -L",
            "+L +T +I +I +R -R -I +O -O -I t -T +B -B -L",
            // a list in a body in a list, a list in every other block
            "+L +T -T +B +L +T -T +B -B -L t +L -L -B -L",
            "+H +L -L -H +S2 +L -L -S2 +S3 +L -L -S3 +S4 +L -L -S4 +K +L -L -K",
            "+I +L -L -I +R +L -L -R +M +L +T -T +B -B -L -M +O +L -L -O",
            "+K -K +K +K t -K -K",
        ] {
            assert_eq!(wrong(words), None, "{words}");
        }
    }

    #[test]
    fn not_shaped() {
        for (words, at) in [
            // the end of a list after a term without a body
            ("+L +T t -T -L", 4),
            // a body first, two bodies, two terms
            ("+L +B -B -L", 1),
            ("+L +T -T +B -B +B -B -L", 5),
            ("+L +T -T +T -T +B -B -L", 3),
            // text in a list, an empty one too; between term and body
            ("+L t -L", 1),
            ("+L e -L", 1),
            ("+L +T -T t +B -B -L", 3),
            // another block in a list
            ("+L +K -K -L", 1),
            ("+L +L -L -L", 1),
            // a list, a Block, a heading, a term in a term
            ("+L +T +L -L -T +B -B -L", 2),
            ("+L +T +K -K -T +B -B -L", 2),
            ("+L +T +H -H -T +B -B -L", 2),
            ("+L +T +T -T -T +B -B -L", 2),
            ("+L +T +R +K -K -R -T +B -B -L", 3),
            ("+L +T +M -M -T +B -B -L", 2),
            // terms and bodies stand nowhere else
            ("+T -T", 0),
            ("t +B -B", 1),
            ("+L +T -T +B +K +T -T -K -B -L", 5),
            ("+L +T -T +B +B -B -B -L", 4),
            ("+I +B -B -I", 1),
        ] {
            assert_eq!(wrong(words), Some(at), "{words}");
        }
    }

    #[test]
    fn lists_in_bodies_up_to_32_open() {
        let deep = |lists: usize| "+L +T -T +B ".repeat(lists) + "t" + &" -B -L".repeat(lists);
        assert_eq!(wrong(&deep(16)), None);
        assert_eq!(house_shape(&stored(&deep(17))).unwrap_err().number, 7);
        // many records side by side
        let long = "+K -K ".repeat(2_700);
        assert_eq!(wrong(&long), None);
        assert_eq!(wrong(&("+L +T -T +B -B -L ".repeat(500) + "+L t -L")), Some(3_001));
    }

    #[test]
    fn refused_as_before() {
        for document in [&[1, 0][..], &[0, 0, 0, 0, 6, 0], &[0, 0, 0, 0, 6, 1], &[0; 32_769]] {
            assert_eq!(house_shape(document).unwrap_err(), check(document).unwrap_err());
        }
    }

    /// Every document of the shape with at most `most` records, of text and these five blocks.
    fn all_shaped(most: usize) -> BTreeSet<Vec<usize>> {
        fn grow(so_far: &mut Vec<Kind>, most: usize, found: &mut BTreeSet<Vec<usize>>) {
            if is_shaped(so_far) {
                found.insert(so_far.iter().map(|kind| kind.number() as usize).collect());
            }
            if so_far.len() == most {
                return;
            }
            let blocks = [TERM, BODY, LIST, TERM_REF, 7];
            let starts = blocks.map(Kind::Start);
            let ends = blocks.map(Kind::End);
            for kind in [Kind::Text(1)].into_iter().chain(starts).chain(ends) {
                so_far.push(kind);
                // what closes nothing leads nowhere, and what has no room to be closed neither
                let mut depth = 0i64;
                let balanced = so_far.iter().all(|kind| {
                    depth += match kind {
                        Kind::Start(_) => 1,
                        Kind::End(_) => -1,
                        Kind::Text(_) => 0,
                    };
                    depth >= 0
                });
                if balanced && so_far.len() + depth as usize <= most {
                    grow(so_far, most, found);
                }
                so_far.pop();
            }
        }
        let mut found = BTreeSet::new();
        grow(&mut Vec::new(), most, &mut found);
        found
    }

    /// Records lead to a document of the shape exactly where the completion above does: three records
    /// against all documents of up to eight, which is enough to end any three.
    #[test]
    fn completions() {
        let documents = all_shaped(8);
        let prefixes: BTreeSet<&[usize]> = documents
            .iter()
            .flat_map(|document| (0..=document.len().min(3)).map(|n| &document[..n]))
            .collect();
        let blocks = [TERM, BODY, LIST, TERM_REF, 7];
        let mut kinds = vec![Kind::Text(1)];
        kinds.extend(blocks.map(Kind::Start));
        kinds.extend(blocks.map(Kind::End));
        for count in 0..=3 {
            for mut row in 0..kinds.len().pow(count) {
                let mut records = Vec::new();
                for _ in 0..count {
                    records.push(kinds[row % kinds.len()]);
                    row /= kinds.len();
                }
                let numbers: Vec<usize> = records.iter().map(|k| k.number() as usize).collect();
                assert_eq!(
                    can_lead_to_shape(&records),
                    prefixes.contains(&numbers[..]),
                    "{records:?}"
                );
            }
        }
    }
}
