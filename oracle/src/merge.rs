//! One option list from two (02, point 14).

use std::collections::BTreeMap;

use crate::rules::{check, printing_order, Kind, Record, Refusal, Ruled};
use crate::shape::house_shape;
use crate::stored::{put_record, MOST_BYTES};

const TERM: usize = 4;
const BODY: usize = 5;
const LIST: usize = 6;

/// An item of a list: the bytes of its term's text joined, and all of its records.
#[derive(Debug, Clone, Eq, PartialEq)]
struct Item {
    key: Vec<u8>,
    records: Vec<u8>,
}

fn refused<T>(number: u32) -> Ruled<T> {
    Err(Refusal { number, place: 0 })
}

/// The items of a side that is a single list in house shape and nothing else; 22 where it is none.
fn items(side: &[u8]) -> Ruled<Vec<Item>> {
    let records = check(side)?;
    if house_shape(side)?.is_some() || records.first().map(|r| r.kind) != Some(Kind::Start(LIST)) {
        return refused(22);
    }
    let mut items: Vec<Item> = Vec::new();
    let mut depth = 0;
    let mut in_term = false;
    for (index, record) in records.iter().enumerate() {
        // beside the list
        if depth == 0 && index > 0 {
            return refused(22);
        }
        if depth == 1 && record.kind == Kind::Start(TERM) {
            items.push(Item { key: Vec::new(), records: Vec::new() });
            in_term = true;
        }
        if depth == 1 && record.kind == Kind::Start(BODY) {
            in_term = false;
        }
        depth = match record.kind {
            Kind::Start(_) => depth + 1,
            Kind::End(_) => depth - 1,
            Kind::Text(_) => depth,
        };
        let bracket = index == 0 || depth == 0;
        if let Some(item) = items.last_mut().filter(|_| !bracket) {
            put_record(&mut item.records, record.kind.number(), record.body);
            if in_term {
                item.key.extend_from_slice(record.body);
            }
        }
    }
    Ok(items)
}

/// 23: the terms do not strictly ascend by their bytes.
fn ascending(items: &[Item]) -> Ruled<()> {
    if items.windows(2).any(|pair| pair[0].key >= pair[1].key) {
        return refused(23);
    }
    Ok(())
}

fn list<'i>(items: impl IntoIterator<Item = &'i Item>) -> Vec<u8> {
    let mut out = Vec::new();
    put_record(&mut out, 0x0100 + LIST as u16, b"");
    items.into_iter().for_each(|item| out.extend(&item.records));
    put_record(&mut out, 0x0200 + LIST as u16, b"");
    out
}

/// The items of both sides: 1 to 8 of the first, then of the second, then 22 and 23 likewise.
fn sides(first: &[u8], second: &[u8]) -> Ruled<(Vec<Item>, Vec<Item>)> {
    check(first)?;
    check(second)?;
    let (first, second) = (items(first)?, items(second)?);
    ascending(&first)?;
    ascending(&second)?;
    Ok((first, second))
}

/// Every term of either side once, ascending; where both have a term, the first side's item.
pub fn merged(first: &[u8], second: &[u8]) -> Ruled<Vec<u8>> {
    let (first, second) = sides(first, second)?;
    let mut all = BTreeMap::new();
    for item in second.iter().chain(&first) {
        all.insert(&item.key, item);
    }
    Ok(list(all.into_values()))
}

/// The same in a room; last, 13 where the list exceeds the room or 32,768 bytes.
pub fn merge(first: &[u8], second: &[u8], room: usize) -> Ruled<Vec<u8>> {
    let merged = merged(first, second)?;
    if merged.len() > room.min(MOST_BYTES) {
        return refused(13);
    }
    Ok(merged)
}

/// A second reading, item by item from the front of both sides, and 02's laws.
pub fn confirm(first: &[u8], second: &[u8]) -> Result<(), String> {
    let Ok((a, b)) = sides(first, second) else { return Ok(()) };
    let (mut i, mut j, mut kept) = (0, 0, Vec::new());
    while i < a.len() || j < b.len() {
        let takes_first = j == b.len() || (i < a.len() && a[i].key <= b[j].key);
        let both = i < a.len() && j < b.len() && a[i].key == b[j].key;
        kept.push(if takes_first { &a[i] } else { &b[j] });
        i += usize::from(takes_first);
        j += usize::from(!takes_first || both);
    }
    let result = merged(first, second).map_err(|refusal| format!("{refusal:?}"))?;
    if result != list(kept.iter().copied()) {
        return Err("item by item it is another list".into());
    }
    for (left, right, same) in
        [(first, first, first), (first, &list([]), first), (&list([]), second, second)]
    {
        if merged(left, right).as_deref() != Ok(same) {
            return Err("a list merged with itself or with none is another".into());
        }
    }
    // the laws of the result need one that is a document
    if result.len() > MOST_BYTES {
        return Ok(());
    }
    let again = items(&result).and_then(|items| ascending(&items).map(|()| items));
    if again.as_ref().map(|items| items.iter().collect::<Vec<_>>()) != Ok(kept.clone()) {
        return Err(format!("the result has other items: {again:?}"));
    }
    let order = |bytes: &[u8]| check(bytes).map(|records: Vec<Record>| printing_order(&records));
    let items: String = kept.iter().filter_map(|item| order(&item.records).ok()).collect();
    if order(&result) != Ok(items) {
        return Err("printing characters are not those of the kept items".into());
    }
    Ok(())
}

#[cfg(test)]
mod tests {
    use super::*;

    /// A list of items, each a term and a body.
    fn made(pairs: &[(&str, &str)]) -> Vec<u8> {
        let mut out = Vec::new();
        put_record(&mut out, 0x0106, b"");
        for (term, body) in pairs {
            put_record(&mut out, 0x0104, b"");
            put_record(&mut out, 3, term.as_bytes());
            put_record(&mut out, 0x0204, b"");
            put_record(&mut out, 0x0105, b"");
            put_record(&mut out, 1, body.as_bytes());
            put_record(&mut out, 0x0205, b"");
        }
        put_record(&mut out, 0x0206, b"");
        out
    }

    fn records(list: &[(u16, &str)]) -> Vec<u8> {
        let mut out = Vec::new();
        list.iter().for_each(|(kind, body)| put_record(&mut out, *kind, body.as_bytes()));
        out
    }

    fn merges(first: &[u8], second: &[u8]) -> Vec<u8> {
        confirm(first, second).unwrap();
        merge(first, second, MOST_BYTES).unwrap()
    }

    fn refusal(first: &[u8], second: &[u8]) -> (u32, usize) {
        confirm(first, second).unwrap();
        let Refusal { number, place } = merge(first, second, MOST_BYTES).unwrap_err();
        (number, place)
    }

    #[test]
    fn both_sides_once() {
        let first = made(&[("-a", "1"), ("-c", "1")]);
        let second = made(&[("-b", "2"), ("-c", "2"), ("-d", "2")]);
        let result = made(&[("-a", "1"), ("-b", "2"), ("-c", "1"), ("-d", "2")]);
        assert_eq!(merges(&first, &second), result);
        assert_eq!(merges(&first, &first), first);
        // empty sides
        let none = made(&[]);
        assert_eq!(merges(&none, &none), none);
        assert_eq!(merges(&first, &none), first);
        assert_eq!(merges(&none, &second), second);
    }

    #[test]
    fn terms_by_their_bytes() {
        // prefixes, the empty term, bytes over 127; not by length
        let order = ["", "-", "--", "-a", "-aa", "-b", "a", "z", "é", "漢", "😀"];
        let all: Vec<(&str, &str)> = order.iter().map(|term| (*term, "x")).collect();
        let odd: Vec<(&str, &str)> = all.iter().copied().step_by(2).collect();
        let even: Vec<(&str, &str)> = all.iter().copied().skip(1).step_by(2).collect();
        assert_eq!(merges(&made(&odd), &made(&even)), made(&all));
        assert_eq!(merges(&made(&even), &made(&odd)), made(&all));
        assert_eq!(refusal(&made(&[("-b", ""), ("-aa", "")]), &made(&[])), (23, 0));
    }

    /// A term's text is joined over records, styles and blocks; backticks of a TermRef are no part of it.
    #[test]
    fn terms_in_pieces() {
        let pieces = [
            (0x0104, ""),
            (1, "-"),
            (0x0109, ""),
            (0x010B, ""),
            (3, "b"),
            (0x020B, ""),
            (0x0209, ""),
            (4, ""),
            (0x0204, ""),
        ];
        let body = [(0x0105, ""), (1, "mine"), (0x0205, "")];
        let first = records(&[&[(0x0106, "")][..], &pieces, &body, &[(0x0206, "")]].concat());
        let second = made(&[("-a", "2"), ("-b", "2"), ("-ba", "2")]);
        let result = merges(&first, &second);
        assert_eq!(items(&result).unwrap().len(), 3);
        assert_eq!(items(&result).unwrap()[1], items(&first).unwrap()[0]);
        // lists in bodies need not ascend
        let inner = made(&[("z", ""), ("a", "")]);
        let term = [(0x0104, ""), (1, "-x"), (0x0204, ""), (0x0105, "")];
        let mut nested = records(&[&[(0x0106, "")][..], &term].concat());
        nested.extend(&inner);
        nested.extend(records(&[(0x0205, ""), (0x0206, "")]));
        assert_eq!(merges(&nested, &nested), nested);
        assert_eq!(items(&nested).unwrap()[0].key, b"-x");
    }

    #[test]
    fn refusals_in_order() {
        let good = made(&[("-a", "")]);
        let unsorted = made(&[("-b", ""), ("-a", "")]);
        let same = made(&[("-a", "1"), ("-a", "2")]);
        let no_list = records(&[(1, "x")]);
        // 1 to 8 of the first, then of the second, in their own places, before all else
        assert_eq!(refusal(&no_list, &[&good[..], &[1, 0]].concat()), (2, good.len()));
        assert_eq!(refusal(&[1, 0], &[0; 32_769]), (2, 0));
        assert_eq!(refusal(&good, &[0; 32_769]), (1, 0));
        // 22 of either side before 23 of either
        assert_eq!(refusal(&unsorted, &no_list), (22, 0));
        assert_eq!(refusal(&no_list, &unsorted), (22, 0));
        assert_eq!(refusal(&good, &unsorted), (23, 0));
        assert_eq!(refusal(&same, &good), (23, 0));
        for other in [
            b"".to_vec(),
            [&good[..], &no_list].concat(),
            [&no_list[..], &good].concat(),
            [&good[..], &good].concat(),
            records(&[(0x0107, ""), (0x0106, ""), (0x0206, ""), (0x0207, "")]),
            records(&[(0x0106, ""), (1, ""), (0x0206, "")]),
            records(&[(0x0106, ""), (0x0104, ""), (0x0204, ""), (0x0206, "")]),
            records(&[
                (0x0106, ""),
                (0x0104, ""),
                (0x0204, ""),
                (0x0105, ""),
                (0x0205, ""),
                (0x0105, ""),
                (0x0205, ""),
                (0x0206, ""),
            ]),
        ] {
            assert_eq!(refusal(&other, &good), (22, 0));
            assert_eq!(refusal(&good, &other), (22, 0));
        }
    }

    #[test]
    fn thirteen_is_last() {
        let (first, second) = (made(&[("-a", "1")]), made(&[("-b", "2")]));
        let need = merged(&first, &second).unwrap().len();
        assert!(merge(&first, &second, need).is_ok());
        assert_eq!(merge(&first, &second, need - 1), refused(13));
        assert_eq!(merge(&first, &made(&[("b", ""), ("a", "")]), 0), refused(23));
        // 32,768 and 32,769 bytes in a larger room
        let long = |bytes: usize| made(&[("-b", &"x".repeat(bytes))]);
        let spare = MOST_BYTES - merged(&first, &long(0)).unwrap().len();
        assert_eq!(merge(&first, &long(spare), 40_000).unwrap().len(), MOST_BYTES);
        assert_eq!(merge(&first, &long(spare + 1), 40_000), refused(13));
        confirm(&first, &long(spare + 1)).unwrap();
    }
}
