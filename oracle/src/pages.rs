//! Pages of a console text (02, point 12): any bytes, cut into pages of whole rows.

use crate::rules::{Refusal, Ruled};

const MOST_HEIGHT: u64 = 200;

/// The rows of a text: each ends at a line feed, which it has; a non-empty rest is a row.
fn rows(text: &[u8]) -> Vec<&[u8]> {
    text.split_inclusive(|&byte| byte == b'\n').collect()
}

/// 20: the height is outside 1 to 200.
fn height(height: u64) -> Ruled<usize> {
    match height {
        1..=MOST_HEIGHT => Ok(height as usize),
        _ => Err(Refusal { number: 20, place: 0 }),
    }
}

/// Rows divided by height, rounded up.
pub fn count(text: &[u8], given: u64) -> Ruled<usize> {
    let height = height(given)?;
    Ok(rows(text).chunks(height).count())
}

/// Start and length of a page; the first has number 1. 21: there is no such page.
pub fn page(text: &[u8], given: u64, page: u64) -> Ruled<(usize, usize)> {
    let height = height(given)?;
    let mut start = 0;
    for (index, rows) in rows(text).chunks(height).enumerate() {
        let length = rows.concat().len();
        if index as u64 + 1 == page {
            return Ok((start, length));
        }
        start += length;
    }
    Err(Refusal { number: 21, place: 0 })
}

/// 02's laws of a text's pages, by counting line feeds: joined they are the text; each but the last has
/// exactly the height in rows, the last one to height; their count.
pub fn confirm(text: &[u8], given: u64) -> Result<(), String> {
    let Ok(count) = count(text, given) else {
        let refused = given == 0 || given > MOST_HEIGHT;
        return if refused { Ok(()) } else { Err("a height was refused".into()) };
    };
    let feeds = |part: &[u8]| part.iter().filter(|&&byte| byte == b'\n').count() as u64;
    let rest = text.last().is_some_and(|&last| last != b'\n') as u64;
    let rows = feeds(text) + rest;
    let mut end = 0;
    for number in 1..=count as u64 {
        let (start, length) = page(text, given, number).map_err(|r| format!("{number}: {r:?}"))?;
        let part = text.get(start..start + length).ok_or("no part of the text")?;
        let whole = part.ends_with(b"\n") && feeds(part) == given;
        let last = number == count as u64;
        let held = feeds(part) + if last { rest } else { 0 };
        if start != end || !(whole || last && (1..=given).contains(&held)) {
            return Err(format!("page {number} of {count} is {part:?}"));
        }
        end += length;
    }
    let beyond = [0, count as u64 + 1, u64::MAX].map(|number| page(text, given, number).is_err());
    if end != text.len() || count as u64 != rows.div_ceil(given) || beyond != [true; 3] {
        return Err(format!("{count} pages of {rows} rows"));
    }
    Ok(())
}

#[cfg(test)]
mod tests {
    use super::*;

    const REFUSED_20: Ruled<(usize, usize)> = Err(Refusal { number: 20, place: 0 });
    const REFUSED_21: Ruled<(usize, usize)> = Err(Refusal { number: 21, place: 0 });

    #[test]
    fn rows_and_pages() {
        let text = b"a\nb\nc";
        assert_eq!(count(text, 2), Ok(2));
        assert_eq!(page(text, 2, 1), Ok((0, 4)));
        assert_eq!(page(text, 2, 2), Ok((4, 1)));
        assert_eq!(page(text, 2, 3), REFUSED_21);
        // a line feed at the end opens no row
        assert_eq!(count(b"a\nb\n", 2), Ok(1));
        assert_eq!(page(b"a\nb\n", 2, 1), Ok((0, 4)));
        // an empty row is a row
        assert_eq!(count(b"\n\n\n", 1), Ok(3));
        assert_eq!(page(b"\n\n\n", 1, 3), Ok((2, 1)));
        assert_eq!(page(b"\n\n\n", 200, 1), Ok((0, 3)));
        // any bytes; only a line feed ends a row
        assert_eq!(count(b"\xFF\r\0\x85\n\xC3", 1), Ok(2));
    }

    #[test]
    fn an_empty_text_has_no_pages() {
        assert_eq!(count(b"", 1), Ok(0));
        assert_eq!(page(b"", 1, 1), REFUSED_21);
    }

    #[test]
    fn height_before_page() {
        for height in [0, 201, u64::MAX] {
            assert_eq!(count(b"a", height), Err(Refusal { number: 20, place: 0 }));
            assert_eq!(page(b"a", height, 1), REFUSED_20);
            assert_eq!(page(b"a", height, 0), REFUSED_20);
        }
        assert_eq!(page(b"a", 200, 0), REFUSED_21);
        assert_eq!(page(b"a", 1, u64::MAX), REFUSED_21);
    }

    /// Every row of up to six of these bytes, in heights up to four.
    #[test]
    fn laws_of_short_texts() {
        const BYTES: &[u8] = b"a\n\xC3";
        for count in 0..=6 {
            for mut row in 0..BYTES.len().pow(count) {
                let mut text = Vec::new();
                for _ in 0..count {
                    text.push(BYTES[row % BYTES.len()]);
                    row /= BYTES.len();
                }
                for height in 0..=4 {
                    confirm(&text, height).unwrap();
                }
            }
        }
    }
}
