//! The records of a stored document (docs/FORMAT.md), for `show`, `terms` and messages.

/// A record: where it starts, its kind, its body.
#[derive(Clone, Copy)]
pub struct Record<'d> {
    pub place: usize,
    pub kind: Kind,
    pub body: &'d [u8],
}

/// What a record is.
#[derive(Clone, Copy, PartialEq, Eq)]
pub enum Kind {
    Text(&'static str),
    Start(&'static str),
    End(&'static str),
    Unknown(u16),
}

const STYLES: [&str; 5] = ["Text", "Emphasis", "Literal", "Metavar", "Invalid"];
const BLOCKS: [&str; 12] = [
    "Header",
    "Section2",
    "Section3",
    "Section4",
    "ItemTerm",
    "ItemBody",
    "DefinitionList",
    "Block",
    "InlineBlock",
    "TermRef",
    "Meta",
    "Mono",
];

/// A kind, by its two bytes.
fn kind_of(number: u16) -> Kind {
    let low = usize::from(number & 0xFF);
    let named = |names: &[&'static str], index: usize| names.get(index).copied();
    let known = match number >> 8 {
        0 if low > 0 => named(&STYLES, low - 1).map(Kind::Text),
        1 => named(&BLOCKS, low).map(Kind::Start),
        2 => named(&BLOCKS, low).map(Kind::End),
        _ => None,
    };
    known.unwrap_or(Kind::Unknown(number))
}

impl std::fmt::Display for Kind {
    fn fmt(&self, f: &mut std::fmt::Formatter<'_>) -> std::fmt::Result {
        match self {
            Kind::Text(style) => write!(f, "{style}"),
            Kind::Start(block) => write!(f, "start of {block}"),
            Kind::End(block) => write!(f, "end of {block}"),
            Kind::Unknown(number) => write!(f, "kind 0x{number:04X}"),
        }
    }
}

/// The record at a place; `None` where it is cut short.
pub fn at(document: &[u8], place: usize) -> Option<Record<'_>> {
    let (head, rest) = document.get(place..)?.split_first_chunk::<6>()?;
    let size = u32::from_le_bytes([head[0], head[1], head[2], head[3]]);
    let body = rest.get(..usize::try_from(size).ok()?)?;
    Some(Record { place, kind: kind_of(u16::from_le_bytes([head[4], head[5]])), body })
}

/// The records of a document, up to the first that is cut short.
pub fn all(document: &[u8]) -> impl Iterator<Item = Record<'_>> {
    let mut place = 0;
    std::iter::from_fn(move || {
        let record = at(document, place)?;
        place += 6 + record.body.len();
        Some(record)
    })
}

/// Bytes for a line of text: control characters, backslashes and what is no UTF-8 are escaped.
pub fn escaped(bytes: &[u8]) -> String {
    let mut shown = String::new();
    for part in bytes.utf8_chunks() {
        for c in part.valid().chars() {
            match c {
                '"' | '\'' => shown.push(c),
                _ => shown.extend(c.escape_debug()),
            }
        }
        shown.extend(part.invalid().iter().map(|byte| format!("\\x{byte:02x}")));
    }
    shown
}

/// Each ItemTerm of an accepted document: where it starts, and its text, that of inner terms included.
pub fn terms(document: &[u8]) -> Vec<(usize, Vec<u8>)> {
    let mut found: Vec<(usize, Vec<u8>)> = Vec::new();
    let mut open = Vec::new();
    for record in all(document) {
        match record.kind {
            Kind::Start("ItemTerm") => {
                open.push(found.len());
                found.push((record.place, Vec::new()));
            }
            Kind::End("ItemTerm") => drop(open.pop()),
            Kind::Text(_) => open.iter().for_each(|&term| found[term].1.extend(record.body)),
            _ => {}
        }
    }
    found
}

/// The word of a text that stands at a place of a document, or an empty one at a body's end.
pub fn word_at(document: &[u8], place: usize) -> &[u8] {
    let holds = |record: &Record| {
        let start = record.place + 6;
        matches!(record.kind, Kind::Text(_)) && (start..=start + record.body.len()).contains(&place)
    };
    let Some(record) = all(document).find(holds) else { return b"" };
    let rest = &record.body[place - record.place - 6..];
    let end = rest.iter().position(|&byte| byte == b' ' || byte == b'\n');
    // a chunk may be a space itself
    &rest[..end.unwrap_or(rest.len()).max(usize::from(!rest.is_empty()))]
}
