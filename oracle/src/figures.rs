//! The figures of a bundle of documents (02, point 1).

use crate::cases::{self, Call, Case};
use crate::kept;
use crate::rules::{self, Refusal, Renderer, Ruled};
use crate::stored::put_record;

pub const MOST_BYTES: usize = 65_536;
/// The kind of a record whose body is a document.
pub const BUNDLED: u16 = 0x0300;
/// How the texts are made that are counted.
const TEXTS: Renderer = Renderer::Console { width: 100, full: true, characters: false };
const ROOM: usize = 65_536;

#[derive(Debug, Clone, Copy, Default, Eq, PartialEq)]
pub struct Figures {
    pub documents: usize,
    pub accepted: usize,
    pub refused: usize,
    pub characters: usize,
}

impl std::fmt::Display for Figures {
    /// 02's line, without its line end.
    fn fmt(&self, f: &mut std::fmt::Formatter) -> std::fmt::Result {
        let Figures { documents, accepted, refused, characters } = self;
        write!(f, "documents {documents} accepted {accepted} ")?;
        write!(f, "refused {refused} characters {characters}")
    }
}

/// The bodies of a bundle: 16 first, then at each record 15, then 14.
pub fn bodies(bundle: &[u8]) -> Ruled<Vec<&[u8]>> {
    let refused = |number, place| Err(Refusal { number, place });
    if bundle.len() > MOST_BYTES {
        return refused(16, 0);
    }
    let mut bodies = Vec::new();
    let mut place = 0;
    while place < bundle.len() {
        let Some(head) = bundle.get(place..place + 6) else { return refused(15, place) };
        let size = u32::from_le_bytes([head[0], head[1], head[2], head[3]]) as usize;
        let Some(body) = bundle[place + 6..].get(..size) else { return refused(15, place) };
        if u16::from_le_bytes([head[4], head[5]]) != BUNDLED {
            return refused(14, place);
        }
        bodies.push(body);
        place += 6 + size;
    }
    Ok(bodies)
}

/// Bodies seen; those with a text; the others; the printing characters of the texts.
pub fn figures(bundle: &[u8]) -> Ruled<Figures> {
    let bodies = bodies(bundle)?;
    let texts: Vec<Vec<u8>> =
        bodies.iter().filter_map(|body| rules::render(TEXTS, body, ROOM).outcome.ok()).collect();
    Ok(Figures {
        documents: bodies.len(),
        accepted: texts.len(),
        refused: bodies.len() - texts.len(),
        characters: texts.iter().map(|text| rules::printing(text).chars().count()).sum(),
    })
}

/// The bundle of some documents.
pub fn bundle<'d>(documents: impl IntoIterator<Item = &'d [u8]>) -> Vec<u8> {
    let mut out = Vec::new();
    documents.into_iter().for_each(|document| put_record(&mut out, BUNDLED, document));
    out
}

/// The kept Rust confirms each text; an accepted document's printing characters are its printing order.
pub fn confirm(given: &[u8]) -> Result<(), String> {
    let Ok(bodies) = bodies(given) else { return Ok(()) };
    if bundle(bodies.iter().copied()) != given {
        return Err("its bodies bundled are another bundle".into());
    }
    let (mut accepted, mut characters) = (0, 0);
    for body in &bodies {
        let call = Call::Render(TEXTS);
        let case = Case { call, document: body.to_vec(), room: vec![1; ROOM], length: 0 };
        let answer = cases::answer(&case);
        kept::confirm(&case, &answer)?;
        if answer.number == 0 {
            let records =
                rules::check(body).map_err(|r| format!("rendered, yet refused: {r:?}"))?;
            accepted += 1;
            characters += rules::printing_order(&records).chars().count();
        }
    }
    let (documents, refused) = (bodies.len(), bodies.len() - accepted);
    let expected = Figures { documents, accepted, refused, characters };
    let got = figures(given);
    if got != Ok(expected) {
        return Err(format!("{got:?}, counted {expected:?}"));
    }
    Ok(())
}

#[cfg(test)]
mod tests {
    use super::*;
    use crate::stored::{Block, Draft};

    const A_B: [u8; 9] = [3, 0, 0, 0, 1, 0, b'a', b' ', b'b'];
    const HEADER_END: [u8; 6] = [0, 0, 0, 0, 0, 2];

    fn line(bundle: &[u8]) -> String {
        confirm(bundle).unwrap();
        figures(bundle).unwrap().to_string()
    }

    fn refusal(bundle: &[u8]) -> (u32, usize) {
        let Refusal { number, place } = figures(bundle).unwrap_err();
        (number, place)
    }

    #[test]
    fn the_example() {
        let given = bundle([&A_B[..], &HEADER_END]);
        assert_eq!(line(&given), "documents 2 accepted 1 refused 1 characters 2");
        assert_eq!(line(b""), "documents 0 accepted 0 refused 0 characters 0");
        assert_eq!(line(&bundle([&b""[..]; 3])), "documents 3 accepted 3 refused 0 characters 0");
    }

    #[test]
    fn characters_of_the_texts() {
        // characters, not bytes; the backticks of a TermRef count, White_Space does not
        let mut draft = Draft::new();
        draft.text("é\u{A0}漢 ").within(Block::TermRef, |d| d.literal("-p"));
        let given = bundle([&draft.stored()[..]]);
        assert_eq!(line(&given), "documents 1 accepted 1 refused 0 characters 6");
        // refused by 10, and by 13 in a room of 65,536: none of their characters
        let nested = |count: usize, text: &str| {
            let mut draft = Draft::new();
            let opened = (0..count).fold(&mut draft, |d, _| d.open(Block::ItemBody)).text(text);
            (0..count).fold(opened, |d, _| d.close(Block::ItemBody)).stored()
        };
        let (far, long) = (nested(9, "x"), nested(8, &"a\n ".repeat(2_000)));
        let given = bundle([&far[..], &long, &A_B]);
        assert_eq!(line(&given), "documents 3 accepted 1 refused 2 characters 2");
    }

    /// A body over 32,768 bytes is a refused document, not a fault of the bundle.
    #[test]
    fn long_bodies() {
        let given = bundle([&vec![0; 32_769][..], &A_B]);
        assert_eq!(line(&given), "documents 2 accepted 1 refused 1 characters 2");
    }

    #[test]
    fn refusals_in_order() {
        let good = bundle([&A_B[..]]);
        let with = |rest: &[u8]| [&good[..], rest].concat();
        assert_eq!(refusal(&with(&[0; 5])), (15, 15));
        assert_eq!(refusal(&with(&[1, 0, 0, 0, 0, 3])), (15, 15));
        assert_eq!(refusal(&with(&[0xFF; 6])), (15, 15));
        // 15 before 14 at a record; the first record before the second
        assert_eq!(refusal(&with(&[1, 0, 0, 0, 1, 0])), (15, 15));
        assert_eq!(refusal(&with(&[0, 0, 0, 0, 1, 0])), (14, 15));
        assert_eq!(refusal(&with(&[0, 0, 0, 0, 1, 0, 9])), (14, 15));
        assert_eq!(refusal(&[0, 0, 0, 0, 0, 2]), (14, 0));
        // 16 first
        assert_eq!(refusal(&[0xFF; 65_537]), (16, 0));
        assert_eq!(refusal(&[0xFF; 65_536]), (15, 0));
        let full = bundle([&vec![0; 65_530][..]]);
        assert_eq!(line(&full), "documents 1 accepted 0 refused 1 characters 0");
        let most = bundle([&b""[..]; 10_922]);
        assert_eq!((most.len(), figures(&most).unwrap().accepted), (65_532, 10_922));
    }
}
