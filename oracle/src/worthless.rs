//! 01's "programs that would slip past a weaker contract", each as a port in place of the real one:
//! the generator's cases must tell its answers from 01's.
//!
//! Each is as hard to tell as it can be: all but the first refuse exactly what 01 refuses, and are
//! worthless only where a call is accepted.

use crate::cases::{answer, fills_room, put_chunk, Answer, Call, Case};
use crate::generate::{case, owed, Limits, Subject};
use crate::rules::{characters, render_misread, Chunk, Misreading, Refusal, Renderer};

#[derive(Debug, Clone, Copy, Eq, PartialEq)]
pub enum Worthless {
    RefusesAll,
    OneStoredPage,
    ClearedRoomLengthZero,
    BuilderChangesNothing,
    SplitterWholeBodyThenBlanks,
    SplitterNoChunk,
    UnrelatedLength,
}

const PAGE: &[u8] = b"Usage: balancer [OPTIONS]\n";

impl Worthless {
    pub const ALL: [Worthless; 7] = {
        use Worthless::*;
        [
            RefusesAll,
            OneStoredPage,
            ClearedRoomLengthZero,
            BuilderChangesNothing,
            SplitterWholeBodyThenBlanks,
            SplitterNoChunk,
            UnrelatedLength,
        ]
    };

    /// Whether it has an answer to calls of this subject. A worthless splitter is seen in the console's
    /// text as well.
    pub fn concerns(self, subject: Subject) -> bool {
        use Subject::*;
        let renders = matches!(subject, Console | Html | HtmlStrict | Markdown | Roff | Headings);
        match self {
            Worthless::RefusesAll => !matches!(subject, Split | NextChunk),
            Worthless::OneStoredPage | Worthless::ClearedRoomLengthZero => renders,
            Worthless::BuilderChangesNothing => subject == Builder,
            Worthless::SplitterWholeBodyThenBlanks | Worthless::SplitterNoChunk => {
                matches!(subject, Console | Split | NextChunk)
            }
            Worthless::UnrelatedLength => renders || subject == Builder,
        }
    }

    /// The first case of a subject that tells it from 01; for `RefusesAll` that tells each version of
    /// it, one for each number that the subject can give.
    pub fn first_caught(self, subject: Subject, seed: u64, cases: u64) -> Option<u64> {
        let numbers = match self {
            Worthless::RefusesAll => owed(subject).iter().copied().filter(|&n| n != 0).collect(),
            _ => vec![0],
        };
        let first = |number| {
            (0..cases).find(|&index| {
                let case = case(subject, seed, index, Limits::COMPARED);
                let right = answer(&case);
                self.answer(&case, &right, number) != right
            })
        };
        numbers.into_iter().map(first).try_fold(0, |last, first| first.map(|index| last.max(index)))
    }

    /// Its answer to a case that it concerns; `number` is the one by which it refuses all.
    fn answer(self, case: &Case, right: &Answer, number: u32) -> Answer {
        let mut got = right.clone();
        match self {
            Worthless::RefusesAll => refuse(&mut got, case, Refusal { number, place: 0 }),
            _ if right.number != 0 && !matches!(case.call, Call::NextChunk { .. }) => {}
            Worthless::OneStoredPage => show(&mut got, PAGE),
            Worthless::ClearedRoomLengthZero => show(&mut got, b""),
            Worthless::BuilderChangesNothing => {
                (got.room, got.length) = (case.room.clone(), case.length);
            }
            Worthless::SplitterWholeBodyThenBlanks => {
                split(&mut got, case, Misreading::WholeBodyFirst)
            }
            Worthless::SplitterNoChunk => split(&mut got, case, Misreading::NoChunk),
            Worthless::UnrelatedLength => match case.call {
                Call::Build(_) => got.length = case.room.len() as u64,
                _ => got.at = case.document.len() as u64,
            },
        }
        got
    }
}

/// A refusal, with its place where 01 refuses by the same number.
fn refuse(got: &mut Answer, case: &Case, refusal: Refusal) {
    if got.number == refusal.number {
        return;
    }
    (got.number, got.at) = (refusal.number, refusal.place as u64);
    match case.call {
        call if fills_room(call) => got.room.fill(0),
        _ => (got.room, got.length) = (case.room.clone(), case.length),
    }
    got.numbers.fill(0);
}

/// A text where the room holds it, else 13.
fn show(got: &mut Answer, text: &[u8]) {
    got.room.fill(0);
    match got.room.get_mut(..text.len()) {
        Some(room) => {
            room.copy_from_slice(text);
            got.at = text.len() as u64;
        }
        None => (got.number, got.at) = (13, 0),
    }
}

/// The chunks of a worthless splitter, or the console's text over it.
fn split(got: &mut Answer, case: &Case, misread: Misreading) {
    let body = &case.document;
    match (case.call, misread) {
        (Call::Render(renderer @ Renderer::Console { .. }), _) => {
            match render_misread(renderer, body, case.room.len(), misread).outcome {
                Ok(text) => show(got, &text),
                Err(refusal) => {
                    got.room.fill(0);
                    (got.number, got.at) = (refusal.number, refusal.place as u64);
                }
            }
        }
        (Call::NextChunk { at, ticks }, _) => {
            let chunk = match misread {
                Misreading::WholeBodyFirst if at == 0 => {
                    let whole = Chunk::Raw { start: 0, len: body.len(), width: characters(body) };
                    Some((whole, (body.len() as u64, 0)))
                }
                _ => None,
            };
            put_chunk(got, (at, ticks), chunk);
        }
        (_, Misreading::NoChunk) => (got.chunks, got.at) = (Vec::new(), 0),
        // as many chunks as there should be
        _ => {
            let blank = Chunk::Space { start: body.len() };
            let whole = Chunk::Raw { start: 0, len: body.len(), width: characters(body) };
            got.chunks.fill(blank);
            got.chunks.first_mut().into_iter().for_each(|first| *first = whole);
        }
    }
}

#[cfg(test)]
mod tests {
    use super::*;

    #[test]
    fn each_is_caught() {
        for worthless in Worthless::ALL {
            let concerned: Vec<_> =
                Subject::ALL.into_iter().filter(|(s, _)| worthless.concerns(*s)).collect();
            assert!(!concerned.is_empty());
            for (subject, name) in concerned {
                let first = worthless.first_caught(subject, 11, 2_000);
                assert!(first.is_some(), "{worthless:?} {name}");
            }
        }
    }

    /// An accepted case of each, by its bytes.
    #[test]
    fn answers() {
        let render = Call::Render(Renderer::Console { width: 100, full: true, characters: false });
        let document = [&[3, 0, 0, 0, 1, 0][..], b"a b"].concat();
        let console = Case { call: render, document, room: vec![7; 30], length: 0 };
        let given = |worthless: Worthless, case: &Case| {
            let got = worthless.answer(case, &answer(case), 6);
            (got.number, got.at, got.room)
        };
        let room = |text: &[u8]| {
            let mut room = text.to_vec();
            room.resize(30, 0);
            room
        };
        assert_eq!(given(Worthless::RefusesAll, &console), (6, 0, room(b"")));
        assert_eq!(given(Worthless::OneStoredPage, &console), (0, 26, room(PAGE)));
        assert_eq!(given(Worthless::ClearedRoomLengthZero, &console), (0, 0, room(b"")));
        assert_eq!(given(Worthless::UnrelatedLength, &console), (0, 9, room(b"a b")));
        assert_eq!(given(Worthless::SplitterNoChunk, &console), (0, 0, room(b"")));
        let whole = given(Worthless::SplitterWholeBodyThenBlanks, &console);
        assert_eq!(whole, (0, 4, room(b"a b ")));

        let body = Case { call: Call::Split, document: b"a b".to_vec(), room: vec![], length: 0 };
        let got = Worthless::SplitterWholeBodyThenBlanks.answer(&body, &answer(&body), 0);
        let blank = Chunk::Space { start: 3 };
        let whole = Chunk::Raw { start: 0, len: 3, width: 3 };
        assert_eq!((got.chunks, got.at), (vec![whole, blank, blank], 3));
    }
}
