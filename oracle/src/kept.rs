//! The kept Rust run beside `rules`.
//!
//! `rules` gives numbers, places and rooms; the kept Rust knows neither rooms nor refusals. What it
//! can confirm is confirmed for every case: the text, the panics that 01 makes 10 and 11, the place
//! of 10, the built document, the chunks. A disagreement is a fault of the oracle.

use std::cell::Cell;
use std::panic::{catch_unwind, set_hook, take_hook, AssertUnwindSafe};
use std::sync::Once;

use crate::buffer::{plain_chunks, Color, PlainChunk, Token};
use crate::cases::{Answer, Call, Case};
use crate::figures;
use crate::joined;
use crate::merge;
use crate::notes;
use crate::pages;
use crate::readback;
use crate::rules::{self, Chunk, Kind, Operation, Record, Refusal, Renderer};
use crate::shape;
use crate::stored::{decode, put_record, Block, Ending, Style, MOST_BYTES};
use crate::writes;
use crate::Doc;

thread_local!(static QUIET: Cell<bool> = const { Cell::new(false) });

/// What `run` gives, or the message of its panic, which is not printed.
fn caught<T>(run: impl FnOnce() -> T) -> Result<T, String> {
    static HOOK: Once = Once::new();
    HOOK.call_once(|| {
        let before = take_hook();
        set_hook(Box::new(move |info| {
            if !QUIET.get() {
                before(info);
            }
        }));
    });
    QUIET.set(true);
    let outcome = catch_unwind(AssertUnwindSafe(run));
    QUIET.set(false);
    outcome.map_err(|payload| match payload.downcast::<String>() {
        Ok(message) => *message,
        Err(payload) => {
            payload.downcast::<&str>().map_or("?".into(), |message| message.to_string())
        }
    })
}

/// A kept `Doc` with the records given and bodies of the caller's choice.
fn rebuilt(records: &[Record], body: impl Fn(usize, &str) -> String) -> Doc {
    let mut payload = String::new();
    let mut tokens = Vec::new();
    for (index, record) in records.iter().enumerate() {
        tokens.push(match record.kind {
            Kind::Text(style) => {
                let text = std::str::from_utf8(record.body).expect("accepted text is UTF-8");
                let text = body(index, text);
                payload.push_str(&text);
                Token::Text { bytes: text.len(), style: Style::ALL[style - 1].kept() }
            }
            Kind::Start(block) => Token::BlockStart(Block::ALL[block].kept()),
            Kind::End(block) => Token::BlockEnd(Block::ALL[block].kept()),
        });
    }
    Doc::from_parts(tokens, payload)
}

/// The document of a text and of records whose bodies are only counted: bpaf's `Doc` is such a pair.
pub(crate) fn unjoined(text: &[u8], records: &[Record]) -> Vec<u8> {
    let tokens = records
        .iter()
        .map(|record| match record.kind {
            Kind::Text(style) => {
                Token::Text { bytes: record.body.len(), style: Style::ALL[style - 1].kept() }
            }
            Kind::Start(block) => Token::BlockStart(Block::ALL[block].kept()),
            Kind::End(block) => Token::BlockEnd(Block::ALL[block].kept()),
        })
        .collect();
    let payload = std::str::from_utf8(text).expect("accepted bodies, joined").to_string();
    Doc::from_parts(tokens, payload).stored()
}

/// The man page of records, whose blocks may be open, by the kept Rust.
pub(crate) fn kept_roff(records: &[Record]) -> String {
    rebuilt(records, |_, body| body.to_string()).roff()
}

/// Strict HTML has no counterpart in the Rust. Here it is the Rust's HTML of a document whose
/// bodies were changed before: `&amp;` has no space and no line end, so chunks have the same bounds.
fn strict_body(body: &str) -> String {
    body.replace('&', "&amp;")
}

/// What a strict page of all text shows, its elements left out and its escapes read back: the printing
/// characters of the bodies, and the mark before each Header.
fn confirm_strict(records: &[Record], page: &[u8]) -> Result<(), String> {
    let page = std::str::from_utf8(page).map_err(|e| e.to_string())?;
    let shown = rules::shown_in_strict(page);
    let mut expected = String::new();
    for record in records {
        match record.kind {
            Kind::Text(_) => expected.push_str(&rules::printing(record.body)),
            Kind::Start(0) => expected.push('#'),
            _ => {}
        }
    }
    if rules::printing(shown.as_bytes()) != expected {
        return Err(format!("a strict page shows {shown:?}"));
    }
    Ok(())
}

/// The text of the kept Rust, or its panic.
fn rendered(renderer: Renderer, doc: &Doc) -> Result<String, String> {
    caught(|| match renderer {
        Renderer::Console { width, full, .. } => {
            doc.render_console(full, Color::Monochrome, width as usize)
        }
        Renderer::Html { full, css, .. } => doc.render_html(full, css),
        Renderer::Markdown { full } => doc.render_markdown(full),
        Renderer::Roff => doc.roff(),
    })
}

/// A text with each character beyond ASCII replaced by one of a single byte, White_Space by a tab: the
/// same chunks, and as many bytes as characters.
fn narrowed(text: &str) -> String {
    let narrow = |c: char| match c {
        _ if c.is_ascii() => c,
        _ if c.is_whitespace() => '\t',
        _ => 'x',
    };
    text.chars().map(narrow).collect()
}

/// Slicing `PADDING` past its end: 10.
fn is_padding_panic(message: &str) -> bool {
    message.contains("byte index") && message.contains("out of bounds")
}

/// `todo!()`: 11.
fn is_todo_panic(message: &str) -> bool {
    message == "not yet implemented"
}

/// A text taken apart into texts of one chunk each, by the kept splitter: where in the text that chunk is
/// written from, if it is, and the text. The console goes by chunks, so it writes the same.
fn taken_apart(body: &str) -> Vec<(Option<usize>, String)> {
    let mut parts: Vec<(Option<usize>, String)> = Vec::new();
    for (chunk, (before, ticks), (after, _)) in plain_chunks(body) {
        let text = &body[before..after];
        match chunk {
            // lines in ticks stay with the paragraph that starts them; the first one tells the margin
            PlainChunk::Raw(..) if ticks > 0 => {
                let (start, paragraph) = parts.last_mut().expect("a paragraph starts ticks");
                *start = start.or(Some(before));
                paragraph.push_str(text);
            }
            PlainChunk::Raw(line, rules::CODE) => {
                parts.push((Some(after - line.len()), text.to_string()));
            }
            PlainChunk::Raw(..) => parts.push((Some(before), text.to_string())),
            // one before a code line takes a single line end
            PlainChunk::Paragraph => parts.push((None, "\n\n".to_string())),
            PlainChunk::LineBreak => parts.push((None, text.to_string())),
        }
    }
    parts
}

/// The text record in whose body, or at whose end, a place is.
fn text_at(records: &[Record], place: usize) -> Option<usize> {
    records.iter().position(|r| {
        let body = r.place + 6..=r.place + 6 + r.body.len();
        matches!(r.kind, Kind::Text(_)) && body.contains(&place)
    })
}

/// The place of 10, from the kept Rust alone: with all text from the refusing chunk on taken away it
/// does not panic, with all after it taken away it does. A term of the right width at the end keeps the
/// tabstop; where what is taken away raises the tabstop nothing can be said.
fn confirm_margin(renderer: Renderer, records: &[Record], place: usize) -> Result<(), String> {
    let at = text_at(records, place).ok_or("10 in no text")?;
    let refusing = &records[at];
    let body = std::str::from_utf8(refusing.body).expect("accepted text is UTF-8");
    let parts = taken_apart(body);
    let chunk = parts
        .iter()
        .position(|(start, _)| start.is_some_and(|start| refusing.place + 6 + start == place))
        .ok_or(format!("10 at {place}, where no chunk begins"))?;

    let tabstop = rules::tabstop(records);
    let term = "x".repeat(tabstop - 4);
    for (kept, panics) in [(chunk, false), (chunk + 1, true)] {
        let mut shortened = records[..at].to_vec();
        shortened.extend(
            parts[..kept].iter().map(|(_, text)| Record { body: text.as_bytes(), ..*refusing }),
        );
        shortened.extend(records[at + 1..].iter().map(|record| Record { body: b"", ..*record }));
        if rules::tabstop(&shortened) > tabstop {
            continue;
        }
        for (kind, body) in [(Kind::Start(4), ""), (Kind::Text(1), &term), (Kind::End(4), "")] {
            shortened.push(Record { place: 0, kind, body: body.as_bytes() });
        }
        let outcome = rendered(renderer, &rebuilt(&shortened, |_, body| body.to_string()));
        if outcome.is_err() != panics {
            return Err(format!("10 at {place}: chunks before {kept} kept gives {outcome:?}"));
        }
    }
    Ok(())
}

fn confirm_rendering(renderer: Renderer, case: &Case, answer: &Answer) -> Result<(), String> {
    let free = rules::render(renderer, &case.document, usize::MAX);

    // The room: 13 exactly where the text was longer at some moment, else what no room limits.
    let expected = if free.most > case.room.len() {
        Err(Refusal { number: 13, place: 0 })
    } else {
        free.outcome.clone()
    };
    let (number, at, text) = match &expected {
        Ok(text) => (0, text.len(), &text[..]),
        Err(refusal) => (refusal.number, refusal.place, &b""[..]),
    };
    let room_holds =
        answer.room.starts_with(text) && answer.room[text.len()..].iter().all(|&b| b == 0);
    if (answer.number, answer.at) != (number, at as u64) || !room_holds {
        return Err(format!("in its room {answer:?}, without limit {free:?}"));
    }

    let too_wide = matches!(renderer, Renderer::Console { width, .. } if width > 10_000);
    let Some(doc) = decode(&case.document, Ending::Closed).filter(|_| !too_wide) else {
        return match free.outcome {
            Err(refusal) if refusal.number <= 9 => Ok(()),
            other => Err(format!("should be refused by 1 to 9, is {other:?}")),
        };
    };
    let records = rules::check(&case.document).map_err(|r| format!("read, yet refused: {r:?}"))?;
    confirm_text(renderer, &records, doc, &free.outcome)?;
    if matches!(renderer, Renderer::Console { .. }) && free.most > rules::room_bound(&records) {
        let bound = rules::room_bound(&records);
        return Err(format!("{} bytes at some moment, over the bound {bound}", free.most));
    }

    let Ok(text) = &free.outcome else { return Ok(()) };
    match renderer {
        // 01's demand 3, which 02 asks of both measures
        Renderer::Console { full: true, .. }
            if rules::printing(text) != rules::printing_order(&records) =>
        {
            Err("printing characters are not the printing order".into())
        }
        Renderer::Console { .. } => Ok(()),
        // no other renderer trims, so its text only grows
        _ if free.most != text.len() => Err("longer than its text at some moment".into()),
        Renderer::Html { full: true, css: false, strict: true } => confirm_strict(&records, text),
        Renderer::Roff => readback::confirm(&records),
        _ => Ok(()),
    }
}

/// The kept Rust's text or panic beside what the rules give without a limit on the room.
fn confirm_text(
    renderer: Renderer,
    records: &[Record],
    doc: Doc,
    ruled: &Result<Vec<u8>, Refusal>,
) -> Result<(), String> {
    match renderer {
        Renderer::Html { strict: true, .. } => {
            let doc = rebuilt(records, |_, body| strict_body(body));
            confirm_outcome(renderer, records, doc, ruled)
        }
        Renderer::Console { characters: true, .. } => {
            let mut document = Vec::new();
            for record in records {
                let text = std::str::from_utf8(record.body).expect("accepted text is UTF-8");
                put_record(&mut document, record.kind.number(), narrowed(text).as_bytes());
            }
            let narrow = rules::check(&document).map_err(|r| format!("made narrow: {r:?}"))?;
            let ruled = match ruled {
                Ok(text) => {
                    Ok(narrowed(std::str::from_utf8(text).map_err(|e| e.to_string())?).into_bytes())
                }
                Err(Refusal { number: 10, place }) => {
                    let at = text_at(records, *place).ok_or("10 in no text")?;
                    let before = &records[at].body[..*place - records[at].place - 6];
                    let place = narrow[at].place + 6 + rules::characters(before);
                    Err(Refusal { number: 10, place })
                }
                Err(other) => Err(*other),
            };
            let doc = rebuilt(&narrow, |_, body| body.to_string());
            confirm_outcome(renderer, &narrow, doc, &ruled)
        }
        _ => confirm_outcome(renderer, records, doc, ruled),
    }
}

fn confirm_outcome(
    renderer: Renderer,
    records: &[Record],
    doc: Doc,
    ruled: &Result<Vec<u8>, Refusal>,
) -> Result<(), String> {
    let outcome = rendered(renderer, &doc);
    let todo = if renderer == Renderer::Roff { 9 } else { 10 };
    let todo = records.iter().find(|r| r.kind == Kind::Start(todo)).map(|r| r.place);
    match (ruled, &outcome) {
        (Ok(text), Ok(kept)) if text == kept.as_bytes() => {}
        (Err(Refusal { number: 10, place }), Err(message)) if is_padding_panic(message) => {
            confirm_margin(renderer, records, *place)?;
        }
        (Err(Refusal { number: 11, place }), Err(message)) if is_todo_panic(message) => {
            if todo != Some(*place) {
                return Err(format!("11 at {place}, first such block {todo:?}"));
            }
        }
        _ => return Err(format!("rules {ruled:?}, kept Rust {outcome:?}")),
    }
    Ok(())
}

/// The tabstop of some records, which may end inside blocks, as the kept Rust shows it: the column of a
/// body behind them, less two. A paragraph with `full` off hides their text, so that no margin refuses
/// it; the end of the bracket around them shows text again. TermRefs, brackets and starts without an end
/// are left out: none of them counts for the tabstop.
fn kept_tabstop(records: &[Record]) -> usize {
    let mut open = Vec::new();
    for (index, record) in records.iter().enumerate() {
        match record.kind {
            Kind::Start(_) => open.push(index),
            Kind::End(_) => drop(open.pop()),
            Kind::Text(_) => {}
        }
    }
    let mut shown = vec![(Kind::Start(8), &b""[..]), (Kind::Text(1), b"\n\n")];
    for (index, record) in records.iter().enumerate() {
        if !matches!(record.kind, Kind::Start(8 | 9) | Kind::End(8 | 9)) && !open.contains(&index) {
            shown.push((record.kind, record.body));
        }
    }
    shown.push((Kind::End(8), b""));
    shown.extend([(Kind::Start(5), &b""[..]), (Kind::Text(1), b"\n y"), (Kind::End(5), b"")]);
    let shown: Vec<Record> =
        shown.into_iter().map(|(kind, body)| Record { place: 0, kind, body }).collect();
    let renderer = Renderer::Console { width: 10_000, full: false, characters: false };
    let text = rendered(renderer, &rebuilt(&shown, |_, body| body.to_string()));
    let text = text.expect("no text is far from its margin");
    let line = text.lines().find(|line| line.ends_with('y')).expect("the body is shown");
    line.len() - 3
}

fn confirm_tabstop(case: &Case, answer: &Answer) -> Result<(), String> {
    let Ok(records) = rules::check(&case.document) else {
        let refused = answer.number != 0 && answer.numbers == [0];
        return if refused { Ok(()) } else { Err(format!("should be refused, is {answer:?}")) };
    };
    let (whole, at) = (kept_tabstop(&records), answer.at as usize);
    let before = records.iter().take_while(|record| record.place < at).count();
    let settled = match records.get(before) {
        Some(record) => record.place == at && kept_tabstop(&records[..=before]) == 28,
        None => at == case.document.len(),
    };
    let not_before = kept_tabstop(&records[..before]) < 28;
    if answer.number != 0 || answer.numbers != [whole as u64] || !settled || !not_before {
        return Err(format!("rules {answer:?}, kept Rust {whole}"));
    }
    Ok(())
}

/// The bound, from the kept `Doc`'s payload and tokens; texts at three widths and both measures keep it.
fn confirm_bound(case: &Case, answer: &Answer) -> Result<(), String> {
    let Some(doc) = decode(&case.document, Ending::Closed) else {
        let refused = answer.number != 0;
        return if refused { Ok(()) } else { Err(format!("should be refused, is {answer:?}")) };
    };
    let (bytes, refs) = doc.payload_and_refs();
    if (answer.number, answer.at) != (0, 54 * bytes as u64 + refs as u64 + 1) {
        return Err(format!("{answer:?} for {bytes} bytes of text, {refs} starts and ends"));
    }
    for (width, characters) in [(0, false), (40, true), (10_000, false)] {
        for full in [false, true] {
            let renderer = Renderer::Console { width, full, characters };
            let most = rules::render(renderer, &case.document, usize::MAX).most;
            if most as u64 > answer.at {
                return Err(format!("{renderer:?} needs {most}, over the bound {}", answer.at));
            }
        }
    }
    Ok(())
}

fn confirm_build(operation: Operation, case: &Case, answer: &Answer) -> Result<(), String> {
    // What the kept Rust builds, where all that it is given can be read.
    let built = || -> Option<Vec<u8>> {
        let so_far = case.room.get(..usize::try_from(case.length).ok()?)?;
        let mut doc = decode(so_far, Ending::Open)?;
        match operation {
            Operation::Write { style } => {
                let style = Style::ALL.get((style as usize).checked_sub(1)?)?;
                doc.write_str(std::str::from_utf8(&case.document).ok()?, style.kept());
            }
            Operation::Open { block } => {
                doc.token(Token::BlockStart(Block::ALL.get(block as usize)?.kept()))
            }
            Operation::Close { block } => {
                doc.token(Token::BlockEnd(Block::ALL.get(block as usize)?.kept()))
            }
            Operation::Doc => doc.doc(&decode(&case.document, Ending::Closed)?),
            Operation::EmDoc => doc.em_doc(&decode(&case.document, Ending::Closed)?),
        }
        let result = doc.stored();
        // the result is refused where it is no document (1, 6, 7) or has no room
        decode(&result, Ending::Open)?;
        (result.len() <= case.room.len().min(MOST_BYTES)).then_some(result)
    };
    let mut room = case.room.clone();
    let mut length = case.length;
    let built = built();
    if let Some(result) = &built {
        room[..result.len()].copy_from_slice(result);
        length = result.len() as u64;
    }
    if built.is_some() != (answer.number == 0) || answer.room != room || answer.length != length {
        return Err(format!("rules {answer:?}, kept Rust {built:?}"));
    }
    Ok(())
}

/// A body for the kept splitter: as it stands where it is UTF-8. In any other one each byte over 127
/// becomes `x`: such bytes are no line end, space or backtick, so every chunk must have the same bounds,
/// and the width of a word is less by its bytes from 0x80 to 0xBF.
fn for_the_splitter(body: &[u8]) -> String {
    match std::str::from_utf8(body) {
        Ok(text) => text.to_string(),
        Err(_) => body.iter().map(|&b| if b < 0x80 { b as char } else { 'x' }).collect(),
    }
}

/// Whether a chunk of a body is what the kept splitter gave, having stood `stood` bytes into `text`,
/// which is `before` and then the body made for it.
fn is_chunk(
    body: &[u8],
    chunk: Chunk,
    text: &str,
    before: &str,
    kept: PlainChunk,
    stood: usize,
) -> bool {
    let Some(stood) = stood.checked_sub(before.len()) else { return false };
    match (chunk, kept) {
        (Chunk::Paragraph { start }, PlainChunk::Paragraph) => start == stood,
        (Chunk::LineBreak { start }, PlainChunk::LineBreak) => start == stood,
        (Chunk::Space { start }, PlainChunk::Raw(" ", 1)) => start == stood && body[start] == b'\n',
        (Chunk::Raw { start, len, width }, PlainChunk::Raw(s, w)) => {
            // the kept splitter hands out words and lines as parts of the text, spaces as constants
            let offset = (s.as_ptr() as usize).wrapping_sub(text.as_ptr() as usize);
            let own = before.len() + start;
            let part = text.as_bytes().get(own..own + len) == Some(s.as_bytes());
            let place = offset == own || (s == " " && start == stood);
            let uncounted = match std::str::from_utf8(body) {
                Err(_) if w < rules::CODE => len - rules::characters(&body[start..start + len]),
                _ => 0,
            };
            part && place && width + uncounted == w
        }
        _ => false,
    }
}

fn confirm_split(body: &[u8], chunks: &[Chunk]) -> Result<(), String> {
    let text = for_the_splitter(body);
    let kept = plain_chunks(&text);
    let mut pairs = chunks.iter().zip(&kept);
    let agrees =
        pairs.all(|(&chunk, &(k, (stood, _), _))| is_chunk(body, chunk, &text, "", k, stood));
    if chunks.len() != kept.len() || !agrees {
        return Err(format!("rules {chunks:?}, kept Rust {kept:?}"));
    }
    Ok(())
}

/// One chunk at any cursor. Ticks are started for the kept splitter by what is put before the rest of
/// the body; before the first line this needs backticks, and without them both states are alike.
fn confirm_next(case: &Case, at: u64, ticks: u32) -> Result<(), String> {
    let next = rules::next_chunk(&case.document, (at, ticks));
    let rest = usize::try_from(at).ok().and_then(|at| case.document.get(at..)).unwrap_or(&[]);
    let (before, index) = match ticks {
        0 => ("", 0),
        1 if rest.starts_with(b"```") => ("\n\n", 1),
        _ => ("\n\n```\n", 2),
    };
    let text = before.to_string() + &for_the_splitter(rest);
    let kept = plain_chunks(&text);
    let agrees = match (next, kept.get(index)) {
        (None, None) => true,
        (Some((chunk, after)), Some(&(kept, (stood, _), (taken, ticks)))) => {
            let at = at as usize;
            let from_rest = match chunk {
                Chunk::Raw { start, len, width } => Chunk::Raw { start: start - at, len, width },
                Chunk::Space { start } => Chunk::Space { start: start - at },
                Chunk::Paragraph { start } => Chunk::Paragraph { start: start - at },
                Chunk::LineBreak { start } => Chunk::LineBreak { start: start - at },
            };
            is_chunk(rest, from_rest, &text, before, kept, stood)
                && after == ((taken - before.len() + at) as u64, ticks)
        }
        _ => false,
    };
    if !agrees {
        return Err(format!("rules {next:?}, kept Rust {:?}", kept.get(index)));
    }
    Ok(())
}

/// Confirms an answer of `rules` by the kept Rust, as far as it reaches.
pub fn confirm(case: &Case, answer: &Answer) -> Result<(), String> {
    match case.call {
        Call::Check => {
            let read = decode(&case.document, Ending::Closed);
            if read.is_some() != (answer.number == 0) {
                return Err(format!("rules {answer:?}, read {read:?}"));
            }
            if read.is_some_and(|doc| doc.stored() != case.document) {
                return Err("stored again it is another document".into());
            }
            Ok(())
        }
        Call::Render(renderer) => confirm_rendering(renderer, case, answer),
        Call::Build(operation) => confirm_build(operation, case, answer),
        Call::Split => confirm_split(&case.document, &answer.chunks),
        Call::NextChunk { at, ticks } => confirm_next(case, at, ticks),
        Call::Tabstop => confirm_tabstop(case, answer),
        Call::PageCount { height } | Call::Page { height, .. } => {
            pages::confirm(&case.document, height)
        }
        Call::Shape => shape::confirm(&case.document),
        Call::Notes => notes::confirm(&case.document),
        Call::Figures => figures::confirm(&case.document),
        Call::RoomBound => confirm_bound(case, answer),
        Call::Writes { style, cuts } => {
            writes::confirm(style, &case.room, case.length, &case.document, cuts)
        }
        Call::Merge { first } => {
            let (first, second) = case.document.split_at(first as usize);
            merge::confirm(first, second)
        }
        Call::Join => joined::confirm_join(&case.document),
        Call::Unjoin | Call::JoinedCheck | Call::JoinedRender(_) => joined::confirm_joined(case),
    }
}
