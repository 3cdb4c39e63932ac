//! The builder's calls by a draft beside its calls without one: random sequences, each byte compared, and drafts of random numbers, after which
//! only the bytes around the room are looked at.

use crate::generate::Rng;
use crate::port::c;
use crate::stored::put_record;

/// Bytes before and after the room that no call may change.
const GUARD: usize = 64;
/// Mismatches that are printed in full.
const PRINTED: u64 = 20;

/// 0 to `n - 1`
fn below(random: &mut Rng, n: u64) -> u64 {
    random.next() % n
}

/// A call; numbers may be out of range.
#[derive(Debug, Clone)]
enum Step {
    Write(u32, Vec<u8>),
    Open(u32),
    Close(u32),
    Doc(Vec<u8>),
    EmDoc(Vec<u8>),
}

/// Room, draft, number and place after a call.
#[derive(Debug, Clone, PartialEq)]
struct After {
    room: Vec<u8>,
    length: u64,
    number: u32,
    place: usize,
}

fn plain(room: &[u8], length: u64, step: &Step) -> After {
    let mut room = room.to_vec();
    let (mut len, mut place) = (length as usize, usize::MAX);
    let (r, n) = (room.as_mut_ptr(), room.len());
    // SAFETY: each pointer is of a live slice or number, none overlap.
    let number = unsafe {
        match step {
            Step::Write(style, text) => {
                c::sefgrunn_write(r, n, &mut len, *style, text.as_ptr(), text.len(), &mut place)
            }
            Step::Open(block) => c::sefgrunn_open(r, n, &mut len, *block, &mut place),
            Step::Close(block) => c::sefgrunn_close(r, n, &mut len, *block, &mut place),
            Step::Doc(added) => {
                c::sefgrunn_doc(r, n, &mut len, added.as_ptr(), added.len(), &mut place)
            }
            Step::EmDoc(added) => {
                c::sefgrunn_em_doc(r, n, &mut len, added.as_ptr(), added.len(), &mut place)
            }
        }
    };
    After { room, length: len as u64, number, place }
}

/// The same by a draft, in a room between guards; `None` where a guard was changed.
fn drafted(room: &[u8], draft: &mut [u64; 8], step: &Step) -> Option<After> {
    let mut all = vec![0xA7; room.len() + 2 * GUARD];
    all[GUARD..GUARD + room.len()].copy_from_slice(room);
    let mut place = usize::MAX;
    let n = room.len();
    let inner = &mut all[GUARD..GUARD + n];
    let (r, d) = (inner.as_mut_ptr(), draft.as_mut_ptr());
    // SAFETY: as above; the draft has eight words.
    let number = unsafe {
        match step {
            Step::Write(style, text) => {
                c::sefgrunn_draft_write(r, n, d, *style, text.as_ptr(), text.len(), &mut place)
            }
            Step::Open(block) => c::sefgrunn_draft_open(r, n, d, *block, &mut place),
            Step::Close(block) => c::sefgrunn_draft_close(r, n, d, *block, &mut place),
            Step::Doc(added) => {
                c::sefgrunn_draft_doc(r, n, d, added.as_ptr(), added.len(), &mut place)
            }
            Step::EmDoc(added) => {
                c::sefgrunn_draft_em_doc(r, n, d, added.as_ptr(), added.len(), &mut place)
            }
        }
    };
    let (before, rest) = all.split_at(GUARD);
    let (room, after) = rest.split_at(n);
    let whole = before.iter().chain(after).all(|&b| b == 0xA7);
    whole.then(|| After { room: room.to_vec(), length: draft[0], number, place })
}

fn resumed(room: &[u8], length: u64) -> (u32, usize, [u64; 8]) {
    let (mut draft, mut place) = ([0; 8], usize::MAX);
    // SAFETY: as above.
    let number = unsafe {
        c::sefgrunn_draft_resume(
            room.as_ptr(),
            room.len(),
            length as usize,
            draft.as_mut_ptr(),
            &mut place,
        )
    };
    (number, place, draft)
}

/// A document to be added: records of texts and of blocks, some blocks within others; a few are refused, or leave a block open.
fn added(random: &mut Rng) -> Vec<u8> {
    const TEXTS: [&str; 6] = ["", "a", "title\nand more", "\n", "no line end", "\u{e9} \u{1F600}"];
    let mut document = Vec::new();
    let mut open = Vec::new();
    for _ in 0..below(random, 6) {
        match below(random, 4) {
            0 => {
                let block = below(random, 12) as u16;
                let deep = if below(random, 6) == 0 { 1 + below(random, 32) } else { 1 };
                for _ in 0..deep {
                    put_record(&mut document, 0x0100 + block, b"");
                    open.push(block);
                }
            }
            1 => {
                if let Some(block) = open.pop() {
                    put_record(&mut document, 0x0200 + block, b"");
                }
            }
            _ => {
                let text = TEXTS[below(random, TEXTS.len() as u64) as usize];
                put_record(&mut document, 1 + below(random, 3) as u16, text.as_bytes());
            }
        }
    }
    if below(random, 12) != 0 {
        while let Some(block) = open.pop() {
            put_record(&mut document, 0x0200 + block, b"");
        }
    }
    match below(random, 24) {
        0 => document.truncate(below(random, document.len() as u64 + 1) as usize),
        1 if !document.is_empty() => {
            let at = below(random, document.len() as u64) as usize;
            document[at] = random.next() as u8;
        }
        _ => {}
    }
    document
}

fn step(random: &mut Rng) -> Step {
    const TEXTS: [&[u8]; 9] = [
        b"",
        b"a",
        b"port",
        "\u{e9}".as_bytes(),
        b"one two\nthree",
        &[0xFF],
        &[0xC3],
        "\u{1F600}x".as_bytes(),
        b"--verbose, and more of it",
    ];
    let block =
        if below(random, 40) == 0 { below(random, 300) as u32 } else { below(random, 4) as u32 };
    match below(random, 12) {
        0..=4 => {
            let style = if below(random, 40) == 0 {
                below(random, 300) as u32
            } else {
                1 + below(random, 3) as u32
            };
            Step::Write(style, TEXTS[below(random, TEXTS.len() as u64) as usize].to_vec())
        }
        5..=7 => Step::Open(block),
        8..=9 => Step::Close(block),
        10 => Step::Doc(added(random)),
        _ => Step::EmDoc(added(random)),
    }
}

/// A draft of random numbers, small ones often.
fn made_up(random: &mut Rng, draft: [u64; 8]) -> [u64; 8] {
    let mut made = draft;
    for word in &mut made {
        match below(random, 6) {
            0 => *word = below(random, 8),
            1 => *word = below(random, 700),
            2 => *word = random.next(),
            3 => *word = u64::MAX - below(random, 8),
            _ => {}
        }
    }
    made
}

/// Runs so many sequences; how many calls were compared, and how many differ.
pub fn compare(seed: u64, cases: u64) -> (u64, u64) {
    let mut random = Rng::new(seed, 0);
    let (mut calls, mut mismatches) = (0, 0);
    let say = |mismatches: &mut u64, what: &str, of: &dyn std::fmt::Debug| {
        *mismatches += 1;
        if *mismatches <= PRINTED {
            println!("{what}: {of:?}");
        }
    };
    for _ in 0..cases {
        let size = match below(&mut random, 4) {
            0 => below(&mut random, 40),
            1 => below(&mut random, 300),
            _ => 300 + below(&mut random, 900),
        };
        let mut room: Vec<u8> = (0..size).map(|_| random.next() as u8).collect();
        let mut draft = [0; 8];
        for _ in 0..below(&mut random, 60) {
            let step = step(&mut random);
            let wanted = plain(&room, draft[0], &step);
            // a draft that the quick test refutes is as good as one that holds
            if below(&mut random, 16) == 0 {
                let length = draft[0];
                let kept = draft;
                let at = if below(&mut random, 2) == 0 { 1 } else { 3 };
                draft[at] = 33 + below(&mut random, 1 << 40) + length;
                if length == 0 && at == 1 {
                    draft = kept;
                }
            }
            let before = draft;
            let Some(given) = drafted(&room, &mut draft, &step) else {
                say(&mut mismatches, "outside the room", &(&step, before));
                continue;
            };
            calls += 1;
            if given != wanted {
                say(
                    &mut mismatches,
                    "differs",
                    &(&step, before, given.number, given.place, wanted.number, wanted.place),
                );
            }
            if given.number != 0 && draft != before {
                say(&mut mismatches, "refused, and another draft", &(&step, before, draft));
            }
            let (number, place, found) = resumed(&wanted.room, wanted.length);
            if number != 0 || place != 0 || (given.number == 0 && found[..6] != draft[..6]) {
                say(&mut mismatches, "not the draft of a check", &(&step, number, found, draft));
            }
            room = wanted.room;
            draft = found;
            // drafts of any numbers: the bytes around the room stay, and the answer is one of 01's
            let mut wild = made_up(&mut random, draft);
            let numbers = wild;
            match drafted(&room, &mut wild, &step) {
                Some(after) if after.number <= 13 => calls += 1,
                _ => say(&mut mismatches, "a draft of random numbers", &(&step, numbers)),
            }
        }
        // and of any bytes: the check's refusals
        let length = below(&mut random, size + 20);
        let (number, place, _) = resumed(&room, length);
        let probe = plain(&room, length, &Step::Write(1, Vec::new()));
        if probe.number != 13
            && (number, place) != (probe.number, if probe.number == 0 { 0 } else { probe.place })
        {
            say(
                &mut mismatches,
                "resume refuses otherwise",
                &(length, number, place, probe.number, probe.place),
            );
        }
    }
    (calls, mismatches)
}
