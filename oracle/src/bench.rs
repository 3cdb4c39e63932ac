//! Port and Rust side by side: processor times of calls made in turn.
//!
//! The port is given bytes: each call checks the document and clears the whole room, and each call of
//! the builder checks the document so far. The Rust is given its `Doc` ready-made, checks nothing and
//! allocates.

use std::hint::black_box;
use std::path::PathBuf;
use std::process::{Command, Stdio};

use crate::bars::{self, Faults, Row};
use crate::buffer::{Color, Token};
use crate::cases::Call;
use crate::port::{number, number_by_draft, Stored};
use crate::rules::{self, Kind, Operation, Record, Renderer};
use crate::stored::{decode, put_record, Block, Draft, Ending, Style, MOST_BYTES};
use crate::timing::{batch, in_turn, keep_memory, runs_in_turn, Times};
use crate::worst::{self, PAGES};
use crate::Doc;

const CONSOLE: Renderer = Renderer::Console { width: 100, full: true, characters: false };
const CHARACTERS: Renderer = Renderer::Console { width: 100, full: true, characters: true };
const HTML: Renderer = Renderer::Html { full: true, css: false, strict: false };
const MARKDOWN: Renderer = Renderer::Markdown { full: true };

/// Nanoseconds that the two sides of a row take turns for in one sitting: on the five pages, on pages that grow, on
/// worst pages. Each row is measured in several sittings, between which all others are, and the best counts:
/// other work on the machine comes and goes.
const SPAN: u128 = 40_000_000;
const GROWTH_SPAN: u128 = 20_000_000;
const WORST_SPAN: u128 = 15_000_000;
pub const SITTINGS: usize = 8;
/// In each of several links at least so many.
const LINK_SITTINGS: usize = 2;

/// Calls of `write` that are timed as one.
const WRITES: usize = 64;

/// The port's call, where no document so far is needed.
fn port(call: Call, document: &[u8], room: &mut [u8]) -> u32 {
    number(call, black_box(document), room, &mut Stored::new(0))
}

/// UTF-8 validation of the same bodies stands in for the Rust, which has no such check.
fn check_times(span: u128, document: &[u8], records: &[Record]) -> Times {
    runs_in_turn(
        span,
        || assert_eq!(port(Call::Check, document, &mut []), 0),
        || {
            for record in black_box(records) {
                black_box(std::str::from_utf8(record.body).is_ok());
            }
        },
    )
}

fn rust_text(renderer: Renderer, doc: &Doc) -> String {
    match renderer {
        Renderer::Console { width, full, .. } => {
            doc.render_console(full, Color::Monochrome, width as usize)
        }
        Renderer::Html { full, css, .. } => doc.render_html(full, css),
        Renderer::Markdown { full } => doc.render_markdown(full),
        Renderer::Roff => doc.roff(),
    }
}

/// In a room of the size given, or else of what the text needs. `None` where a renderer refuses the
/// page, as the rules do. Both sides give the text of the rules, or this fails.
fn render_times(
    span: u128,
    renderer: Renderer,
    document: &[u8],
    doc: &Doc,
    room: Option<usize>,
) -> Option<Times> {
    let run = rules::render(renderer, document, usize::MAX);
    let (call, mut room) = (Call::Render(renderer), vec![0; room.unwrap_or(run.most)]);
    let mut stored = Stored::new(0);
    let refused = number(call, document, &mut room, &mut stored);
    let Ok(text) = run.outcome else {
        assert_ne!(refused, 0, "only the port accepts it");
        return None;
    };
    if refused == 13 {
        return None;
    }
    assert_eq!(refused, 0, "only the port refuses it");
    assert!(room[..stored.at] == text, "the port gives another text");
    assert!(rust_text(renderer, doc).as_bytes() == text, "the Rust gives another text");
    Some(runs_in_turn(
        span,
        || assert_eq!(port(call, document, black_box(&mut room)), 0),
        || {
            black_box(rust_text(renderer, black_box(doc)));
        },
    ))
}

/// The measure by characters; the port's measure by bytes stands in for the Rust, which has no such
/// measure. `None` where the page is refused.
fn characters_times(document: &[u8]) -> Option<Times> {
    let need = |renderer| rules::render(renderer, document, usize::MAX).most;
    let (mut room, mut other) = (vec![0; need(CHARACTERS)], vec![0; need(CONSOLE)]);
    let run =
        |renderer, room: &mut Vec<u8>| port(Call::Render(renderer), document, black_box(room)) == 0;
    (run(CHARACTERS, &mut room) && run(CONSOLE, &mut other)).then(|| {
        runs_in_turn(
            SPAN,
            || assert!(run(CHARACTERS, &mut room)),
            || assert!(run(CONSOLE, &mut other)),
        )
    })
}

/// A call that begins with the check; the port's check stands in for the Rust, which has no such
/// function. `None` where the document is refused.
fn beside_check(call: Call, document: &[u8]) -> Option<Times> {
    let run = |call| port(call, document, &mut []) == 0;
    (run(Call::Check) && run(call))
        .then(|| runs_in_turn(SPAN, || assert!(run(call)), || assert!(run(Call::Check))))
}

/// The console text of the joined form; the document's own stands in for the Rust. Then moving over and
/// back; the port's check and a copy stand in. `None` where the page is refused.
fn joined_rows(table: &mut Table, name: &str, document: &[u8]) -> Option<()> {
    let form = crate::joined::join(document, usize::MAX).ok()?;
    let need = rules::render(CONSOLE, document, usize::MAX).most;
    let (mut room, mut other) = (vec![0; need], vec![0; need]);
    let run = |call, given: &[u8], room: &mut [u8]| port(call, given, black_box(room)) == 0;
    let (new, old) = (Call::JoinedRender(CONSOLE), Call::Render(CONSOLE));
    if run(new, &form, &mut room) && run(old, document, &mut other) {
        let times = runs_in_turn(
            SPAN,
            || assert!(run(new, &form, &mut room)),
            || assert!(run(old, document, &mut other)),
        );
        assert_eq!(room, other);
        table.row("joined (rust: console)", name, form.len(), Some(times));
    }
    for (what, call, given, made) in [
        ("join (rust: check, copy)", Call::Join, document, &form[..]),
        ("unjoin (same)", Call::Unjoin, &form[..], document),
    ] {
        let (mut room, mut copy) = (vec![0; made.len()], vec![0; document.len()]);
        let times = runs_in_turn(
            SPAN,
            || assert!(run(call, given, &mut room)),
            || {
                assert!(run(Call::Check, document, &mut []));
                black_box(&mut copy).copy_from_slice(document);
            },
        );
        assert_eq!(room, made);
        table.row(what, name, given.len(), Some(times));
    }
    Some(())
}

/// A term of 24 characters, which settles the tabstop.
fn settling_term() -> Vec<u8> {
    let mut term = Vec::new();
    put_record(&mut term, 0x0104, b"");
    put_record(&mut term, 0x0003, &[b't'; 24]);
    put_record(&mut term, 0x0204, b"");
    term
}

// ---------------------------------------------------------------------------------------------
// The builder

/// What one step of a building adds.
fn operation(record: &Record) -> Operation {
    match record.kind {
        Kind::Text(style) => Operation::Write { style: style as u32 },
        Kind::Start(block) => Operation::Open { block: block as u32 },
        Kind::End(block) => Operation::Close { block: block as u32 },
    }
}

fn rust_step(doc: &mut Doc, kind: Kind, body: &str) {
    match kind {
        Kind::Text(style) => doc.write_str(body, Style::ALL[style - 1].kept()),
        Kind::Start(block) => doc.token(Token::BlockStart(Block::ALL[block].kept())),
        Kind::End(block) => doc.token(Token::BlockEnd(Block::ALL[block].kept())),
    }
}

/// One `write_str` of eight bytes at the end of a document: `WRITES` of them, from the same document
/// each time. The first adds a record, the others lengthen it.
fn write_times(document: &[u8], doc: &Doc) -> Option<Times> {
    let text = "option, ";
    let call = Call::Build(Operation::Write { style: 2 });
    let mut room = document.to_vec();
    room.resize(document.len() + 6 + WRITES * text.len(), 0);
    (room.len() <= MOST_BYTES).then(|| {
        in_turn(
            SPAN,
            || {
                let mut stored = Stored::new(document.len());
                let bytes = text.as_bytes();
                batch(WRITES, || {
                    assert_eq!(number(call, bytes, black_box(&mut room), &mut stored), 0)
                })
            },
            || {
                let mut doc = doc.clone();
                batch(WRITES, || black_box(&mut doc).write_str(text, Style::Emphasis.kept()))
            },
        )
    })
}

/// A whole document from nothing, record by record; its length.
fn built(records: &[Record], room: &mut [u8]) -> usize {
    let mut stored = Stored::new(0);
    for record in records {
        assert_eq!(number(Call::Build(operation(record)), record.body, room, &mut stored), 0);
    }
    stored.length
}

/// The same by a draft.
fn built_by_draft(records: &[Record], room: &mut [u8]) -> usize {
    let mut draft = [0; 8];
    for record in records {
        assert_eq!(number_by_draft(operation(record), record.body, room, &mut draft), 0);
    }
    draft[0] as usize
}

/// A text as the Rust takes it; what it was found to be before, in place of a test.
type Given = for<'a> fn(&'a [u8], &'a str) -> &'a str;

/// A caller who has a `str`.
fn as_found<'a>(_: &'a [u8], found: &'a str) -> &'a str {
    found
}

/// A caller who has bytes.
fn tested<'a>(bytes: &'a [u8], _: &'a str) -> &'a str {
    std::str::from_utf8(black_box(bytes)).expect("the text of a page that is accepted")
}

/// A whole document from nothing, by a draft or without one.
fn building_times(
    span: u128,
    document: &[u8],
    records: &[Record],
    build: fn(&[Record], &mut [u8]) -> usize,
    given: Given,
) -> Option<Times> {
    let bodies: Vec<&str> =
        records.iter().map(|r| std::str::from_utf8(r.body)).collect::<Result<_, _>>().ok()?;
    let mut room = vec![0; MOST_BYTES];
    let times = runs_in_turn(
        span,
        || assert_eq!(build(black_box(records), &mut room), document.len()),
        || {
            let mut doc = Doc::default();
            for (record, body) in black_box(records).iter().zip(&bodies) {
                rust_step(&mut doc, record.kind, given(record.body, body));
            }
            black_box(doc);
        },
    );
    assert_eq!(&room[..document.len()], document);
    Some(times)
}

// ---------------------------------------------------------------------------------------------
// Tables

/// Reads a page for both sides; `None` where it is refused.
fn read(document: &[u8]) -> Option<(Doc, Vec<Record<'_>>)> {
    Some((decode(document, Ending::Closed)?, rules::check(document).ok()?))
}

/// Rows in the order in which they were first measured.
#[derive(Default)]
pub struct Table {
    rows: Vec<Row>,
}

impl Table {
    /// Adds a row, or keeps the better times of one that is there.
    fn row(&mut self, call: &str, page: &str, bytes: usize, times: Option<Times>) {
        let Some(times) = times else { return };
        match self.rows.iter_mut().find(|row| row.call == call && row.page == page) {
            Some(row) => row.times = row.times.best(times),
            None => self.rows.push(Row { call: call.into(), page: page.into(), bytes, times }),
        }
    }

    fn print(&self) {
        println!("{}", columns());
        for row in &self.rows {
            println!("{}", cells(row));
        }
    }

    /// With the port's time for each byte of the document.
    fn print_each(&self) {
        println!("{} {:>13}", columns(), "port ns/byte");
        for row in &self.rows {
            println!("{} {:>13.2}", cells(row), row.each());
        }
    }
}

fn columns() -> String {
    let [call, page, bytes, port, rust, ratio] = ["call", "page", "bytes", "port", "rust", "ratio"];
    format!("{call:<24} {page:<30} {bytes:>6} {port:>9} {rust:>9} {ratio:>6}")
}

fn cells(row: &Row) -> String {
    let Row { call, page, bytes, times } = row;
    let (port, rust, ratio) = (times.port, times.rust, times.ratio());
    format!("{call:<24} {page:<30} {bytes:>6} {port:>9} {rust:>9} {ratio:>6.2}")
}

/// This program linked several times, its functions in another order each time, which share the sittings out. Where a
/// function stands makes it faster or slower on some processors, by 25 parts in 100 and more, on both sides; of several
/// orders the best counts, as of several sittings.
pub struct Links {
    pub programs: Vec<PathBuf>,
    /// The command, and the documents.
    pub words: Vec<String>,
}

impl Links {
    /// The two tables of a command.
    fn tables(&self) -> [Table; 2] {
        let mut tables = [Table::default(), Table::default()];
        let sittings = SITTINGS.div_ceil(self.programs.len()).max(LINK_SITTINGS).to_string();
        for program in &self.programs {
            eprintln!("{}, {sittings} sittings", program.display());
            let run = Command::new(program)
                .args(&self.words)
                .args(["--sittings", &sittings])
                .stderr(Stdio::null())
                .output()
                .unwrap_or_else(|error| panic!("{}: {error}", program.display()));
            assert!(run.status.success(), "{}: {}", program.display(), run.status);
            let rows = String::from_utf8(run.stdout).expect("rows are text");
            for line in rows.lines() {
                let (number, row) = read_row(line).unwrap_or_else(|| panic!("no row: {line}"));
                tables[number].row(&row.call, &row.page, row.bytes, Some(row.times));
            }
        }
        tables
    }
}

/// A row and its table's number, as `read_row` takes them.
fn plain_row(number: usize, row: &Row) -> String {
    let Row { call, page, bytes, times } = row;
    format!("{number}\t{call}\t{page}\t{bytes}\t{}\t{}", times.port, times.rust)
}

fn read_row(line: &str) -> Option<(usize, Row)> {
    let cells: Vec<&str> = line.split('\t').collect();
    let &[number, call, page, bytes, port, rust] = &cells[..] else { return None };
    let times = Times { port: port.parse().ok()?, rust: rust.parse().ok()? };
    let row = Row { call: call.into(), page: page.into(), bytes: bytes.parse().ok()?, times };
    Some((number.parse().ok().filter(|&number| number < 2)?, row))
}

/// The rows of a command's tables, for `Links`.
pub fn print_plain(tables: &[Table; 2]) {
    for (number, table) in tables.iter().enumerate() {
        for row in &table.rows {
            println!("{}", plain_row(number, row));
        }
    }
}

/// What the times are.
fn head() {
    println!("ns of processor time of a call, port and Rust in turn; a tenth of the rounds took less, the best of several sittings,");
    println!("which links of this program share, its functions in another order in each.");
    println!("The port checks the document and clears its room each time. Bytes are those of the stored document");
}

/// Whether both sides take a page.
pub fn accepts(document: &[u8]) -> bool {
    read(document).is_some()
}

/// Rendering and building of the pages given, in so many sittings.
pub fn five_tables(pages: &[(String, Vec<u8>)], sittings: usize) -> [Table; 2] {
    keep_memory();
    let (mut rendering, mut building) = (Table::default(), Table::default());
    for sitting in 1..=sittings {
        eprintln!("sitting {sitting} of {sittings}");
        for (name, document) in pages {
            page_rows(&mut rendering, name, document);
        }
        bundles(&mut rendering, pages);
        headings(&mut rendering);
        paging(&mut rendering);
        noting(&mut rendering);
        merging(&mut rendering);
        for (name, document) in pages {
            building_rows(&mut building, name, document);
        }
    }
    [rendering, building]
}

/// Rendering and building of the pages given; prints the worst ratios, and says what is over its bar.
pub fn five_pages(pages: &[(String, Vec<u8>)], links: Option<&Links>) -> Faults {
    let [rendering, building] = links.map_or_else(|| five_tables(pages, SITTINGS), Links::tables);
    head();
    println!("where the Rust has no such call, what is timed in its place stands in brackets; tabstop: beside the port's check");
    rendering.print();
    building_head();
    building.print();
    bars::five_pages(&[rendering.rows, building.rows].concat())
}

/// The last page of a text of 60 KB; one look for line feeds over the text stands in for the Rust, which
/// has no pages.
fn paging(table: &mut Table) {
    let line = b"    --listen=ADDRESS  Address to listen on, as HOST:PORT\n";
    let text: Vec<u8> = line.iter().copied().cycle().take(60 * 1_024).collect();
    let feeds = |text: &[u8]| text.iter().filter(|&&byte| byte == b'\n').count();
    let height = 24;
    let page = (feeds(&text) as u64 + 1).div_ceil(height);
    let times = runs_in_turn(
        SPAN,
        || assert_eq!(port(Call::Page { height, page }, &text, &mut []), 0),
        || {
            let (mut rest, mut rows) = (black_box(&text[..]), 0);
            while let Some(end) = rest.iter().position(|&byte| byte == b'\n') {
                rows += 1;
                rest = &rest[end + 1..];
            }
            black_box(rows);
        },
    );
    table.row("page (rust: line feeds)", "60 KB of text", text.len(), Some(times));
}

/// The figures of a bundle of pages, 64 KB at most; the port's console texts of them, in rooms as needed,
/// stand in for the Rust. Then those of the most empty documents, beside that bundle.
fn bundles(table: &mut Table, pages: &[(String, Vec<u8>)]) {
    let mut bodies: Vec<&[u8]> = Vec::new();
    let mut left = crate::figures::MOST_BYTES;
    for (_, page) in pages.iter().cycle().take(50 * pages.len()) {
        if rules::check(page).is_ok() && page.len() + 6 <= left {
            bodies.push(page);
            left -= page.len() + 6;
        }
    }
    let bundle = crate::figures::bundle(bodies.iter().copied());
    let empty = crate::figures::bundle(std::iter::repeat_n(&b""[..], 10_922));
    let call = Call::Render(CONSOLE);
    let need = |page: &[u8]| rules::render(CONSOLE, page, usize::MAX).most;
    let mut rooms: Vec<Vec<u8>> = bodies.iter().map(|page| vec![0; need(page)]).collect();
    let figures = |bundle: &[u8]| assert_eq!(port(Call::Figures, bundle, &mut []), 0);
    let times = runs_in_turn(
        SPAN,
        || figures(&bundle),
        || {
            for (page, room) in bodies.iter().zip(&mut rooms) {
                black_box(port(call, page, room));
            }
        },
    );
    table.row("figures (rust: console)", "a bundle of pages", bundle.len(), Some(times));
    let times = runs_in_turn(SPAN, || figures(&empty), || figures(&bundle));
    table.row("figures (rust: pages)", "10,922 empty", empty.len(), Some(times));
}

/// Two lists of 150 terms, 50 of them of both; the port's check of both stands in for the Rust.
fn merging(table: &mut Table) {
    let side = |from: usize| {
        let mut draft = Draft::new();
        draft.open(Block::DefinitionList);
        for number in from..from + 150 {
            draft
                .within(Block::ItemTerm, |d| d.literal(&format!("--option-{number:04}")))
                .within(Block::ItemBody, |d| d.text("Connections that wait to be accepted"));
        }
        draft.close(Block::DefinitionList).stored()
    };
    let (first, second) = (side(0), side(100));
    let both = [&first[..], &second].concat();
    let call = Call::Merge { first: first.len() as u64 };
    let merged = crate::merge::merged(&first, &second).expect("two lists");
    let mut room = vec![0; merged.len()];
    let times = runs_in_turn(
        SPAN,
        || assert_eq!(port(call, &both, black_box(&mut room)), 0),
        || {
            assert_eq!(port(Call::Check, &first, &mut []), 0);
            assert_eq!(port(Call::Check, &second, &mut []), 0);
        },
    );
    assert_eq!(room, merged);
    table.row("merge (rust: two checks)", "two lists of 150", both.len(), Some(times));
}

/// Notes of 30 KB; the port's console text of the document that they make stands in for the Rust, which
/// takes in no notes.
fn noting(table: &mut Table) {
    let notes = long_notes();
    let document = crate::notes::taken_in(&notes, MOST_BYTES).expect("it fits");
    let (mut room, mut shown) = (vec![0; document.len()], vec![0; 65_536]);
    let times = runs_in_turn(
        SPAN,
        || assert_eq!(port(Call::Notes, &notes, black_box(&mut room)), 0),
        || {
            let call = Call::Render(CONSOLE);
            assert_eq!(port(call, &document, black_box(&mut shown)), 0)
        },
    );
    assert_eq!(room, document);
    table.row("notes (rust: console)", "30 KB of notes", notes.len(), Some(times));
}

/// Notes of 30 KB, whose document is one.
fn long_notes() -> Vec<u8> {
    let part = "# Listening\n\nThe balancer listens on `--port`, and on `--tls-port` where it is\ngiven. \
        Both may be `0`: any free port is then taken, and printed on start.\n\n- `--port` as it is\n";
    let pages = "Each server has a weight, which is its share of requests. ".repeat(28);
    let text = part.to_string() + &pages + "\n\n";
    text.bytes().cycle().take(30 * 1_024).collect()
}

/// Roff of headings in ASCII, and of headings whose characters are mapped beyond it.
fn headings(table: &mut Table) {
    for (what, text) in [
        ("roff, ASCII headings", "Options for listening and tunnels"),
        ("roff, other headings", "Paramètres d’écoute, größere Übung, τέλος"),
    ] {
        let mut draft = Draft::new();
        for _ in 0..100 {
            draft.within(Block::Header, |d| d.text(text));
        }
        let document = draft.stored();
        let (doc, _) = read(&document).expect("it is a document");
        table.row(
            what,
            "100 headings",
            document.len(),
            render_times(SPAN, Renderer::Roff, &document, &doc, None),
        );
    }
}

/// The rows of one page; `None` where it is refused.
fn page_rows(table: &mut Table, name: &str, document: &[u8]) -> Option<()> {
    let (doc, records) = read(document)?;
    let bytes = document.len();
    table.row("check (rust: from_utf8)", name, bytes, Some(check_times(SPAN, document, &records)));
    table.row("characters (rust: bytes)", name, bytes, characters_times(document));
    let term = settling_term();
    table.row("tabstop (rust: check)", name, bytes, beside_check(Call::Tabstop, document));
    for (what, whole) in [
        ("tabstop, term first", [&term[..], document].concat()),
        ("tabstop, term last", [document, &term[..]].concat()),
    ] {
        table.row(what, name, whole.len(), beside_check(Call::Tabstop, &whole));
    }
    table.row("shape (rust: check)", name, bytes, beside_check(Call::Shape, document));
    table.row("bound (rust: check)", name, bytes, beside_check(Call::RoomBound, document));
    joined_rows(table, name, document)?;
    for (what, renderer, room) in [
        ("console, room 65,536", CONSOLE, Some(65_536)),
        ("html, room 65,536", HTML, Some(65_536)),
        ("markdown, room 65,536", MARKDOWN, Some(65_536)),
        ("roff, room 65,536", Renderer::Roff, Some(65_536)),
        ("console, room as needed", CONSOLE, None),
        ("html", HTML, None),
        ("markdown", MARKDOWN, None),
        ("roff", Renderer::Roff, None),
    ] {
        table.row(what, name, bytes, render_times(SPAN, renderer, document, &doc, room));
    }
    Some(())
}

fn building_head() {
    println!();
    println!("the builder. write: one write_str of 8 bytes at the page's end; the port checks the whole document so far, then writes,");
    println!("the Rust appends to a String and a Vec. whole page: all of it from nothing, one call for each record, so that what the");
    println!("port checks grows with the square of the page's size. by a draft: the same calls, which carry what a check would find.");
    println!("draft (rust: from_utf8): the same, where the Rust is given bytes too and tests each text; elsewhere it is given a str.");
}

/// The builder's rows of one page; `None` where the page is refused.
fn building_rows(table: &mut Table, name: &str, document: &[u8]) -> Option<()> {
    let (doc, records) = read(document)?;
    let bytes = document.len();
    table.row("write", name, bytes, write_times(document, &doc));
    let what = format!("whole page, {} calls", records.len());
    let whole = |build, given| building_times(SPAN, document, &records, build, given);
    table.row(&what, name, bytes, whole(built, as_found));
    table.row("whole page by a draft", name, bytes, whole(built_by_draft, as_found));
    table.row("draft (rust: from_utf8)", name, bytes, whole(built_by_draft, tested));
    Some(())
}

/// A page of at most `size` bytes: the records of a document, again and again, as long as the ends of
/// the blocks that are open still fit.
fn cut(records: &[Record], size: usize) -> Vec<u8> {
    let mut bytes = Vec::new();
    let mut open = Vec::new();
    for record in records.iter().cycle() {
        let ends = match record.kind {
            Kind::Text(_) => open.len(),
            Kind::Start(_) => open.len() + 1,
            Kind::End(_) => open.len() - 1,
        };
        if bytes.len() + 6 + record.body.len() + 6 * ends > size {
            break;
        }
        let kind = match record.kind {
            Kind::Text(style) => style,
            Kind::Start(block) => {
                open.push(block);
                0x0100 + block
            }
            Kind::End(block) => {
                open.pop();
                0x0200 + block
            }
        };
        put_record(&mut bytes, kind as u16, record.body);
    }
    for block in open.into_iter().rev() {
        put_record(&mut bytes, 0x0200 + block as u16, b"");
    }
    bytes
}

/// Pages of 1 to 32 KB that are made of one document's records, in so many sittings; `None` where it is refused or empty.
fn grown(name: &str, document: &[u8], sittings: usize) -> Option<Table> {
    let (_, records) = read(document).filter(|(_, records)| !records.is_empty())?;
    let mut table = Table::default();
    for sitting in 1..=sittings {
        eprintln!("pages that grow, sitting {sitting} of {sittings}");
        for (what, measure) in GROWN {
            for power in 10..=15 {
                let page = cut(&records, 1 << power);
                let (doc, records) = read(&page).expect("records of a document, all blocks closed");
                let name = format!("{name}, {} KB", 1 << (power - 10));
                table.row(what, &name, page.len(), measure(&page, &doc, &records));
            }
        }
    }
    Some(table)
}

/// Pages that grow, in so many sittings, and the worst pages, in half as many.
pub fn growth_tables(name: &str, document: &[u8], sittings: usize) -> Option<[Table; 2]> {
    keep_memory();
    let grown = grown(name, document, sittings)?;
    let mut worst = Table::default();
    for sitting in 1..=sittings.div_ceil(2) {
        eprintln!("worst pages, sitting {sitting} of {}", sittings.div_ceil(2));
        for page in PAGES {
            worst_rows(&mut worst, page);
        }
    }
    Some([grown, worst])
}

/// How times grow with pages of 1 to 32 KB that are made of one document's records, and each renderer on each of the worst
/// pages: prints the worst figures, and says what is over its bar. `None` where the document is refused or empty.
pub fn growth(name: &str, document: &[u8], links: Option<&Links>) -> Option<Faults> {
    let [grown, worst] = match links {
        None => growth_tables(name, document, SITTINGS)?,
        Some(links) => links.tables(),
    };
    head();
    grown.print_each();
    println!();
    println!("pages of nearly 32 KB on which a renderer works hardest for each byte; what it refuses is left out");
    worst.print_each();
    Some(bars::worst_pages(&worst.rows))
}

/// A measurement of a page, with its document for the Rust and its records.
type Measure = fn(&[u8], &Doc, &[Record]) -> Option<Times>;

const GROWN: [(&str, Measure); 6] = [
    ("check (rust: from_utf8)", |page, _, records| Some(check_times(GROWTH_SPAN, page, records))),
    ("console", |page, doc, _| render_times(GROWTH_SPAN, CONSOLE, page, doc, None)),
    ("html", |page, doc, _| render_times(GROWTH_SPAN, HTML, page, doc, None)),
    ("markdown", |page, doc, _| render_times(GROWTH_SPAN, MARKDOWN, page, doc, None)),
    ("roff", |page, doc, _| render_times(GROWTH_SPAN, Renderer::Roff, page, doc, None)),
    ("whole page by a draft", |page, _, records| {
        building_times(GROWTH_SPAN, page, records, built_by_draft, as_found)
    }),
];

// ---------------------------------------------------------------------------------------------
// Worst pages

/// The renderers, the console at several widths.
fn renderers(full: bool) -> [(&'static str, Renderer); 7] {
    let console = |width| Renderer::Console { width, full, characters: false };
    [
        ("console, width 0", console(0)),
        ("console, width 1", console(1)),
        ("console, width 100", console(100)),
        ("console, width 10,000", console(10_000)),
        ("html", Renderer::Html { full, css: false, strict: false }),
        ("markdown", Renderer::Markdown { full }),
        ("roff", Renderer::Roff),
    ]
}

fn worst_rows(table: &mut Table, page: &worst::Page) {
    let document = page.document();
    assert_eq!(port(Call::Check, &document, &mut []), 0, "{}: refused", page.name);
    let (doc, _) = read(&document).expect("an accepted document");
    for (call, renderer) in renderers(page.full) {
        let times = render_times(WORST_SPAN, renderer, &document, &doc, None);
        table.row(call, page.name, document.len(), times);
    }
}

#[cfg(test)]
mod tests {
    use super::*;

    /// What a link prints of a row is read as that row; other lines are none.
    #[test]
    fn rows_of_links() {
        let times = Times { port: 633, rust: 997 };
        let row = Row { call: "a (b: c)".into(), page: "p, 1 KB".into(), bytes: 2_078, times };
        let line = plain_row(1, &row);
        let (number, read) = read_row(&line).unwrap();
        assert_eq!((number, plain_row(number, &read)), (1, line.clone()));
        assert_eq!((read.bytes, read.times.port, read.times.rust), (2_078, 633, 997));
        for other in
            ["", "1\ta\tb\t1\t2", "2\ta\tb\t1\t2\t3", "1\ta\tb\t1\t2\tx", "1\ta\tb\t1\t2\t3\t4"]
        {
            assert!(read_row(other).is_none(), "{other}");
        }
    }

    #[test]
    fn long_notes_are_a_document() {
        assert!(crate::notes::taken_in(&long_notes(), MOST_BYTES).is_ok());
    }

    /// Pages have about the size asked for and are accepted, from records that are fewer or more.
    #[test]
    fn pages_of_a_size() {
        let mut draft = Draft::new();
        draft.within(crate::stored::Block::Block, |d| {
            d.literal("-p").text(" port, and more").within(crate::stored::Block::Mono, |d| d)
        });
        let document = draft.stored();
        let records = rules::check(&document).unwrap();
        for size in [6, 30, 100, 1_024, 32_768] {
            let page = cut(&records, size);
            assert!(rules::check(&page).is_ok());
            assert!(page.len() <= size && size - page.len() < 48, "{size}: {}", page.len());
        }
    }
}
