//! The oracle's commands; `README.md` says what each is for.

use std::io::{self, Read, Write};
use std::process::ExitCode;

use oracle::bars::Faults;
use oracle::bench::{self, Links};
use oracle::cases::{answer, list, pattern, Answer, Call, Case};
use oracle::figures;
use oracle::generate::{self, Limits, Subject};
use oracle::kept::confirm;
use oracle::port;
use oracle::rules::{self, Misreading, Renderer};
use oracle::worthless::Worthless;

const NOT_LINKED: &str =
    "the C interface is not linked: build with the feature linked and SEFGRUNN_LIB_DIR set";

const USAGE: &str = "\
usage: oracle answer console|html|html_strict|markdown|roff
              [--width N] [--full 0|1] [--characters 0|1] [--css 0|1] [--room N] < document
       oracle record check|console|html|html_strict|markdown|roff|headings|builder|split
              |next_chunk|tabstop|join|joined|merge
              --seed S --cases N [--max-bytes B] > list
       oracle compare --seed S --cases N [--only SUBJECT,..]
       oracle selfcheck --seed S --cases N [--only SUBJECT,..]
       oracle reach --seed S --cases N
       oracle bench [--bar 0|1] [--allowed 0|1] [--links FOLDER | --sittings N] DOCUMENT..
       oracle growth [--bar 0|1] [--allowed 0|1] [--links FOLDER | --sittings N] DOCUMENT
       oracle drafts --seed S --cases N
       oracle notes < notes > document
       oracle bundle DOCUMENT.. > bundle
       oracle figures < bundle
";

/// The room and width of 01's program.
const PROGRAM_ROOM: u64 = 65_536;
const PROGRAM_WIDTH: u64 = 100;
/// Mismatches that are printed in full.
const PRINTED: u64 = 20;

/// What follows a command: its operands, and `--name value` pairs.
struct Arguments {
    operands: Vec<String>,
    options: Vec<(String, String)>,
}

type Parsed<T> = Result<T, String>;

impl Arguments {
    fn read(mut arguments: impl Iterator<Item = String>, known: &[&str]) -> Parsed<Self> {
        let mut read = Arguments { operands: Vec::new(), options: Vec::new() };
        while let Some(argument) = arguments.next() {
            if let Some(name) = argument.strip_prefix("--") {
                let value = arguments.next().ok_or(format!("--{name} needs a value"))?;
                if !known.contains(&name) || read.options.iter().any(|(n, _)| n == name) {
                    return Err(format!("--{name} is unknown here or given twice"));
                }
                read.options.push((name.to_string(), value));
            } else {
                read.operands.push(argument);
            }
        }
        Ok(read)
    }

    fn value(&self, name: &str) -> Option<&str> {
        self.options.iter().find(|(n, _)| n == name).map(|(_, value)| value.as_str())
    }

    fn number(&self, name: &str, otherwise: Option<u64>) -> Parsed<u64> {
        match self.value(name) {
            Some(value) => value.parse().map_err(|_| format!("--{name} {value}: not a number")),
            None => otherwise.ok_or(format!("--{name} is missing")),
        }
    }

    fn flag(&self, name: &str, otherwise: bool) -> Parsed<bool> {
        match self.value(name) {
            None => Ok(otherwise),
            Some("0") => Ok(false),
            Some("1") => Ok(true),
            Some(value) => Err(format!("--{name} {value}: neither 0 nor 1")),
        }
    }

    fn operand(&self) -> Parsed<&str> {
        match &self.operands[..] {
            [operand] => Ok(operand),
            [] => Err("an operand is missing".into()),
            _ => Err("more than one operand".into()),
        }
    }

    fn no_operand(&self) -> Parsed<()> {
        self.operands.first().map_or(Ok(()), |operand| Err(format!("{operand}: not expected")))
    }

    /// The subjects named by `--only`, or all.
    fn subjects(&self) -> Parsed<Vec<Subject>> {
        match self.value("only") {
            None => Ok(Subject::ALL.map(|(subject, _)| subject).to_vec()),
            Some(names) => names
                .split(',')
                .map(|name| Subject::named(name).ok_or(format!("--only {name}: no such subject")))
                .collect(),
        }
    }
}

fn main() -> ExitCode {
    let mut arguments = std::env::args().skip(1);
    let command = arguments.next().unwrap_or_default();
    let outcome =
        match command.as_str() {
            "compare" | "bench" | "growth" | "drafts" if !port::LINKED => {
                println!("{NOT_LINKED}");
                return ExitCode::from(2);
            }
            "answer" => Arguments::read(arguments, &["width", "full", "characters", "css", "room"])
                .and_then(|a| run_answer(&a)),
            "record" => Arguments::read(arguments, &["seed", "cases", "max-bytes"])
                .and_then(|a| run_record(&a)),
            "compare" => {
                Arguments::read(arguments, &["seed", "cases", "only"]).and_then(|a| run_compare(&a))
            }
            "selfcheck" => Arguments::read(arguments, &["seed", "cases", "only"])
                .and_then(|a| run_selfcheck(&a)),
            "bench" => Arguments::read(arguments, &["bar", "allowed", "links", "sittings"])
                .and_then(|a| run_bench(&a)),
            "growth" => Arguments::read(arguments, &["bar", "allowed", "links", "sittings"])
                .and_then(|a| run_growth(&a)),
            "drafts" => Arguments::read(arguments, &["seed", "cases"]).and_then(|a| run_drafts(&a)),
            "bundle" => Ok(run_bundle(arguments)),
            "figures" => Arguments::read(arguments, &[]).and_then(|a| run_figures(&a)),
            "notes" => Arguments::read(arguments, &[]).and_then(|a| run_notes(&a)),
            "reach" => Arguments::read(arguments, &["seed", "cases"]).and_then(|a| run_reach(&a)),
            _ => Err("a command is missing or unknown".into()),
        };
    outcome.unwrap_or_else(|message| {
        eprint!("oracle: {message}\n{USAGE}");
        ExitCode::from(2)
    })
}

fn write_out(bytes: &[u8]) -> ExitCode {
    match io::stdout().write_all(bytes).and_then(|()| io::stdout().flush()) {
        Ok(()) => ExitCode::SUCCESS,
        Err(error) => {
            eprintln!("oracle: {error}");
            ExitCode::FAILURE
        }
    }
}

/// What standard input holds, made into something; or a refusal line.
fn converted(
    arguments: &Arguments,
    make: impl FnOnce(&[u8]) -> rules::Ruled<Vec<u8>>,
) -> Parsed<ExitCode> {
    arguments.no_operand()?;
    let mut given = Vec::new();
    if let Err(error) = io::stdin().read_to_end(&mut given) {
        eprintln!("oracle: {error}");
        return Ok(ExitCode::FAILURE);
    }
    Ok(match make(&given) {
        Ok(made) => write_out(&made),
        Err(refusal) => {
            write_out(format!("refused {} at {}\n", refusal.number, refusal.place).as_bytes())
        }
    })
}

/// The document of some notes.
fn run_notes(arguments: &Arguments) -> Parsed<ExitCode> {
    converted(arguments, |notes| oracle::notes::taken_in(notes, usize::MAX))
}

/// 02's line of figures.
fn run_figures(arguments: &Arguments) -> Parsed<ExitCode> {
    converted(arguments, |bundle| {
        figures::figures(bundle).map(|figures| format!("{figures}\n").into_bytes())
    })
}

/// A bundle of the documents at some paths.
fn run_bundle(paths: impl Iterator<Item = String>) -> ExitCode {
    let read =
        |path: String| std::fs::read(&path).map_err(|error| eprintln!("oracle: {path}: {error}"));
    match paths.map(read).collect::<Result<Vec<_>, ()>>() {
        Ok(documents) => write_out(&figures::bundle(documents.iter().map(|d| &d[..]))),
        Err(()) => ExitCode::FAILURE,
    }
}

/// Runs a benchmark on the document at a path; says whether it was read and accepted.
fn timed(path: &str, run: impl FnOnce(&str, &[u8]) -> Option<()>) -> bool {
    let name = path.rsplit('/').next().unwrap_or(path);
    let outcome = match std::fs::read(path) {
        Ok(document) => run(name, &document).ok_or("refused".to_string()),
        Err(error) => Err(error.to_string()),
    };
    if let Err(message) = &outcome {
        eprintln!("oracle: {path}: {message}");
    }
    outcome.is_ok()
}

fn status(fine: bool) -> ExitCode {
    if fine {
        ExitCode::SUCCESS
    } else {
        ExitCode::FAILURE
    }
}

/// Where so much is asked for, prints what is over it; whether that is nothing, or it is not asked for.
fn within(asked: bool, faults: &[String], what: &str) -> bool {
    if asked {
        println!();
        for fault in faults {
            println!("{fault}");
        }
        println!("{} over {what}", faults.len());
    }
    !asked || faults.is_empty()
}

/// Whether no row is over its bar, where `--bar 1` asks for that, and none over what is allowed, where `--allowed 1` does.
fn barred((bar, allowed): (bool, bool), faults: &Faults) -> bool {
    let bars = within(bar, &faults.bars, "their bars");
    within(allowed, &faults.allowed, "what is allowed") && bars
}

/// What `--bar` and `--allowed` ask for.
fn asked(arguments: &Arguments) -> Parsed<(bool, bool)> {
    Ok((arguments.flag("bar", false)?, arguments.flag("allowed", false)?))
}

/// The links of this program in a folder, for a command and its documents.
fn links(arguments: &Arguments, command: &str) -> Parsed<Option<Links>> {
    let Some(folder) = arguments.value("links") else { return Ok(None) };
    let unread = |error: io::Error| format!("--links {folder}: {error}");
    let mut programs = Vec::new();
    for entry in std::fs::read_dir(folder).map_err(unread)? {
        programs.push(entry.map_err(unread)?.path());
    }
    programs.sort();
    if programs.is_empty() {
        return Err(format!("--links {folder}: no program there"));
    }
    let words = std::iter::once(command.to_string()).chain(arguments.operands.clone()).collect();
    Ok(Some(Links { programs, words }))
}

/// In how many sittings another link of this program wants its rows.
fn sittings(arguments: &Arguments) -> Parsed<Option<usize>> {
    let Some(count) = arguments.value("sittings") else { return Ok(None) };
    let count = count.parse().ok().filter(|count| (1..=1_000).contains(count));
    count.map(Some).ok_or("--sittings: not a number of 1 to 1,000".into())
}

/// Times of the port and of the Rust on stored documents: rendering, then building. With `--bar 1` it fails
/// where one is over its bar, with `--allowed 1` where one is over what is allowed.
fn run_bench(arguments: &Arguments) -> Parsed<ExitCode> {
    let asked = asked(arguments)?;
    let (sittings, links) = (sittings(arguments)?, links(arguments, "bench")?);
    let mut pages = Vec::new();
    let read = |path: &String| {
        timed(path, |name, document| {
            bench::accepts(document).then(|| pages.push((name.to_string(), document.to_vec())))
        })
    };
    let refused = arguments.operands.iter().map(read).filter(|read| !read).count();
    if let Some(sittings) = sittings {
        bench::print_plain(&bench::five_tables(&pages, sittings));
        return Ok(status(refused == 0));
    }
    let faults = bench::five_pages(&pages, links.as_ref());
    Ok(status(barred(asked, &faults) && refused == 0))
}

/// Times on pages of 1 to 32 KB that are made from one stored document, then on the worst pages. With `--bar 1`
/// it fails where one of these is over its bar, with `--allowed 1` where one is over what is allowed.
fn run_growth(arguments: &Arguments) -> Parsed<ExitCode> {
    let asked = asked(arguments)?;
    let (sittings, links) = (sittings(arguments)?, links(arguments, "growth")?);
    let mut fine = true;
    let read = timed(arguments.operand()?, |name, document| match sittings {
        Some(sittings) => {
            bench::growth_tables(name, document, sittings).map(|it| bench::print_plain(&it))
        }
        None => {
            let faults = bench::growth(name, document, links.as_ref())?;
            fine = barred(asked, &faults);
            Some(())
        }
    });
    Ok(status(read && fine))
}

/// Random sequences of builder calls, by a draft and without one.
fn run_drafts(arguments: &Arguments) -> Parsed<ExitCode> {
    arguments.no_operand()?;
    let (seed, cases) = (arguments.number("seed", None)?, arguments.number("cases", None)?);
    #[cfg(feature = "linked")]
    {
        let (calls, mismatches) = oracle::drafts::compare(seed, cases);
        println!(
            "{cases} sequences, {calls} calls by a draft and without, {mismatches} mismatches"
        );
        Ok(status(mismatches == 0))
    }
    #[cfg(not(feature = "linked"))]
    unreachable!("{seed} {cases}")
}

/// The text of one document, or the refusal line of 01's program.
fn run_answer(arguments: &Arguments) -> Parsed<ExitCode> {
    let width = arguments.number("width", Some(PROGRAM_WIDTH))?;
    let full = arguments.flag("full", true)?;
    let characters = arguments.flag("characters", false)?;
    let css = arguments.flag("css", false)?;
    let room = arguments.number("room", Some(PROGRAM_ROOM))?;
    let room = usize::try_from(room).ok().filter(|&n| n <= 1 << 30).ok_or("--room: too large")?;
    let renderer = match arguments.operand()? {
        "console" => Renderer::Console { width, full, characters },
        "html" => Renderer::Html { full, css, strict: false },
        "html_strict" => Renderer::Html { full, css, strict: true },
        "markdown" => Renderer::Markdown { full },
        "roff" => Renderer::Roff,
        other => return Err(format!("{other}: no such renderer")),
    };
    let mut document = Vec::new();
    if let Err(error) = io::stdin().read_to_end(&mut document) {
        eprintln!("oracle: {error}");
        return Ok(ExitCode::FAILURE);
    }
    let case = Case {
        call: Call::Render(renderer),
        document,
        room: pattern(0, room).collect(),
        length: 0,
    };
    let answer = answer(&case);
    if let Err(message) = confirm(&case, &answer) {
        eprintln!("oracle: it disagrees with itself: {message}");
        return Ok(ExitCode::FAILURE);
    }
    Ok(match answer.number {
        0 => write_out(&answer.room[..answer.at as usize]),
        number => write_out(format!("refused {number} at {}\n", answer.at).as_bytes()),
    })
}

/// A list of cases with their answers, each confirmed by the kept Rust.
fn run_record(arguments: &Arguments) -> Parsed<ExitCode> {
    let kind = arguments.operand()?;
    let listed = Subject::named(kind).filter(|subject| subject.is_listed());
    let subject = listed.ok_or(format!("{kind}: no such kind"))?;
    let (seed, cases) = (arguments.number("seed", None)?, arguments.number("cases", None)?);
    let most = arguments.number("max-bytes", Some(Limits::RECORDED.bytes as u64))?;
    let limits = Limits { bytes: most.min(40_000) as usize, recorded: true };
    let mut out = Vec::new();
    for index in 0..cases {
        let case = generate::case(subject, seed, index, limits);
        let answer = answer(&case);
        if let Err(message) = confirm(&case, &answer) {
            eprintln!("oracle: case {index}: it disagrees with itself: {message}");
            return Ok(ExitCode::FAILURE);
        }
        list(&case, &answer, &mut out);
    }
    Ok(write_out(&out))
}

fn hex(bytes: &[u8]) -> String {
    bytes.iter().map(|b| format!("{b:02x}")).collect::<Vec<_>>().join(" ")
}

fn show(case: &Case) -> String {
    format!(
        "  call {:?}, room of {} bytes, length so far {}\n  document {}\n{}",
        case.call,
        case.room.len(),
        case.length,
        hex(&case.document),
        match case.call {
            Call::Build(_) => format!("  room before {}\n", hex(&case.room)),
            _ => String::new(),
        }
    )
}

fn show_answer(name: &str, answer: &Answer) -> String {
    format!(
        "  {name} number {} at {} length {} numbers {:?} chunks {:?} room {}\n",
        answer.number,
        answer.at,
        answer.length,
        answer.numbers,
        answer.chunks,
        hex(&answer.room)
    )
}

/// Runs `cases` cases of the subjects in turn; `fault` says what is wrong with one.
/// The last line is `cases N WORD M`.
fn run_cases(
    subjects: &[Subject],
    arguments: &Arguments,
    word: &str,
    fault: impl Fn(&Case, &Answer) -> Option<String>,
) -> Parsed<ExitCode> {
    let (seed, cases) = (arguments.number("seed", None)?, arguments.number("cases", None)?);
    let mut faults = 0;
    for index in 0..cases {
        let subject = subjects[(index % subjects.len() as u64) as usize];
        let case = generate::case(subject, seed, index, Limits::COMPARED);
        if let Some(message) = fault(&case, &answer(&case)) {
            faults += 1;
            if faults <= PRINTED {
                println!("case {index}:\n{}{message}", show(&case));
            }
        }
    }
    println!("cases {cases} {word} {faults}");
    Ok(if faults == 0 { ExitCode::SUCCESS } else { ExitCode::FAILURE })
}

/// The port beside the oracle, through the C interface.
fn run_compare(arguments: &Arguments) -> Parsed<ExitCode> {
    arguments.no_operand()?;
    run_cases(&arguments.subjects()?, arguments, "mismatches", |case, expected| {
        if let Err(message) = confirm(case, expected) {
            return Some(format!("  the oracle disagrees with itself: {message}\n"));
        }
        match port::call(case) {
            Ok(got) if got == *expected => None,
            Ok(got) => Some(show_answer("expected", expected) + &show_answer("got     ", &got)),
            Err(message) => {
                Some(format!("{}  got      {message}\n", show_answer("expected", expected)))
            }
        }
    })
}

/// The oracle's reading of 01 beside the kept Rust.
fn run_selfcheck(arguments: &Arguments) -> Parsed<ExitCode> {
    arguments.no_operand()?;
    run_cases(&arguments.subjects()?, arguments, "disagreements", |case, answer| {
        confirm(case, answer).err().map(|message| format!("  {message}\n"))
    })
}

/// What the generator reaches: each misreading that 01 names must change the console's text, each
/// worthless version must give another answer, and each number must be given by each subject that can
/// give it.
fn run_reach(arguments: &Arguments) -> Parsed<ExitCode> {
    arguments.no_operand()?;
    let (seed, cases) = (arguments.number("seed", None)?, arguments.number("cases", None)?);
    let mut complete = true;
    for misread in Misreading::ALL {
        let (told, first) = generate::told_apart(misread, seed, cases, Limits::COMPARED);
        complete &= told > 0;
        println!("{misread:?}: told apart by {told} of {cases} cases, first by case {first:?}");
    }
    for worthless in Worthless::ALL {
        let mut caught = Vec::new();
        for (subject, name) in Subject::ALL {
            if worthless.concerns(subject) {
                let first = worthless.first_caught(subject, seed, cases);
                complete &= first.is_some();
                caught.push(match first {
                    Some(index) => format!("{name} {index}"),
                    None => format!("{name} NOT CAUGHT"),
                });
            }
        }
        println!("{worthless:?}: first caught by case: {}", caught.join(", "));
    }
    for (subject, name) in Subject::ALL {
        let counts = generate::numbers(subject, seed, cases);
        let missing: Vec<u32> =
            generate::owed(subject).iter().copied().filter(|&n| counts[n as usize] == 0).collect();
        complete &= missing.is_empty();
        let given: Vec<String> = (1..counts.len())
            .filter(|&n| counts[n] > 0)
            .map(|n| format!("{n} {} times", counts[n]))
            .collect();
        println!("{name}: accepted {}, refused {given:?}, missing {missing:?}", counts[0]);
    }
    println!("reach {}", if complete { "complete" } else { "incomplete" });
    Ok(if complete { ExitCode::SUCCESS } else { ExitCode::FAILURE })
}
