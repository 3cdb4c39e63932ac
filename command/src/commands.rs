//! The commands: what each takes, and what it does.

use std::ffi::{OsStr, OsString};

use sefgrunn::{joined, Html, Measure, Number, Refusal, Settings, Shape};

use crate::arguments::{self, Flag, Given};
use crate::records::{self, Kind};
use crate::{files, help, say, terminal, Fault, Outcome, Status};

/// A command: its name, what stands for its operands, its options, one sentence, more sentences, and what it
/// does.
pub struct Command {
    pub name: &'static str,
    pub operands: &'static str,
    pub flags: &'static [&'static Flag],
    pub summary: &'static str,
    pub about: &'static str,
    run: fn(&Given) -> Outcome,
}

const HELP: Flag = Flag { long: "help", letter: Some('h'), value: None, help: "Print this help" };
const OUTPUT: Flag = Flag {
    long: "output",
    letter: Some('o'),
    value: Some("FILE"),
    help: "Write to FILE instead of standard output; a run that fails leaves the old file",
};
const BRIEF: Flag = Flag {
    long: "brief",
    letter: Some('b'),
    value: None,
    help: "Only up to the first empty line of each text",
};
const WIDTH: Flag = Flag {
    long: "width",
    letter: Some('w'),
    value: Some("N"),
    help: "Columns, 0 to 10000; 'auto', the default, takes those of the terminal, or 100 where the text goes elsewhere",
};
const CHARACTERS: Flag = Flag {
    long: "characters",
    letter: Some('c'),
    value: None,
    help: "Fold lines by characters instead of bytes",
};
const STRICT: Flag = Flag {
    long: "strict",
    letter: Some('s'),
    value: None,
    help: "Escape every '&', so that a page shows '&lt;' where the text has it",
};
const NO_CSS: Flag =
    Flag { long: "no-css", letter: None, value: None, help: "Leave out the style sheet" };
const TITLE: Flag = Flag {
    long: "title",
    letter: Some('t'),
    value: Some("NAME"),
    help: "Write the lines .TH and .nh before the text, so that 'man -l' shows it as a page and breaks no option",
};
const SECTION: Flag = Flag {
    long: "section",
    letter: Some('s'),
    value: Some("N"),
    help: "The section of the manual for --title; 1 if not given",
};
const HEIGHT: Flag =
    Flag { long: "height", letter: Some('H'), value: Some("N"), help: "Rows of a page, 1 to 200" };
const PAGE: Flag = Flag {
    long: "page",
    letter: Some('p'),
    value: Some("K"),
    help: "Write this page; the first is 1",
};
const DOCUMENT: Flag = Flag {
    long: "document",
    letter: None,
    value: None,
    help: "Write the help as a stored document",
};
const BASH: Flag =
    Flag { long: "bash", letter: None, value: None, help: "Write the completion for bash" };

/// All commands, in the order of the help.
pub const COMMANDS: &[Command] = &[
    Command {
        name: "console",
        operands: "[FILE]",
        flags: &[&WIDTH, &BRIEF, &CHARACTERS, &OUTPUT, &HELP],
        summary: "Text for a terminal, folded at a width",
        about: "At every width the text has the document's printing characters, all of them, in order; white space may move.",
        run: console,
    },
    Command {
        name: "html",
        operands: "[FILE]",
        flags: &[&STRICT, &NO_CSS, &BRIEF, &OUTPUT, &HELP],
        summary: "An HTML page",
        about: "",
        run: html,
    },
    Command {
        name: "markdown",
        operands: "[FILE]",
        flags: &[&BRIEF, &OUTPUT, &HELP],
        summary: "Markdown",
        about: "",
        run: markdown,
    },
    Command {
        name: "roff",
        operands: "[FILE]",
        flags: &[&TITLE, &SECTION, &OUTPUT, &HELP],
        summary: "Roff, for manual pages",
        about: "Without --title the text is the body of a page.",
        run: roff,
    },
    Command {
        name: "check",
        operands: "[FILE..]",
        flags: &[&HELP],
        summary: "Whether files are stored documents",
        about: "Prints nothing of those that are.",
        run: check,
    },
    Command {
        name: "show",
        operands: "[FILE]",
        flags: &[&OUTPUT, &HELP],
        summary: "The records: place, kind and text, indented by depth",
        about: "",
        run: show,
    },
    Command {
        name: "terms",
        operands: "[FILE..]",
        flags: &[&OUTPUT, &HELP],
        summary: "The terms of lists, one a line, each after its place and a tab",
        about: "With several files the file's name and a colon stand first. A line end in a term is shown as \\n.",
        run: terms,
    },
    Command {
        name: "shape",
        operands: "[FILE..]",
        flags: &[&HELP],
        summary: "Whether documents have house shape",
        about: "Lists hold pairs of a term and a body, and these stand nowhere else. Of others it names the first record that is out of place, with status 1.",
        run: shape,
    },
    Command {
        name: "notes",
        operands: "[FILE]",
        flags: &[&OUTPUT, &HELP],
        summary: "A stored document from a writer's notes",
        about: "A line starting '# ' becomes a heading, one starting '- ' an item; an empty line separates; what stands in a pair of backticks is literal.",
        run: notes,
    },
    Command {
        name: "merge",
        operands: "FIRST SECOND",
        flags: &[&OUTPUT, &HELP],
        summary: "One option list from two",
        about: "Each is a single list with ascending terms. Where both have a term, the first one's item stands.",
        run: merge,
    },
    Command {
        name: "join",
        operands: "[FILE]",
        flags: &[&OUTPUT, &HELP],
        summary: "A document's joined form, with its text in one place",
        about: "",
        run: join,
    },
    Command {
        name: "unjoin",
        operands: "[FILE]",
        flags: &[&OUTPUT, &HELP],
        summary: "The document of a joined form",
        about: "",
        run: unjoin,
    },
    Command {
        name: "bundle",
        operands: "FILE..",
        flags: &[&OUTPUT, &HELP],
        summary: "Several documents in one bundle, of at most 65,536 bytes",
        about: "Documents are not checked: 'figures' counts those that are refused.",
        run: bundle,
    },
    Command {
        name: "figures",
        operands: "[FILE]",
        flags: &[&OUTPUT, &HELP],
        summary: "The figures of a bundle: documents, accepted, refused, characters",
        about: "",
        run: figures,
    },
    Command {
        name: "pages",
        operands: "[FILE]",
        flags: &[&HEIGHT, &PAGE, &OUTPUT, &HELP],
        summary: "How many pages of a height a text has, or one of them",
        about: "The input is a text, as 'console' writes it, and any bytes are one.",
        run: pages,
    },
    Command {
        name: "room",
        operands: "[FILE]",
        flags: &[&OUTPUT, &HELP],
        summary: "How many bytes of room the console text of a document needs at most",
        about: "",
        run: room,
    },
    Command {
        name: "help",
        operands: "[COMMAND]",
        flags: &[&DOCUMENT, &BASH, &WIDTH, &OUTPUT, &HELP],
        summary: "This help, or that of a command",
        about: "",
        run: print_help,
    },
];

/// Runs the command that the words name.
pub fn run(words: &[OsString]) -> Outcome {
    let Some((first, rest)) = words.split_first() else {
        return Err(Fault::failed("a command is missing; try 'sefgrunn --help'"));
    };
    match first.to_str() {
        Some("--help" | "-h") => return print_help(&Given::default()),
        Some("--version" | "-V") => {
            let version = format!("sefgrunn {}\n", env!("CARGO_PKG_VERSION"));
            files::write(None, version.as_bytes())?;
            return Ok(Status::Accepted);
        }
        _ => {}
    }
    let Some(command) = COMMANDS.iter().find(|command| first == command.name) else {
        let word = files::shown(first);
        return Err(Fault::failed(format!("{word}: no such command; try 'sefgrunn --help'")));
    };
    let usage = |fault: Fault| {
        let (name, message) = (command.name, fault.message);
        Fault::failed(format!("{name}: {message}; try 'sefgrunn {name} --help'"))
    };
    let given = arguments::read(rest, command.flags).map_err(usage)?;
    if given.has("help") {
        return print(&help::of(command).map_err(internal)?, terminal::columns(), None);
    }
    let most = match command.operands {
        "[FILE]" | "[COMMAND]" => 1,
        "FIRST SECOND" => 2,
        _ => usize::MAX,
    };
    let least = match command.operands {
        "FIRST SECOND" => 2,
        "FILE.." => 1,
        _ => 0,
    };
    if !(least..=most).contains(&given.operands.len()) {
        let message =
            format!("{} operands given, {} expected", given.operands.len(), command.operands);
        return Err(usage(Fault::failed(message)));
    }
    (command.run)(&given)
}

// ---------------------------------------------------------------------------------------------
// Input, output, messages

/// The only operand, or standard input.
fn input(given: &Given) -> &OsStr {
    given.operands.first().map_or(OsStr::new("-"), OsString::as_os_str)
}

/// A stored document, or too many bytes for one.
fn document(path: &OsStr) -> Result<Vec<u8>, Fault> {
    files::read(path, sefgrunn::MOST_BYTES)
}

fn answer(given: &Given, bytes: impl AsRef<[u8]>) -> Outcome {
    files::write(given.value("output"), bytes.as_ref())?;
    Ok(Status::Accepted)
}

/// A refusal of a file, without what stands at its place.
fn refused(path: &OsStr, refusal: Refusal) -> Fault {
    Fault::refused(format!("{}: {refusal}", files::name(path)))
}

/// The most bytes of a text that a message shows.
const MOST_SHOWN: usize = 60;

/// A refusal of a document, with what stands at its place.
fn refused_there(path: &OsStr, document: &[u8], refusal: Refusal) -> Fault {
    let mut fault = refused(path, refusal);
    let there = match refusal.number {
        Number::BeyondMargin => Some(quoted(records::word_at(document, refusal.place))),
        Number::NotUtf8 => records::at(document, refusal.place).map(|record| quoted(record.body)),
        Number::UnknownKind
        | Number::BlockWithBody
        | Number::WrongEnd
        | Number::TooDeep
        | Number::NoForm => {
            records::at(document, refusal.place).map(|record| record.kind.to_string())
        }
        _ => None,
    };
    if let Some(there) = there {
        fault.message += ": ";
        fault.message += &there;
    }
    fault
}

fn quoted(text: &[u8]) -> String {
    let (shown, more) = match text.get(..MOST_SHOWN) {
        // a character that is cut is left out
        Some(first) => (first.utf8_chunks().next().map_or(first, |c| c.valid().as_bytes()), ".."),
        None => (text, ""),
    };
    format!("\"{}\"{more}", records::escaped(shown).replace('"', "\\\""))
}

/// A refusal where the library's own document is at fault.
fn internal(refusal: Refusal) -> Fault {
    Fault::failed(format!("its own help: {refusal}"))
}

/// The worst status over several files, standard input if none is named. What is wrong with one is said,
/// and the others follow.
fn each(given: &Given, mut of: impl FnMut(&OsStr) -> Outcome) -> Outcome {
    let only = [OsString::from("-")];
    let files = if given.operands.is_empty() { &only[..] } else { &given.operands };
    let mut worst = Status::Accepted;
    for file in files {
        let status = of(file).unwrap_or_else(|fault| {
            say(&fault.message);
            fault.status
        });
        worst = worst.max(status);
    }
    Ok(worst)
}

// ---------------------------------------------------------------------------------------------
// Renderers

fn width(given: &Given) -> Result<usize, Fault> {
    match given.value("width") {
        Some(value) if value != "auto" => match given.number("width") {
            Ok(number) => Ok(number.unwrap_or(terminal::OTHERWISE)),
            Err(_) => {
                let value = files::shown(value);
                Err(Fault::failed(format!("--width {value}: neither a number nor 'auto'")))
            }
        },
        // a file is no terminal
        _ if given.value("output").is_some_and(|path| path != "-") => Ok(terminal::OTHERWISE),
        _ => Ok(terminal::columns()),
    }
}

fn console(given: &Given) -> Outcome {
    let measure = if given.has("characters") { Measure::Characters } else { Measure::Bytes };
    let settings = Settings { width: width(given)?, full: !given.has("brief"), measure };
    let document = document(input(given))?;
    let text = sefgrunn::console_string(&document, settings)
        .map_err(|refusal| refused_there(input(given), &document, refusal))?;
    answer(given, text)
}

fn html(given: &Given) -> Outcome {
    let settings = Html { full: !given.has("brief"), css: !given.has("no-css") };
    let document = document(input(given))?;
    let text = if given.has("strict") {
        sefgrunn::html_strict_string(&document, settings)
    } else {
        sefgrunn::html_string(&document, settings)
    };
    answer(given, text.map_err(|refusal| refused_there(input(given), &document, refusal))?)
}

fn markdown(given: &Given) -> Outcome {
    let document = document(input(given))?;
    let text = sefgrunn::markdown_string(&document, !given.has("brief"));
    answer(given, text.map_err(|refusal| refused_there(input(given), &document, refusal))?)
}

/// The lines before a manual page: its title, and one that turns hyphenation off.
fn title_lines(given: &Given) -> Result<String, Fault> {
    let Some(title) = given.value("title") else {
        return match given.value("section") {
            Some(_) => Err(Fault::failed("roff: --section needs --title")),
            None => Ok(String::new()),
        };
    };
    let word = |name: &str, value: &OsStr| match value.to_str() {
        Some(text) if !text.is_empty() && !text.chars().any(char::is_control) => {
            // in a quoted argument of a roff request a quotation mark is doubled
            Ok(format!("\"{}\"", text.replace('\\', "\\e").replace('"', "\"\"")))
        }
        _ => Err(Fault::failed(format!("roff: --{name} {}: not a word", files::shown(value)))),
    };
    let section = given.value("section").unwrap_or(OsStr::new("1"));
    Ok(format!(".TH {} {}\n.nh\n", word("title", title)?, word("section", section)?))
}

fn roff(given: &Given) -> Outcome {
    let before = title_lines(given)?;
    let document = document(input(given))?;
    let text = sefgrunn::roff_string(&document)
        .map_err(|refusal| refused_there(input(given), &document, refusal))?;
    answer(given, before + &text)
}

// ---------------------------------------------------------------------------------------------
// Looking at documents

fn check(given: &Given) -> Outcome {
    each(given, |file| {
        let document = document(file)?;
        sefgrunn::check(&document).map_err(|refusal| refused_there(file, &document, refusal))?;
        Ok(Status::Accepted)
    })
}

fn shape(given: &Given) -> Outcome {
    each(given, |file| {
        let document = document(file)?;
        match sefgrunn::house_shape(&document) {
            Ok(Shape::House) => Ok(Status::Accepted),
            Ok(Shape::Other(place)) => {
                let record = records::at(&document, place)
                    .map_or(String::new(), |record| record.kind.to_string());
                let name = files::name(file);
                Err(Fault::refused(format!(
                    "{name}: no house shape: out of place at {place}: {record}"
                )))
            }
            Err(refusal) => Err(refused_there(file, &document, refusal)),
        }
    })
}

fn show(given: &Given) -> Outcome {
    let document = document(input(given))?;
    sefgrunn::check(&document)
        .map_err(|refusal| refused_there(input(given), &document, refusal))?;
    let mut lines = String::new();
    let mut depth = 0usize;
    for record in records::all(&document) {
        if let Kind::End(_) = record.kind {
            depth = depth.saturating_sub(1);
        }
        let text = match record.kind {
            Kind::Text(style) => {
                format!("{style} \"{}\"", records::escaped(record.body).replace('"', "\\\""))
            }
            other => other.to_string(),
        };
        lines += &format!("{:5}  {:indent$}{text}\n", record.place, "", indent = 2 * depth);
        if let Kind::Start(_) = record.kind {
            depth += 1;
        }
    }
    answer(given, lines)
}

fn terms(given: &Given) -> Outcome {
    let several = given.operands.len() > 1;
    let mut lines = String::new();
    let worst = each(given, |file| {
        let document = document(file)?;
        sefgrunn::check(&document).map_err(|refusal| refused_there(file, &document, refusal))?;
        for (place, text) in records::terms(&document) {
            if several {
                lines += &files::name(file);
                lines.push(':');
            }
            lines += &format!("{place}\t{}\n", records::escaped(&text));
        }
        Ok(Status::Accepted)
    })?;
    files::write(given.value("output"), lines.as_bytes())?;
    Ok(worst)
}

// ---------------------------------------------------------------------------------------------
// Making documents and other forms

fn notes(given: &Given) -> Outcome {
    let notes = files::read(input(given), sefgrunn::MOST_BYTES)?;
    let document = sefgrunn::notes_document(&notes).map_err(|refusal| {
        let mut fault = refused(input(given), refusal);
        match (refusal.number, std::str::from_utf8(&notes)) {
            (Number::NotesNotUtf8, Err(error)) => {
                fault.message += &format!(": at byte {}", error.valid_up_to());
            }
            (Number::NoRoom, _) => fault.message += ": the document would be over 32,768 bytes",
            _ => {}
        }
        fault
    })?;
    answer(given, document)
}

fn merge(given: &Given) -> Outcome {
    let (first, second) = (&given.operands[0], &given.operands[1]);
    if first == "-" && second == "-" {
        return Err(Fault::failed("merge: standard input can be one side only"));
    }
    let (one, other) = (document(first)?, document(second)?);
    let merged = sefgrunn::merged(&one, &other).map_err(|refusal| {
        // a side that is refused is refused beside itself too
        let of_first = sefgrunn::merged(&one, &one) == Err(refusal);
        match refusal.number {
            Number::NoRoom => {
                let names = format!("{} and {}", files::name(first), files::name(second));
                Fault::refused(format!("{names}: {refusal}: the list would be over 32,768 bytes"))
            }
            _ if of_first => refused_there(first, &one, refusal),
            _ => refused_there(second, &other, refusal),
        }
    })?;
    answer(given, merged)
}

fn join(given: &Given) -> Outcome {
    let document = document(input(given))?;
    let form = joined::from_document(&document)
        .map_err(|refusal| refused_there(input(given), &document, refusal))?;
    answer(given, form)
}

fn unjoin(given: &Given) -> Outcome {
    let form = files::read(input(given), joined::MOST_JOINED_BYTES)?;
    let document = joined::to_document(&form).map_err(|refusal| refused(input(given), refusal))?;
    answer(given, document)
}

fn bundle(given: &Given) -> Outcome {
    let documents: Result<Vec<_>, _> =
        given.operands.iter().map(|file| files::read(file, sefgrunn::MOST_BUNDLE_BYTES)).collect();
    let bundle = sefgrunn::bundle(documents?);
    if bundle.len() > sefgrunn::MOST_BUNDLE_BYTES {
        let refusal = Refusal { number: Number::BundleTooLong, place: 0 };
        return Err(Fault::refused(format!("bundle: {refusal}")));
    }
    answer(given, bundle)
}

fn figures(given: &Given) -> Outcome {
    let bundle = files::read(input(given), sefgrunn::MOST_BUNDLE_BYTES)?;
    let figures = sefgrunn::figures(&bundle).map_err(|refusal| refused(input(given), refusal))?;
    answer(given, format!("{figures}\n"))
}

/// The most bytes of a text that `pages` reads: far more than any console text has.
const MOST_TEXT: usize = 64 << 20;

fn pages(given: &Given) -> Outcome {
    let Some(height) = given.number("height")? else {
        return Err(Fault::failed("pages: --height is missing; try 'sefgrunn pages --help'"));
    };
    let page = given.number("page")?;
    let path = input(given);
    let text = files::read(path, MOST_TEXT)?;
    if text.len() > MOST_TEXT {
        return Err(Fault::failed(format!("{}: over {MOST_TEXT} bytes", files::name(path))));
    }
    match page {
        Some(page) => {
            let page = sefgrunn::page(&text, height, page);
            answer(given, page.map_err(|refusal| refused(path, refusal))?)
        }
        None => {
            let count = sefgrunn::page_count(&text, height);
            answer(given, format!("{}\n", count.map_err(|refusal| refused(path, refusal))?))
        }
    }
}

fn room(given: &Given) -> Outcome {
    let document = document(input(given))?;
    let bound = sefgrunn::room_bound(&document)
        .map_err(|refusal| refused_there(input(given), &document, refusal))?;
    answer(given, format!("{bound}\n"))
}

// ---------------------------------------------------------------------------------------------
// Help

/// Prints a document of the help.
fn print(document: &[u8], width: usize, output: Option<&OsStr>) -> Outcome {
    let settings = Settings { width, ..Settings::default() };
    let mut text = sefgrunn::console_string(document, settings).map_err(internal)?;
    if !text.ends_with('\n') {
        text.push('\n');
    }
    files::write(output, text.as_bytes())?;
    Ok(Status::Accepted)
}

fn print_help(given: &Given) -> Outcome {
    if given.has("bash") {
        return answer(given, help::bash());
    }
    let document = match given.operands.first() {
        None => help::page(),
        Some(name) => match COMMANDS.iter().find(|command| name == command.name) {
            Some(command) => help::of(command),
            None => {
                let word = files::shown(name);
                return Err(Fault::failed(format!(
                    "{word}: no such command; try 'sefgrunn --help'"
                )));
            }
        },
    };
    let document = document.map_err(internal)?;
    if given.has("document") {
        return answer(given, document);
    }
    print(&document, width(given)?, given.value("output"))
}
