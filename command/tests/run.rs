//! The program `sefgrunn`, run as a person would run it: each command, and bad input of each kind.

use std::fs::{self, File};
use std::io::Write;
use std::path::PathBuf;
use std::process::{Command, Output, Stdio};

/// A folder for one test, removed at its end.
struct Folder(PathBuf);

impl Folder {
    fn new(name: &str) -> Self {
        let path = std::env::temp_dir().join(format!("sefgrunn-{}-{name}", std::process::id()));
        fs::create_dir_all(&path).expect("a folder for the test");
        Folder(path)
    }

    fn file(&self, name: &str, bytes: &[u8]) -> String {
        let path = self.0.join(name);
        fs::write(&path, bytes).expect("a file of the test");
        path.into_os_string().into_string().expect("a path in UTF-8")
    }

    fn path(&self, name: &str) -> String {
        self.0.join(name).into_os_string().into_string().expect("a path in UTF-8")
    }
}

impl Drop for Folder {
    fn drop(&mut self) {
        let _ = fs::remove_dir_all(&self.0);
    }
}

fn sefgrunn(words: &[&str]) -> Command {
    let mut command = Command::new(env!("CARGO_BIN_EXE_sefgrunn"));
    command.args(words).stdin(Stdio::null()).env_remove("COLUMNS");
    command
}

fn run(words: &[&str]) -> Output {
    sefgrunn(words).output().expect("the program runs")
}

fn run_on(words: &[&str], input: &[u8]) -> Output {
    let mut child = sefgrunn(words)
        .stdin(Stdio::piped())
        .stdout(Stdio::piped())
        .stderr(Stdio::piped())
        .spawn()
        .expect("the program runs");
    // a program that has read enough closes its end
    let _ = child.stdin.take().expect("its standard input").write_all(input);
    child.wait_with_output().expect("the program ends")
}

/// What an accepted run wrote.
fn accepted(words: &[&str], input: &[u8]) -> Vec<u8> {
    let output = run_on(words, input);
    assert_eq!(said(&output), "", "{words:?}");
    assert_eq!(output.status.code(), Some(0), "{words:?}");
    output.stdout
}

fn said(output: &Output) -> &str {
    std::str::from_utf8(&output.stderr).expect("messages are UTF-8")
}

/// A run that writes nothing but one line on standard error.
fn fails(words: &[&str], input: &[u8], status: i32, message: &str) {
    let output = run_on(words, input);
    assert_eq!(said(&output), format!("sefgrunn: {message}\n"), "{words:?}");
    assert_eq!(output.status.code(), Some(status), "{words:?}");
    assert_eq!(output.stdout, b"", "{words:?}");
}

/// A record of a stored document.
fn record(kind: u16, body: &[u8]) -> Vec<u8> {
    let mut record = (body.len() as u32).to_le_bytes().to_vec();
    record.extend(kind.to_le_bytes());
    record.extend(body);
    record
}

fn text(body: &str) -> Vec<u8> {
    record(1, body.as_bytes())
}

/// A list of one item for each pair.
fn list(items: &[(&str, &str)]) -> Vec<u8> {
    let mut list = record(0x0106, b"");
    for (term, body) in items {
        list.extend(
            [record(0x0104, b""), record(3, term.as_bytes()), record(0x0204, b"")].concat(),
        );
        list.extend([record(0x0105, b""), text(body), record(0x0205, b"")].concat());
    }
    list.extend(record(0x0206, b""));
    list
}

#[test]
fn each_renderer_writes_the_text() {
    let page = list(&[("-p", "port")]);
    assert_eq!(accepted(&["console"], &page), b"    -p  port");
    assert_eq!(accepted(&["console", "-w", "100", "-"], &page), b"    -p  port");
    assert_eq!(accepted(&["console", "--width=3"], &text("é é")), "é\né".as_bytes());
    assert_eq!(accepted(&["console", "-cw3"], &text("é é")), "é é".as_bytes());
    assert_eq!(accepted(&["console", "--brief"], &text("a\n\nb")), b"a\n");
    assert_eq!(accepted(&["html", "--no-css"], &text("&lt;")), b"&lt;");
    assert_eq!(accepted(&["html", "--no-css", "--strict"], &text("&lt;")), b"&amp;lt;");
    assert!(accepted(&["html"], &text("a")).starts_with(b"a"));
    assert_ne!(accepted(&["html"], &text("a")), accepted(&["html", "--no-css"], &text("a")));
    assert_eq!(accepted(&["markdown"], &record(3, b"-p")), b"**`-p`**");
    let body = accepted(&["roff"], &text("a"));
    let page = accepted(&["roff", "--title", "my \"tool\"", "--section=8"], &text("a"));
    assert_eq!(page, [&b".TH \"my \"\"tool\"\"\" \"8\"\n.nh\n"[..], &body].concat());
    assert!(accepted(&["roff", "-t", "x"], &text("a")).starts_with(b".TH \"x\" \"1\"\n.nh\n"));
}

#[test]
fn documents_are_shown() {
    let page = list(&[("-p", "the\nport"), ("-q", "\"quiet\"")]);
    let shown = "    0  start of DefinitionList
    6    start of ItemTerm
   12      Literal \"-p\"
   20    end of ItemTerm
   26    start of ItemBody
   32      Text \"the\\nport\"
   46    end of ItemBody
   52    start of ItemTerm
   58      Literal \"-q\"
   66    end of ItemTerm
   72    start of ItemBody
   78      Text \"\\\"quiet\\\"\"
   91    end of ItemBody
   97  end of DefinitionList
";
    assert_eq!(String::from_utf8(accepted(&["show"], &page)).unwrap(), shown);
    assert_eq!(accepted(&["terms"], &page), b"6\t-p\n52\t-q\n");
    assert_eq!(accepted(&["check"], &page), b"");
    assert_eq!(accepted(&["shape"], &page), b"");
    fails(
        &["shape"],
        &record(0x0104, b""),
        1,
        "standard input: refused 8 at 6: the document ends with a block open",
    );
    let term = [record(0x0104, b""), record(0x0204, b"")].concat();
    fails(
        &["shape"],
        &term,
        1,
        "standard input: no house shape: out of place at 0: start of ItemTerm",
    );
}

#[test]
fn several_files_have_the_worst_status() {
    let folder = Folder::new("several");
    let good = folder.file("good.doc", &list(&[("-p", "port")]));
    let bad = folder.file("bad.doc", &record(0x0200, b""));
    let missing = folder.path("missing.doc");
    for (files, status) in
        [(vec![&good, &good], 0), (vec![&good, &bad, &good], 1), (vec![&bad, &missing, &good], 2)]
    {
        for command in ["check", "shape", "terms"] {
            let words: Vec<&str> =
                [command].into_iter().chain(files.iter().map(|f| f.as_str())).collect();
            let output = run(&words);
            assert_eq!(output.status.code(), Some(status), "{words:?}");
            let refused =
                format!("sefgrunn: {bad}: refused 6 at 0: an end is not of the innermost open block: end of Header\n");
            assert_eq!(said(&output).contains(&refused), status > 0, "{words:?}");
        }
    }
    let output = run(&["terms", &good, &bad, &good]);
    assert_eq!(output.stdout, format!("{good}:6\t-p\n{good}:6\t-p\n").as_bytes());
}

#[test]
fn other_forms_are_made_and_read() {
    let folder = Folder::new("forms");
    let page = list(&[("-p", "port")]);
    let form = accepted(&["join"], &page);
    assert_eq!(accepted(&["unjoin"], &form), page);
    assert_eq!(form.len(), page.len() + 4);
    fails(
        &["unjoin"],
        b"abc",
        1,
        "standard input: refused 17 at 0: a joined form without its text",
    );

    let notes = accepted(&["notes"], b"# Ports\n\nSee `--port`.\n");
    assert_eq!(accepted(&["markdown"], &notes), b"# Ports\n\nSee **`--port`**.\n");
    fails(
        &["notes"],
        b"ab\xff",
        1,
        "standard input: refused 19 at 0: notes are not UTF-8: at byte 2",
    );

    let first = folder.file("first.doc", &list(&[("-a", "one"), ("-c", "one")]));
    let second = folder.file("second.doc", &list(&[("-b", "two"), ("-c", "two")]));
    let merged = run(&["merge", &first, &second]).stdout;
    assert_eq!(merged, list(&[("-a", "one"), ("-b", "two"), ("-c", "one")]));
    let wrong = folder.file("wrong.doc", &list(&[("-b", "x"), ("-a", "x")]));
    fails(
        &["merge", &first, &wrong],
        b"",
        1,
        &format!("{wrong}: refused 23 at 0: the terms of a side to merge do not ascend"),
    );
    fails(
        &["merge", "-", &second],
        &text("x"),
        1,
        "standard input: refused 22 at 0: a side to merge is not a single list",
    );

    let a_b = folder.file("a-b.doc", &text("a b"));
    let bad = folder.file("bad.doc", &record(0x0200, b""));
    let bundle = run(&["bundle", &a_b, &bad]).stdout;
    assert_eq!(accepted(&["figures"], &bundle), b"documents 2 accepted 1 refused 1 characters 2\n");
    fails(
        &["figures"],
        b"abc",
        1,
        "standard input: refused 15 at 0: a record of a bundle is cut short",
    );
    let large = folder.file("large.doc", &vec![0; 32_768]);
    fails(
        &["bundle", &large, &large],
        b"",
        1,
        "bundle: refused 16 at 0: the bundle is over 65,536 bytes",
    );

    assert_eq!(accepted(&["pages", "--height", "2"], b"a\nb\nc"), b"2\n");
    assert_eq!(accepted(&["pages", "-H2", "-p2"], b"a\nb\nc"), b"c");
    fails(
        &["pages", "-H2", "-p3"],
        b"a\nb\nc",
        1,
        "standard input: refused 21 at 0: there is no such page",
    );
    fails(&["pages"], b"a", 2, "pages: --height is missing; try 'sefgrunn pages --help'");
    assert_eq!(accepted(&["room"], &text("abc")), b"163\n");
}

#[test]
fn a_refusal_says_what_stands_there() {
    let deep =
        [record(0x0105, b"").repeat(9), text("word two"), record(0x0205, b"").repeat(9)].concat();
    fails(
        &["console"],
        &deep,
        1,
        "standard input: refused 10 at 60: text is more than 50 columns before its margin: \"word\"",
    );
    fails(
        &["html"],
        &[record(0x010A, b""), record(0x020A, b"")].concat(),
        1,
        "standard input: refused 11 at 0: this form has no such block: start of Meta",
    );
    fails(
        &["check"],
        &record(1, b"a\x1b\xff"),
        1,
        "standard input: refused 5 at 0: text is not UTF-8: \"a\\u{1b}\\xff\"",
    );
    fails(
        &["check"],
        &record(6, b""),
        1,
        "standard input: refused 3 at 0: unknown kind: kind 0x0006",
    );
    fails(&["check"], b"\x01", 1, "standard input: refused 2 at 0: a record is cut short");
}

#[test]
fn bad_input_has_one_clear_line() {
    let folder = Folder::new("bad");
    let missing = folder.path("missing.doc");
    fails(&["console", &missing], b"", 2, &format!("{missing}: no such file or directory"));
    let here = folder.path("");
    fails(&["console", &here], b"", 2, &format!("{here}: is a directory"));
    // reading at address 0 of a process fails, for root too
    fails(&["console", "/proc/self/mem"], b"", 2, "/proc/self/mem: input/output error");
    let large = folder.file("large.doc", &vec![0; 32_769]);
    fails(
        &["console", &large],
        b"",
        1,
        &format!("{large}: refused 1 at 0: the document is over 32,768 bytes"),
    );
    fails(
        &["check", "/dev/zero"],
        b"",
        1,
        "/dev/zero: refused 1 at 0: the document is over 32,768 bytes",
    );
    fails(
        &["console", "--wide"],
        b"",
        2,
        "console: unknown option --wide; try 'sefgrunn console --help'",
    );
    fails(&["console", "-z"], b"", 2, "console: unknown option -z; try 'sefgrunn console --help'");
    fails(&["console", "--width", "ten"], b"", 2, "--width ten: neither a number nor 'auto'");
    fails(
        &["console", "--width"],
        b"",
        2,
        "console: --width needs a value, N; try 'sefgrunn console --help'",
    );
    fails(
        &["console", "--brief=1"],
        b"",
        2,
        "console: --brief takes no value; try 'sefgrunn console --help'",
    );
    fails(
        &["console", "--width", "10001"],
        b"",
        1,
        "standard input: refused 9 at 0: the width is over 10,000",
    );
    fails(
        &["console", "a", "b"],
        b"",
        2,
        "console: 2 operands given, [FILE] expected; try 'sefgrunn console --help'",
    );
    fails(&["roff", "--section", "1"], b"", 2, "roff: --section needs --title");
    fails(&["roff", "--title", "a\nb"], b"", 2, "roff: --title a\\nb: not a word");
    fails(&["frob"], b"", 2, "frob: no such command; try 'sefgrunn --help'");
    fails(&[], b"", 2, "a command is missing; try 'sefgrunn --help'");
    // after -- a word is a file
    fails(&["check", "--", "--help"], b"", 2, "--help: no such file or directory");
}

#[test]
fn output_that_fails_is_said() {
    let full = File::options().write(true).open("/dev/full").expect("/dev/full");
    let output = sefgrunn(&["console", "../samples/prose.doc"]).stdout(full).output().unwrap();
    assert_eq!(said(&output), "sefgrunn: standard output: no space left on device\n");
    assert_eq!(output.status.code(), Some(2));
    let output = run(&["console", "../samples/prose.doc", "-o", "/dev/full"]);
    assert_eq!(said(&output), "sefgrunn: /dev/full: no space left on device\n");
    assert_eq!(output.status.code(), Some(2));
}

#[test]
fn a_closed_pipe_ends_it_quietly() {
    let mut child = sefgrunn(&["html", "../samples/options-30k.doc"])
        .stdout(Stdio::piped())
        .stderr(Stdio::piped())
        .spawn()
        .expect("the program runs");
    drop(child.stdout.take());
    let output = child.wait_with_output().expect("the program ends");
    assert_eq!(said(&output), "");
    assert_eq!(output.status.code(), Some(0));
}

#[test]
fn a_file_is_replaced_whole_or_not_at_all() {
    let folder = Folder::new("output");
    let out = folder.file("page.txt", b"old");
    accepted(&["console", "--output", &out], &text("new"));
    assert_eq!(fs::read(&out).unwrap(), b"new");
    fails(
        &["console", "-o", &out],
        &record(0x0200, b""),
        1,
        "standard input: refused 6 at 0: an end is not of the innermost open block: end of Header",
    );
    assert_eq!(fs::read(&out).unwrap(), b"new");
    let nowhere = folder.path("no/page.txt");
    fails(
        &["console", "-o", &nowhere],
        &text("x"),
        2,
        &format!("{nowhere}: no such file or directory"),
    );
    // a link stays a link
    let link = folder.path("link.txt");
    std::os::unix::fs::symlink(&out, &link).unwrap();
    accepted(&["console", "-o", &link], &text("through"));
    assert!(fs::symlink_metadata(&link).unwrap().is_symlink());
    assert_eq!(fs::read(&out).unwrap(), b"through");
    // nothing else is left in the folder
    let mut names: Vec<_> =
        fs::read_dir(&folder.0).unwrap().map(|entry| entry.unwrap().file_name()).collect();
    names.sort();
    assert_eq!(names, ["link.txt", "page.txt"]);
}

#[test]
fn help_is_a_document_of_its_own() {
    let help = run(&["--help"]);
    assert_eq!(help.status.code(), Some(0));
    let shown = String::from_utf8(help.stdout).unwrap();
    let document = accepted(&["help", "--document"], b"");
    assert_eq!(
        String::from_utf8(accepted(&["console"], &document)).unwrap().trim_end(),
        shown.trim_end()
    );
    accepted(&["check"], &document);
    accepted(&["shape"], &document);
    assert!(accepted(&["roff", "-t", "SEFGRUNN"], &document).len() > 1_000);
    // every command is in it, and has help of its own
    for line in accepted(&["help", "--bash"], b"").split(|&byte| byte == b'\n') {
        let line = std::str::from_utf8(line).unwrap();
        if let Some((name, _)) = line.trim().split_once(") options=") {
            assert!(shown.contains(&format!("\n    {name}")), "{name}");
            let own = accepted(&[name, "--help"], b"");
            assert!(own.starts_with(format!("Usage: sefgrunn {name} ").as_bytes()), "{name}");
            assert_eq!(own, accepted(&["help", name], b""), "{name}");
        }
    }
    assert_eq!(
        accepted(&["--version"], b""),
        format!("sefgrunn {}\n", env!("CARGO_PKG_VERSION")).as_bytes()
    );
}
