//! Writes stored documents that a person can try: `cargo run --example samples -- DIRECTORY`.
//!
//! The documents are built through `oracle::stored::Draft`, which is bpaf's `Doc` behind public
//! functions, in the shapes that bpaf's own help has: a block around a bracketed description, a
//! usage line in Mono, and for each group of options a Block with a Section2 and a DefinitionList.
//!
//! To store a document of your own with bpaf 0.9.28 at hand, put the function `Doc::stored` from
//! `oracle/src/bpaf/buffer.rs` (under its `// ADDED:` line; it needs nothing else) into a copy of the
//! crate's `src/buffer.rs`, build your `Doc` and write what `stored` gives to a file.
//!
//! `balancer` and its options are invented.

use std::fs;
use std::path::Path;
use std::process::ExitCode;

use oracle::merge::merged;
use oracle::notes;
use oracle::rules::{render, Renderer};
use oracle::stored::{put_record, Block, Draft};

/// A writer's notes, of which notes.doc is made.
const NOTES: &str = include_str!("../../samples/notes.md");

/// Short name (or none), long name, metavariable (or none), default (or none), help.
type Row = (&'static str, &'static str, &'static str, &'static str, &'static str);

const LISTENING: &[Row] = &[
    ("b", "bind", "ADDRESS", "0.0.0.0", "Address to listen on"),
    (
        "p",
        "port",
        "PORT",
        "8080",
        "Port to listen on\n\nGive 0 to take any free port; the one taken is printed on start.",
    ),
    ("", "tls-port", "PORT", "", "Port for encrypted connections; none if not given"),
    ("", "certificate", "FILE", "", "Certificate chain in PEM form"),
    ("", "private-key", "FILE", "", "Private key of the certificate"),
    ("", "backlog", "COUNT", "1024", "Connections that wait to be accepted"),
    ("", "reuse-port", "", "", "Let several processes listen on one port"),
    ("", "proxy-protocol", "", "", "Expect a PROXY line from each client"),
    ("", "client-timeout", "SECONDS", "30", "Close a client that is silent for so long"),
    ("", "header-limit", "BYTES", "16384", "Refuse requests whose headers are larger"),
    ("", "max-clients", "COUNT", "10000", "Clients served at once; others wait"),
    (
        "",
        "allow",
        "NETWORK",
        "",
        "Serve clients from this network only; may be given more than once",
    ),
    ("", "deny", "NETWORK", "", "Serve no clients from this network; tested before --allow"),
];

const BACKENDS: &[Row] = &[
    ("B", "backend", "HOST:PORT", "", "A server to pass requests to; may be given more than once"),
    ("", "backend-file", "FILE", "", "Read servers from a file, one on each line\n\nThe file is read again when it changes, without a restart:\n\n    # name     address          weight\n    alpha      10.0.0.1:8000    3\n    beta       10.0.0.2:8000    1\n\nLines that start with # are left out."),
    ("s", "strategy", "NAME", "round-robin", "How a server is chosen: round-robin, least-connections, hash or random"),
    ("", "hash-key", "FIELD", "client", "What the hash strategy looks at: client, path or a header's name"),
    ("", "weight", "NAME=N", "1", "Share of requests that a server gets"),
    ("", "connect-timeout", "MILLISECONDS", "500", "Give up on a server that does not accept in time"),
    ("", "response-timeout", "SECONDS", "60", "Give up on a response that does not begin in time"),
    ("", "retries", "COUNT", "2", "Other servers that are tried after a failure"),
    ("", "keep-alive", "COUNT", "32", "Idle connections kept open to each server"),
    ("", "sticky", "COOKIE", "", "Send a client to the server that it had before"),
    ("", "drain", "NAME", "", "Pass no new clients to this server"),
    ("", "maintenance-page", "FILE", "", "What clients get while no server is healthy"),
];

const HEALTH: &[Row] = &[
    ("", "check-path", "PATH", "/health", "Path that is asked for to test a server"),
    ("", "check-interval", "SECONDS", "5", "Time between two tests of a server"),
    ("", "check-timeout", "MILLISECONDS", "1000", "A test that takes longer has failed"),
    ("", "check-status", "CODES", "200-299", "Answers that count as healthy"),
    ("", "rise", "COUNT", "2", "Tests in a row that make a server healthy"),
    ("", "fall", "COUNT", "3", "Tests in a row that make it unhealthy"),
    ("", "no-checks", "", "", "Take every server as healthy"),
];

const GENERAL: &[Row] = &[
    ("c", "config", "FILE", "", "Read options from a file; those given here come first"),
    ("d", "daemon", "", "", "Run in the background"),
    ("", "pid-file", "FILE", "", "Write the number of the process to this file"),
    ("u", "user", "NAME", "", "Become this user once the ports are open"),
    ("w", "workers", "COUNT", "0", "Threads that serve clients; 0 takes one for each processor"),
    ("l", "log-file", "FILE", "", "Write the log to this file and not to standard error"),
    ("", "log-level", "LEVEL", "info", "Least level that is logged: error, warn, info or debug"),
    ("", "access-log", "FILE", "", "Write one line for each request to this file"),
    ("", "metrics-port", "PORT", "", "Port for figures; none if not given"),
    ("q", "quiet", "", "", "Print nothing on start"),
    ("t", "test", "", "", "Read all options, say whether they are right, and stop"),
    ("h", "help", "", "", "Prints help information"),
    ("V", "version", "", "", "Prints version information"),
];

/// Words that a reader of a text may take for marks of its own: addresses, paths, globs, variables,
/// expressions, quoting. What each is for is invented.
const MARKED: &[Row] = &[
    ("", "upstream", "URL", "http://127.0.0.1:8080/a?b=1&c=2#top", "Where requests go; <URL> may have a user: https://ops@example.net:8443/~ops/_status_/"),
    ("", "include", "GLOB", "/etc/balancer/*.d/*.conf", "Files to read: conf.d/**/[a-z]*.conf, !conf.d/old_*.conf, {a,b}.conf"),
    ("", "log-format", "FORMAT", "%h %t \"%r\" %>s", r"Fields of a line: %h, %{Host}i, $status, ${request_time}, \t and \n"),
    ("", "rewrite", "FROM=TO", "", r"Regular expression and text: ^/(.*)\.php$=/\1, with \d, [^/]+ and a|b"),
    ("", "windows-root", "DIR", r"C:\balancer\new", r"Directory on Windows, for example C:\Users\*\Temp or \\host\share"),
    ("", "env-file", "FILE", "~/.config/balancer/env", "Variables, one on each line:\n\n    BALANCER_PORT=8080\n    BALANCER__LOG__LEVEL='info'\n\nA name of two parts has __ between them, as __init__ has around it"),
    ("", "when", "EXPRESSION", "load > 0.9 && up < 3", "Condition: a < b, a <= b, a<b>c, a & b, not &lt;, 2*3*4, x^2, #1, $1 and `date`"),
    ("", "header", "NAME:VALUE", "'X-Name: \"a b\"'", "Added to each request, e.g. 'X-A: 1' or \"X-B: 2\"; -H 'A: b' does so too"),
    ("", "steps", "LIST", "1,2,3", "In this order:\n 1. read\n 2) check\n - start\n + log\n # done\n > end\n=== or ---"),
    ("", "no-color", "", "", "[env:NO_COLOR: N/A] see [the list](colors) and [1]: or ![logo](x.png)"),
    ("", "commands", "", "", "Run in turn:\n    stop --all\n    start --best\nthen wait"),
    ("", "dots", "", "", "Lines that begin with a dot or an apostrophe:\n .SH is none\n 'tis one\n ...and so on"),
];

/// One option as bpaf writes it: its term, and a body that brackets the help.
fn option<'d>(draft: &'d mut Draft, row: Row, suffix: &str) -> &'d mut Draft {
    let (short, long, metavar, default, help) = row;
    draft
        .within(Block::ItemTerm, |d| {
            let d = match short {
                "" => d.literal("    --"),
                short => d.literal("-").literal(short).text(", ").literal("--"),
            };
            let d = d.literal(long).literal(suffix);
            if metavar.is_empty() {
                d
            } else {
                d.text("=").metavar(metavar)
            }
        })
        .within(Block::ItemBody, |d| {
            let mut body = Draft::new();
            body.text(help);
            if !default.is_empty() {
                body.text("\n [default: ").literal(default).text("]");
            }
            d.doc(&body)
        })
}

/// A group of options under a heading.
fn group<'d>(draft: &'d mut Draft, title: &str, rows: &[Row]) -> &'d mut Draft {
    draft.within(Block::Block, |d| {
        d.within(Block::Section2, |d| d.emphasis(title))
            .within(Block::DefinitionList, |d| rows.iter().fold(d, |d, &row| option(d, row, "")))
    })
}

fn block<'d>(draft: &'d mut Draft, text: &str) -> &'d mut Draft {
    draft.within(Block::Block, |d| d.doc(Draft::new().text(text)))
}

/// A heading in a block of its own, so that text after it starts a line.
fn heading<'d>(draft: &'d mut Draft, title: &str) -> &'d mut Draft {
    draft.within(Block::Block, |d| d.within(Block::Section2, |d| d.emphasis(title)))
}

fn term_ref<'d>(draft: &'d mut Draft, term: &str) -> &'d mut Draft {
    draft.within(Block::TermRef, |d| d.literal(term))
}

/// The usage line, nested as bpaf nests it.
fn usage(draft: &mut Draft) -> &mut Draft {
    draft.within(Block::Block, |d| {
        d.emphasis("Usage").text(": ").within(Block::Mono, |d| {
            d.literal("balancer").text(" ").within(Block::Mono, |d| {
                d.text("[")
                    .literal("-c")
                    .text("=")
                    .metavar("FILE")
                    .text("] [")
                    .literal("-p")
                    .text("=")
                    .metavar("PORT")
                    .text("] ")
                    .literal("-B")
                    .text("=")
                    .metavar("HOST:PORT")
                    .text("... [")
                    .metavar("OPTIONS")
                    .text("]")
            })
        })
    })
}

/// The help page of an invented load balancer.
fn balancer() -> Draft {
    let mut page = Draft::new();
    let d = block(&mut page, "Spreads requests over several servers and leaves out those that fail.\n\nOne process listens; each request goes to one healthy server.");
    let d = usage(d);
    let d = block(
        d,
        "A first try, with two servers on this machine:\n\n    balancer --port 8080 \\\n        --backend localhost:8001 \\\n        --backend localhost:8002\n\nThe same as a file, for --config:\n\n```toml\nport = 8080\n\n[[backend]]\naddress = \"localhost:8001\"\n\n[[backend]]\naddress = \"localhost:8002\"\n```\n\nA line of the file is an option without its dashes.",
    );
    let d = d.within(Block::Block, |d| {
        let d = term_ref(d.text("What is given on the command line comes before "), "--config");
        let d = term_ref(d.text(", and "), "--deny");
        term_ref(d.text(" before "), "--allow").text(".")
    });
    let d = group(d, "Listening:", LISTENING);
    let d = group(d, "Servers:", BACKENDS);
    // options that are given together: Section4, and an empty Block after it
    let d = d.within(Block::Block, |d| {
        d.within(Block::Section2, |d| {
            d.em_doc(Draft::new().text("A server with a name:\nthese options belong together"))
        })
        .within(Block::DefinitionList, |d| {
            let d = d
                .within(Block::Section4, |d| {
                    d.within(Block::Mono, |d| {
                        d.literal("--server").text(" ").literal("--name").text("=").metavar("NAME")
                    })
                })
                .within(Block::Block, |d| d);
            let d = option(d, ("", "server", "", "", "Starts a server"), "");
            let d = option(
                d,
                (
                    "",
                    "name",
                    "NAME",
                    "",
                    "Its name in the log, any characters: éclair, Ωmega, 東京, 한국",
                ),
                "",
            );
            // a term without text goes on with the body before it
            d.within(Block::ItemTerm, |d| d).within(Block::ItemBody, |d| {
                term_ref(d.text("Used by "), "--drain").text(" and by the log")
            })
        })
    });
    let d = group(d, "Tests of servers:", HEALTH);
    let d = group(d, "Available options:", GENERAL);
    block(d, "Names may be written in any script: café, Größe, Ελλάδα, 負荷分散, 부하 분산.\n\nReport faults to the one who gave you this program.");
    page
}

/// Pages of options alone, about `size` bytes: the rows again and again, each time under new names.
fn options(size: usize) -> Draft {
    let rows = || [LISTENING, BACKENDS, HEALTH, GENERAL].into_iter().flatten();
    let mut page = Draft::new();
    usage(&mut page);
    for round in 1.. {
        let title = format!("Options of pool {round}:");
        page.open(Block::Block)
            .within(Block::Section2, |d| d.emphasis(&title))
            .open(Block::DefinitionList);
        for &row in rows() {
            option(&mut page, row, &format!("-{round}"));
            if page.stored().len() + 12 >= size {
                page.close(Block::DefinitionList).close(Block::Block);
                return page;
            }
        }
        page.close(Block::DefinitionList).close(Block::Block);
    }
    unreachable!("a page grows with every round")
}

/// Running text with code blocks of both kinds.
fn prose() -> Draft {
    let parts = [
        ("How a server is chosen", "The balancer keeps a list of healthy servers. For each request it takes the next one that the strategy names, and goes on to another only if no connection can be made.\n\nWith the strategy hash the same key leads to the same server as long as the list stays as it is. When a server fails, only its own keys move.\n\n    key    -> server\n    /a     -> alpha\n    /b     -> beta\n\nA weight of 2 makes a server stand twice in the list."),
        ("What a test is", "A test asks for one path and looks at the status of the answer. Nothing else is read.\n A test that fails is not tried again before the next interval.\n\n```sh\ncurl -i http://10.0.0.1:8000/health\n\nHTTP/1.1 200 OK\n```\n\nTests go on while a server is drained, so that it can come back at once."),
        ("How to change servers", "Write the new list to the file that --backend-file names, beside the old one, and rename it:\n\n    mv servers.new servers\n\nThe balancer looks at the file once a second. Clients that are being served stay where they are; a server that is no longer listed gets no new ones, and is forgotten when its last client has gone."),
        ("What the log says", "Each line has the time, the level, the name of the part that writes, and the message. It's plain text; a dot or an apostrophe at the start of a line is nothing special.\n\n```\n12:00:01 info  listen  port 8080\n12:00:02 warn  health  beta: no answer in 1000 ms\n12:00:07 info  health  beta: healthy\n```\n\nWith --quiet nothing is written before the first warning."),
    ];
    let mut page = Draft::new();
    let mut d =
        page.within(Block::Block, |d| d.within(Block::Header, |d| d.text("Notes on balancer")));
    for round in 1..=4 {
        for (title, text) in parts {
            d = block(heading(d, &format!("{round}. {title}")), text);
        }
    }
    page
}

/// Text mostly beyond ASCII; headings stay in ASCII, so that roff takes them.
fn nonascii() -> Draft {
    let parts = [
        ("French", "Le répartiteur répète les requêtes échouées : à chaque défaillance, un autre serveur est essayé, jusqu’à la limite fixée.\n\nLes durées s’écrivent en secondes ; « 0 » veut dire « jamais »."),
        ("Greek", "Ο εξισορροπητής φορτίου μοιράζει τις αιτήσεις σε όλους τους υγιείς διακομιστές και αφήνει έξω όσους δεν απαντούν."),
        ("Russian", "Балансировщик распределяет запросы между исправными серверами.\n\n    порт = 8080\n    серверы = [\"альфа\", \"бета\"]\n\nОстальные серверы проверяются каждые пять секунд."),
        ("Japanese", "負荷分散装置は、正常なサーバーにだけ要求を渡します。 応答のないサーバーは　次の検査まで除外されます。\n\n```\nポート = 8080\n```\n\n設定は再起動なしで読み直されます。"),
        ("Korean", "부하 분산기는 요청을 정상인 서버들에게 나누어 보냅니다. 응답이 없는 서버는 다음 검사까지 제외됩니다."),
    ];
    let mut page = Draft::new();
    let mut d = &mut page;
    for _ in 0..4 {
        for (title, text) in parts {
            d = block(heading(d, title), text);
        }
        d = d.within(Block::DefinitionList, |d| {
            let d = option(d, ("é", "époque", "DURÉE", "début", "Début de la mesure"), "");
            let d = option(d, ("", "порт", "НОМЕР", "8080", "Порт, на котором ждут клиентов"), "");
            option(d, ("", "設定", "ファイル", "", "設定ファイルの場所"), "")
        });
    }
    page
}

/// A page whose words look like marks: options, a usage line with brackets inside and beside literals, headings with quotation marks
/// and backslashes.
fn paths() -> Draft {
    let mut page = Draft::new();
    let d = block(&mut page, "Reads *.conf from /etc/balancer.d, then $HOME/.config/balancer; see <https://example.net/a_b_c?x=1&copy=2>.");
    let d = d.within(Block::Block, |d| {
        d.emphasis("Usage").text(": ").within(Block::Mono, |d| {
            d.literal("balancer")
                .text(" ")
                .literal("--color[=WHEN]")
                .text(" [")
                .literal("--include")
                .text("=")
                .metavar("GLOB")
                .text("]... (")
                .literal("-a")
                .text("|")
                .literal("-b")
                .text(") x")
                .literal("-p")
                .text(" ")
                .metavar("[FILE]")
                .text("...")
        })
    });
    let d = group(d, "Options with \"quoted\" words:", MARKED);
    let d = d.within(Block::Block, |d| {
        d.within(Block::Section3, |d| d.text("\"Exit\" status, 0-255")).within(
            Block::DefinitionList,
            |d| {
                d.within(Block::ItemTerm, |d| d.literal("0"))
                    .within(Block::ItemBody, |d| d.text("All is well"))
                    .within(Block::ItemTerm, |d| d.literal("*"))
                    .within(Block::ItemBody, |d| {
                        d.text("Any other number: see ").literal("balancer.log")
                    })
            },
        )
    });
    block(d, "* a star\n\n1. a number\n\n# a hash\n\n    code *with* stars\n\n```sh\nbalancer --when 'a<b' # comment\n```\n\nC:\\new is a path, and --a--b---c has dashes.");
    page
}

/// Options of the balancer and of an invented gateway, by their long names. Both have `--port` and
/// `--verbose`, each with help of its own.
const PRODUCT_A: &[(&str, &str, &str)] = &[
    ("--backend", "HOST:PORT", "A server to pass requests to"),
    ("--backlog", "COUNT", "Connections that wait to be accepted"),
    ("--port", "PORT", "Port to listen on; 0 takes any free port"),
    ("--retries", "COUNT", "Other servers that are tried after a failure"),
    ("--verbose", "", "Say more; may be given more than once"),
];
const PRODUCT_B: &[(&str, &str, &str)] = &[
    ("--certificate", "FILE", "Certificate chain in PEM form"),
    ("--port", "PORT", "Port of the gateway, 8443 if not given"),
    ("--rate", "N/SECOND", "Requests of one client that are let through"),
    ("--verbose", "", "Print each request"),
    ("--zone", "NAME", "Zone that the gateway stands in"),
];

/// An option list, its terms ascending: what can be merged.
fn product(options: &[(&str, &str, &str)]) -> Vec<u8> {
    let mut draft = Draft::new();
    draft.open(Block::DefinitionList);
    for (name, metavar, help) in options {
        draft
            .within(Block::ItemTerm, |d| match *metavar {
                "" => d.literal(name),
                metavar => d.literal(name).text("=").metavar(metavar),
            })
            .within(Block::ItemBody, |d| d.text(help));
    }
    draft.close(Block::DefinitionList).stored()
}

/// Text between starts and ends of the blocks given, the first outermost.
fn nested(blocks: &[Block], text: &str) -> Draft {
    let mut draft = Draft::new();
    let opened = blocks.iter().fold(&mut draft, |d, &block| d.open(block));
    blocks.iter().rev().fold(opened.text(text), |d, &block| d.close(block));
    draft
}

/// File names and documents.
fn samples() -> Vec<(&'static str, Vec<u8>)> {
    let made = |write: fn(&mut Draft) -> &mut Draft| write(&mut Draft::new()).stored();
    let mut bare_end = Vec::new();
    put_record(&mut bare_end, 0x0200, b"");
    vec![
        ("balancer.doc", balancer().stored()),
        ("options-2k.doc", options(2_000).stored()),
        ("options-8k.doc", options(8_000).stored()),
        ("options-30k.doc", options(30_000).stored()),
        ("paths.doc", paths().stored()),
        ("prose.doc", prose().stored()),
        ("nonascii.doc", nonascii().stored()),
        ("product-a.doc", product(PRODUCT_A)),
        ("product-b.doc", product(PRODUCT_B)),
        ("products.doc", merged(&product(PRODUCT_A), &product(PRODUCT_B)).expect("two lists")),
        ("notes.doc", notes::document(NOTES.as_bytes()).expect("they are notes")),
        ("empty.doc", Vec::new()),
        ("a-b.doc", made(|d| d.text("a b"))),
        ("paragraph.doc", made(|d| d.text("a\n\nb"))),
        ("fold.doc", made(|d| d.text("a\u{A0} b"))),
        (
            "term.doc",
            made(|d| {
                d.within(Block::DefinitionList, |d| {
                    d.within(Block::ItemTerm, |d| d.literal("-p"))
                        .within(Block::ItemBody, |d| d.text("port"))
                })
            }),
        ),
        ("term-ref.doc", made(|d| d.text("see ").within(Block::TermRef, |d| d.literal("-p")))),
        ("markup.doc", made(|d| d.literal("<p>").text(" & ").metavar("[&lt;]"))),
        ("meta.doc", made(|d| d.within(Block::Meta, |d| d.literal("balancer")))),
        ("heading.doc", nested(&[Block::Header], "Réglages").stored()),
        ("margin-54.doc", nested(&[Block::ItemBody; 9], "x").stored()),
        ("refused-6.doc", bare_end),
    ]
}

/// The page of the notes in every form: file names and texts.
fn pages() -> Vec<(&'static str, Vec<u8>)> {
    let document = notes::document(NOTES.as_bytes()).expect("they are notes");
    let (full, css) = (true, false);
    let forms = [
        ("notes.txt", Renderer::Console { width: 100, full, characters: false }),
        ("notes.html", Renderer::Html { full, css, strict: false }),
        ("notes.strict.html", Renderer::Html { full, css, strict: true }),
        ("notes.markdown", Renderer::Markdown { full }),
        ("notes.roff", Renderer::Roff),
    ];
    forms
        .into_iter()
        .map(|(name, form)| (name, render(form, &document, 65_536).outcome.expect("it is a page")))
        .collect()
}

fn main() -> ExitCode {
    let Some(directory) = std::env::args_os().nth(1) else {
        eprintln!("usage: samples DIRECTORY");
        return ExitCode::from(2);
    };
    for (name, document) in samples().into_iter().chain(pages()) {
        if let Err(error) = fs::write(Path::new(&directory).join(name), &document) {
            eprintln!("samples: {name}: {error}");
            return ExitCode::FAILURE;
        }
        println!("{:6} {name}", document.len());
    }
    ExitCode::SUCCESS
}

#[cfg(test)]
mod tests {
    use super::*;
    use oracle::cases::{answer, pattern, Call, Case};
    use oracle::kept::confirm;
    use oracle::rules::check;

    /// Number and place that console, HTML, Markdown and roff give; (0, 0) is acceptance.
    fn answers(document: &[u8]) -> [(u32, u64); 4] {
        let (full, css, strict) = (true, true, false);
        let renderers = [
            Renderer::Console { width: 100, full, characters: false },
            Renderer::Html { full, css, strict },
            Renderer::Markdown { full },
            Renderer::Roff,
        ];
        renderers.map(|renderer| {
            let room = pattern(0, 65_536).collect();
            let case =
                Case { call: Call::Render(renderer), document: document.to_vec(), room, length: 0 };
            let answer = answer(&case);
            confirm(&case, &answer).unwrap();
            if answer.number == 0 {
                (0, 0)
            } else {
                (answer.number, answer.at)
            }
        })
    }

    #[test]
    fn what_each_renderer_makes_of_them() {
        const A: (u32, u64) = (0, 0);
        for (name, document) in samples() {
            let first_ref =
                document.windows(6).position(|w| w == [0, 0, 0, 0, 9, 1]).unwrap_or(0) as u64;
            let expected = match name {
                "balancer.doc" | "term-ref.doc" => [A, A, A, (11, first_ref)],
                "meta.doc" => [A, (11, 0), (11, 0), A],
                "margin-54.doc" => [(10, 60), A, A, A],
                "refused-6.doc" => [(6, 0); 4],
                _ => [A; 4],
            };
            assert_eq!(answers(&document), expected, "{name}");
            assert_eq!(check(&document).is_ok(), name != "refused-6.doc", "{name}");
        }
    }

    #[test]
    fn sizes() {
        let size =
            |wanted: &str| samples().into_iter().find(|(name, _)| *name == wanted).unwrap().1.len();
        for (name, about) in
            [("options-2k.doc", 2_000), ("options-8k.doc", 8_000), ("options-30k.doc", 30_000)]
        {
            assert!(size(name).abs_diff(about) < about / 8, "{name}: {}", size(name));
        }
        assert_eq!(
            [LISTENING, BACKENDS, HEALTH, GENERAL].map(<[Row]>::len).iter().sum::<usize>(),
            45
        );
    }

    #[test]
    fn small_ones_byte_for_byte() {
        let all = samples();
        let bytes = |wanted: &str| all.iter().find(|(name, _)| *name == wanted).unwrap().1.clone();
        assert_eq!(bytes("a-b.doc"), [3, 0, 0, 0, 1, 0, 0x61, 0x20, 0x62]);
        assert_eq!(bytes("refused-6.doc"), [0, 0, 0, 0, 0, 2]);
    }
}
