//! How much time the port may take: the bars, which `make bench BAR=1` and `make growth BAR=1` ask for, and the figures that
//! `ALLOWED=1` allows rows that are not within theirs, so that a change by which they become slower is noticed.

use crate::timing::Times;

/// A call on the pages whose names begin so, how many of `make bench` these are, and the most of the Rust's time that
/// it may take; `None` where nothing is asked.
struct Bar {
    call: &'static str,
    pages: &'static str,
    count: usize,
    most: Option<f64>,
}

/// A bar on each of the five pages.
const fn bar(call: &'static str, most: f64) -> Bar {
    Bar { call, pages: "", count: 5, most: Some(most) }
}

const CHECK: &str = "check (rust: from_utf8)";
const DRAFT: &str = "whole page by a draft";

const BARS: &[Bar] = &[
    // "at most 0.5 of the Rust's time on each of the five pages", checking and clearing included, as in every bar
    bar("console, room as needed", 0.5),
    // rooms as needed: Markdown at most 0.45, roff at most 0.42, HTML at most 0.2
    bar("markdown", 0.45),
    bar("roff", 0.42),
    bar("html", 0.2),
    // a room of 65,536 bytes, all of which each call clears: at most 0.6
    bar("console, room 65,536", 0.6),
    bar("markdown, room 65,536", 0.6),
    bar("roff, room 65,536", 0.6),
    bar("html, room 65,536", 0.6),
    // the check: at most 0.8 of `str::from_utf8` over the same bodies on pages of options, 1.3 on prose; beyond ASCII
    // nothing is asked
    Bar { call: CHECK, pages: "options", count: 3, most: Some(0.8) },
    Bar { call: CHECK, pages: "prose", count: 1, most: Some(1.3) },
    Bar { call: CHECK, pages: "nonascii", count: 1, most: None },
    // a whole page by a draft: at most 1.2
    bar(DRAFT, 1.2),
    // the same, where the Rust is given bytes and tests each text, as the port does: no more than its time
    bar("draft (rust: from_utf8)", 1.0),
];

/// On each of the worst pages: at most 3 times the Rust's time, and at most 12 ns for each byte of the stored document.
const MOST_RATIO: f64 = 3.0;
const MOST_EACH: f64 = 12.0;

/// Allowed where a page takes more for each byte: at most twice the Rust's time, since on some machines the Rust itself takes up to 23 ns.
const ALLOWED_BESIDE: f64 = 2.0;

/// The most of the Rust's time that a call is allowed on a page where it is not within its bar.
struct Allowed {
    call: &'static str,
    page: &'static str,
    most: f64,
}

const fn allowed(call: &'static str, page: &'static str, most: f64) -> Allowed {
    Allowed { call, page, most }
}

/// Why they are over their bars: docs/DECISIONS.md, 'Bars that are not met'. The figures are 6 to 10 parts in 100 above the most that was measured.
const ALLOWED: &[Allowed] = &[
    allowed("console, room as needed", "nonascii.doc", 0.55),
    allowed("console, room 65,536", "options-2k.doc", 0.69),
    allowed(DRAFT, "options-2k.doc", 1.3),
    allowed(DRAFT, "options-8k.doc", 1.7),
    allowed(DRAFT, "options-30k.doc", 1.85),
    allowed(DRAFT, "nonascii.doc", 1.95),
    allowed("draft (rust: from_utf8)", "options-8k.doc", 1.07),
    allowed("roff", "pairs of DefinitionList", 4.9),
    allowed("roff", "pairs of InlineBlock", 4.9),
    allowed("roff", "pairs of Mono", 4.9),
    allowed("roff", "InlineBlocks 32 deep", 4.9),
    allowed("roff", "a heading of blocks", 4.3),
];

/// By which figures rows are judged: the bars, or what is allowed where there is such a figure.
#[derive(Clone, Copy)]
enum By {
    Bars,
    Allowed,
}

impl By {
    /// The most that a row may take of the Rust's time, where its bar is `most`.
    fn most(self, row: &Row, most: f64) -> f64 {
        match self {
            By::Bars => most,
            By::Allowed => figure_allowed(row).unwrap_or(most),
        }
    }
}

fn figure_allowed(row: &Row) -> Option<f64> {
    ALLOWED.iter().find(|it| it.call == row.call && it.page == row.page).map(|it| it.most)
}

/// A line for each row over its bar, and a line for each that is over what is allowed.
pub struct Faults {
    pub bars: Vec<String>,
    pub allowed: Vec<String>,
}

/// What was measured: a call on a page of so many bytes, which are those of the stored document.
#[derive(Debug, Clone)]
pub struct Row {
    pub call: String,
    pub page: String,
    pub bytes: usize,
    pub times: Times,
}

impl Row {
    /// The port's nanoseconds for each byte of the document.
    pub fn each(&self) -> f64 {
        self.times.port as f64 / self.bytes as f64
    }
}

fn highest<'a>(
    rows: impl Iterator<Item = &'a Row>,
    figure: impl Fn(&Row) -> f64,
) -> Option<&'a Row> {
    rows.max_by(|a, b| figure(a).total_cmp(&figure(b)))
}

impl Bar {
    fn rows<'a>(&'a self, rows: &'a [Row]) -> impl Iterator<Item = &'a Row> {
        rows.iter().filter(|row| row.call == self.call && row.page.starts_with(self.pages))
    }

    /// The worst row, as a line.
    fn worst(&self, rows: &[Row]) -> String {
        let asked = self.most.map_or("no bar".into(), |most| format!("{most:.2}"));
        let Some(row) = highest(self.rows(rows), |row| row.times.ratio()) else {
            return format!("{:<24} {:<20} {:>6} {asked:>7}", self.call, self.pages, "none");
        };
        let ratio = row.times.ratio();
        let mark = if self.faults(rows, By::Bars).is_empty() {
            String::new()
        } else {
            figure_allowed(row).map_or("  OVER".into(), |most| format!("  OVER, {most:.2} allowed"))
        };
        format!("{:<24} {:<20} {ratio:>6.2} {asked:>7}{mark}", self.call, row.page)
    }

    /// A line for each row over the bar, and one where not all pages were measured.
    fn faults(&self, rows: &[Row], by: By) -> Vec<String> {
        let Some(most) = self.most else { return Vec::new() };
        let measured = self.rows(rows).count();
        let missing = (measured < self.count).then(|| {
            format!(
                "not measured: {}, {measured} of {} pages {}*",
                self.call, self.count, self.pages
            )
        });
        self.rows(rows)
            .filter(|row| row.times.ratio() > by.most(row, most))
            .map(|row| over(row, row.times.ratio(), "of the Rust's time", by.most(row, most)))
            .chain(missing)
            .collect()
    }
}

fn over(row: &Row, measured: f64, unit: &str, most: f64) -> String {
    format!("over its bar: {}, {}: {measured:.3} {unit}, bar {most}", row.call, row.page)
}

/// Prints the worst ratio for each bar.
pub fn five_pages(rows: &[Row]) -> Faults {
    println!();
    println!("the worst ratio of each call, and the most that is asked of it");
    println!("{:<24} {:<20} {:>6} {:>7}", "call", "page", "ratio", "bar");
    for bar in BARS {
        println!("{}", bar.worst(rows));
    }
    let faults = |by| BARS.iter().flat_map(|bar| bar.faults(rows, by)).collect();
    Faults { bars: faults(By::Bars), allowed: faults(By::Allowed) }
}

/// A line for each bar of the worst pages that a row is over.
fn worst_faults(row: &Row, by: By) -> Vec<String> {
    let mut faults = Vec::new();
    let most = by.most(row, MOST_RATIO);
    if row.times.ratio() > most {
        faults.push(over(row, row.times.ratio(), "of the Rust's time", most));
    }
    let beside = match by {
        By::Bars => true,
        By::Allowed => row.times.ratio() > ALLOWED_BESIDE,
    };
    if row.each() > MOST_EACH && beside {
        faults.push(over(row, row.each(), "ns a byte", MOST_EACH));
    }
    faults
}

/// Prints the worst figures of each renderer over the worst pages.
pub fn worst_pages(rows: &[Row]) -> Faults {
    println!();
    println!("the worst of each renderer; at most {MOST_RATIO} of the Rust's time and {MOST_EACH} ns a byte are asked");
    let mut calls: Vec<&str> = Vec::new();
    for row in rows {
        if !calls.contains(&row.call.as_str()) {
            calls.push(&row.call);
        }
    }
    for call in calls {
        let mine = || rows.iter().filter(|row| row.call == call);
        if let Some(row) = highest(mine(), |row| row.times.ratio()) {
            println!("{call:<21} {:>6.2} of the Rust's time  {}", row.times.ratio(), row.page);
        }
        if let Some(row) = highest(mine(), Row::each) {
            println!("{call:<21} {:>6.2} ns a byte           {}", row.each(), row.page);
        }
    }
    let faults = |by| rows.iter().flat_map(|row| worst_faults(row, by)).collect();
    Faults { bars: faults(By::Bars), allowed: faults(By::Allowed) }
}

#[cfg(test)]
mod tests {
    use super::*;
    use crate::worst;

    fn row(call: &str, page: &str, port: u128) -> Row {
        let times = Times { port, rust: 1_000 };
        Row { call: call.into(), page: page.into(), bytes: 100, times }
    }

    /// A bar is met at its figure and not above it, on its own pages alone; a page without a row does not meet it.
    #[test]
    fn bars_of_the_five_pages() {
        let check = Bar { call: CHECK, pages: "options", count: 2, most: Some(0.8) };
        let (met, beside) = (row(CHECK, "options-2k.doc", 800), row(CHECK, "prose.doc", 900));
        let above = row(CHECK, "options-8k.doc", 801);
        let below = row(CHECK, "options-8k.doc", 799);
        assert_eq!(check.faults(&[met.clone(), beside.clone(), above], By::Bars).len(), 1);
        assert!(check.faults(&[met.clone(), beside, below], By::Bars).is_empty());
        assert_eq!(check.faults(&[met], By::Bars).len(), 1);
        assert_eq!(check.faults(&[row(CHECK, "prose.doc", 1)], By::Bars).len(), 1);
        let free = Bar { call: CHECK, pages: "nonascii", count: 1, most: None };
        assert!(free.faults(&[row(CHECK, "nonascii.doc", 9_000)], By::Bars).is_empty());
    }

    #[test]
    fn bars_of_the_worst_pages() {
        assert!(worst_faults(&row("roff", "a page", 1_200), By::Bars).is_empty());
        assert_eq!(worst_faults(&row("roff", "a page", 1_201), By::Bars).len(), 1);
        assert_eq!(worst_faults(&row("roff", "a page", 3_001), By::Bars).len(), 2);
    }

    /// More than 12 ns for a byte of 100 is over what is allowed where it is more than twice the Rust's 1,000 ns.
    #[test]
    fn allowed_on_the_worst_pages() {
        assert!(worst_faults(&row("roff", "a page", 2_000), By::Allowed).is_empty());
        assert_eq!(worst_faults(&row("roff", "a page", 2_001), By::Allowed).len(), 1);
        let long = Row { bytes: 10_000, ..row("roff", "a heading of blocks", 4_300) };
        assert!(worst_faults(&long, By::Allowed).is_empty());
        assert_eq!(worst_faults(&long, By::Bars).len(), 1);
    }

    /// What is allowed counts for its call and its page alone, has its own bound, and is no bar.
    #[test]
    fn allowed_on_the_five_pages() {
        let draft = Bar { call: DRAFT, pages: "", count: 1, most: Some(1.2) };
        let (within, above) = (row(DRAFT, "options-8k.doc", 1_700), row(DRAFT, "options-8k.doc", 1_701));
        assert!(draft.faults(&[within.clone()], By::Allowed).is_empty());
        assert_eq!(draft.faults(&[within.clone()], By::Bars).len(), 1);
        assert_eq!(draft.faults(&[above], By::Allowed).len(), 1);
        assert_eq!(draft.faults(&[row(DRAFT, "prose.doc", 1_201)], By::Allowed).len(), 1);
        assert!(draft.worst(&[within]).ends_with("OVER, 1.70 allowed"));
        assert!(draft.worst(&[row(DRAFT, "prose.doc", 1_201)]).ends_with("OVER"));
    }

    /// Each figure allowed is above the bar, of a call with one, or of a worst page.
    #[test]
    fn each_allowed_is_above_a_bar() {
        for it in ALLOWED {
            let bar = BARS.iter().find(|bar| bar.call == it.call).and_then(|bar| bar.most);
            let worst = worst::PAGES.iter().any(|page| page.name == it.page);
            let asked = if it.page.ends_with(".doc") { bar } else { worst.then_some(MOST_RATIO) };
            assert!(asked.is_some_and(|asked| asked < it.most), "{} {}", it.call, it.page);
        }
    }
}
