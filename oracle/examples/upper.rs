//! The upper-case table of crates/upper: made from the compiler's own mapping, and compared with it.
//!
//!     upper make CRATE           writes specs/Table.antt and src/table.rt of crates/upper
//!     upper check CRATE          holds specs/Table.antt beside `char::to_uppercase`, at every scalar value
//!     upper database CRATE UCD   holds it beside UnicodeData.txt and SpecialCasing.txt in the folder UCD
//!                                (Debian's package unicode-data has them in /usr/share/unicode)
//!
//! `check` and `database` fail where something differs that no version explains. That src/table.rt says
//! what specs/Table.antt says is proved in the crate.

use std::collections::{BTreeMap, BTreeSet};
use std::fmt::Write;
use std::path::Path;
use std::process::ExitCode;

/// A mapped character, and what it maps to.
type Table = BTreeMap<u32, Vec<u32>>;

fn scalar_values() -> impl Iterator<Item = char> {
    (0..=0x10FFFF).filter_map(char::from_u32)
}

fn compilers_version() -> String {
    let (major, minor, update) = char::UNICODE_VERSION;
    format!("{major}.{minor}.{update}")
}

fn compilers_table() -> Table {
    let mut table = Table::new();
    for c in scalar_values() {
        let upper: Vec<u32> = c.to_uppercase().map(u32::from).collect();
        if upper != [u32::from(c)] {
            table.insert(u32::from(c), upper);
        }
    }
    table
}

/// What a table says of a character: its entry, or the character itself.
fn mapped(table: &Table, c: char) -> Vec<u32> {
    table.get(&u32::from(c)).cloned().unwrap_or_else(|| vec![u32::from(c)])
}

fn rules(version: &str, table: &Table) -> String {
    let mut text = format!(
        "-- The upper-case table of Unicode {version} (02, point 6): UnicodeData.txt with the unconditional entries of SpecialCasing.txt, as the\n\
         -- oracle's compiler has them. Made by oracle/examples/upper.rs.\n\
         use Rattle.std.specs.Prelude.{{List, [], ◌∷◌, ℕ}}\n\n\
         -- a mapped character, and the characters that it maps to\n\
         pub data Entry : Type 0 where\n  ◌becomes◌ : ℕ → List ℕ → Entry\n\n\
         infix 5 ◌becomes◌\n\
         unfoldable pub table : List Entry\ntable =\n"
    );
    for (i, (from, to)) in table.iter().enumerate() {
        let to: String = to.iter().map(|c| format!("0x{c:04X} ∷ ")).collect();
        let join = if i == 0 { "" } else { "∷ " };
        writeln!(text, "    {join}(0x{from:04X} becomes {to}[])").unwrap();
    }
    text + "    ∷ []\n"
}

fn code(version: &str, table: &Table) -> String {
    let mut text = format!(
        "// The upper-case table of Unicode {version}, as specs/Table.antt has it. Made by oracle/examples/upper.rs.\n\n\
         use crate::Mapped;\n\n\
         // Each mapped character, ascending, and what it maps to.\n\
         pub static TABLE: [(char, Mapped); {}] = [\n",
        table.len()
    );
    for (from, to) in table {
        let case = ["One", "Two", "Three"][to.len() - 1];
        let to: Vec<String> = to.iter().map(|c| format!("'\\u{{{c:X}}}'")).collect();
        writeln!(text, "    ('\\u{{{from:X}}}', Mapped::{case}({})),", to.join(", ")).unwrap();
    }
    text + "];\n"
}

/// The version and the entries of specs/Table.antt. An entry is `(0x.. becomes 0x.. ∷ .. ∷ [])`, on a line of its own.
fn stated(text: &str) -> Result<(String, Table), String> {
    let hex = |word: &str| {
        let digits = word.trim().strip_prefix("0x").ok_or(format!("`{word}` is no number"))?;
        u32::from_str_radix(digits, 16).map_err(|e| format!("`{word}`: {e}"))
    };
    let version = text.split("Unicode ").nth(1).and_then(|rest| rest.split_whitespace().next());
    let version = version.ok_or("its first line names no version of Unicode")?.to_string();
    let mut table = Table::new();
    for line in text.lines().filter(|line| line.contains("(0x")) {
        let entry = line.split(['(', ')']).nth(1).unwrap_or_default();
        let (from, to) = entry.split_once("becomes").ok_or(format!("`{line}` is no entry"))?;
        let to = to.trim_end().strip_suffix("[]").ok_or(format!("`{line}` has no end"))?;
        let to: Result<Vec<u32>, String> =
            to.split('∷').filter(|word| !word.trim().is_empty()).map(hex).collect();
        let from = hex(from)?;
        if table.last_key_value().is_some_and(|(&last, _)| from <= last) {
            return Err(format!("{} is out of order", named(from)));
        }
        table.insert(from, to?);
    }
    Ok((version, table))
}

fn named(c: u32) -> String {
    format!("U+{c:04X}")
}

fn list(characters: &[u32]) -> String {
    characters.iter().map(|&c| named(c)).collect::<Vec<_>>().join(" ")
}

/// The scalar values at which two tables differ, with what each says.
fn differences(a: &Table, b: &Table) -> Vec<(u32, Vec<u32>, Vec<u32>)> {
    let both = scalar_values().map(|c| (u32::from(c), mapped(a, c), mapped(b, c)));
    both.filter(|(_, x, y)| x != y).collect()
}

fn check(version: &str, table: &Table) -> Result<String, String> {
    let compilers = compilers_version();
    let differ = differences(table, &compilers_table());
    if differ.is_empty() {
        return Ok(format!(
            "the table of Unicode {version} has {} entries; the compiler's mapping, of Unicode {compilers}, is the same at all {} scalar values",
            table.len(),
            scalar_values().count()
        ));
    }
    let mut text = if version == compilers {
        format!("the table of Unicode {version} is wrong: the compiler, of the same version, has\n")
    } else {
        format!(
            "the compiler has Unicode {compilers}, the table is of Unicode {version}: it is to be made anew \
             (upper make crates/upper) and proved. The compiler has\n"
        )
    };
    for (c, ours, its) in &differ {
        writeln!(text, "  {} -> {}, the table {}", named(*c), list(its), list(ours)).unwrap();
    }
    Err(text + &format!("{} characters differ", differ.len()))
}

/// The database's mapping, and the characters that it knows.
fn database(folder: &Path) -> Result<(String, Table, BTreeSet<u32>), String> {
    let read =
        |name: &str| std::fs::read_to_string(folder.join(name)).map_err(|e| format!("{name}: {e}"));
    let hex =
        |word: &str| u32::from_str_radix(word.trim(), 16).map_err(|e| format!("`{word}`: {e}"));
    let (mut table, mut known) = (Table::new(), BTreeSet::new());
    let mut first = None;
    for line in read("UnicodeData.txt")?.lines() {
        let fields: Vec<&str> = line.split(';').collect();
        let c = hex(fields[0])?;
        known.extend(first.take().unwrap_or(c)..=c);
        if fields[1].ends_with(", First>") {
            first = Some(c);
        }
        if !fields[12].is_empty() {
            table.insert(c, vec![hex(fields[12])?]);
        }
    }
    let special = read("SpecialCasing.txt")?;
    for line in special.lines() {
        let fields: Vec<&str> = line.split('#').next().unwrap_or_default().split(';').collect();
        // the code, lower, title and upper case, and then a condition, or nothing
        if fields.len() == 5 {
            let upper: Result<Vec<u32>, String> = fields[3].split_whitespace().map(hex).collect();
            table.insert(hex(fields[0])?, upper?);
        }
    }
    table.retain(|c, upper| upper[..] != [*c]);
    let version = special.lines().next().and_then(|line| line.strip_prefix("# SpecialCasing-"));
    let version = version.and_then(|rest| rest.strip_suffix(".txt"));
    Ok((version.ok_or("SpecialCasing.txt names no version")?.to_string(), table, known))
}

fn beside_database(version: &str, table: &Table, folder: &Path) -> Result<String, String> {
    let (its_version, its, known) = database(folder)?;
    let mut text = format!(
        "the table of Unicode {version} has {} entries, the database of Unicode {its_version} {}\n",
        table.len(),
        its.len()
    );
    let differ = differences(table, &its);
    let mut unexplained = 0;
    for (c, ours, theirs) in &differ {
        let missing: Vec<u32> =
            [*c].iter().chain(ours).copied().filter(|x| !known.contains(x)).collect();
        let why = if missing.is_empty() {
            unexplained += 1;
            "NOT EXPLAINED".to_string()
        } else {
            format!("{its_version} does not have {}", list(&missing))
        };
        writeln!(text, "  {} -> {}, the database {}: {why}", named(*c), list(ours), list(theirs))
            .unwrap();
    }
    write!(text, "{} characters differ, {unexplained} without an explanation", differ.len())
        .unwrap();
    if unexplained == 0 {
        Ok(text)
    } else {
        Err(text)
    }
}

fn run(words: &[&str]) -> Result<String, String> {
    let write = |path: &Path, text: String| {
        std::fs::write(path, text).map_err(|e| format!("{}: {e}", path.display()))
    };
    let read = |folder: &str| {
        let path = Path::new(folder).join("specs/Table.antt");
        let text = std::fs::read_to_string(&path);
        text.map_err(|e| e.to_string())
            .and_then(|text| stated(&text))
            .map_err(|e| format!("{}: {e}", path.display()))
    };
    match words {
        ["make", folder] => {
            let (version, table) = (compilers_version(), compilers_table());
            write(&Path::new(folder).join("specs/Table.antt"), rules(&version, &table))?;
            write(&Path::new(folder).join("src/table.rt"), code(&version, &table))?;
            Ok(format!("the table of Unicode {version}, {} entries, is made", table.len()))
        }
        ["check", folder] => read(folder).and_then(|(version, table)| check(&version, &table)),
        ["database", folder, ucd] => read(folder)
            .and_then(|(version, table)| beside_database(&version, &table, Path::new(ucd))),
        _ => Err("usage: upper make CRATE | check CRATE | database CRATE UCD".to_string()),
    }
}

fn main() -> ExitCode {
    let words: Vec<String> = std::env::args().skip(1).collect();
    match run(&words.iter().map(String::as_str).collect::<Vec<_>>()) {
        Ok(text) => {
            println!("upper: {text}");
            ExitCode::SUCCESS
        }
        Err(text) => {
            eprintln!("upper: {text}");
            ExitCode::FAILURE
        }
    }
}

#[cfg(test)]
mod tests {
    use super::*;

    fn small() -> Table {
        compilers_table().into_iter().filter(|(c, _)| *c < 0x180).collect()
    }

    /// What `make` writes is read back as it was.
    #[test]
    fn a_table_is_read_back() {
        let (version, table) = (compilers_version(), compilers_table());
        assert_eq!(stated(&rules(&version, &table)), Ok((version.clone(), table.clone())));
        assert!(check(&version, &table).is_ok());
    }

    #[test]
    fn a_table_out_of_order_is_refused() {
        let text = rules("17.0.0", &small()).replace("(0x00E3 ", "(0x00E0 ");
        assert_eq!(stated(&text), Err("U+00E0 is out of order".to_string()));
    }

    /// The version tells a wrong table from an old one.
    #[test]
    fn a_difference_is_explained_by_the_version() {
        let mut table = compilers_table();
        table.remove(&0xDF);
        let wrong = check(&compilers_version(), &table).unwrap_err();
        assert!(wrong.contains("is wrong"), "{wrong}");
        assert!(wrong.contains("U+00DF -> U+0053 U+0053, the table U+00DF"), "{wrong}");
        let old = check("1.0.0", &table).unwrap_err();
        assert!(old.contains("is to be made anew"), "{old}");
        assert!(old.ends_with("1 characters differ"), "{old}");
    }

    /// The code has all entries, with one to three characters each.
    #[test]
    fn the_code_has_all_entries() {
        let table = small();
        let text = code("17.0.0", &table);
        assert!(text.contains(&format!("[(char, Mapped); {}]", table.len())), "{text}");
        assert_eq!(text.matches("Mapped::").count(), table.len());
        assert!(text.contains("\n    ('\\u{61}', Mapped::One('\\u{41}')),\n"));
        // ß and ŉ grow
        assert!(text.contains("\n    ('\\u{DF}', Mapped::Two('\\u{53}', '\\u{53}')),\n"));
        assert!(text.contains("\n    ('\\u{149}', Mapped::Two('\\u{2BC}', '\\u{4E}')),\n"));
    }

    /// Of SpecialCasing.txt the unconditional entries count, and what the database does not have explains a difference.
    #[test]
    fn a_database_is_held_beside_the_table() {
        let folder = std::env::temp_dir().join(format!("upper-{}", std::process::id()));
        std::fs::create_dir_all(&folder).unwrap();
        let line =
            |c: u32, name: &str, upper: &str| format!("{c:04X};{name};Ll;0;L;;;;;N;;;{upper};;\n");
        let data = line(0x69, "LATIN SMALL LETTER I", "0049")
            + &line(0xDF, "LATIN SMALL LETTER SHARP S", "")
            + &line(0x4E00, "<CJK Ideograph, First>", "")
            + &line(0x9FFF, "<CJK Ideograph, Last>", "");
        let special = "# SpecialCasing-9.9.9.txt\n00DF; 00DF; 0053 0073; 0053 0053; # SHARP S\n\
                       0069; 0069; 0130; 0130; tr; # I WITH DOT\n";
        std::fs::write(folder.join("UnicodeData.txt"), data).unwrap();
        std::fs::write(folder.join("SpecialCasing.txt"), special).unwrap();
        let (version, its, known) = database(&folder).unwrap();
        assert_eq!(version, "9.9.9");
        assert_eq!(its, Table::from([(0x69, vec![0x49]), (0xDF, vec![0x53, 0x53])]));
        assert!(known.contains(&0x4E01) && !known.contains(&0xE9));
        let mut table = its.clone();
        table.insert(0xE9, vec![0xC9]);
        assert!(beside_database("17.0.0", &table, &folder)
            .unwrap()
            .contains("9.9.9 does not have U+00E9"));
        table.insert(0x4E01, vec![0x4E02]);
        assert!(beside_database("17.0.0", &table, &folder).unwrap_err().contains("U+4E01"));
        std::fs::remove_dir_all(&folder).unwrap();
    }
}
