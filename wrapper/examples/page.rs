//! The page of `samples/example.c`, built and printed through this package; both print the same.

use sefgrunn::{Block, Builder, Html, Measure, Refusal, Settings, Style};

/// What roff text needs before it: `.TH`, without which groff shows no headings, and `.nh`, without
/// which it hyphenates options.
const MAN_PAGE: &str = ".TH BALANCER 1\n.nh\n";

/// An option: its term, then its help as a document of its own, so that a shortened page ends at
/// the help's first paragraph.
fn option(page: &mut Builder, name: &str, metavar: &str, help: &str) -> Result<(), Refusal> {
    let mut body = Builder::new();
    body.write(Style::Text, help)?;
    page.open(Block::ItemTerm)?.write(Style::Literal, name)?;
    if !metavar.is_empty() {
        page.write(Style::Text, "=")?.write(Style::Metavar, metavar)?;
    }
    page.close(Block::ItemTerm)?.open(Block::ItemBody)?;
    page.doc(&body.finish()?)?.close(Block::ItemBody)?;
    Ok(())
}

fn build() -> Result<Builder, Refusal> {
    let mut page = Builder::new();
    page.open(Block::Header)?.write(Style::Text, "balancer")?.close(Block::Header)?;
    page.open(Block::Block)?.open(Block::Section2)?;
    page.write(Style::Emphasis, "Available options:")?.close(Block::Section2)?;
    page.open(Block::DefinitionList)?;
    option(&mut page, "--port", "PORT", "Port to listen on\n\nGive 0 to take any free port.")?;
    option(&mut page, "--quiet", "", "Print nothing on start")?;
    page.close(Block::DefinitionList)?.close(Block::Block)?;
    Ok(page)
}

fn main() -> Result<(), Refusal> {
    let mut page = build()?;
    let document = page.clone().finish()?;
    let console = |width, full| {
        sefgrunn::console_string(&document, Settings { width, full, ..Settings::default() })
    };
    println!("== console, width 40\n{}", console(40, true)?);
    println!("== console, width 100\n{}", console(100, true)?);
    println!("== console, width 100, up to each first paragraph\n{}", console(100, false)?);
    let mut french = Builder::new();
    french.write(Style::Text, "à côté")?;
    for (name, measure) in [("bytes", Measure::Bytes), ("characters", Measure::Characters)] {
        let settings = Settings { width: 6, full: true, measure };
        let text = sefgrunn::console_string(french.document(), settings)?;
        println!("== console, width 6, folded by {name}\n{text}");
    }
    println!("== HTML\n{}", sefgrunn::html_string(&document, Html::default())?);
    println!("== Markdown\n{}", sefgrunn::markdown_string(&document, true)?);
    println!("== roff\n{MAN_PAGE}{}", sefgrunn::roff_string(&document)?);

    // no block is open, so none can be closed
    if let Err(refusal) = page.close(Block::Block) {
        println!("a second end of the block: {refusal}");
    }
    if let Err(refusal) = sefgrunn::console(&document, Settings::default(), &mut [0; 8]) {
        println!("a room of 8 bytes: {refusal}");
    }
    Ok(())
}
