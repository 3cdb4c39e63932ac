//! The help: stored documents, built by the library from the table of commands. The manual page and the
//! completion for bash come from the same table.

use sefgrunn::{Block, Builder, Refusal, Style};

use crate::arguments::Flag;
use crate::commands::{Command, COMMANDS};

type Built<T> = Result<T, Refusal>;

/// A heading and what stands under it.
fn headed(
    page: &mut Builder,
    heading: &str,
    under: impl FnOnce(&mut Builder) -> Built<()>,
) -> Built<()> {
    // the Block's end leaves an empty line on the console, where a heading alone leaves none
    page.open(Block::Block)?.open(Block::Header)?.write(Style::Text, heading)?;
    page.close(Block::Header)?.close(Block::Block)?;
    under(page)
}

/// A paragraph, in which what stands in backticks is literal.
fn paragraph(page: &mut Builder, text: &str) -> Built<()> {
    page.open(Block::Block)?;
    words(page, text)?;
    page.close(Block::Block)?;
    Ok(())
}

/// Text in which what stands in backticks is literal.
fn words(page: &mut Builder, text: &str) -> Built<()> {
    for (index, part) in text.split('`').enumerate().filter(|(_, part)| !part.is_empty()) {
        page.write(if index % 2 == 1 { Style::Literal } else { Style::Text }, part)?;
    }
    Ok(())
}

/// An item of a list.
fn item(page: &mut Builder, term: impl FnOnce(&mut Builder) -> Built<()>, body: &str) -> Built<()> {
    page.open(Block::ItemTerm)?;
    term(page)?;
    page.close(Block::ItemTerm)?.open(Block::ItemBody)?;
    words(page, body)?;
    page.close(Block::ItemBody)?;
    Ok(())
}

/// A list.
fn list(page: &mut Builder, items: impl FnOnce(&mut Builder) -> Built<()>) -> Built<()> {
    page.open(Block::Block)?.open(Block::DefinitionList)?;
    items(page)?;
    page.close(Block::DefinitionList)?.close(Block::Block)?;
    Ok(())
}

/// How a command is called.
fn usage(page: &mut Builder, command: &Command) -> Built<()> {
    page.write(Style::Literal, format!("sefgrunn {}", command.name))?;
    if !command.flags.is_empty() {
        page.write(Style::Text, " [")?
            .write(Style::Metavar, "OPTION..")?
            .write(Style::Text, "]")?;
    }
    page.write(Style::Text, " ")?.write(Style::Metavar, command.operands)?;
    Ok(())
}

/// An option as it is typed.
fn typed(page: &mut Builder, flag: &Flag) -> Built<()> {
    match flag.letter {
        Some(letter) => {
            page.write(Style::Literal, format!("-{letter}"))?.write(Style::Text, ", ")?
        }
        None => page.write(Style::Text, "    ")?,
    };
    page.write(Style::Literal, format!("--{}", flag.long))?;
    if let Some(value) = flag.value {
        page.write(Style::Text, "=")?.write(Style::Metavar, value)?;
    }
    Ok(())
}

fn options(page: &mut Builder, command: &Command) -> Built<()> {
    list(page, |page| {
        for flag in command.flags {
            item(page, |page| typed(page, flag), flag.help)?;
        }
        Ok(())
    })
}

/// The help of a command.
pub fn of(command: &Command) -> Built<Vec<u8>> {
    let mut page = Builder::new();
    page.open(Block::Block)?.write(Style::Text, "Usage: ")?;
    usage(&mut page, command)?;
    page.close(Block::Block)?;
    paragraph(&mut page, &about(command))?;
    headed(&mut page, "Options", |page| options(page, command))?;
    page.finish()
}

/// What a command does, in sentences.
fn about(command: &Command) -> String {
    let mut text = format!("{}.", command.summary);
    if !command.about.is_empty() {
        text = format!("{text} {}", command.about);
    }
    text
}

/// The whole help.
pub fn page() -> Built<Vec<u8>> {
    let mut page = Builder::new();
    let page_ = &mut page;
    headed(page_, "Name", |page| {
        page.open(Block::Block)?.write(Style::Literal, "sefgrunn")?;
        page.write(Style::Text, " - help text that cannot lose an option")?.close(Block::Block)?;
        Ok(())
    })?;
    headed(page_, "Usage", |page| {
        page.open(Block::Block)?.write(Style::Literal, "sefgrunn ")?;
        page.write(Style::Metavar, "COMMAND")?.write(Style::Text, " [")?;
        page.write(Style::Metavar, "OPTION..")?.write(Style::Text, "] [")?;
        page.write(Style::Metavar, "FILE..")?.write(Style::Text, "]")?.close(Block::Block)?;
        Ok(())
    })?;
    headed(page_, "Description", |page| {
        paragraph(
            page,
            "Renders, checks and makes stored documents, the form in which help pages are kept. Where no `FILE` is named, or it is `-`, standard input is read. \
             Where a document is refused, nothing is written to standard output, and one line on standard error names the refusal's number, its place in bytes, and what stands there.",
        )
    })?;
    headed(page_, "Commands", |page| {
        list(page, |page| {
            for command in COMMANDS {
                item(
                    page,
                    |page| page.write(Style::Literal, command.name).map(drop),
                    &about(command),
                )?;
            }
            Ok(())
        })
    })?;
    for command in COMMANDS {
        headed(page_, &format!("Options of {}", command.name), |page| options(page, command))?;
    }
    headed(page_, "Exit status", |page| {
        list(page, |page| {
            for (status, when) in [
                ("0", "All was accepted."),
                ("1", "Something was refused, or a document has no house shape."),
                ("2", "Wrong usage, or reading or writing failed."),
            ] {
                item(page, |page| page.write(Style::Literal, status).map(drop), when)?;
            }
            Ok(())
        })
    })?;
    page.finish()
}

/// The completion for bash: commands first, then the options of the command, and files.
pub fn bash() -> String {
    let names: Vec<&str> = COMMANDS.iter().map(|command| command.name).collect();
    let mut cases = String::new();
    for command in COMMANDS {
        let mut options: Vec<String> = Vec::new();
        for flag in command.flags {
            options.push(format!("--{}", flag.long));
            options.extend(flag.letter.map(|letter| format!("-{letter}")));
        }
        cases += &format!("        {}) options='{}' ;;\n", command.name, options.join(" "));
    }
    format!(
        "# bash completion for sefgrunn\n\
         _sefgrunn() {{\n\
         \x20   local word=${{COMP_WORDS[COMP_CWORD]}} options=\n\
         \x20   if [ \"$COMP_CWORD\" -eq 1 ]; then\n\
         \x20       COMPREPLY=($(compgen -W '{} --help --version' -- \"$word\"))\n\
         \x20       return\n\
         \x20   fi\n\
         \x20   case ${{COMP_WORDS[1]}} in\n\
         {cases}\
         \x20   esac\n\
         \x20   case $word in\n\
         \x20       -*) COMPREPLY=($(compgen -W \"$options\" -- \"$word\")) ;;\n\
         \x20       *) COMPREPLY=($(compgen -f -- \"$word\")) ;;\n\
         \x20   esac\n\
         }}\n\
         complete -o filenames -F _sefgrunn sefgrunn\n",
        names.join(" ")
    )
}
