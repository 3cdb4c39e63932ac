//! The stored document of 01: read into the kept `Doc`, and built through it.

use crate::buffer::{self, Token};
use crate::Doc;

/// 01: "At most 32,768 bytes, 32 open blocks".
pub const MOST_BYTES: usize = 32_768;
pub const MOST_OPEN: usize = 32;

/// The styles in the order of 01: kind 0x0001 plus the index.
#[derive(Debug, Clone, Copy, Eq, PartialEq)]
pub enum Style {
    Text,
    Emphasis,
    Literal,
    Metavar,
    Invalid,
}

/// The blocks in the order of 01: start 0x0100 plus the index, end 0x0200 plus the index.
#[derive(Debug, Clone, Copy, Eq, PartialEq)]
pub enum Block {
    Header,
    Section2,
    Section3,
    Section4,
    ItemTerm,
    ItemBody,
    DefinitionList,
    Block,
    InlineBlock,
    TermRef,
    Meta,
    Mono,
}

impl Style {
    pub const ALL: [Style; 5] =
        [Style::Text, Style::Emphasis, Style::Literal, Style::Metavar, Style::Invalid];

    pub(crate) fn kept(self) -> buffer::Style {
        match self {
            Style::Text => buffer::Style::Text,
            Style::Emphasis => buffer::Style::Emphasis,
            Style::Literal => buffer::Style::Literal,
            Style::Metavar => buffer::Style::Metavar,
            Style::Invalid => buffer::Style::Invalid,
        }
    }
}

impl Block {
    pub const ALL: [Block; 12] = [
        Block::Header,
        Block::Section2,
        Block::Section3,
        Block::Section4,
        Block::ItemTerm,
        Block::ItemBody,
        Block::DefinitionList,
        Block::Block,
        Block::InlineBlock,
        Block::TermRef,
        Block::Meta,
        Block::Mono,
    ];

    pub(crate) fn kept(self) -> buffer::Block {
        match self {
            Block::Header => buffer::Block::Header,
            Block::Section2 => buffer::Block::Section2,
            Block::Section3 => buffer::Block::Section3,
            Block::Section4 => buffer::Block::Section4,
            Block::ItemTerm => buffer::Block::ItemTerm,
            Block::ItemBody => buffer::Block::ItemBody,
            Block::DefinitionList => buffer::Block::DefinitionList,
            Block::Block => buffer::Block::Block,
            Block::InlineBlock => buffer::Block::InlineBlock,
            Block::TermRef => buffer::Block::TermRef,
            Block::Meta => buffer::Block::Meta,
            Block::Mono => buffer::Block::Mono,
        }
    }
}

/// One record: body length, kind, body.
pub fn put_record(out: &mut Vec<u8>, kind: u16, body: &[u8]) {
    out.extend_from_slice(&(body.len() as u32).to_le_bytes());
    out.extend_from_slice(&kind.to_le_bytes());
    out.extend_from_slice(body);
}

/// Whether a document must end with every block closed, or may end inside blocks (the builder's
/// document so far).
#[derive(Debug, Clone, Copy, Eq, PartialEq)]
pub enum Ending {
    Closed,
    Open,
}

/// The kept `Doc` of a stored document; `None` where 01 refuses the document (1 to 8, or 1 to 7
/// where it may end inside blocks). Which refusal it is, is said by `rules` alone; that both agree
/// on acceptance is checked by `kept`.
pub(crate) fn decode(document: &[u8], ending: Ending) -> Option<Doc> {
    let mut tokens = Vec::new();
    let mut payload = String::new();
    let mut open = Vec::new();
    let mut rest = document;
    while let Some((head, tail)) = rest.split_first_chunk::<6>() {
        let [a, b, c, d, low, high] = *head;
        let size = usize::try_from(u32::from_le_bytes([a, b, c, d])).ok()?;
        let body = std::str::from_utf8(tail.get(..size)?).ok()?;
        rest = &tail[size..];
        tokens.push(match (high, usize::from(low)) {
            (0, index @ 1..=5) => {
                payload.push_str(body);
                let style = Style::ALL[index - 1].kept();
                Token::Text { bytes: size, style }
            }
            (1, index @ 0..=11) if size == 0 => {
                open.push(index);
                Token::BlockStart(Block::ALL[index].kept())
            }
            (2, index @ 0..=11) if size == 0 && open.pop() == Some(index) => {
                Token::BlockEnd(Block::ALL[index].kept())
            }
            _ => return None,
        });
        if open.len() > MOST_OPEN {
            return None;
        }
    }
    let whole = rest.is_empty() && document.len() <= MOST_BYTES;
    let ended = ending == Ending::Open || open.is_empty();
    (whole && ended).then(|| Doc::from_parts(tokens, payload))
}

/// A document under construction: the kept `Doc` behind public functions.
#[derive(Debug, Clone, Default)]
pub struct Draft(Doc);

impl Draft {
    pub fn new() -> Self {
        Self::default()
    }

    /// `Doc::write_str`
    pub fn write(&mut self, text: &str, style: Style) -> &mut Self {
        self.0.write_str(text, style.kept());
        self
    }

    pub fn text(&mut self, text: &str) -> &mut Self {
        self.write(text, Style::Text)
    }

    pub fn emphasis(&mut self, text: &str) -> &mut Self {
        self.write(text, Style::Emphasis)
    }

    pub fn literal(&mut self, text: &str) -> &mut Self {
        self.write(text, Style::Literal)
    }

    pub fn metavar(&mut self, text: &str) -> &mut Self {
        self.write(text, Style::Metavar)
    }

    pub fn invalid(&mut self, text: &str) -> &mut Self {
        self.write(text, Style::Invalid)
    }

    pub fn open(&mut self, block: Block) -> &mut Self {
        self.0.token(Token::BlockStart(block.kept()));
        self
    }

    pub fn close(&mut self, block: Block) -> &mut Self {
        self.0.token(Token::BlockEnd(block.kept()));
        self
    }

    /// A block around what `inner` writes.
    pub fn within(
        &mut self,
        block: Block,
        inner: impl FnOnce(&mut Self) -> &mut Self,
    ) -> &mut Self {
        inner(self.open(block)).close(block)
    }

    /// `Doc::doc`
    pub fn doc(&mut self, added: &Draft) -> &mut Self {
        self.0.doc(&added.0);
        self
    }

    /// `Doc::em_doc`
    pub fn em_doc(&mut self, added: &Draft) -> &mut Self {
        self.0.em_doc(&added.0);
        self
    }

    /// The document in the stored form.
    pub fn stored(&self) -> Vec<u8> {
        self.0.stored()
    }
}

#[cfg(test)]
mod tests {
    use super::*;

    /// Stored, read back and stored again: the same bytes, with every style and block, empty
    /// bodies and neighbours of one style.
    #[test]
    fn round_trip() {
        let mut draft = Draft::new();
        for block in Block::ALL {
            draft.open(block);
            for style in Style::ALL {
                draft.write("é \n", style).write("", style);
            }
        }
        for block in Block::ALL.into_iter().rev() {
            draft.close(block);
        }
        draft.text("").doc(Draft::new().text("x"));
        let mut bytes = draft.stored();
        put_record(&mut bytes, 0x0001, b"a");
        put_record(&mut bytes, 0x0001, b"b");
        assert_eq!(decode(&bytes, Ending::Closed).unwrap().stored(), bytes);
    }

    #[test]
    fn kinds_are_those_of_01() {
        for (index, style) in Style::ALL.into_iter().enumerate() {
            let kind = index as u8 + 1;
            assert_eq!(Draft::new().write("", style).stored(), [0, 0, 0, 0, kind, 0]);
        }
        for (index, block) in Block::ALL.into_iter().enumerate() {
            let index = index as u8;
            assert_eq!(Draft::new().open(block).stored(), [0, 0, 0, 0, index, 1]);
            assert_eq!(Draft::new().close(block).stored(), [0, 0, 0, 0, index, 2]);
        }
    }
}
