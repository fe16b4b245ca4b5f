//! Equations as on paper: text that a person types, turned into the postfix
//! bytes, and accepted bytes written back as text.
//!
//! ```text
//! sum       = product { "||" product }
//! product   = factor { "&&" factor }
//! factor    = "(" sum ")"  |  relation
//! relation  = item order number  |  item equal number  |  item equal string
//! ```

pub mod names;
pub mod program;
pub mod to_bytes;
pub mod to_text;

pub use to_bytes::to_bytes;
pub use to_text::to_text;

use crate::refusal::OUT_OF_TABLE;

/// Brackets are nested at most so deep.
pub const DEEPEST: usize = 16;
/// The most bytes of an equation as on paper, since a packet has no more.
pub const MOST: usize = 256;
/// The most bytes of a string.
pub const STRING_MOST: usize = 255;

/// What is wrong at the first wrong place of a text.
#[derive(Clone, Copy, Debug, PartialEq, Eq, PartialOrd, Ord)]
pub enum Reason {
    Item,
    Deeper,
    Operator,
    Order,
    Constant,
    Large,
    Width,
    String,
    Stars,
    Long,
    Connective,
    Bracket,
}

impl Reason {
    pub const ALL: [Reason; 12] = [
        Reason::Item,
        Reason::Deeper,
        Reason::Operator,
        Reason::Order,
        Reason::Constant,
        Reason::Large,
        Reason::Width,
        Reason::String,
        Reason::Stars,
        Reason::Long,
        Reason::Connective,
        Reason::Bracket,
    ];

    pub fn word(self) -> &'static str {
        match self {
            Reason::Item => "item",
            Reason::Deeper => "deeper",
            Reason::Operator => "operator",
            Reason::Order => "order",
            Reason::Constant => "constant",
            Reason::Large => "large",
            Reason::Width => "width",
            Reason::String => "string",
            Reason::Stars => "stars",
            Reason::Long => "long",
            Reason::Connective => "connective",
            Reason::Bracket => "bracket",
        }
    }
}

/// Why a text is not turned into bytes, or bytes not into text.
#[derive(Clone, Copy, Debug, PartialEq, Eq)]
pub enum Refusal {
    /// The first wrong place of a text, counted from 1.
    Wrong(usize, Reason),
    /// 33 or 8.
    Number(u8),
    /// The bytes end in an end mark.
    Mark,
    /// The text would be nested deeper than it may be.
    Deeper,
    /// More than 256 bytes.
    Bytes,
}

/// Writes a result to the front of a lent output and says how long it is. The
/// refusal of an output that is too short comes last.
pub fn lend(result: Result<Vec<u8>, Refusal>, output: &mut [u8]) -> Result<usize, Refusal> {
    let result = result?;
    match output.get_mut(..result.len()) {
        Some(front) => {
            front.copy_from_slice(&result);
            Ok(result.len())
        }
        None => Err(Refusal::Number(OUT_OF_TABLE)),
    }
}
