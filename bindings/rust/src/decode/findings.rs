//! Decodes findings. `crates/isle_encoding/specs/findings/Encoded.antt` defines the bytes.

use super::{Broken, Read, Reader};
use crate::lexer::Pos;

/// A finding, whose place is a position.
#[derive(Clone, Debug, PartialEq, Eq)]
pub(crate) struct ToldFinding {
    pub is_error: bool,
    pub kind: String,
    pub pos: Pos,
    pub message: String,
    pub notes: Vec<ToldNote>,
}

/// A note, whose place is a position.
#[derive(Clone, Debug, PartialEq, Eq)]
pub(crate) struct ToldNote {
    pub pos: Pos,
    pub message: String,
}

/// The findings that the bytes encode. All bytes must be read.
pub(crate) fn findings(bytes: &[u8]) -> Read<Vec<ToldFinding>> {
    let mut reader = Reader::new(bytes)?;
    let findings = reader.list(Reader::finding)?;
    if reader.at == reader.text.len() {
        Ok(findings)
    } else {
        Err(Broken)
    }
}

impl Reader<'_> {
    fn finding(&mut self) -> Read<ToldFinding> {
        Ok(ToldFinding {
            is_error: self.flag()?,
            kind: self.string()?,
            pos: self.pos()?,
            message: self.string()?,
            notes: self.list(Reader::note)?,
        })
    }

    fn note(&mut self) -> Read<ToldNote> {
        Ok(ToldNote {
            pos: self.pos()?,
            message: self.string()?,
        })
    }
}
