//! Decodes a tree from the bytes that the library writes.
//!
//! `crates/isle_encoding/specs/Encoded.antt` defines the bytes. The decoder takes any bytes: if
//! they encode no tree it returns an error, and nothing panics. It recurses as deep as the tree, or
//! as the bytes demand.

mod definitions;
mod findings;
mod rules;
mod specs;

pub(crate) use self::findings::{ToldFinding, ToldNote, findings};

use self::Stop::{Broken, Memory};
use crate::ast::{Def, Ident};
use crate::lexer::Pos;
use std::alloc::{Layout, alloc};
use std::fmt;

/// Why bytes give no tree.
#[derive(Clone, Copy, Debug, PartialEq, Eq)]
pub(crate) enum Stop {
    /// The bytes encode no tree.
    Broken,
    /// Out of memory.
    Memory,
}

impl fmt::Display for Stop {
    fn fmt(&self, f: &mut fmt::Formatter<'_>) -> fmt::Result {
        f.write_str(match self {
            Broken => "the bytes encode no tree",
            Memory => "out of memory",
        })
    }
}

/// A decoded value, or the reason why there is none.
type Read<T> = Result<T, Stop>;

/// The version of the encoding.
const VERSION: u8 = 1;

/// The tree that the bytes encode. All bytes must be read.
pub(crate) fn tree(bytes: &[u8]) -> Read<Vec<Def>> {
    Reader::new(bytes)?.defs()
}

/// The tree that the bytes encode, with default positions.
pub(crate) fn tree_without_pos(bytes: &[u8]) -> Read<Vec<Def>> {
    let mut reader = Reader::new(bytes)?;
    reader.has_pos = false;
    reader.defs()
}

/// Calls a closure with each definition that the bytes encode. All bytes must be read.
pub(crate) fn each(bytes: &[u8], call: impl FnMut(Def) -> Read<()>) -> Read<()> {
    Reader::new(bytes)?.each(call)
}

/// The bytes, and how many are read.
struct Reader<'a> {
    /// The bytes, which are UTF-8.
    text: &'a str,
    /// How many are read.
    at: usize,
    /// Whether positions are those that are read, or default ones.
    has_pos: bool,
}

impl<'a> Reader<'a> {
    /// Reads the version.
    fn new(bytes: &'a [u8]) -> Read<Reader<'a>> {
        // All bytes outside texts are below 128, so one check of all of them is enough.
        let text = std::str::from_utf8(bytes).map_err(|_| Broken)?;
        match bytes.first() {
            Some(&VERSION) => Ok(Reader {
                text,
                at: 1,
                has_pos: true,
            }),
            _ => Err(Broken),
        }
    }

    /// The definitions, up to the end of the bytes.
    fn defs(&mut self) -> Read<Vec<Def>> {
        let mut defs = Vec::new();
        self.each(|def| {
            defs.try_reserve(1).map_err(|_| Memory)?;
            defs.push(def);
            Ok(())
        })?;
        Ok(defs)
    }

    /// Calls a closure with each definition, up to the end of the bytes.
    fn each(&mut self, mut call: impl FnMut(Def) -> Read<()>) -> Read<()> {
        while let Some(def) = self.next_def()? {
            call(def)?;
        }
        if self.at == self.text.len() {
            Ok(())
        } else {
            Err(Broken)
        }
    }

    #[inline]
    fn byte(&mut self) -> Read<u8> {
        let byte = *self.text.as_bytes().get(self.at).ok_or(Broken)?;
        self.at += 1;
        Ok(byte)
    }

    /// A number: its digits to the base 64, the lowest first, each but the last one plus 64.
    #[inline(always)]
    fn number(&mut self) -> Read<usize> {
        match self.text.as_bytes().get(self.at) {
            Some(&digit @ 0..64) => {
                self.at += 1;
                Ok(usize::from(digit))
            }
            _ => self.longer_number(),
        }
    }

    /// A number of more than one digit.
    #[inline(always)]
    fn longer_number(&mut self) -> Read<usize> {
        // Nearly all have up to four digits, which are read together.
        let bytes = self.text.as_bytes().get(self.at..).unwrap_or_default();
        let four = u32::from_le_bytes(*bytes.first_chunk().unwrap_or(&[64; 4]));
        let last = (!four & 0x4040_4040).trailing_zeros();
        if last == 32 {
            return self.long_number();
        }
        // The last digit's byte ends with the bit after this one.
        let digits = four & (u32::MAX >> (30 - last));
        if digits & 0x8080_8080 != 0 {
            return Err(Broken);
        }
        self.at += last as usize / 8 + 1;
        let low = digits & 0x3F | digits >> 2 & 0xFC0;
        let high = digits >> 4 & 0x3_F000 | digits >> 6 & 0xFC_0000;
        Ok((low | high) as usize)
    }

    /// A number of any length.
    #[cold]
    fn long_number(&mut self) -> Read<usize> {
        let first = self.byte()?;
        self.more_digits(first)
    }

    /// A number whose first digit, which is not the last one, is read.
    #[inline]
    fn more_digits(&mut self, first: u8) -> Read<usize> {
        let mut byte = first;
        let mut number = usize::from(first & 63);
        let mut shift = 6;
        while (64..128).contains(&byte) && shift < usize::BITS {
            byte = self.byte()?;
            let digit = usize::from(byte & 63);
            number |= digit << shift;
            if number >> shift != digit {
                return Err(Broken);
            }
            shift += 6;
        }
        if byte < 64 { Ok(number) } else { Err(Broken) }
    }

    /// A number of up to 128 bits.
    fn large_number(&mut self) -> Read<u128> {
        let mut byte = self.byte()?;
        let mut number = u128::from(byte & 63);
        let mut shift = 6;
        while (64..128).contains(&byte) && shift < u128::BITS {
            byte = self.byte()?;
            let digit = u128::from(byte & 63);
            number |= digit << shift;
            if number >> shift != digit {
                return Err(Broken);
            }
            shift += 6;
        }
        if byte < 64 { Ok(number) } else { Err(Broken) }
    }

    /// An integer: whether it is negative, and how far it is from 0 or from -1.
    fn integer(&mut self) -> Read<i128> {
        let negative = self.flag()?;
        let distance = i128::try_from(self.large_number()?).map_err(|_| Broken)?;
        Ok(if negative { !distance } else { distance })
    }

    fn flag(&mut self) -> Read<bool> {
        match self.byte()? {
            0 => Ok(false),
            1 => Ok(true),
            _ => Err(Broken),
        }
    }

    /// A position: the number of its file, and its offset.
    #[inline(always)]
    fn pos(&mut self) -> Read<Pos> {
        let (file, offset) = match self.short_pos() {
            Some(pos) => pos,
            None => (self.number()?, self.number()?),
        };
        Ok(if self.has_pos {
            Pos { file, offset }
        } else {
            Pos::default()
        })
    }

    /// A position whose file has one digit, and whose offset has up to four: all are read together.
    /// Of any other nothing is read.
    #[inline(always)]
    fn short_pos(&mut self) -> Option<(usize, usize)> {
        let eight = self.text.as_bytes().get(self.at..)?.first_chunk()?;
        let file_first = u64::from_le_bytes(*eight);
        // Zeros below the bit by which the offset's last digit is known.
        let last = (!file_first & 0x40_4040_4000).trailing_zeros();
        if last == u64::BITS {
            return None;
        }
        // The last digit's byte ends with the bit after this one.
        let digits = file_first & (u64::MAX >> (62 - last));
        if digits & 0x80_8080_80C0 != 0 {
            return None;
        }
        self.at += last as usize / 8 + 1;
        let file = digits & 0x3F;
        let low = digits >> 8 & 0x3F | digits >> 10 & 0xFC0;
        let high = digits >> 12 & 0x3_F000 | digits >> 14 & 0xFC_0000;
        Some((file as usize, (low | high) as usize))
    }

    /// A name: its text, and then its position.
    #[inline(always)]
    fn name(&mut self) -> Read<Ident> {
        let len = self.number()?;
        let end = self.at.checked_add(len).ok_or(Broken)?;
        let text = self.text.get(self.at..end).ok_or(Broken)?;
        let text = match self.text.as_bytes()[self.at..].first_chunk() {
            Some(beginning) if len <= SHORT => short(beginning, text)?,
            _ => owned(text)?,
        };
        self.at = end;
        Ok(Ident(text, self.pos()?))
    }

    /// A text: its length, and then its bytes.
    fn string(&mut self) -> Read<String> {
        let len = self.number()?;
        let end = self.at.checked_add(len).ok_or(Broken)?;
        let text = self.text.get(self.at..end).ok_or(Broken)?;
        self.at = end;
        owned(text)
    }

    fn names(&mut self) -> Read<Vec<Ident>> {
        self.list(Reader::name)
    }

    /// A list: its length, and then its items.
    #[inline]
    fn list<T>(&mut self, mut item: impl FnMut(&mut Self) -> Read<T>) -> Read<Vec<T>> {
        let len = self.number()?;
        // Each item has at least a byte, so a length past them is broken, and nothing is allocated.
        if len > self.text.len() - self.at {
            return Err(Broken);
        }
        let mut items = room(len)?;
        for _ in 0..len {
            items.push(item(self)?);
        }
        Ok(items)
    }

    fn option<T>(&mut self, item: impl FnOnce(&mut Self) -> Read<T>) -> Read<Option<T>> {
        if self.flag()? {
            item(self).map(Some)
        } else {
            Ok(None)
        }
    }
}

/// Memory for so many values, at least one.
#[inline]
fn place<T>(len: usize) -> Read<*mut T> {
    const { assert!(size_of::<T>() > 0) };
    let layout = Layout::array::<T>(len).map_err(|_| Memory)?;
    debug_assert!(len > 0);
    // SAFETY: the layout has a size: there is a value, and each has one.
    let place = unsafe { alloc(layout) }.cast::<T>();
    if place.is_null() {
        Err(Memory)
    } else {
        Ok(place)
    }
}

/// An empty list with room for so many items. `Vec::try_reserve_exact` takes twice as long.
#[inline]
fn room<T>(len: usize) -> Read<Vec<T>> {
    if len == 0 {
        return Ok(Vec::new());
    }
    // SAFETY: the place is new, of the allocator of lists, and has room for so many items.
    Ok(unsafe { Vec::from_raw_parts(place(len)?, 0, len) })
}

/// How many bytes a short text has at most. No smaller memory is cheaper: the C library gives 24.
const SHORT: usize = 16;

/// A short text of its own, by the bytes from its beginning on. So many bytes are copied without a
/// call, which takes less time than one for the bytes of the text.
#[inline(always)]
fn short(beginning: &[u8; SHORT], text: &str) -> Read<String> {
    let mut bytes = room(SHORT)?;
    bytes.extend_from_slice(beginning);
    bytes.truncate(text.len());
    // SAFETY: the bytes are those of the text, which `beginning` begins with.
    Ok(unsafe { String::from_utf8_unchecked(bytes) })
}

/// A text of its own.
fn owned(text: &str) -> Read<String> {
    let mut bytes = room(text.len())?;
    bytes.extend_from_slice(text.as_bytes());
    // SAFETY: the bytes are those of a text.
    Ok(unsafe { String::from_utf8_unchecked(bytes) })
}

/// A value in memory of its own.
#[inline]
fn boxed<T>(value: T) -> Read<Box<T>> {
    let place = place::<T>(1)?;
    // SAFETY: the place is new, of the allocator of boxes, and has room for the value, which it
    // gets before the box owns it.
    unsafe {
        place.write(value);
        Ok(Box::from_raw(place))
    }
}

#[cfg(test)]
mod tests;
