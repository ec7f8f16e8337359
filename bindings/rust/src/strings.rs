//! The parts of all strings of a text.

use crate::error::Refused;
use crate::ffi;

/// The parts of all strings of a text, in one list, and their joined text.
#[derive(Debug)]
pub(crate) struct Strings {
    text: Box<str>,
    parts: Box<[Part]>,
}

// A part of a string, in 16 bytes.
#[derive(Clone, Copy, Debug)]
struct Part {
    string: u32,
    is_interpolation: bool,
    // A range of the joined text, unless it is an interpolation.
    start: u32,
    end: u32,
}

// The record of a part. Its numbers fit in 32 bits: the library refuses longer texts, and a joined text is no longer than its text.
fn record(part: &ffi::StringPart) -> Part {
    Part {
        string: part.string as u32,
        is_interpolation: part.is_interpolation == 1,
        start: part.start as u32,
        end: part.end as u32,
    }
}

impl Strings {
    /// Reads the strings of a text.
    pub(crate) fn read(text: &str) -> Result<Strings, Refused> {
        // SAFETY: the call fills its arrays as `listed_twice` requires.
        let (parts, joined) = unsafe {
            ffi::listed_twice(
                (text.len() / 2 + 8, text.len()),
                |room, len, buffer, buffer_room, buffer_len| {
                    ffi::rnix_strings(text.as_ptr(), text.len(), room, len, buffer, buffer_room, buffer_len)
                },
            )
        }?;
        let joined = String::from_utf8(joined).map_err(|_| Refused::NotUtf8)?;
        Ok(Strings {
            text: joined.into(),
            parts: parts.iter().map(record).collect(),
        })
    }

    /// Returns the parts of the string that has a number among the elements. `None` stands for an interpolation.
    pub(crate) fn parts(&self, string: u32) -> Vec<Option<&str>> {
        let first = self.parts.partition_point(|part| part.string < string);
        let own = self.parts[first..].iter().take_while(|part| part.string == string);
        own.map(|part| (!part.is_interpolation).then(|| &self.text[part.start as usize..part.end as usize]))
            .collect()
    }
}
