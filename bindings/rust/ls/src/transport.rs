//! Messages with a header, as the base protocol frames them.
//!
//! After a header that says something else than the length of its body, the reader looks for the next `Content-Length:` and continues there. It says so
//! where bytes before it belong to no message, since one may have been lost.

use std::io::{self, BufRead, Read, Write};

/// A message may have this many bytes.
const MOST_BYTES: usize = 1 << 28;

/// How many bytes of a line are looked at together.
const LINE: usize = 4096;

const FIELD: &str = "content-length:";

/// What was read.
#[derive(Debug, PartialEq, Eq)]
pub enum Frame {
    /// The body of a message.
    Body(Vec<u8>),
    /// The body of a message after bytes that belong to none.
    Resumed(Vec<u8>),
    /// A header without a length, or with one that is no number or too large.
    BadHeader,
    /// The input has ended, in a message or between two.
    End,
}

// Reads a line, or the end of a longer one, and returns whether it is one of those.
fn read_line(input: &mut impl BufRead) -> io::Result<(Vec<u8>, bool)> {
    let (mut line, mut is_cut) = (Vec::new(), false);
    loop {
        let room = LINE.saturating_sub(line.len()) as u64;
        let count = input.by_ref().take(room).read_until(b'\n', &mut line)?;
        if count == 0 || line.ends_with(b"\n") {
            return Ok((line, is_cut));
        }
        // A field may have begun in what was read.
        is_cut = true;
        line.drain(..line.len().saturating_sub(LINE / 2));
    }
}

// The offset and the value of the last `Content-Length:` in a line.
fn length_in(line: &str) -> Option<(usize, Option<usize>)> {
    let at = line.to_ascii_lowercase().rfind(FIELD)?;
    let length = line[at + FIELD.len()..].trim().parse().ok();
    Some((at, length.filter(|length| *length <= MOST_BYTES)))
}

// Whether a line is a field of a header, by its name.
fn is_field(line: &str) -> bool {
    let is_name =
        |name: &str| !name.is_empty() && name.bytes().all(|byte| byte.is_ascii_alphanumeric() || byte == b'-');
    line.split_once(':').is_some_and(|(name, _)| is_name(name))
}

/// Reads the next message.
///
/// # Errors
/// Those of the input.
pub fn read(input: &mut impl BufRead) -> io::Result<Frame> {
    let (mut length, mut has_fields, mut has_others) = (None, false, false);
    loop {
        let (line, is_cut) = read_line(input)?;
        if !line.ends_with(b"\n") {
            return Ok(Frame::End);
        }
        let line = String::from_utf8_lossy(&line);
        if !line.trim().is_empty() {
            has_fields = true;
            let found = length_in(&line);
            has_others |= is_cut || !is_field(&line) || found.is_some_and(|(at, _)| at > 0);
            length = found.map_or(length, |(_, length)| length);
            continue;
        }
        match length {
            Some(length) => return read_body(input, length, has_others),
            None if has_fields => return Ok(Frame::BadHeader),
            None => {}
        }
    }
}

fn read_body(input: &mut impl BufRead, length: usize, is_resumed: bool) -> io::Result<Frame> {
    let mut body = Vec::new();
    let count = input.take(length as u64).read_to_end(&mut body)?;
    Ok(match is_resumed {
        _ if count < length => Frame::End,
        true => Frame::Resumed(body),
        false => Frame::Body(body),
    })
}

/// Writes a message.
///
/// # Errors
/// Those of the output.
pub fn write(output: &mut impl Write, body: &str) -> io::Result<()> {
    write!(output, "Content-Length: {}\r\n\r\n{body}", body.len())?;
    output.flush()
}

#[cfg(test)]
mod tests {
    use super::*;

    fn frames(text: &str) -> Vec<Frame> {
        let mut input = text.as_bytes();
        let mut frames = Vec::new();
        loop {
            let frame = read(&mut input).unwrap();
            if frame == Frame::End {
                return frames;
            }
            frames.push(frame);
        }
    }

    fn body(text: &str) -> Frame {
        Frame::Body(text.as_bytes().to_vec())
    }

    fn resumed(text: &str) -> Frame {
        Frame::Resumed(text.as_bytes().to_vec())
    }

    #[test]
    fn messages_are_read_by_their_length() {
        assert_eq!(
            frames("Content-Length: 2\r\n\r\n{}Content-Type: x\r\ncontent-length:3\r\n\r\n[1]"),
            [body("{}"), body("[1]")]
        );
        assert_eq!(frames("Content-Length: 2\n\n{}"), [body("{}")]);
    }

    #[test]
    fn a_message_that_is_cut_off_is_no_message() {
        assert_eq!(frames("Content-Length: 9\r\n\r\n{}"), []);
        assert_eq!(frames("Content-Length: 9\r\n"), []);
        assert_eq!(frames("Content-Le"), []);
    }

    #[test]
    fn after_a_length_that_is_too_small_the_next_message_is_read() {
        let text = "Content-Length: 3\r\n\r\n{\"a\":1}Content-Length: 2\r\n\r\n{}";
        assert_eq!(frames(text), [body("{\"a"), resumed("{}")]);
    }

    #[test]
    fn after_a_length_that_is_too_large_the_message_after_the_next_is_read() {
        let rest = "Content-Length: 2\r\n\r\n{}Content-Length: 2\r\n\r\n[]";
        for length in [9, 16] {
            let text = format!("Content-Length: {length}\r\n\r\n{{}}{rest}");
            let read = frames(&text);
            assert_eq!(read[1..], [Frame::BadHeader, resumed("[]")], "{length}");
        }
    }

    #[test]
    fn a_header_without_a_usable_length_is_reported() {
        for header in [
            "Content-Length: x",
            "Content-Length: -1",
            "Content-Length: 99999999999999999999",
            "Content-Length: 999999999999",
            "Hello",
        ] {
            let text = format!("{header}\r\n\r\n{{}}Content-Length: 2\r\n\r\n[]");
            assert_eq!(frames(&text), [Frame::BadHeader, resumed("[]")], "{header}");
        }
    }

    #[test]
    fn a_field_is_found_after_a_long_line() {
        for count in [1, 2040, 4090, 5000, 100_000] {
            let text = format!("{}Content-Length: 2\r\n\r\n[]", "x".repeat(count));
            assert_eq!(frames(&text), [resumed("[]")], "{count}");
        }
    }

    #[test]
    fn bytes_between_messages_are_reported() {
        let next = "Content-Length: 2\r\n\r\n[]";
        for bytes in [
            "x",
            "{}",
            "\r\n\r\n{}",
            "{\r\n  \"a\": 1\r\n}\r\n",
            "Hello\r\n",
            "Content-Length: 2\r\n{}",
        ] {
            assert_eq!(frames(&format!("{bytes}{next}")), [resumed("[]")], "{bytes:?}");
            let after = format!("{next}{bytes}{next}");
            assert_eq!(frames(&after), [body("[]"), resumed("[]")], "{bytes:?}");
        }
        for bytes in ["", "\r\n", "Content-Type: x\r\n"] {
            assert_eq!(
                frames(&format!("{next}{bytes}{next}")),
                [body("[]"), body("[]")],
                "{bytes:?}"
            );
        }
    }
}
