//! Writes JSON.

use super::{Value, MOST_EXACT};
use crate::text::Position;

/// Writes a value.
pub fn write(value: &Value, out: &mut String) {
    match value {
        Value::Null => out.push_str("null"),
        Value::Bool(value) => out.push_str(if *value { "true" } else { "false" }),
        Value::Number(number) => write_number(*number, out),
        Value::String(text) => write_string(text, out),
        Value::Array(items) => write_list(out, '[', ']', items, write),
        Value::Object(members) => write_list(out, '{', '}', members, |(name, value), out| {
            write_string(name, out);
            out.push(':');
            write(value, out);
        }),
        Value::Numbers(numbers) => write_numbers(numbers, out),
        Value::Range(start, end) => write_range(*start, *end, out),
    }
}

// Writes items between brackets, with commas.
fn write_list<T>(out: &mut String, open: char, close: char, items: &[T], write: impl Fn(&T, &mut String)) {
    out.push(open);
    for (index, item) in items.iter().enumerate() {
        if index > 0 {
            out.push(',');
        }
        write(item, out);
    }
    out.push(close);
}

// Writes an array of numbers, of which most have one digit.
fn write_numbers(numbers: &[u32], out: &mut String) {
    out.reserve(2 * numbers.len() + 2);
    write_list(out, '[', ']', numbers, |number, out| {
        write_count(u64::from(*number), out)
    });
}

// Writes a number; JSON has none for infinities and NaN.
fn write_number(number: f64, out: &mut String) {
    if !number.is_finite() {
        out.push_str("null");
    } else if number.fract() == 0.0 && number.abs() <= MOST_EXACT {
        if number < 0.0 {
            out.push('-');
        }
        write_count(number.abs() as u64, out);
    } else {
        out.push_str(&number.to_string());
    }
}

// Writes the digits of a number.
fn write_count(number: u64, out: &mut String) {
    if number >= 10 {
        write_count(number / 10, out);
    }
    out.push(char::from(b'0' + (number % 10) as u8));
}

fn write_range(start: Position, end: Position, out: &mut String) {
    out.push_str("{\"start\":");
    write_position(start, out);
    out.push_str(",\"end\":");
    write_position(end, out);
    out.push('}');
}

fn write_position(position: Position, out: &mut String) {
    out.push_str("{\"line\":");
    write_count(position.line as u64, out);
    out.push_str(",\"character\":");
    write_count(position.column as u64, out);
    out.push('}');
}

// Writes a string with its quotes.
fn write_string(text: &str, out: &mut String) {
    out.push('"');
    let mut start = 0;
    for (at, byte) in text.bytes().enumerate() {
        if byte < b' ' || byte == b'"' || byte == b'\\' {
            out.push_str(&text[start..at]);
            write_escape(byte, out);
            start = at + 1;
        }
    }
    out.push_str(&text[start..]);
    out.push('"');
}

// Writes the escape of a byte.
fn write_escape(byte: u8, out: &mut String) {
    match byte {
        b'"' => out.push_str("\\\""),
        b'\\' => out.push_str("\\\\"),
        b'\n' => out.push_str("\\n"),
        b'\r' => out.push_str("\\r"),
        b'\t' => out.push_str("\\t"),
        _ => out.push_str(&format!("\\u{byte:04x}")),
    }
}
