//! Writing JSON.

use std::fmt::{Display, Write};

/// A string with its quotes and the escapes that it needs.
pub fn write_string(out: &mut String, text: &str) {
    out.push('"');
    for c in text.chars() {
        match c {
            '"' => out.push_str("\\\""),
            '\\' => out.push_str("\\\\"),
            '\u{8}' => out.push_str("\\b"),
            '\u{c}' => out.push_str("\\f"),
            '\n' => out.push_str("\\n"),
            '\r' => out.push_str("\\r"),
            '\t' => out.push_str("\\t"),
            '\0'..='\x1f' => write_number(out, format_args!("\\u{:04x}", c as u32)),
            c => out.push(c),
        }
    }
    out.push('"');
}

/// A number in decimal digits.
pub fn write_number(out: &mut String, number: impl Display) {
    // Writing to a string gives no error.
    let _ = write!(out, "{number}");
}

/// Items with a comma between them.
pub fn write_values<I: IntoIterator>(
    out: &mut String,
    items: I,
    mut write: impl FnMut(&mut String, I::Item),
) {
    for (place, item) in items.into_iter().enumerate() {
        if place > 0 {
            out.push(',');
        }
        write(out, item);
    }
}

/// Nulls and integers with a comma between them.
pub fn write_integers<T: Display>(out: &mut String, rows: &[Option<T>]) {
    write_values(out, rows, |out, row| match row {
        None => out.push_str("null"),
        Some(number) => write_number(out, number),
    });
}
