//! Reads rows, a style and a text in each line, and prints each with the text in that style. A style is the word `format` with what
//! it has other than the usual one: the spaces before a field, `aligned`, `bare` where no comma stands after the last field, `blank` and
//! so many blank lines between entries, `braces` or `quotes` where literals come to stand in these, `first:` and names of fields, with
//! commas between them, that come first, `width` and how many characters a field's line has at most.

use edit_entries::document::RawDocument;
use edit_format::formatting::{format, format_text};
use edit_format::style::{Delimiters, Style};
use std::alloc::{AllocError, Global};
use crate::support::rows::Calls;

pub struct Formats;

// The names of fields that words have in an order.
fn names_of(alloc: Global, words: &str) -> Result<Vec<&str>, AllocError> {
    let mut names = Vec::new(alloc);
    for word in words.split(' ') {
        if let Some(list) = word.strip_prefix("first:") {
            for name in list.split(',') {
                names.push(name)?;
            }
        }
    }
    Ok(names)
}

// The style that words name, with the order of these names.
fn style_of<'a>(words: &str, order: &'a [&'a str]) -> Option<Style<'a>> {
    let mut style = Style {
        order,
        ..Style::default()
    };
    for word in words.split(' ') {
        if word.starts_with("first:") {
            continue;
        }
        match word {
            "" => {}
            "aligned" => style.aligned = true,
            "bare" => style.trailing_comma = false,
            "braces" => style.delimiters = Delimiters::Braces,
            "quotes" => style.delimiters = Delimiters::Quotes,
            _ => {
                if let Some(count) = word.strip_prefix("blank") {
                    style.blank_lines = Some(count.parse().ok()?);
                } else if let Some(count) = word.strip_prefix("width") {
                    style.width = Some(count.parse().ok()?);
                } else {
                    style.indent = word.parse().ok()?;
                }
            }
        }
    }
    Some(style)
}

// A text in a style, which `format` and `format_text` agree on.
fn formatted(alloc: Global, text: &str, style: &Style<'_>) -> Result<String, AllocError> {
    let by_entries = format_text(alloc, text, style);
    let Ok(document) = RawDocument::parse(alloc, text) else {
        let error = match by_entries {
            Ok(_) => "`format_text` accepts it",
            Err(_) => "no bibliography",
        };
        return String::from_str(alloc, error);
    };
    let new = format(alloc, &document, style)?;
    match by_entries {
        Ok(other) if other.as_str() == new.as_str() => Ok(new),
        _ => String::from_str(alloc, "`format_text` differs"),
    }
}

impl Calls for Formats {
    fn answer(alloc: Global, call: &str, text: &str) -> Result<Option<String>, AllocError> {
        let (is_twice, call) = match call.strip_prefix("twice ") {
            Some(call) => (true, call),
            None => (false, call),
        };
        let Some(words) = call.strip_prefix("format") else {
            return Ok(None);
        };
        let names = names_of(alloc, words)?;
        let Some(style) = style_of(words, &names) else {
            return Ok(None);
        };
        let new = formatted(alloc, text, &style)?;
        if is_twice {
            return Ok(Some(formatted(alloc, new.as_str(), &style)?));
        }
        Ok(Some(new))
    }
}
