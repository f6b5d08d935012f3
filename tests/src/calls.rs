//! Tests of calls that no row says, where memory is there: of texts, lists, maps and values that are made by hand, and copies.

mod buffers;
mod checks;
mod chunks;
mod contents;
mod encodings;
mod maps;
mod positions;
mod readings;
mod scanner;
mod texts;
mod values;
