//! Reads rows, the text of our own JSON in each line, and prints each with the source of its entries, or why there is none.

use bib_from_json::converting::{EntriesError, entries_of_json};
use bib_from_json::reading::Fault;
use std::alloc::{AllocError, Global};
use crate::support::rows::Calls;

pub struct JsonImports;

// What is wrong, in a word.
fn fault_word(fault: Fault) -> &'static str {
    match fault {
        Fault::NotJson => "no JSON",
        Fault::NotEntries => "no entries",
        Fault::NotAnObject => "no object",
        Fault::NoKey => "no key",
        Fault::NoType => "no type",
        Fault::NoFields => "no fields",
        Fault::EntryMember => "entry member",
        Fault::FieldTwice => "field twice",
        Fault::NoChunks => "no chunks",
        Fault::FieldMember => "field member",
        Fault::NotAChunk => "no chunk",
        Fault::ChunkMember => "chunk member",
        Fault::WrongKind => "wrong kind",
        Fault::KeyTwice => "key twice",
        Fault::NotWritable => "not writable",
        Fault::OtherFields => "other fields",
        Fault::OtherText => "other text",
    }
}

// Why there are no entries.
fn error_text(alloc: Global, error: &EntriesError) -> Result<String, AllocError> {
    match error {
        EntriesError::Refused(refusal) => format!(in alloc;
            "refused: {} at {} in {}, key `{}`, field `{}`",
            fault_word(refusal.unfit.fault),
            refusal.at,
            refusal.element,
            refusal.unfit.key.as_str(),
            refusal.unfit.field.as_str()
        ),
        EntriesError::NotRead(_) => String::from_str(alloc, "not read again"),
        EntriesError::OutOfMemory => Err(AllocError),
    }
}

impl Calls for JsonImports {
    fn answer(alloc: Global, call: &str, text: &str) -> Result<Option<String>, AllocError> {
        match (call, entries_of_json(alloc, text)) {
            ("source", Ok(converted)) => Ok(Some(String::from_str(alloc, converted.text.as_str())?)),
            (_, Ok(_)) => Ok(None),
            (_, Err(error)) => Ok(Some(error_text(alloc, &error)?)),
        }
    }
}
