//! Sinks that take some texts, and then refuse.

use crate::bibliography_calls::checks::{agrees, parsed};
use biblatex::{Bibliography, Sink, WriteError};
use std::alloc::{AllocError, Global};
use std::test::Fail;

// Takes so many texts, and refuses the others.
#[derive(Drop)]
struct Patient {
    left: u8,
    text: String,
    refusals: u64,
}

impl Sink for Patient {
    ghost use Rattle.std.specs.Prelude.{◌≡◌, ◌+◌, ◌-◌, ◌^◌, ◌++◌, min, MatchBool, Some};
    ghost use Rattle.std.specs.String.{string_bytes};

    ghost taken = { λ sink. Some (string_bytes sink.text) };

    ghost refusals = { λ sink. sink.refusals };

    ghost hands_over = { λ old text is_taken new. MatchBool is_taken
        (string_bytes new.text ≡ string_bytes old.text ++ text)
        (new.refusals ≡ min (old.refusals + 1) (2 ^ 64 - 1)) };

    fn write_str(&mut self, text: &str) -> bool {
        if self.left == 0 {
            self.refusals = self.refusals.saturating_add(1);
            return false;
        }
        if self.text.push_str(text).is_err() {
            self.refusals = self.refusals.saturating_add(1);
            return false;
        }
        self.left -= 1;
        true
    }
}

// A sink that takes so many texts.
fn taking(alloc: Global, left: u8) -> Patient {
    Patient {
        left,
        text: String::new(alloc),
        refusals: 0,
    }
}

// What writing answered, and the text that the sink took.
fn outcome(
    alloc: Global,
    written: Result<(), WriteError>,
    sink: &Patient,
) -> Result<String, AllocError> {
    let answer = match written {
        Ok(()) => "done",
        Err(WriteError::Refused) => "refused",
        Err(WriteError::OutOfMemory) => "out of memory",
    };
    format!(in alloc; "{answer}: {}", sink.text.as_str())
}

// Writes a bibliography with BibLaTeX's names to a sink that takes so many texts.
fn biblatex(alloc: Global, bibliography: &Bibliography, left: u8) -> Result<String, AllocError> {
    let mut sink = taking(alloc, left);
    let written = bibliography.write_biblatex(alloc, &mut sink);
    outcome(alloc, written, &sink)
}

// Writes a bibliography with BibTeX's names to a sink that takes so many texts.
fn bibtex(alloc: Global, bibliography: &Bibliography, left: u8) -> Result<String, AllocError> {
    let mut sink = taking(alloc, left);
    let written = bibliography.write_bibtex(alloc, &mut sink);
    outcome(alloc, written, &sink)
}

const FILE: &str = "@misc{a, title={A}} @book{b,} @misc{c, journaltitle={J}}";

// What was written of the file after as many texts, the same in both formats but for the last one.
const TAKEN: [&str; 3] = [
    "refused: ",
    "refused: @misc{a,\ntitle = {A},\n}\n",
    "refused: @misc{a,\ntitle = {A},\n}\n\n@book{b,\n}\n",
];

#[test]
fn reports_that_a_text_was_refused(rt: HostRuntime) -> Result<(), Fail> {
    let alloc = rt.alloc();
    let bibliography = parsed(alloc, FILE)?;
    for (left, want) in [0u8, 1, 2].iter().zip(TAKEN) {
        let found = biblatex(alloc, &bibliography, *left)?;
        agrees(&rt, found.as_str(), want);
        let found = bibtex(alloc, &bibliography, *left)?;
        agrees(&rt, found.as_str(), want);
    }
    Ok(())
}

#[test]
fn hands_one_text_for_each_entry(rt: HostRuntime) -> Result<(), Fail> {
    let alloc = rt.alloc();
    let bibliography = parsed(alloc, FILE)?;
    let want = format!(in alloc; "done: {}", bibliography.to_biblatex_string(alloc)?.as_str())?;
    agrees(&rt, biblatex(alloc, &bibliography, 3)?.as_str(), want.as_str());
    let want = format!(in alloc; "done: {}", bibliography.to_bibtex_string(alloc)?.as_str())?;
    agrees(&rt, bibtex(alloc, &bibliography, 3)?.as_str(), want.as_str());
    let nothing = parsed(alloc, "")?;
    agrees(&rt, biblatex(alloc, &nothing, 0)?.as_str(), "done: ");
    agrees(&rt, bibtex(alloc, &nothing, 0)?.as_str(), "done: ");
    Ok(())
}
