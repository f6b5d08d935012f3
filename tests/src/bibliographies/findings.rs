//! All that is wrong in a file.

use bib_file_entries::keeping::{KeptEntries, keep};
use bib_findings::finding::Finding;
use bib_findings::findings::{between, findings_in};
use bib_findings::lacking::lacking_flags;
use bib_inheritance::recovering::resolve_readable;
use bib_syntax::raw::{RawBibliography, RawRecovery};
use std::alloc::{AllocError, Global};

// All that is wrong in a file, step by step as `Bibliography::recover` reads it.
fn found(alloc: Global, file: &str) -> Result<Vec<Finding>, AllocError> {
    let RawRecovery { raw, skipped } = RawBibliography::recover_parts(alloc, file)?;
    let said = RawBibliography::recover_parts(alloc, file)?.raw.entries;
    let KeptEntries {
        mut entries,
        names,
        spans,
        origins,
        mut errors,
    } = keep(alloc, &raw)?;
    let between = between(alloc, file, &[], &skipped, &said, &origins, &names, &entries, &raw.abbreviations)?;
    let lacking = lacking_flags(alloc, &skipped, &names, &said, &origins, &entries)?;
    let mut unresolved = resolve_readable(alloc, &spans, &names, &mut entries)?;
    errors.append(&mut unresolved)?;
    findings_in(alloc, file, &skipped, &lacking, &raw.abbreviations, &errors, &said, &origins, &entries, between)
}

// Each finding's place, code and message.
fn lines(alloc: Global, found: &[Finding]) -> Result<String, AllocError> {
    let mut out = String::new(alloc);
    for finding in found {
        if !out.is_empty() {
            out.push_str("; ")?;
        }
        let (start, end) = (finding.span.start, finding.span.end);
        let line = format!(in alloc; "{start}-{end} {}: {}", finding.code.name(), finding.message)?;
        out.push_str(line.as_str())?;
    }
    Ok(out)
}

/// The findings of a recovered file, maybe one of several: each finding's place, code and message.
pub(crate) fn findings(alloc: Global, file: &str) -> Result<String, AllocError> {
    lines(alloc, &found(alloc, file)?)
}

/// The findings of a file by itself.
pub(crate) fn all_findings(alloc: Global, file: &str) -> Result<String, AllocError> {
    lines(alloc, &bib_findings::findings::findings(alloc, file)?)
}
