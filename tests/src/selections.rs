//! Reads rows, a condition in each line, and prints each with the keys of the entries that it selects, or with its error: of the
//! example file for `select`, and of FILE for `file FILE`.

use bib_select::errors::SelectionError;
use bib_select::selection::Selection;
use biblatex::{Bibliography, ParseError};
use std::alloc::{AllocError, Global};
use crate::support::rows::Calls;

pub struct Selections;

// The example file: that of the section "Select entries" of docs/BIBKIT.md.
const EXAMPLE: &str = "\
@string{jsl = {Journal of Symbolic Logic}}
@article{church1936, author = {Church, Alonzo}, title = {A Note on the {Entscheidungsproblem}}, journaltitle = jsl, date = {1936-03}}
@book{knuth1984, author = {Knuth, Donald E.}, title = {The {\\TeX}book}, publisher = {Addison-Wesley}, year = 1984}
@InProceedings{cook1971, author = {Cook, Stephen A.}, title = {The Complexity of Theorem-Proving Procedures}, crossref = {stoc1971}}
@proceedings{stoc1971, title = {Proceedings of the Third Annual ACM Symposium on Theory of Computing}, date = {1971}, publisher = {ACM}}
@thesis{godel1929, author = {G{\\\"o}del, Kurt}, title = {{\\\"U}ber die Vollst{\\\"a}ndigkeit des Logikkalk{\\\"u}ls}, type = {phdthesis}, date = {1929}}
@online{ctan, title = {The Comprehensive {TeX} Archive Network}, url = {https://ctan.org/}, date = {1992/}}
@misc{draft, title = {On \"and\" and 'or'}, year = {in press}}
";

// The keys of the entries of a file that meet a condition.
fn selected_keys(alloc: Global, file: &str, condition: &Selection) -> Result<String, ParseError> {
    let bibliography = Bibliography::parse(alloc, file)?;
    let mut keys = String::new(alloc);
    for entry in bibliography.iter() {
        if condition.selects(alloc, entry)? {
            keys.push_str(entry.key.as_str())?;
            keys.push(' ')?;
        }
    }
    Ok(keys)
}

// The same, or the error of the file.
fn selected(alloc: Global, file: &str, condition: &Selection) -> Result<String, AllocError> {
    match selected_keys(alloc, file, condition) {
        Ok(keys) => Ok(keys),
        Err(error) => format!(in alloc; "{error}"),
    }
}

impl Calls for Selections {
    fn answer(alloc: Global, call: &str, text: &str) -> Result<Option<String>, AllocError> {
        let file = match call.strip_prefix("file ") {
            Some(file) => file,
            None if call == "select" => EXAMPLE,
            None => return Ok(None),
        };
        match Selection::parse(alloc, text) {
            Ok(condition) => Ok(Some(selected(alloc, file, &condition)?)),
            Err(SelectionError::OutOfMemory) => Err(AllocError),
            Err(error) => Ok(Some(format!(in alloc; "{error}")?)),
        }
    }
}
