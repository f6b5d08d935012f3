//! Calls over buffers, as C makes them.

use crate::calls::checks::agrees;
use biblatex_c::editing::{
    biblatex_add as add, biblatex_fmt as fmt, biblatex_remove as remove, biblatex_rename as rename,
    biblatex_set as set, biblatex_unset as unset,
};
use biblatex_c::exporting::{biblatex_csl as csl, biblatex_json as json};
use biblatex_c::linting::biblatex_lint as lint;
use biblatex_c::reading::{
    biblatex_biblatex as biblatex, biblatex_bibtex as bibtex, biblatex_keys as keys,
};
use biblatex_c::recovering::biblatex_recover as recover;
use biblatex_c::status::{Status, biblatex_message as message};
use biblatex_c::version::biblatex_version as version;

const FILE: &[u8] = b"@misc{a, title = {T}}\n@misc{b, crossref = {a}}\n";

// What a call left in a buffer, if its status is 0, which is `Done`.
fn answer(status: u32, out: &[u8], size: usize) -> &str {
    if status != 0 || size > out.len() {
        return "not done";
    }
    str::from_utf8(&out[..size]).unwrap_or("not UTF-8")
}

#[test]
fn reads_into_buffers(rt: HostRuntime) {
    let (alloc, mut size) = (rt.alloc(), 0usize);
    let mut out = [0u8; 512];
    let status = keys(alloc, FILE, &mut out, &mut size);
    agrees(&rt, answer(status, &out, size), "a\nb\n");
    let status = biblatex(alloc, b"@thesis{t, date = 2019}", &mut out, &mut size);
    agrees(&rt, answer(status, &out, size), "@thesis{t,\ndate = {2019},\n}\n");
    let status = bibtex(alloc, b"@article{a, journaltitle = {J}}", &mut out, &mut size);
    agrees(&rt, answer(status, &out, size), "@article{a,\njournal = {J},\n}\n");
    let status = json(alloc, b"", &mut out, &mut size);
    agrees(&rt, answer(status, &out, size), "[]\n");
    let status = csl(alloc, b"@misc{a, title = {T}}", &mut out, &mut size);
    assert!(rt; status == Status::Done.number() && size > 20);
    let status = lint(alloc, b"", &mut out, &mut size);
    agrees(&rt, answer(status, &out, size), "[\n]\n");
    let status = message(2, &mut out, &mut size);
    agrees(&rt, answer(status, &out, size), "not UTF-8");
}

#[test]
fn edits_into_buffers(rt: HostRuntime) {
    let (alloc, mut size) = (rt.alloc(), 0usize);
    let mut out = [0u8; 512];
    let status = fmt(alloc, b"@MISC{a,title={T}}", &mut out, &mut size);
    agrees(&rt, answer(status, &out, size), "@misc{a,\n  title = {T},\n}");
    let status = set(alloc, FILE, b"a", b"title", b"U", &mut out, &mut size);
    agrees(&rt, answer(status, &out, size), "@misc{a, title = {U}}\n@misc{b, crossref = {a}}\n");
    let status = unset(alloc, FILE, b"a", b"note", &mut out, &mut size);
    agrees(&rt, answer(status, &out, size), "@misc{a, title = {T}}\n@misc{b, crossref = {a}}\n");
    let status = rename(alloc, FILE, b"a", b"c", &mut out, &mut size);
    agrees(&rt, answer(status, &out, size), "@misc{c, title = {T}}\n@misc{b, crossref = {c}}\n");
    let status = remove(alloc, FILE, b"a", &mut out, &mut size);
    agrees(&rt, answer(status, &out, size), "@misc{b, crossref = {a}}\n");
    let status = add(alloc, b"@misc{a,}", b"@misc{b,}", &mut out, &mut size);
    agrees(&rt, answer(status, &out, size), "@misc{a,}\n@misc{b,}");
    assert!(rt; add(alloc, FILE, b"@misc{b,}", &mut out, &mut size) == Status::KeyIsThere.number());
    assert!(rt; add(alloc, FILE, b"@misc{c{,}", &mut out, &mut size) == Status::NotAKey.number());
    assert!(rt; add(alloc, FILE, b"@misc{c", &mut out, &mut size) == Status::Refused.number());
    let status = add(alloc, b"@string{s={x}}", b"@string{S={y}}", &mut out, &mut size);
    assert!(rt; status == Status::DefinitionIsThere.number());
}

#[test]
fn says_why_edits_are_refused(rt: HostRuntime) {
    let (alloc, mut size) = (rt.alloc(), 0usize);
    let mut out = [0u8; 512];
    let unknown = remove(alloc, FILE, b"z", &mut out, &mut size);
    assert!(rt; unknown == Status::UnknownKey.number());
    let taken = rename(alloc, FILE, b"a", b"b", &mut out, &mut size);
    assert!(rt; taken == Status::KeyIsThere.number());
    let no_key = rename(alloc, FILE, b"a", b"b c", &mut out, &mut size);
    assert!(rt; no_key == Status::NotAKey.number());
    let no_name = set(alloc, FILE, b"a", b"b c", b"U", &mut out, &mut size);
    assert!(rt; no_name == Status::NotAName.number());
    let no_value = set(alloc, FILE, b"a", b"note", b"U}", &mut out, &mut size);
    assert!(rt; no_value == Status::NotInBraces.number());
    let misread_key = rename(alloc, FILE, b"a", b"b'c", &mut out, &mut size);
    assert!(rt; misread_key == Status::NotAKey.number());
    let status = message(10, &mut out, &mut size);
    agrees(&rt, answer(status, &out, size), "an abbreviation is defined already with another text");
    let status = message(7, &mut out, &mut size);
    agrees(&rt, answer(status, &out, size), "the text can't be a new key");
    let status = message(6, &mut out, &mut size);
    agrees(&rt, answer(status, &out, size), "an entry has the name already, as its key or in its field `ids`");
    let status = message(9, &mut out, &mut size);
    agrees(&rt, answer(status, &out, size), "the value can't be written in braces");
}

#[test]
fn recovers_into_buffers(rt: HostRuntime) {
    let (alloc, mut size) = (rt.alloc(), 0usize);
    let mut out = [0u8; 512];
    let file = b"@article{a, journaltitle = {J}}\n@misc{b, title = {T}\n@misc{c, note = {N}}\n";
    let status = recover(alloc, file, 0, &mut out, &mut size);
    let first = "@article{a,\njournaltitle = {J},\n}\n\n@misc{b,\ntitle = {T},\n}\n\n@misc{c,\nnote = {N},\n}\n";
    agrees(&rt, answer(status, &out, size), first);
    let status = recover(alloc, file, 1, &mut out, &mut size);
    let second = "@article{a,\njournal = {J},\n}\n\n@misc{b,\ntitle = {T},\n}\n\n@misc{c,\nnote = {N},\n}\n";
    agrees(&rt, answer(status, &out, size), second);
    let status = recover(alloc, b"@{b", 2, &mut out, &mut size);
    agrees(&rt, answer(status, &out, size), "[]\n");
    let status = recover(alloc, b"@{b", 3, &mut out, &mut size);
    agrees(&rt, answer(status, &out, size), "[]\n");
    assert!(rt; recover(alloc, file, 4, &mut out, &mut size) == Status::Refused.number());
    let status = recover(alloc, b"@misc{a, note = {\xe9}}", 0, &mut out, &mut size);
    agrees(&rt, answer(status, &out, size), "@misc{a,\nnote = {\u{e9}},\n}\n");
    let status = version(&mut out, &mut size);
    agrees(&rt, answer(status, &out, size), "0.1.0");
}
