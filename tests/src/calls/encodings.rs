//! Bytes of files, read as UTF-8 or as Windows-1252.

use bib_source::decoding::{Decoded, Encoding, decode};
use std::alloc::{AllocError, Global};
use std::process::Abort;
use std::test::Fail;

// The text of these bytes, and how they were read. (It has no contract, so that who calls it proves nothing of texts again.)
fn read(alloc: Global, bytes: &[u8]) -> Result<Decoded, AllocError> {
    decode(alloc, bytes)
}

// These bytes are UTF-8, and this is their text.
fn is_utf8(rt: &impl Abort, alloc: Global, bytes: &[u8], want: &str) -> Result<(), Fail> {
    let found = read(alloc, bytes)?;
    assert!(rt; found.text.as_str() == want, "{bytes:?} are {:?}, and not {want:?}", found.text);
    assert!(rt; found.encoding == Encoding::Utf8, "{bytes:?} are UTF-8");
    assert_eq!(rt; found.invalid, None, "{bytes:?}");
    Ok(())
}

// These bytes are no UTF-8 from this index on, and this is their text in Windows-1252.
fn is_windows(
    rt: &impl Abort,
    alloc: Global,
    bytes: &[u8],
    index: usize,
    want: &str,
) -> Result<(), Fail> {
    let found = read(alloc, bytes)?;
    assert!(rt; found.text.as_str() == want, "{bytes:?} are {:?}, and not {want:?}", found.text);
    assert!(rt; found.encoding == Encoding::Windows1252, "{bytes:?} are no UTF-8");
    assert_eq!(rt; found.invalid, Some(index), "{bytes:?}");
    Ok(())
}

// The characters of the bytes from 80 to 9F, and from A0 to FF.
static UPPER_HALF: &str = concat!(
    "€\u{81}‚ƒ„…†‡ˆ‰Š‹Œ\u{8D}Ž\u{8F}",
    "\u{90}‘’“”•–—˜™š›œ\u{9D}žŸ",
    "\u{A0}¡¢£¤¥¦§¨©ª«¬\u{AD}®¯",
    "°±²³´µ¶·¸¹º»¼½¾¿",
    "ÀÁÂÃÄÅÆÇÈÉÊËÌÍÎÏ",
    "ÐÑÒÓÔÕÖ×ØÙÚÛÜÝÞß",
    "àáâãäåæçèéêëìíîï",
    "ðñòóôõö÷øùúûüýþÿ"
);

#[test]
fn reads_each_byte(rt: HostRuntime) -> Result<(), Fail> {
    let alloc = rt.alloc();
    for byte in 0..=0x7Fu8 {
        let want = String::from_str(alloc, char::from(byte).encode_utf8(&mut [0; 4]))?;
        is_utf8(&rt, alloc, &[byte], want.as_str())?;
    }
    let mut byte = 0x80u8;
    for character in UPPER_HALF.chars() {
        let mut want = String::new(alloc);
        want.push(character)?;
        is_windows(&rt, alloc, &[byte], 0, want.as_str())?;
        byte = byte.wrapping_add(1);
    }
    assert_eq!(rt; byte, 0);
    Ok(())
}

#[test]
fn passes_over_a_mark_before_utf_8_alone(rt: HostRuntime) -> Result<(), Fail> {
    let alloc = rt.alloc();
    is_utf8(&rt, alloc, b"\xEF\xBB\xBF", "")?;
    is_utf8(&rt, alloc, b"\xEF\xBB\xBF@misc{a}", "@misc{a}")?;
    is_utf8(&rt, alloc, b"\xEF\xBB\xBF\xC3\xA9", "é")?;
    is_utf8(&rt, alloc, b"\xEF\xBB\xBF\xEF\xBB\xBFa", "\u{FEFF}a")?;
    is_utf8(&rt, alloc, b"a\xEF\xBB\xBF", "a\u{FEFF}")?;
    is_utf8(&rt, alloc, b"\xEF\xBB\xBE", "\u{FEFE}")?;
    is_windows(&rt, alloc, b"\xEF\xBB\xBF\xE9", 3, "ï»¿é")?;
    is_windows(&rt, alloc, b"\xEF\xBB\xBF\xC3\xA9a\x80b", 6, "ï»¿Ã©a€b")?;
    is_windows(&rt, alloc, b"\xEF\xBB", 0, "ï»")?;
    is_windows(&rt, alloc, b"\xEF", 0, "ï")?;
    is_windows(&rt, alloc, b"\xEF\xBBa", 0, "ï»a")
}

#[test]
fn reads_characters_of_each_length(rt: HostRuntime) -> Result<(), Fail> {
    let alloc = rt.alloc();
    is_utf8(&rt, alloc, b"", "")?;
    is_utf8(&rt, alloc, b"a\xC3\xA9\xE2\x82\xAC\xF0\x9F\x98\x80z", "aé€😀z")?;
    is_utf8(&rt, alloc, b"\0\x7F", "\0\u{7F}")?;
    is_utf8(&rt, alloc, b"\xC2\x80\xDF\xBF", "\u{80}\u{7FF}")?;
    is_utf8(&rt, alloc, b"\xE0\xA0\x80\xEF\xBF\xBF", "\u{800}\u{FFFF}")?;
    is_utf8(&rt, alloc, b"\xED\x9F\xBF\xEE\x80\x80", "\u{D7FF}\u{E000}")?;
    is_utf8(&rt, alloc, b"\xF0\x90\x80\x80\xF4\x8F\xBF\xBF", "\u{10000}\u{10FFFF}")
}

#[test]
fn reads_cut_characters(rt: HostRuntime) -> Result<(), Fail> {
    let alloc = rt.alloc();
    is_windows(&rt, alloc, b"a\xC3", 1, "aÃ")?;
    is_windows(&rt, alloc, b"\xC3\xA9\xE2", 2, "Ã©â")?;
    is_windows(&rt, alloc, b"\xC3\xA9\xE2\x82", 2, "Ã©â‚")?;
    is_windows(&rt, alloc, b"ab\xF0", 2, "abð")?;
    is_windows(&rt, alloc, b"ab\xF0\x9F", 2, "abðŸ")?;
    is_windows(&rt, alloc, b"ab\xF0\x9F\x98", 2, "abðŸ˜")?;
    is_windows(&rt, alloc, b"a\xE2\x82b", 1, "aâ‚b")
}

#[test]
fn reads_what_is_never_utf_8(rt: HostRuntime) -> Result<(), Fail> {
    let alloc = rt.alloc();
    is_windows(&rt, alloc, b"\xED\xA0\x80", 0, "í\u{A0}€")?;
    is_windows(&rt, alloc, b"\xED\xBF\xBF", 0, "í¿¿")?;
    is_windows(&rt, alloc, b"a\xC0\x80", 1, "aÀ€")?;
    is_windows(&rt, alloc, b"\xC1\xBF", 0, "Á¿")?;
    is_windows(&rt, alloc, b"\xE0\x80\x80", 0, "à€€")?;
    is_windows(&rt, alloc, b"\xE0\x9F\xBF", 0, "àŸ¿")?;
    is_windows(&rt, alloc, b"\xF0\x8F\xBF\xBF", 0, "ð\u{8F}¿¿")?;
    is_windows(&rt, alloc, b"\xF4\x90\x80\x80", 0, "ô\u{90}€€")?;
    is_windows(&rt, alloc, b"\xF5\x80\x80\x80", 0, "õ€€€")?;
    is_windows(&rt, alloc, b"\xF8\x88\x80\x80\x80", 0, "øˆ€€€")?;
    is_windows(&rt, alloc, b"\xC3\xA9\x80", 2, "Ã©€")?;
    is_windows(&rt, alloc, b"\xC3\xA9\xFF\xFE\xC3\xA9", 2, "Ã©ÿþÃ©")?;
    is_windows(&rt, alloc, b"author = {M\xFCller}", 11, "author = {Müller}")
}

// The bytes of a text again and again, until they are a MiB.
fn mebibyte(alloc: Global, text: &str) -> Result<Vec<u8>, AllocError> {
    let mut bytes = Vec::new(alloc);
    for _ in 0..(1usize << 20).checked_div(text.len()).unwrap_or(0) {
        bytes.extend_from_slice(text.as_bytes())?;
    }
    Ok(bytes)
}

#[test]
fn reads_a_mebibyte(rt: HostRuntime) -> Result<(), Fail> {
    let alloc = rt.alloc();
    let mut bytes = mebibyte(alloc, "é€\u{FEFF}")?;
    is_utf8(&rt, alloc, &bytes, "é€\u{FEFF}".repeat(alloc, 131_072)?.as_str())?;
    assert_eq!(rt; bytes.len(), 1_048_576);
    bytes.push(0xE9)?;
    let mut want = "Ã©â‚¬ï»¿".repeat(alloc, 131_072)?;
    want.push_str("é")?;
    is_windows(&rt, alloc, &bytes, 1_048_576, want.as_str())
}
