//! The engine on inputs that fail, on outputs that refuse, on arguments, and on a large input.

use bib_commands::run::run;
use bib_commands::start::start;
use bib_commands::streams::Input;
use biblatex::{Output, Sink};
use std::alloc::Global;
use std::env::Args;
use std::io::{ErrorKind, Read, Write};
use std::process::Abort;
use std::test::Fail;
use std::{io, str};

// A reader that gives some bytes, and then fails.
#[derive(Drop)]
struct Failing {
    left: u8,
}

impl Read for Failing {
    fn read(&mut self, buf: &mut [u8]) -> io::Result<usize> {
        if self.left == 0 || buf.is_empty() {
            return Err(io::Error::from(ErrorKind::BrokenPipe));
        }
        self.left -= 1;
        buf[0] = b'@';
        Ok(1)
    }
}

// A reader that finds no memory.
#[derive(Drop)]
struct Starved;

impl Read for Starved {
    fn read(&mut self, _buf: &mut [u8]) -> io::Result<usize> {
        Err(io::Error::from(ErrorKind::OutOfMemory))
    }
}

// A writer that counts the writes that it refuses.
#[derive(Drop)]
struct Refusing {
    writes: u8,
}

impl Write for Refusing {
    fn write(&mut self, _buf: &[u8]) -> io::Result<usize> {
        self.writes = self.writes.saturating_add(1);
        Err(io::Error::from(ErrorKind::BrokenPipe))
    }

    fn flush(&mut self) -> io::Result<()> {
        Ok(())
    }
}

// A writer that takes one byte at a time, and is interrupted before each.
#[derive(Drop)]
struct Interrupted {
    written: Vec<u8>,
    is_interrupted: bool,
}

impl Write for Interrupted {
    fn write(&mut self, buf: &[u8]) -> io::Result<usize> {
        self.is_interrupted = !self.is_interrupted;
        if self.is_interrupted {
            return Err(io::Error::from(ErrorKind::Interrupted));
        }
        self.written.write(&buf[..buf.len().min(1)])
    }

    fn flush(&mut self) -> io::Result<()> {
        Ok(())
    }
}

// A writer that has room for some bytes, and then takes none. Counts the writes of which it took no byte.
#[derive(Drop)]
struct Full {
    written: Vec<u8>,
    room: usize,
    refused: u8,
}

impl Write for Full {
    fn write(&mut self, buf: &[u8]) -> io::Result<usize> {
        let count = buf.len().min(self.room);
        if count == 0 {
            self.refused = self.refused.saturating_add(1);
        }
        self.room -= count;
        self.written.write(&buf[..count])
    }

    fn flush(&mut self) -> io::Result<()> {
        Ok(())
    }
}

fn words(alloc: Global, texts: &[&str]) -> Result<Vec<String>, Fail> {
    let mut words = Vec::new(alloc);
    for text in texts {
        words.push(String::from_str(alloc, text)?)?;
    }
    Ok(words)
}

// Asserts what the program prints for these words and this input, and its status.
fn prints(
    rt: &impl Abort,
    alloc: Global,
    texts: &[&str],
    bytes: &[u8],
    want: &str,
    status: u8,
) -> Result<(), Fail> {
    let words = words(alloc, texts)?;
    let mut input = Input::new(bytes);
    let mut output = Output::new(Vec::new(alloc));
    assert_eq!(rt; run(alloc, &words, &mut input, &mut output), status);
    let written = output.into_writer();
    assert_eq!(rt; str::from_utf8(&written)?, want);
    Ok(())
}

// Asserts what the program prints for these arguments, or for their failure, and its status.
fn starts(
    rt: &impl Abort,
    alloc: Global,
    arguments: io::Result<Args>,
    want: &str,
    status: u8,
) -> Result<(), Fail> {
    let text: &[u8] = b"@article{test, author={A}}";
    let mut input = Input::new(text);
    let mut output = Output::new(Vec::new(alloc));
    assert_eq!(rt; start(alloc, arguments, &mut input, &mut output), status);
    let written = output.into_writer();
    assert_eq!(rt; str::from_utf8(&written)?, want);
    Ok(())
}

const USAGE: &str = "usage: bib keys|biblatex|bibtex|check|settled\n";

#[test]
fn refuses_what_is_not_utf_8(rt: HostRuntime) -> Result<(), Fail> {
    let want = "error: input is not UTF-8\n";
    prints(&rt, rt.alloc(), &["keys"], &[0xff], want, 1)
}

#[test]
fn takes_the_words_after_its_name(rt: HostRuntime) -> Result<(), Fail> {
    let rows: [(&[&str], &str, u8); 6] = [
        (&[], USAGE, 2),
        (&["bib"], USAGE, 2),
        (&["keys"], USAGE, 2),
        (&["bib", "keys"], "test\n", 0),
        (&["bib", "keys", "keys"], USAGE, 2),
        (&["bib", "keys", ""], USAGE, 2),
    ];
    for (texts, want, status) in rows {
        let arguments = words(rt.alloc(), texts)?.into_iter();
        starts(&rt, rt.alloc(), Ok(arguments), want, status)?;
    }
    Ok(())
}

#[test]
fn tells_why_it_has_no_words(rt: HostRuntime) -> Result<(), Fail> {
    let no_text = io::Error::from(ErrorKind::InvalidData);
    starts(&rt, rt.alloc(), Err(no_text), USAGE, 2)?;
    let no_memory = io::Error::from(ErrorKind::OutOfMemory);
    starts(&rt, rt.alloc(), Err(no_memory), "error: out of memory\n", 3)
}

// Over 2 MiB are read and printed: 32 entries, each with a key of 64 KiB and a byte.
#[test]
fn reads_and_prints_mebibytes(rt: HostRuntime) -> Result<(), Fail> {
    let key = "k".repeat(rt.alloc(), 65_537)?;
    let mut text = String::new(rt.alloc());
    let mut want = String::new(rt.alloc());
    for _ in 0..32u8 {
        text.push_str("@misc{")?;
        text.push_str(&key)?;
        text.push_str(",}")?;
        want.push_str(&key)?;
        want.push('\n')?;
    }
    prints(&rt, rt.alloc(), &["keys"], text.as_bytes(), &want, 0)
}

#[test]
fn reads_nothing_without_a_command(rt: HostRuntime) -> Result<(), Fail> {
    let words = words(rt.alloc(), &["other"])?;
    let mut input = Input::new(Failing { left: 3 });
    let mut output = Output::new(Vec::new(rt.alloc()));
    assert_eq!(rt; run(rt.alloc(), &words, &mut input, &mut output), 2);
    assert_eq!(rt; input.into_reader().left, 3);
    Ok(())
}

#[test]
fn tells_that_its_input_failed(rt: HostRuntime) -> Result<(), Fail> {
    let words = words(rt.alloc(), &["keys"])?;
    let mut input = Input::new(Failing { left: 3 });
    let mut output = Output::new(Vec::new(rt.alloc()));
    assert_eq!(rt; run(rt.alloc(), &words, &mut input, &mut output), 1);
    let written = output.into_writer();
    assert_eq!(rt; str::from_utf8(&written)?, "error: input failed\n");
    Ok(())
}

#[test]
fn tells_that_its_input_found_no_memory(rt: HostRuntime) -> Result<(), Fail> {
    let words = words(rt.alloc(), &["keys"])?;
    let mut input = Input::new(Starved);
    let mut output = Output::new(Vec::new(rt.alloc()));
    assert_eq!(rt; run(rt.alloc(), &words, &mut input, &mut output), 3);
    let written = output.into_writer();
    assert_eq!(rt; str::from_utf8(&written)?, "error: out of memory\n");
    Ok(())
}

#[test]
fn writes_once_where_it_is_refused(rt: HostRuntime) -> Result<(), Fail> {
    let words = words(rt.alloc(), &["keys"])?;
    let text: &[u8] = b"@article{test, author={A}}";
    let mut input = Input::new(text);
    let mut output = Output::new(Refusing { writes: 0 });
    assert_eq!(rt; run(rt.alloc(), &words, &mut input, &mut output), 1);
    assert_eq!(rt; output.into_writer().writes, 1);
    Ok(())
}

#[test]
fn writes_each_byte_once_where_it_is_interrupted(rt: HostRuntime) -> Result<(), Fail> {
    let words = words(rt.alloc(), &["keys"])?;
    let text: &[u8] = b"@article{test, author={A}} @misc{other,}";
    let mut input = Input::new(text);
    let mut output = Output::new(Interrupted {
        written: Vec::new(rt.alloc()),
        is_interrupted: false,
    });
    assert_eq!(rt; run(rt.alloc(), &words, &mut input, &mut output), 0);
    let writer = output.into_writer();
    assert_eq!(rt; str::from_utf8(&writer.written)?, "test\nother\n");
    Ok(())
}

#[test]
fn writes_as_often_as_the_writer_needs(rt: HostRuntime) -> Result<(), Fail> {
    let alloc = rt.alloc();
    let mut output = Output::new(Interrupted {
        written: Vec::new(alloc),
        is_interrupted: false,
    });
    let mut text = String::new(alloc);
    for _ in 0..20_000u32 {
        text.push_str("entry")?;
    }
    assert!(rt; output.write_str(text.as_str()));
    let writer = output.into_writer();
    assert!(rt; writer.written.as_slice() == text.as_bytes());
    Ok(())
}

#[test]
fn stops_where_no_byte_is_taken(rt: HostRuntime) -> Result<(), Fail> {
    let words = words(rt.alloc(), &["keys"])?;
    let text: &[u8] = b"@article{test, author={A}}";
    let mut input = Input::new(text);
    let mut output = Output::new(Full {
        written: Vec::new(rt.alloc()),
        room: 2,
        refused: 0,
    });
    assert_eq!(rt; run(rt.alloc(), &words, &mut input, &mut output), 1);
    let writer = output.into_writer();
    assert_eq!(rt; str::from_utf8(&writer.written)?, "te");
    assert_eq!(rt; writer.refused, 1);
    Ok(())
}
