//! What a plain program for this one job looks like in Rust: it reads the pairs of an ASCII file a line at a time and
//! prints them as `propfilter` does. It knows neither other encodings nor byte order marks, and what isn't ASCII may
//! come out wrong. `rustc -O bench/yardstick.rs` builds it.

use std::io::{self, BufRead, BufReader, BufWriter, Write};

fn main() -> io::Result<()> {
    let mut input = Lines {
        reader: BufReader::with_capacity(1 << 16, io::stdin().lock()),
        after_carriage_return: false,
    };
    let mut output = BufWriter::with_capacity(1 << 16, io::stdout().lock());
    let (mut logical, mut next, mut resolved, mut printed) = (vec![], vec![], vec![], vec![]);
    while input.read(&mut logical)? {
        if is_comment_or_blank(&logical) {
            continue;
        }
        while is_open(&logical) {
            logical.pop();
            next.clear();
            if !input.read(&mut next)? {
                break;
            }
            logical.extend_from_slice(without_blanks(&next));
        }
        let line = without_blanks(&logical);
        if matches!(line.first(), None | Some(b'#' | b'!')) {
            continue;
        }
        let (key, value) = split(line);
        printed.clear();
        for (text, end) in [(key, b'='), (value, b'\n')] {
            if !resolve(text, &mut resolved) {
                output.flush()?;
                eprintln!("a malformed escape");
                std::process::exit(1);
            }
            print(&resolved, &mut printed);
            printed.push(end);
        }
        output.write_all(&printed)?;
    }
    output.flush()
}

struct Lines<R> {
    reader: R,
    after_carriage_return: bool,
}

impl<R: BufRead> Lines<R> {
    /// Reads the next line without its end. It is false where there is none.
    fn read(&mut self, line: &mut Vec<u8>) -> io::Result<bool> {
        line.clear();
        let mut some = false;
        loop {
            let block = self.reader.fill_buf()?;
            if block.is_empty() {
                return Ok(some);
            }
            if self.after_carriage_return {
                self.after_carriage_return = false;
                if block[0] == b'\n' {
                    self.reader.consume(1);
                    continue;
                }
            }
            some = true;
            let Some(at) = block.iter().position(|&b| b == b'\n' || b == b'\r') else {
                let length = block.len();
                line.extend_from_slice(block);
                self.reader.consume(length);
                continue;
            };
            line.extend_from_slice(&block[..at]);
            self.after_carriage_return = block[at] == b'\r';
            self.reader.consume(at + 1);
            return Ok(true);
        }
    }
}

fn is_blank(byte: u8) -> bool {
    matches!(byte, b' ' | b'\t' | b'\x0c')
}

fn without_blanks(line: &[u8]) -> &[u8] {
    let blanks = line.iter().take_while(|&&byte| is_blank(byte)).count();
    &line[blanks..]
}

fn is_comment_or_blank(line: &[u8]) -> bool {
    matches!(without_blanks(line).first(), None | Some(b'#' | b'!'))
}

fn is_open(line: &[u8]) -> bool {
    line.iter().rev().take_while(|&&byte| byte == b'\\').count() % 2 == 1
}

fn split(line: &[u8]) -> (&[u8], &[u8]) {
    let mut at = 0;
    while at < line.len() && !is_blank(line[at]) && line[at] != b'=' && line[at] != b':' {
        at += if line[at] == b'\\' { 2 } else { 1 };
    }
    let (key, rest) = line.split_at(at.min(line.len()));
    let rest = without_blanks(rest);
    match rest.first() {
        Some(b'=' | b':') => (key, without_blanks(&rest[1..])),
        _ => (key, rest),
    }
}

/// Resolves escapes, those of ASCII characters alone.
fn resolve(text: &[u8], out: &mut Vec<u8>) -> bool {
    out.clear();
    let mut rest = text;
    while let Some(at) = rest.iter().position(|&byte| byte == b'\\') {
        out.extend_from_slice(&rest[..at]);
        match rest.get(at + 1) {
            Some(b'u') => {
                let digits = rest.get(at + 2..at + 6).and_then(|d| std::str::from_utf8(d).ok());
                match digits.and_then(|d| u8::from_str_radix(d, 16).ok()) {
                    Some(byte) => out.push(byte),
                    None => return false,
                }
                rest = &rest[at + 6..];
                continue;
            }
            Some(b't') => out.push(b'\t'),
            Some(b'n') => out.push(b'\n'),
            Some(b'f') => out.push(b'\x0c'),
            Some(b'r') => out.push(b'\r'),
            Some(&byte) => out.push(byte),
            None => out.push(0),
        }
        rest = &rest[(at + 2).min(rest.len())..];
    }
    out.extend_from_slice(rest);
    true
}

fn print(text: &[u8], out: &mut Vec<u8>) {
    for &byte in text {
        match byte {
            b'\t' => out.extend_from_slice(b"\\t"),
            b'\n' => out.extend_from_slice(b"\\n"),
            b'\x0c' => out.extend_from_slice(b"\\f"),
            b'\r' => out.extend_from_slice(b"\\r"),
            b' ' | b'!' | b'#' | b':' | b'=' | b'\\' => out.extend_from_slice(&[b'\\', byte]),
            0..=0x1f => {
                let _ = write!(out, "\\u{byte:04x}");
            }
            _ => out.push(byte),
        }
    }
}
