//! How one reads and writes a properties file in Rust by hand, with std alone: windows-1252, in memory, and all pairs
//! owned. It knows no other encoding, no byte order marks, and keeps no comments. Its argument is `copy`, which only reads
//! standard input, `pairs`, which makes a vector of the pairs, or `map`, which makes a map of them; it prints how many
//! there are. Or it is `filter`, which prints the pairs. `rustc -O bench/by_hand.rs` builds it.

use std::collections::HashMap;
use std::io::{self, Read, Write};

fn main() -> io::Result<()> {
    let how = std::env::args().nth(1).unwrap_or_default();
    let mut source = Vec::new();
    io::stdin().lock().read_to_end(&mut source)?;
    let (mut pairs, mut map, mut printed) = (vec![], HashMap::new(), vec![]);
    let done = match how.as_str() {
        "pairs" => each_pair(&source, |key, value| pairs.push((key, value))),
        "map" => each_pair(&source, |key, value| drop(map.insert(key, value))),
        "filter" => each_pair(&source, |key, value| print_pair(&key, &value, &mut printed)),
        _ => Ok(()),
    };
    match done {
        Ok(()) if how == "filter" => io::stdout().write_all(&printed)?,
        Ok(()) => println!("{}", pairs.len() + map.len()),
        Err(Malformed(line)) => println!("line {line}: a malformed escape"),
    }
    Ok(())
}

/// A malformed escape, in the pair that begins in this line.
struct Malformed(usize);

fn each_pair(source: &[u8], mut found: impl FnMut(String, String)) -> Result<(), Malformed> {
    let mut lines = Lines {
        rest: source,
        number: 0,
    };
    let mut joined = vec![];
    while let Some(line) = lines.next() {
        let number = lines.number;
        let mut line = without_blanks(line);
        if !is_comment_or_empty(line) && is_open(line) {
            joined.clear();
            while is_open(line) {
                joined.extend_from_slice(&line[..line.len() - 1]);
                line = without_blanks(lines.next().unwrap_or_default());
            }
            joined.extend_from_slice(line);
            line = &joined;
        }
        if is_comment_or_empty(line) {
            continue;
        }
        let (key, value) = split(line);
        match (unescaped(key), unescaped(value)) {
            (Some(key), Some(value)) => found(key, value),
            _ => return Err(Malformed(number)),
        }
    }
    Ok(())
}

/// The natural lines, which end in LF, CR or CR LF.
struct Lines<'a> {
    rest: &'a [u8],
    number: usize,
}

impl<'a> Iterator for Lines<'a> {
    type Item = &'a [u8];

    fn next(&mut self) -> Option<&'a [u8]> {
        if self.rest.is_empty() {
            return None;
        }
        self.number += 1;
        let end = self
            .rest
            .iter()
            .position(|&byte| byte == b'\n' || byte == b'\r')
            .unwrap_or(self.rest.len());
        let (line, after) = self.rest.split_at(end);
        self.rest = match after {
            [b'\r', b'\n', rest @ ..] | [_, rest @ ..] => rest,
            [] => after,
        };
        Some(line)
    }
}

fn is_blank(byte: u8) -> bool {
    matches!(byte, b' ' | b'\t' | b'\x0c')
}

fn without_blanks(line: &[u8]) -> &[u8] {
    &line[line.iter().take_while(|&&byte| is_blank(byte)).count()..]
}

fn is_comment_or_empty(line: &[u8]) -> bool {
    matches!(line.first(), None | Some(b'#' | b'!'))
}

fn is_open(line: &[u8]) -> bool {
    line.iter().rev().take_while(|&&byte| byte == b'\\').count() % 2 == 1
}

/// The key and the value of a line, as they are spelt.
fn split(line: &[u8]) -> (&[u8], &[u8]) {
    let mut at = 0;
    while at < line.len() && !is_blank(line[at]) && line[at] != b'=' && line[at] != b':' {
        at += if line[at] == b'\\' { 2 } else { 1 };
    }
    let (key, rest) = line.split_at(at.min(line.len()));
    match without_blanks(rest) {
        [b'=' | b':', value @ ..] => (key, without_blanks(value)),
        value => (key, value),
    }
}

/// The text with its escapes resolved, or `None` if one is malformed.
fn unescaped(text: &[u8]) -> Option<String> {
    let mut out = String::with_capacity(text.len());
    let mut rest = text;
    while let Some(at) = rest.iter().position(|&byte| byte == b'\\') {
        decode(&rest[..at], &mut out);
        rest = &rest[at + 1..];
        let (&escaped, after) = rest.split_first()?;
        rest = after;
        match escaped {
            b'u' => {
                let mut unit = unit(&mut rest)?;
                if (0xd800..0xdc00).contains(&unit) {
                    rest = rest.strip_prefix(b"\\u")?;
                    let low = self::unit(&mut rest)?
                        .checked_sub(0xdc00)
                        .filter(|&low| low < 0x400)?;
                    unit = 0x1_0000 + (unit - 0xd800) * 0x400 + low;
                }
                out.push(char::from_u32(unit)?);
            }
            b't' => out.push('\t'),
            b'n' => out.push('\n'),
            b'f' => out.push('\x0c'),
            b'r' => out.push('\r'),
            byte => out.push(character(byte)),
        }
    }
    decode(rest, &mut out);
    Some(out)
}

/// Four hexadecimal digits.
fn unit(rest: &mut &[u8]) -> Option<u32> {
    let (digits, after) = rest.split_at_checked(4)?;
    *rest = after;
    digits.iter().try_fold(0, |unit, &digit| {
        Some(unit * 16 + char::from(digit).to_digit(16)?)
    })
}

fn decode(bytes: &[u8], out: &mut String) {
    if bytes.is_ascii() {
        out.push_str(std::str::from_utf8(bytes).expect("ASCII is UTF-8"));
    } else {
        out.extend(bytes.iter().map(|&byte| character(byte)));
    }
}

const FROM_80: [char; 32] = [
    '€', '\u{81}', '‚', 'ƒ', '„', '…', '†', '‡', 'ˆ', '‰', 'Š', '‹', 'Œ', '\u{8d}', 'Ž', '\u{8f}',
    '\u{90}', '‘', '’', '“', '”', '•', '–', '—', '˜', '™', 'š', '›', 'œ', '\u{9d}', 'ž', 'Ÿ',
];

/// A character of windows-1252.
fn character(byte: u8) -> char {
    match byte {
        0x80..=0x9f => FROM_80[usize::from(byte - 0x80)],
        _ => char::from(byte),
    }
}

/// A pair as a line, with its escapes.
fn print_pair(key: &str, value: &str, out: &mut Vec<u8>) {
    print_text(key, out);
    out.push(b'=');
    print_text(value, out);
    out.push(b'\n');
}

fn print_text(text: &str, out: &mut Vec<u8>) {
    for it in text.chars() {
        match it {
            '\t' => out.extend_from_slice(b"\\t"),
            '\n' => out.extend_from_slice(b"\\n"),
            '\x0c' => out.extend_from_slice(b"\\f"),
            '\r' => out.extend_from_slice(b"\\r"),
            ' ' | '=' | ':' | '#' | '!' | '\\' => out.extend_from_slice(&[b'\\', it as u8]),
            ' '..='\x7f' => out.push(it as u8),
            _ => print_other(it, out),
        }
    }
}

/// A character that isn't ASCII, or that controls: its byte in windows-1252, or escapes.
fn print_other(it: char, out: &mut Vec<u8>) {
    if let '\u{a0}'..='\u{ff}' = it {
        out.push(it as u8);
    } else if let Some(at) = FROM_80.iter().position(|&other| other == it) {
        out.push(0x80 + at as u8);
    } else {
        for unit in it.encode_utf16(&mut [0; 2]) {
            write!(out, "\\u{unit:04x}").expect("a vector takes all bytes");
        }
    }
}
