//! Runs the rows of the tables of examples, as far as this crate has calls for them, and says how many it leaves out. A package
//! has the tables in `tests/tables`, and the repository in `crates/*ing_vectors`; its docs/TABLES.md has the notation.
#![allow(clippy::format_push_string, clippy::unnecessary_wraps)]
mod streams;

use std::cmp::Ordering;
use std::collections::{BTreeMap, HashMap};
use std::error::Error;
use std::fs;
use std::io;
use std::path::Path;
use streams::{Pieces, Sink};
use todrenval::{
    convert, edit, get, groups, write, Comments, Edit, Encoding, ErrorKind, Line, LineContent, LineEnding, Options,
    PropertiesError, PropertiesIter, PropertiesWriter, Spelling, Target, ISO_8859_1, WINDOWS_1252,
};

/// What stands between two semicolons: words, and texts in quotes.
#[derive(Clone, Debug, PartialEq)]
struct Clause {
    word: String,
    texts: Vec<Vec<u8>>,
}

fn clause(word: impl Into<String>, texts: &[&str]) -> Clause {
    let texts = texts.iter().map(|text| text.as_bytes().to_vec()).collect();
    Clause {
        word: word.into(),
        texts,
    }
}

fn bytes_clause(bytes: Vec<u8>) -> Clause {
    Clause {
        word: String::new(),
        texts: vec![bytes],
    }
}

impl Clause {
    fn text(&self, at: usize) -> &str {
        std::str::from_utf8(&self.texts[at]).unwrap()
    }
}

/// The parts of a side, as they are spelt.
fn split(side: &str) -> Vec<&str> {
    let (mut is_quoted, mut is_escaped) = (false, false);
    side.split(|character| {
        if is_escaped {
            is_escaped = false;
        } else if character == '\\' {
            is_escaped = is_quoted;
        } else if character == '"' {
            is_quoted = !is_quoted;
        }
        character == ';' && !is_quoted
    })
    .map(str::trim)
    .filter(|part| *part != "nothing")
    .collect()
}

fn clauses(side: &str) -> Vec<Clause> {
    split(side).into_iter().map(read_clause).collect()
}

fn read_clause(part: &str) -> Clause {
    let (mut words, mut texts, mut rest) = (Vec::new(), Vec::new(), part);
    let mut begun = Vec::new();
    while let Some(character) = rest.chars().next() {
        if character == '"' {
            let (text, after) = unescape(&rest[1..], '"');
            begun.extend(text);
            texts.push(std::mem::take(&mut begun));
            rest = after;
        } else if character == '\'' {
            // As in 5000 'y' "z".
            let (text, after) = unescape(&rest[1..], '\'');
            let count: &str = words.pop().unwrap();
            begun = text.repeat(count.parse().unwrap());
            rest = after;
        } else {
            let word = &rest[..rest.find([' ', '"']).unwrap_or(rest.len())];
            words.extend(Some(word).filter(|word| !word.is_empty()));
            rest = rest[word.len()..].trim_start();
        }
    }
    let word = words.join(" ");
    Clause { word, texts }
}

/// The bytes of a text up to its closing quote, and what comes after that.
fn unescape(mut rest: &str, quote: char) -> (Vec<u8>, &str) {
    fn next(rest: &mut &str) -> char {
        let character = rest.chars().next().expect("a closing quote");
        *rest = &rest[character.len_utf8()..];
        character
    }
    let mut bytes = Vec::new();
    loop {
        let mut character = next(&mut rest);
        if character == quote {
            return (bytes, rest);
        }
        if character == '\\' {
            character = match next(&mut rest) {
                'x' => {
                    bytes.push(u8::from_str_radix(&rest[..2], 16).unwrap());
                    rest = &rest[2..];
                    continue;
                }
                'u' => {
                    let (digits, after) = rest[1..].split_once('}').unwrap();
                    rest = after;
                    char::from_u32(u32::from_str_radix(digits, 16).unwrap()).unwrap()
                }
                'n' => '\n',
                'r' => '\r',
                't' => '\t',
                'f' => '\x0c',
                '0' => '\0',
                other => other,
            };
        }
        bytes.extend(character.encode_utf8(&mut [0; 4]).bytes());
    }
}

// What came, as a right side has it.

fn item(line: &Line) -> Clause {
    match line.content() {
        LineContent::Comment(text) => clause(format!("comment {}", line.line_number()), &[text]),
        LineContent::KVPair(key, value) => clause(format!("pair {}", line.line_number()), &[key, value]),
    }
}

fn failure(error: &PropertiesError) -> String {
    let mut text = format!("{:?}", error.kind());
    if let Some(line) = error.line_number() {
        text += &format!(" in line {line}");
    }
    // Where the tables have a cause; a write that takes nothing has none.
    match error.source() {
        Some(source) if source.to_string() != io::Error::from(io::ErrorKind::WriteZero).to_string() => {
            text += &format!(" by {source}");
        }
        None if error.kind() == ErrorKind::NotHex => text += " by NotHex",
        _ => {}
    }
    text
}

fn result(line: Result<Line, PropertiesError>) -> Clause {
    line.map_or_else(|error| clause(failure(&error), &[]), |line| item(&line))
}

fn items(source: &[u8], encoding: Encoding) -> impl Iterator<Item = Clause> + '_ {
    PropertiesIter::new_with_encoding(source, encoding).map(result)
}

type Row = Result<(Vec<Clause>, Vec<Clause>), &'static str>;

const INTERRUPTED: &str = "interrupted calls, which are made again";

fn read(kind: &str, encoding: Encoding, left: &str, right: &str) -> Row {
    let (mut pieces, mut fault) = (Vec::new(), None);
    for clause in clauses(left) {
        match clause.word.strip_prefix("fault ") {
            Some("Interrupted") => return Err(INTERRUPTED),
            Some(name) => fault = Some(name.to_owned()),
            None => pieces.extend(vec![clause.texts[0].clone(); clause.word.parse().unwrap_or(1)]),
        }
    }
    let fault = || fault.clone().map(io::Error::other);
    let whole = pieces.concat();
    let mut wanted = clauses(right);
    let mut iter = PropertiesIter::new_with_encoding(Pieces::new(pieces, fault()), encoding);
    let mut came = Vec::new();
    match kind {
        "read" => {
            came = iter.map(result).collect();
            let cut = PropertiesIter::new_with_encoding(Pieces::cut(&whole, 1, fault()), encoding);
            came.extend(cut.map(result));
            wanted.extend(wanted.clone());
        }
        "read-print" => {
            let printed: Vec<_> = iter
                .map(|line| line.map_or_else(|error| error.to_string(), |line| line.to_string()))
                .collect();
            return Ok((
                vec![clause(printed.join("; "), &[])],
                vec![clause(split(right).join("; "), &[])],
            ));
        }
        "read-pairs" => {
            let read = iter.read_into(|key, value| came.push(clause("", &[&key, &value])));
            came.extend(read.err().map(|error| clause(failure(&error), &[])));
        }
        _ => {
            let mut map = BTreeMap::new();
            match iter.read_into(|key, value| drop(map.insert(key, value))) {
                Ok(()) => came.extend(map.iter().map(|(key, value)| clause("", &[key, value]))),
                Err(error) => came.push(clause(failure(&error), &[])),
            }
        }
    }
    Ok((came, wanted))
}

/// Takes the sink, which may come first, off the clauses.
fn sink(calls: &mut Vec<Clause>) -> Result<Sink, &'static str> {
    let Some(words) = calls[..].first().and_then(|first| first.word.strip_prefix("sink ")) else {
        return Ok(Sink::new(usize::MAX));
    };
    let words: Vec<_> = words.split(' ').map(str::to_owned).collect();
    calls.remove(0);
    let mut sink = Sink::new(words[0].parse().unwrap());
    match words.iter().map(String::as_str).collect::<Vec<_>>()[1..] {
        ["fault", _, "Interrupted"] => return Err(INTERRUPTED),
        ["fault", at, how] => {
            sink.fails_at = at.parse().unwrap();
            sink.fault = Some(how.to_owned()).filter(|how| how != "nothing");
        }
        ["flush", how] => sink.flush_fault = Some(how.to_owned()),
        _ => {}
    }
    Ok(sink)
}

/// Makes a call of a writer. What is gathered is sent after it, as if each line were.
fn call(writer: &mut PropertiesWriter<Sink>, sink: &Sink, call: &Clause) -> Result<(), PropertiesError> {
    match &call.word[..] {
        "comment" => writer.write_comment(call.text(0))?,
        "pair" => writer.write(call.text(0), call.text(1))?,
        "prefix" => return writer.set_comment_prefix(call.text(0)),
        "separator" => return writer.set_kv_separator(call.text(0)),
        "ending" => writer.set_line_ending(match call.text(0) {
            "\r" => LineEnding::CR,
            "\n" => LineEnding::LF,
            _ => LineEnding::CRLF,
        }),
        "ascii-only" | "all-characters" => writer.set_ascii_only(call.word == "ascii-only"),
        "readable" | "escaped" => writer.set_readable(call.word == "readable"),
        "flush" | "finish" => return writer.flush(),
        other => panic!("{other}"),
    }
    if call.word == "comment" || call.word == "pair" {
        sink.is_quiet.set(true);
        let sent = writer.finish();
        sink.is_quiet.set(false);
        return sent;
    }
    Ok(())
}

fn written(kind: &str, encoding: Encoding, left: &str, right: &str) -> Row {
    let mut calls = clauses(left);
    let sink = sink(&mut calls)?;
    let mut came = Vec::new();
    if kind == "write-map" {
        if encoding != WINDOWS_1252 || calls.iter().any(|call| call.word != "pair") {
            return Err("maps by a writer that is set");
        }
        if sink.most > 1 && sink.fails_at > 0 {
            return Err("calls of a sink that fails, which gathered lines share");
        }
        let pairs = calls
            .iter()
            .map(|call| (call.text(0).to_owned(), call.text(1).to_owned()));
        let done = write(sink.clone(), &pairs.collect::<HashMap<_, _>>());
        came.extend(done.err().map(|error| clause(format!("1: {}", failure(&error)), &[])));
    } else {
        let mut writer = PropertiesWriter::new_with_encoding(sink.clone(), encoding);
        for (at, one) in calls.iter().filter(|call| !call.word.starts_with("read ")).enumerate() {
            if let Err(error) = call(&mut writer, &sink, one) {
                let printed = if kind == "write" {
                    failure(&error)
                } else {
                    error.to_string()
                };
                came.push(clause(format!("{}: {printed}", at + 1), &[]));
            }
        }
    }
    came.push(bytes_clause(sink.bytes.borrow().clone()));
    for reading in calls.iter().filter_map(|call| call.word.strip_prefix("read ")) {
        came.extend(items(&sink.bytes.borrow(), Encoding::for_label(reading).unwrap()));
    }
    let is_error = |part: &str| kind == "write-print" && part.contains(" (line_number = ");
    let wanted = split(right).into_iter().filter(|part| !part.starts_with("faults "));
    let wanted = wanted.map(|part| {
        if is_error(part) {
            clause(part, &[])
        } else {
            read_clause(part)
        }
    });
    Ok((came, wanted.collect()))
}

fn copied(encoding: Encoding, left: &str, right: &str) -> Row {
    let mut given = clauses(left);
    let sink = sink(&mut given)?;
    let into = Encoding::for_label(given[1].word.strip_prefix("into ").unwrap()).unwrap();
    let mut writer = PropertiesWriter::new_with_encoding(sink.clone(), into);
    let mut came = Vec::new();
    for one in &given[2..] {
        if let Err(error) = call(&mut writer, &sink, one) {
            came.push(clause(format!("write {}", failure(&error)), &[]));
        }
    }
    for line in PropertiesIter::new_with_encoding(&given[0].texts[0][..], encoding) {
        match line.map(Line::consume_content) {
            Ok(LineContent::KVPair(key, value)) => {
                if let Err(error) = call(&mut writer, &sink, &clause("pair", &[&key, &value])) {
                    came.push(clause(format!("write {}", failure(&error)), &[]));
                }
            }
            Ok(LineContent::Comment(_)) => {}
            Err(error) => came.push(clause(format!("read {}", failure(&error)), &[])),
        }
    }
    came.insert(0, bytes_clause(sink.bytes.borrow().clone()));
    Ok((came, clauses(right)))
}

fn edited(kind: &str, encoding: Encoding, left: &str, right: &str) -> Row {
    let steps = clauses(left);
    let comments = if kind == "edit" {
        Comments::Resolve
    } else {
        Comments::Skip
    };
    let mut options = Options::new(encoding).comments(comments);
    let mut source = steps[0].texts[0].clone();
    let (mut values, mut readings) = (Vec::new(), Vec::new());
    let mut run = || {
        source = edit(&source, options, &[])?;
        for step in &steps[1..] {
            let key = || step.text(0);
            let single = match &step.word[..] {
                "put" => Edit::SetKey(key(), step.text(1)),
                "value" => Edit::SetValue(key(), step.text(1)),
                "remove" => Edit::RemoveKey(key()),
                "get" => {
                    let value = get(&source, options, key())?;
                    values.push(value.map_or_else(|| clause("none", &[]), |value| clause("", &[&value])));
                    continue;
                }
                "ascii-only" | "all-characters" => {
                    options = options.ascii_only(step.word == "ascii-only");
                    continue;
                }
                other => {
                    readings.extend(Encoding::for_label(other.strip_prefix("read ").unwrap()));
                    continue;
                }
            };
            source = edit(&source, options, &[single])?;
        }
        Ok(())
    };
    let done = run();
    let mut came = vec![done.map_or_else(|error| clause(failure(&error), &[]), |()| bytes_clause(source.clone()))];
    came.append(&mut values);
    for reading in readings {
        came.extend(items(&source, reading));
    }
    Ok((came, clauses(right)))
}

fn gotten(encoding: Encoding, left: &str, right: &str) -> Row {
    let steps = clauses(left);
    let values = steps[1..]
        .iter()
        .map(|step| get(&steps[0].texts[0], encoding, step.text(0)));
    let came = match values.collect::<Result<Vec<_>, _>>() {
        Ok(values) => values
            .into_iter()
            .map(|value| value.map_or_else(|| clause("none", &[]), |value| clause("", &[&value])))
            .collect(),
        Err(error) => vec![clause(failure(&error), &[])],
    };
    Ok((came, clauses(right)))
}

fn converted(encoding: Encoding, left: &str, right: &str) -> Row {
    let given = clauses(left);
    let (spelling, target) = match given[1].word.strip_prefix("readable ") {
        Some(target) => (Spelling::Readable, target),
        None => (Spelling::Kept, &given[1].word[..]),
    };
    let target = match target {
        "to windows-1252" => Target::Windows1252,
        "to utf-8" => Target::Utf8,
        _ => Target::Ascii,
    };
    let came = convert(&given[0].texts[0], encoding, target, spelling).map_err(|_| "")?;
    Ok((vec![bytes_clause(came)], clauses(right)))
}

fn compared(encoding: Encoding, left: &str, right: &str) -> Row {
    let word = |ordering| match ordering {
        Ordering::Less => "less",
        Ordering::Equal => "equal",
        Ordering::Greater => "more",
    };
    let lines: Vec<Line> = clauses(left)
        .iter()
        .map(|source| PropertiesIter::new_with_encoding(&source.texts[0][..], encoding).next())
        .map(|line| line.unwrap().unwrap())
        .collect();
    let line = word(lines[0].cmp(&lines[1]));
    let content = word(lines[0].content().cmp(lines[1].content()));
    Ok((
        vec![clause(format!("line {line}, content {content}"), &[])],
        clauses(right),
    ))
}

/// The texts of a row are raw, and say the last line too; a group has neither.
fn viewed(encoding: Encoding, left: &str, right: &str) -> Row {
    let source = clauses(left).remove(0).texts.remove(0);
    let came = match groups(&source, encoding) {
        Err(error) => vec![clause(failure(&error), &[])],
        Ok(groups) => groups
            .into_iter()
            .map(|group| {
                let (span, key, value, ending) = (group.span, group.key, group.value, group.ending);
                let places = [
                    span.start,
                    key.start,
                    key.end,
                    value.start,
                    value.end,
                    ending.start,
                    span.end,
                ];
                let kind = format!("{:?}", group.kind).to_lowercase();
                let mut word = format!(
                    "{kind} {} {}",
                    group.line_number,
                    places.map(|place| place.to_string()).join(" ")
                );
                if let Some(flaw) = group.flaw {
                    word += &format!(
                        " {:?} at {} in {}:{}",
                        flaw.kind, flaw.offset, flaw.line_number, flaw.column
                    );
                }
                if let Some(line) = group.ill_formed_line {
                    word += &format!(" ill-formed {line}");
                }
                clause(word, &[])
            })
            .collect(),
    };
    let wanted = clauses(right).into_iter().map(|part| {
        let (kind, rest) = part.word.split_once(' ').unwrap_or((&part.word, ""));
        let (lines, rest) = rest.split_once(' ').unwrap_or(("", ""));
        let first = lines.split('-').next().unwrap_or_default();
        clause(format!("{kind} {first} {rest}").trim(), &[])
    });
    Ok((came, wanted.collect()))
}

fn run(kind: &str, encoding: Encoding, left: &str, right: &str) -> Row {
    match kind {
        "read" | "read-print" | "read-pairs" | "read-map" => read(kind, encoding, left, right),
        "write" | "write-print" | "write-map" => written(kind, encoding, left, right),
        "copy" => copied(encoding, left, right),
        "edit" | "edit-pairs" => edited(kind, encoding, left, right),
        "get-pairs" => gotten(encoding, left, right),
        "convert" => converted(encoding, left, right),
        "compare" => compared(encoding, left, right),
        "view" => viewed(encoding, left, right),
        "label" => {
            // ISO 8859-1 is read as windows-1252 is, and a label of that to the standard.
            let meant = Encoding::for_label(&clauses(left)[0].texts[0]);
            let is_label = meant == Some(encoding) || encoding == WINDOWS_1252 && meant == Some(ISO_8859_1);
            Ok((vec![clause(if is_label { "yes" } else { "no" }, &[])], clauses(right)))
        }
        other => panic!("no such rows: {other}"),
    }
}

/// The programs that run the tables.
const PROGRAMS: [&str; 3] = ["editing_vectors", "reading_vectors", "writing_vectors"];

/// How many rows of each table a program says to hold.
fn counts(stdout: &str) -> Vec<usize> {
    stdout
        .lines()
        .map(|line| line.split(' ').nth(1).unwrap().parse().unwrap())
        .collect()
}

#[test]
fn rows_hold() {
    let here = Path::new(env!("CARGO_MANIFEST_DIR"));
    let folders = ["tests/tables", "../../crates"].map(|folder| here.join(folder));
    let tables = folders.iter().find(|folder| folder.is_dir()).unwrap();
    let programs = PROGRAMS.map(|name| tables.join(name));
    let mut tables: Vec<_> = programs
        .iter()
        .flat_map(|program| fs::read_dir(program.join("data")).unwrap())
        .map(|entry| entry.unwrap().path())
        .collect();
    tables.sort();
    let (mut rows, mut wrong) = (0, 0);
    let mut left_out = BTreeMap::<&str, usize>::new();
    for table in tables {
        let text = fs::read_to_string(&table).unwrap();
        let mut heading: Vec<&str> = Vec::new();
        for (number, line) in (1..)
            .zip(text.lines())
            .filter(|(_, line)| !line.is_empty() && !line.starts_with('#'))
        {
            let Some((left, right)) = line.split_once('|') else {
                heading = line.split(' ').collect();
                continue;
            };
            for name in &heading[1..] {
                rows += 1;
                match run(
                    heading[0],
                    Encoding::for_label(name).unwrap(),
                    left.trim(),
                    right.trim(),
                ) {
                    Err(why) => *left_out.entry(why).or_default() += 1,
                    Ok((came, wanted)) if came == wanted => {}
                    Ok((came, wanted)) => {
                        wrong += 1;
                        println!("{}:{number}, {name}: {came:?} in place of {wanted:?}", table.display());
                    }
                }
            }
        }
    }
    println!("{rows} rows, of which are left out: {left_out:?}");
    let stored: usize = programs
        .iter()
        .flat_map(|program| counts(&fs::read_to_string(program.join("stdout")).unwrap()))
        .sum();
    assert_eq!((wrong, rows), (0, stored));
}
