#!/usr/bin/env python3
"""Prints a crate's root with each example of the libraries' doc comments as a test: tools/examples.py > src/lib.rt.

An example uses names that its reader knows: `alloc`, `rt`, an `input`, a `map`. They are given before it, where it doesn't make
them itself. tests/try_calling.sh runs these tests.
"""
import pathlib
import re

TOP = pathlib.Path(__file__).resolve().parent.parent
CRATES = [
    "byte_blocks", "counted_io", "java_properties", "propedit_arguments", "properties_editing", "properties_items",
    "properties_renaming", "properties_text", "properties_tables", "properties_checking", "properties_changing", "properties_tools", "single_lines",
]

HEAD = """// Examples of doc comments, each as a test.
#![tactic(auto)]
#![allow(unused)]

use byte_blocks::{Byte, Either, LineEndings, find};
use counted_io::{Counted, CountedRead, CountedWrite, ScriptedReader, ScriptedSink, SinkFault, Tail, send};
use java_properties::{
    Call, Cause, Comments, ContentRef, Document, Edit, Encoding, GroupKind, LineContent, LineEnding, PropertiesError, PropertiesIter,
    NewComment, PropertiesWriter, Rename, RenameError, SourceOptions, Spelling, View, comment_of, convert, edit_all, edit_with, key_lines, laws, map_of, malformed_escapes, read, read_lines,
    read_sorted, read_source, remove_key, remove_with_comment, remove_with_comments, rename_key, rename_keys, run_calls, set_comment, set_comments, set_key, set_value, value_of, value_with, write, write_sorted, write_source,
};
use properties_text::encoding::TextBuffer;
use properties_text::escape::unescape;
use properties_text::print::{LineBuffer, Pair, PairLayout, Place, Repertoire, print_pair, print_readable_pair, print_readable_texts, print_text, print_texts, print_value};
use propedit_arguments::{asked_for, explain, explain_name, explain_not_utf_8, marked_words, name_of_marked};
use properties_tables::table::table_of;
use properties_tools::arguments::words;
use properties_tools::filter::{filter, filter_ascii};
use properties_tools::messages::{Escaped, print_error, print_line};
use properties_tools::propedit::against::{base_of, check_against};
use properties_tools::propedit::answers::{answer_to, name};
use properties_tools::propedit::base_run::run_base;
use properties_tools::propedit::comment::comment;
use properties_tools::propedit::counts::count_changes;
use properties_tools::propedit::diff::{diff, run_diff};
use properties_tools::propedit::diff_json::diff_json;
use properties_tools::propedit::request::{
    AbsentKeys, Allowed, Change, Check, CheckedBase, Command, Comparison, Conversion, Destination, Edits, FileChange, Form, Job, Merge, Missing, Report, Request, Source, Terminator,
};
use properties_tools::propedit::error::{Failure, print_failure};
use properties_tools::propedit::get::{Shown, get};
use properties_tools::propedit::hint::{possible_files, print_reading, refused_file};
use properties_tools::propedit::in_place::{Target, edit_file};
use properties_tools::propedit::ill_formed::ill_formed_lines;
use properties_tools::propedit::kinds::{Ignored, Kind};
use properties_tools::propedit::list_json::list_json;
use properties_tools::propedit::merge::{Merged, edits_of, read_merge};
use properties_tools::propedit::named::NamedSource;
use properties_tools::propedit::same_file::refuse_output;
use properties_tools::propedit::streams::Sinks;
use properties_tools::propedit::{self, change::change, check::report, exit_status, list::list, pairs::list_values, replacement, run};
use properties_tools::propfilter;
use single_lines::decode::decode_line;
use single_lines::parse::{ParsedLine, parse_line};
use std::collections::{BTreeMap, HashMap};
use std::env;
use std::fs::File;
use std::io::{self, ErrorKind, Write};
use std::test::Fail;

// What a program does for a request.
fn answer(_: &Request) -> u8 {
    0
}
"""

SINK = "Counted::new(Vec::new(alloc))"
CHECK = "Check { allowed: Allowed::All, ignored: Ignored::NONE, quiet: false, report: Report::Lines }"
EDITS = "Edits { list: Vec::new(alloc), ascii_only: false, latin_1: false, absent: AbsentKeys::Added }"
GIVEN = {
    "file": 'let file: &[u8] = b"a=b";',
    "pieces": "let pieces: Vec<Vec<u8>> = Vec::new(alloc);",
    "input": 'let mut input: &[u8] = b"a=b";',
    "output": f"let mut output = {SINK};",
    "errors": f"let mut errors = {SINK};",
    "sink": f"let mut sink = {SINK};",
    "sinks": f"let mut sinks = Sinks {{ output: {SINK}, errors: {SINK} }};",
    "arguments": "let arguments: &[String] = &[];",
    "words": "let words: Vec<String> = Vec::new(alloc);",
    "job": "let job = Job { encoding: Encoding::UTF_8, source: Source::StandardInput, command: Command::List(String::new(alloc), Terminator::LineFeed) };",
    "asked": f"let asked = {CHECK};",
    "base": f'let (_, base) = base_of(alloc, NamedSource {{ name: "x", bytes: b"a" }}, Encoding::UTF_8, {CHECK})?;',
    "sources": "let sources = Comparison { encoding: Encoding::UTF_8, old: Source::Dash, new: Source::Dash, report: Report::Lines };",
    "Target": 'std::fs::write(&rt, "app.properties", b"port = 80".as_slice())?;',
    "File": 'std::fs::write(&rt, "app.properties", b"port = 80".as_slice())?;',
    "map": "let map: HashMap<String, String> = HashMap::new(alloc);",
    "name": 'let name = "my.properties";',
    "path": 'let path = "my.properties";',
    "number": "let number = 1usize;",
    "error": "let error = PropertiesError::from(io::Error::from(ErrorKind::NotFound));",
    "items": 'let mut items = PropertiesIter::new(alloc, b"a=b".as_slice())?;',
    "writer": f"let mut writer = PropertiesWriter::new(alloc, {SINK})?;",
    "repertoire": "let repertoire = Repertoire::Utf8;",
    "line": "let mut line = LineBuffer::new(alloc);",
    "keys": "let keys: Vec<String> = Vec::new(alloc);",
    "files": "let files: Vec<String> = Vec::new(alloc);",
    "key": 'let key = String::from_str(alloc, "k")?;',
    "source": 'let source: &[u8] = b"port=80";',
    "port": 'let port = String::from_str(alloc, "port")?;',
    "price": 'let price = String::from_str(alloc, "price")?;',
    "host": 'let host = String::from_str(alloc, "host")?;',
    "server": 'let server = String::from_str(alloc, "server")?;',
    "server_port": 'let server_port = String::from_str(alloc, "server_port")?;',
    "its_name": 'let its_name = String::from_str(alloc, "its name")?;',
    "the_front_door": 'let the_front_door = String::from_str(alloc, "the front door")?;',
    "options": "let options = SourceOptions::new(Encoding::UTF_8);",
    "value": 'let value = String::from_str(alloc, "v")?;',
}
# What a name is given instead, if the example has this text.
SPECIAL = {
    ("map", "write_sorted"): "let map: BTreeMap<String, String> = BTreeMap::new(alloc);",
    ("file", "edit_file"): 'let file = FileChange { path: String::from_str(alloc, "my.properties")?, encoding: Encoding::UTF_8, '
    f"change: Change::Edits({EDITS}), missing: Missing::Refuse, verbose: false }};",
    ("number", "Edit::Put"): 'let number = String::from_str(alloc, "8080")?;',
    ("asked", "run_base"): f"let asked = CheckedBase {{ source: Source::StandardInput, encoding: Encoding::UTF_8, check: {CHECK} }};",
    ("asked", "read_merge"): "let asked = Merge { pairs: Source::Dash, form: Form::Properties, encoding: Encoding::UTF_8, "
    f"edits: {EDITS}, destination: Destination::Printed(Source::StandardInput) }};",
}


def examples(path):
    """(line number, lines) of each fenced example among the comments of a file, but of what its crate keeps to itself."""
    taken, lines = None, path.read_text().splitlines()
    for number, line in enumerate(lines, 1):
        comment = re.match(r"\s*//[/!] ?(.*)", line)
        if not comment:
            continue
        if comment[1].startswith("```"):
            item = next((it for it in lines[number:] if not re.match(r"\s*(//|#)", it)), "")
            if taken is not None and not item.startswith("pub(crate)"):
                yield number, taken
            taken = [] if taken is None else None
        elif taken is not None:
            taken.append(comment[1])


def code_alone(text):
    """Without comments, and of its strings only what stands in braces."""
    strings = re.sub(r'r?b?"((?:[^"\\]|\\.)*)"', lambda found: " ".join(re.findall(r"\{(\w+)\}", found[1])), text)
    return re.sub(r"//.*", "", strings)


def is_free(name, text):
    """Whether a name is used that the example doesn't bind."""
    ways = ["let (mut )?{}\\b", "\\|[^|]*\\b{}\\b[^|]*\\|", "\\(.*\\b{}\\b.*\\) =", "\\b{}\\) =>", "KVPair\\({},", "for {} in"]
    is_bound = any(re.search(way.format(name), text) for way in ways) or re.search(rf"Some\((Ok\()?{name}\b", text)
    # A variant of `Call` or of `Edit` is made of texts, and not matched.
    is_made = name in ("key", "value") and "Call::Pair(key, value)" in text
    is_made = is_made or name in ("port", "price", "host", "value") and re.search(r"Edit::(Put|SetValue)\(", text)
    # A call isn't the name that it calls, and neither is a field of a record that gets a value.
    return re.search(rf"(?<![.\w]){name}\b(?!\(|: )", text) and (is_made or not is_bound)


def main():
    print(HEAD)
    for crate in CRATES:
        for path in sorted((TOP / "crates" / crate / "src").rglob("*.rt")):
            for number, lines in examples(path):
                text = code_alone("\n".join(lines))
                name = "_".join([crate, *path.relative_to(TOP / "crates" / crate / "src").with_suffix("").parts, str(number)])
                print("#[test]\nfn " + name + "(rt: HostRuntime) -> Result<(), Fail> {")
                print("    let alloc = rt.alloc();")
                for given, how in GIVEN.items():
                    if is_free(given, text):
                        how = next((it for (name_of, part), it in SPECIAL.items() if name_of == given and part in text), how)
                        print("    " + how)
                # What a match of an example gives is a status.
                lines = [re.sub(r"^match (asked_for|read_merge)", r"let _ = match \1", line) for line in lines]
                if any(line.startswith("let _ = match") for line in lines):
                    lines[-1] += ";"
                for line in lines:
                    # A test returns no status, and its error is a `Fail`.
                    line = re.sub(r"return Ok\((.{3,})\);", r"let _ = \1; return Ok(());", line)
                    line = re.sub(r"return (explain\(.+\));", r"let _ = \1; return Ok(());", line)
                    print("    " + re.sub(r"return Err\((.+)\);", r"return Err(\1.into());", line))
                print("    Ok(())\n}\n")


if __name__ == "__main__":
    main()
