#!/usr/bin/env python3
"""Counts the instructions a byte that the original crate takes: TODRENVAL_ORIGINAL=FOLDER bench/original.py [NAME ..]

FOLDER has lib.rs of java-properties 2.0.0, of which no file is in this repository. It prints a row for each input of
bench/inputs.py that is named, or for six of them, of 1 MiB: a loop over the items, `read` into a map, and pairs read and
written. Reading the input is left out, as in bench/counts.py, whose table has what the port takes. It needs cargo, valgrind
and the crates encoding_rs, regex and lazy_static: those of Debian's librust-*-dev if they are installed, or of crates.io.
"""
import os
import pathlib
import subprocess
import sys
import tempfile

import counts

DEBIAN = pathlib.Path("/usr/share/cargo/registry")
NAMES = ["pairs", "shipped", "short-lines", "joins", "one-line", "escapes-in-lines"]
MANIFEST = """[package]
name = "java-properties"
version = "2.0.0"
edition = "2021"

[lib]
path = "{folder}/lib.rs"

[[bin]]
name = "original"
path = "original.rs"

[dependencies]
encoding_rs = "0.8"
regex = "1"
lazy_static = "1"

[profile.release]
lto = "fat"
codegen-units = 1
"""
SOURCES = f"""[source.crates-io]
replace-with = "debian"

[source.debian]
directory = "{DEBIAN}"
"""
PROGRAM = """use java_properties::{LineContent, PropertiesIter, PropertiesWriter};
use std::io::{self, Read};

fn main() {
    let how = std::env::args().nth(1).unwrap_or_default();
    let mut source = Vec::new();
    io::stdin().lock().read_to_end(&mut source).unwrap();
    let count = match how.as_str() {
        "items" => PropertiesIter::new(&source[..]).map(|line| drop(line.unwrap())).count(),
        "read" => java_properties::read(&source[..]).unwrap().len(),
        "filter" => filter(&source),
        _ => source.len(),
    };
    eprintln!("{count}");
}

fn filter(source: &[u8]) -> usize {
    let mut writer = PropertiesWriter::new(io::stdout());
    for line in PropertiesIter::new(source) {
        if let LineContent::KVPair(key, value) = line.unwrap().consume_content() {
            writer.write(&key, &value).unwrap();
        }
    }
    writer.finish().unwrap();
    0
}
"""


def build(folder, work):
    work.joinpath(".cargo").mkdir()
    if DEBIAN.is_dir():
        work.joinpath(".cargo/config.toml").write_text(SOURCES)
    work.joinpath("Cargo.toml").write_text(MANIFEST.format(folder=folder))
    work.joinpath("original.rs").write_text(PROGRAM)
    subprocess.run(["cargo", "build", "--quiet", "--release"], cwd=work, check=True, stderr=subprocess.DEVNULL)
    return str(work / "target/release/original")


def main():
    folder = os.environ.get("TODRENVAL_ORIGINAL")
    if not folder:
        print("The original crate was not counted: TODRENVAL_ORIGINAL names no folder")
        return
    print("| input | items | `read` | read and write |\n|---|---|---|---|")
    with tempfile.TemporaryDirectory() as room:
        work = pathlib.Path(room)
        program = build(pathlib.Path(folder).resolve(), work)
        for name in sys.argv[1:] or NAMES:
            path = work / "input"
            with open(path, "wb") as file:
                subprocess.run([sys.executable, f"{counts.HERE}/inputs.py", name, "1"], stdout=file, check=True)
            found = counts.calls(path, program, "items", "read", "filter")
            print(f"| `{name}` | {' | '.join(f'{count / path.stat().st_size:.1f}' for count in found)} |", flush=True)


if __name__ == "__main__":
    main()
