//! Prints the pairs of standard input, a line each: `filter [LABEL]`, as in `filter utf-8 < app.properties`.
use std::io::{self, Write};
use std::process::ExitCode;
use todrenval::{Comments, ContentRef, Encoding, PropertiesError, PropertiesIter, PropertiesWriter, WINDOWS_1252};

fn filter(encoding: Encoding) -> Result<(), PropertiesError> {
    let mut writer = PropertiesWriter::new_with_encoding(io::stdout(), encoding);
    let mut lines = PropertiesIter::new_with_encoding(io::stdin(), encoding).comments(Comments::Skip);
    while let Some(line) = lines.next_ref() {
        if let ContentRef::KVPair(key, value) = line?.content() {
            writer.write(key, value)?;
        }
    }
    writer.finish()
}

fn main() -> ExitCode {
    let label = std::env::args().nth(1);
    let Some(encoding) = label.as_deref().map_or(Some(WINDOWS_1252), Encoding::for_label) else {
        let _ = writeln!(io::stderr(), "filter: unknown encoding");
        return ExitCode::from(2);
    };
    match filter(encoding) {
        Ok(()) => ExitCode::SUCCESS,
        Err(error) => {
            let _ = writeln!(io::stderr(), "filter: {error}");
            ExitCode::FAILURE
        }
    }
}
