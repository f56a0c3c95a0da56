//! Says what is wrong in files in UTF-8: `check FILE ..` prints `FILE:LINE:COLUMN: REASON`, and its status is 1 then.
use std::collections::HashMap;
use std::error::Error;
use std::process::ExitCode;
use todrenval::{groups, GroupKind, UTF_8};

/// A line, a column and a reason.
type Finding = (usize, usize, String);

fn findings(file: &[u8]) -> Result<Vec<Finding>, Box<dyn Error>> {
    let mut found = Vec::new();
    let mut first_lines = HashMap::new();
    for group in groups(file, UTF_8)? {
        if let Some(line) = group.ill_formed_line {
            found.push((line, 1, "Not text of UTF-8.".to_owned()));
        }
        if group.kind != GroupKind::Pair {
            continue;
        }
        if let Some(flaw) = group.flaw {
            found.push((flaw.line_number, flaw.column, flaw.kind.to_string()));
            continue;
        }
        let first = *first_lines.entry(group.key_text).or_insert(group.line_number);
        if first != group.line_number {
            found.push((group.line_number, 1, format!("repeats the key of line {first}")));
        }
    }
    Ok(found)
}

fn main() -> Result<ExitCode, Box<dyn Error>> {
    let mut is_sound = true;
    for name in std::env::args().skip(1) {
        for (line, column, reason) in findings(&std::fs::read(&name)?)? {
            is_sound = false;
            println!("{name}:{line}:{column}: {reason}");
        }
    }
    Ok(if is_sound { ExitCode::SUCCESS } else { ExitCode::FAILURE })
}
