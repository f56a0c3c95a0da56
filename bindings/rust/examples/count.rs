//! Prints how many comments and pairs standard input has: `count [LABEL]`, as in `count utf-8 < app.properties`.
use std::error::Error;
use std::io;
use todrenval::{Comments, Encoding, LineContent, PropertiesIter, WINDOWS_1252};

fn main() -> Result<(), Box<dyn Error>> {
    let label = std::env::args().nth(1);
    let encoding = label
        .map_or(Some(WINDOWS_1252), Encoding::for_label)
        .ok_or("unknown encoding")?;
    let (mut comments, mut pairs) = (0, 0);
    for line in PropertiesIter::new_with_encoding(io::stdin(), encoding).comments(Comments::Raw) {
        match line?.content() {
            LineContent::Comment(_) => comments += 1,
            LineContent::KVPair(..) => pairs += 1,
        }
    }
    println!("{comments} comments, {pairs} pairs");
    Ok(())
}
