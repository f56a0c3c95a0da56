use crate::edit::given;
use crate::error::{ErrorKind, PropertiesError};
use crate::options::Options;
use crate::sys::{self, Record};
use std::ops::Range;

/// What a group of lines is.
#[derive(Clone, Copy, Debug, PartialEq, Eq, PartialOrd, Ord, Hash)]
pub enum GroupKind {
    /// A line of blanks, or of nothing.
    Blank,
    /// A comment.
    Comment,
    /// A pair.
    Pair,
}

/// A malformed escape.
#[derive(Clone, Debug, PartialEq, Eq, Hash)]
#[non_exhaustive]
pub struct Flaw {
    /// How it is malformed.
    pub kind: ErrorKind,
    /// Where its backslash stands in the file.
    pub offset: usize,
    /// The line that the backslash stands in, which may come after the one that the group begins in.
    pub line_number: usize,
    /// Which byte of that line the backslash is, counted from 1.
    pub column: usize,
}

/// The lines of a comment, a pair or a blank line, and where its parts stand in the file, as ranges of bytes.
///
/// The parts come in this order: an indent, the key or the sign of a comment, what separates it from the value, the value
/// or the text of a comment, blanks after a comment, and the line ending. Together they are the group; and the groups,
/// after a byte order mark, are the file. A backslash, a line ending and blanks that join two lines belong to the part
/// after them.
#[derive(Clone, Debug, PartialEq, Eq, Hash)]
#[non_exhaustive]
pub struct Group {
    /// What it is.
    pub kind: GroupKind,
    /// The number of its first line, counted from 1.
    pub line_number: usize,
    /// The text of the key, or nothing. If there is a flaw, both texts are as they stand, with escapes and all.
    pub key_text: String,
    /// The text of the value or of the comment, or nothing.
    pub value_text: String,
    /// All of its bytes.
    pub span: Range<usize>,
    /// The bytes of the key, or of the sign of a comment.
    pub key: Range<usize>,
    /// The bytes of the value, or of the text of a comment.
    pub value: Range<usize>,
    /// The bytes of the line ending of its last line.
    pub ending: Range<usize>,
    /// Its first malformed escape. Java passes over that of a comment.
    pub flaw: Option<Flaw>,
    /// The first of its lines whose bytes aren't text of the encoding.
    pub ill_formed_line: Option<usize>,
}

impl Group {
    /// Returns the bytes between the key and the value of a pair, or between the sign and the text of a comment.
    #[must_use]
    pub fn separator(&self) -> Range<usize> {
        self.key.end..self.value.start
    }
}

/// Returns all groups of a file, also those that are malformed: for a linter or an editor.
///
/// ```
/// use todrenval::{groups, UTF_8};
///
/// let file = b"# C:\\users\n  port = \\u12\n";
/// let groups = groups(file, UTF_8)?;
/// assert_eq!(groups[0].value_text, "C:\\users");
/// assert_eq!(&file[groups[1].key.clone()], b"port");
/// assert_eq!(&file[groups[1].separator()], b" = ");
///
/// let flaw = groups[1].flaw.as_ref().unwrap();
/// assert_eq!((flaw.line_number, flaw.column), (2, 10));
/// assert_eq!(flaw.kind.to_string(), "Malformed \\uxxxx encoding: not enough digits.");
/// # Ok::<(), todrenval::PropertiesError>(())
/// ```
///
/// # Errors
///
/// A file in UTF-16; and bytes that aren't text, if the options are strict.
pub fn groups(source: &[u8], options: impl Into<Options>) -> Result<Vec<Group>, PropertiesError> {
    let options = options.into();
    let flags = sys::SPANS | options.strict_flag() | options.comments_flag();
    let mut list = Vec::new();
    given(sys::items(&mut list, source, options.encoding.number(), flags))?;
    let mut found = Vec::new();
    let mut at = 0;
    while at < list.len() {
        let record = sys::record(&list, at);
        found.push(group_of(&record));
        at += record.size;
    }
    Ok(found)
}

fn group_of(record: &Record<'_>) -> Group {
    let [start, key, key_end, value, value_end, end, next, flaw, offset, line_number, column, ill_formed] =
        record.spans();
    Group {
        kind: match record.kind {
            sys::COMMENT => GroupKind::Comment,
            sys::PAIR => GroupKind::Pair,
            _ => GroupKind::Blank,
        },
        line_number: record.line,
        key_text: record.key.to_owned(),
        value_text: record.value.to_owned(),
        span: start..next,
        key: key..key_end,
        value: value..value_end,
        ending: end..next,
        flaw: (flaw > 0).then(|| Flaw {
            kind: ErrorKind::of(i32::try_from(flaw).unwrap_or(-1)),
            offset,
            line_number,
            column,
        }),
        ill_formed_line: Some(ill_formed).filter(|line| *line > 0),
    }
}
