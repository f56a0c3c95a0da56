use std::fmt::{self, Display, Formatter};

/// What a line says.
#[derive(Clone, Debug, PartialEq, Eq, PartialOrd, Ord, Hash)]
pub enum LineContent {
    /// The text of a comment, without its sign and without the blanks at its ends.
    Comment(String),
    /// A key and its value.
    KVPair(String, String),
}

/// A comment or a pair, with the number of the line that it begins in. Lines compare by their number first.
#[derive(Clone, Debug, PartialEq, Eq, PartialOrd, Ord, Hash)]
pub struct Line {
    pub(crate) number: usize,
    pub(crate) content: LineContent,
}

impl Line {
    /// Returns the number of the line, counted from 1.
    #[must_use]
    pub fn line_number(&self) -> usize {
        self.number
    }

    /// Returns what the line says.
    #[must_use]
    pub fn content(&self) -> &LineContent {
        &self.content
    }

    /// Takes out what the line says.
    #[must_use]
    pub fn consume_content(self) -> LineContent {
        self.content
    }
}

/// What a line says, in texts of the reader.
#[derive(Clone, Copy, Debug, PartialEq, Eq, PartialOrd, Ord, Hash)]
pub enum ContentRef<'a> {
    /// The text of a comment, without its sign and without the blanks at its ends.
    Comment(&'a str),
    /// A key and its value.
    KVPair(&'a str, &'a str),
}

/// A [`Line`] whose texts are those of the reader, until it is asked for the next one.
#[derive(Clone, Copy, Debug, PartialEq, Eq, PartialOrd, Ord, Hash)]
pub struct LineRef<'a> {
    pub(crate) number: usize,
    pub(crate) content: ContentRef<'a>,
}

impl<'a> LineRef<'a> {
    /// Returns the number of the line, counted from 1.
    #[must_use]
    pub fn line_number(&self) -> usize {
        self.number
    }

    /// Returns what the line says.
    #[must_use]
    pub fn content(&self) -> ContentRef<'a> {
        self.content
    }
}

impl From<LineRef<'_>> for Line {
    #[inline]
    fn from(line: LineRef<'_>) -> Line {
        Line {
            number: line.number,
            content: match line.content {
                ContentRef::Comment(text) => LineContent::Comment(text.to_owned()),
                ContentRef::KVPair(key, value) => LineContent::KVPair(key.to_owned(), value.to_owned()),
            },
        }
    }
}

impl From<Line> for LineContent {
    fn from(line: Line) -> LineContent {
        line.content
    }
}

impl Display for LineContent {
    fn fmt(&self, f: &mut Formatter<'_>) -> fmt::Result {
        match self {
            LineContent::Comment(text) => write!(f, "Comment({text:?})"),
            LineContent::KVPair(key, value) => write!(f, "KVPair({key:?}, {value:?})"),
        }
    }
}

impl Display for Line {
    fn fmt(&self, f: &mut Formatter<'_>) -> fmt::Result {
        write!(f, "Line {{line_number: {}, content: {}}}", self.number, self.content)
    }
}

/// What ends the lines that a writer writes.
#[derive(Clone, Copy, Debug, PartialEq, Eq, PartialOrd, Ord, Hash)]
pub enum LineEnding {
    /// A carriage return.
    CR,
    /// A line feed.
    LF,
    /// A carriage return and a line feed.
    #[allow(clippy::upper_case_acronyms)]
    CRLF,
}

impl Display for LineEnding {
    fn fmt(&self, f: &mut Formatter<'_>) -> fmt::Result {
        write!(f, "LineEnding::{self:?}")
    }
}
