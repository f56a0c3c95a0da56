use crate::sys::{self, Answer};
use std::error::Error;
use std::fmt::{self, Display, Formatter};
use std::io;

/// What is wrong. It prints as a sentence without the line.
#[derive(Clone, Copy, Debug, PartialEq, Eq, PartialOrd, Ord, Hash)]
#[non_exhaustive]
pub enum ErrorKind {
    /// The stream failed. [`source`](Error::source) of the error is what it returned.
    Io,
    /// Fewer than four characters follow a `\u` in the line.
    NotEnoughDigits,
    /// One of the four characters after a `\u` isn't a hexadecimal digit.
    NotHex,
    /// An escape is half of a surrogate pair, without the other half.
    InvalidCharacter,
    /// The bytes of the line aren't text of the encoding. Only what is asked to be strict says so.
    NotText,
    /// A file in UTF-16 can't be edited, nor has it [`groups`](crate::groups) or comments of keys.
    Unsupported,
    /// A comment can't begin so.
    BadCommentPrefix,
    /// A key and its value can't be separated so.
    BadKvSeparator,
    /// The key is empty and the separator is blanks alone, so the value would be read as the key.
    EmptyKey,
    /// No pair has the key that is to be renamed, or whose comment is to be set.
    NoKey,
    /// A pair has the new key already: the first one begins in the line.
    KeyTaken,
    /// An earlier write of this writer failed.
    Failed,
    /// The library got no memory.
    Memory,
    /// Something that this version of the crate doesn't know.
    Other,
}

impl ErrorKind {
    pub(crate) fn of(status: i32) -> Self {
        match status {
            sys::NOT_ENOUGH_DIGITS => ErrorKind::NotEnoughDigits,
            sys::NOT_HEX => ErrorKind::NotHex,
            sys::INVALID_CHARACTER => ErrorKind::InvalidCharacter,
            sys::NOT_TEXT => ErrorKind::NotText,
            sys::UNSUPPORTED => ErrorKind::Unsupported,
            sys::BAD_PREFIX => ErrorKind::BadCommentPrefix,
            sys::BAD_SEPARATOR => ErrorKind::BadKvSeparator,
            sys::EMPTY_KEY => ErrorKind::EmptyKey,
            sys::NO_KEY => ErrorKind::NoKey,
            sys::KEY_TAKEN => ErrorKind::KeyTaken,
            sys::NO_MEMORY => ErrorKind::Memory,
            _ => ErrorKind::Other,
        }
    }

    fn status(self) -> i32 {
        match self {
            ErrorKind::NotEnoughDigits => sys::NOT_ENOUGH_DIGITS,
            ErrorKind::NotHex => sys::NOT_HEX,
            ErrorKind::InvalidCharacter => sys::INVALID_CHARACTER,
            ErrorKind::NotText => sys::NOT_TEXT,
            ErrorKind::Unsupported => sys::UNSUPPORTED,
            ErrorKind::BadCommentPrefix => sys::BAD_PREFIX,
            ErrorKind::BadKvSeparator => sys::BAD_SEPARATOR,
            ErrorKind::EmptyKey => sys::EMPTY_KEY,
            ErrorKind::NoKey => sys::NO_KEY,
            ErrorKind::KeyTaken => sys::KEY_TAKEN,
            ErrorKind::Memory => sys::NO_MEMORY,
            ErrorKind::Io | ErrorKind::Failed | ErrorKind::Other => -1,
        }
    }
}

impl Display for ErrorKind {
    fn fmt(&self, f: &mut Formatter<'_>) -> fmt::Result {
        match self {
            ErrorKind::Io => f.write_str("I/O error"),
            ErrorKind::Failed => f.write_str("The writer has failed."),
            _ => f.write_str(&sys::status_text(self.status())),
        }
    }
}

/// Why a call failed, and in which line. It prints as the reason and the line:
///
/// ```
/// let error = todrenval::read(&b"a = 1\nb = \\u12\n"[..]).unwrap_err();
/// assert_eq!(error.line_number(), Some(2));
/// assert_eq!(error.kind(), todrenval::ErrorKind::NotEnoughDigits);
/// assert_eq!(error.to_string(), "Malformed \\uxxxx encoding: not enough digits. (line_number = 2)");
/// ```
#[derive(Debug)]
pub struct PropertiesError {
    kind: ErrorKind,
    line: Option<usize>,
    // The index of the edit that was refused.
    edit: Option<usize>,
    // The text that was refused.
    refused: Option<String>,
    fault: Option<io::Error>,
}

impl PropertiesError {
    /// Returns what is wrong.
    #[must_use]
    pub fn kind(&self) -> ErrorKind {
        self.kind
    }

    /// Returns the number of the line that the error is in, counted from 1, or `None` if it is in none. That of a malformed
    /// escape is the line that its comment or pair begins in.
    #[must_use]
    pub fn line_number(&self) -> Option<usize> {
        self.line
    }

    /// Returns the index of the edit that [`edit`](crate::edit) refused, counted from 0, or `None` for any other error.
    #[must_use]
    pub fn edit_index(&self) -> Option<usize> {
        self.edit
    }

    pub(crate) fn new(kind: ErrorKind) -> Self {
        PropertiesError {
            kind,
            line: None,
            edit: None,
            refused: None,
            fault: None,
        }
    }

    pub(crate) fn of(answer: Answer) -> Self {
        PropertiesError {
            line: Some(answer.line).filter(|line| *line > 0),
            ..PropertiesError::new(ErrorKind::of(answer.status))
        }
    }

    pub(crate) fn of_edits(answer: Answer) -> Self {
        let is_refused = matches!(answer.status, sys::NO_KEY | sys::KEY_TAKEN);
        PropertiesError {
            edit: Some(answer.length).filter(|_| is_refused),
            ..PropertiesError::of(answer)
        }
    }

    pub(crate) fn of_text(kind: ErrorKind, text: &str) -> Self {
        PropertiesError {
            refused: Some(text.to_owned()),
            ..PropertiesError::new(kind)
        }
    }

    pub(crate) fn of_stream(fault: io::Error, line: Option<usize>) -> Self {
        PropertiesError {
            line,
            fault: Some(fault),
            ..PropertiesError::new(ErrorKind::Io)
        }
    }
}

impl Display for PropertiesError {
    fn fmt(&self, f: &mut Formatter<'_>) -> fmt::Result {
        match &self.refused {
            Some(text) => write!(f, "{}: {text:?}", self.kind.to_string().trim_end_matches('.'))?,
            None => write!(f, "{}", self.kind)?,
        }
        match self.line {
            Some(line) => write!(f, " (line_number = {line})"),
            None => f.write_str(" (line_number = unknown)"),
        }
    }
}

impl Error for PropertiesError {
    fn source(&self) -> Option<&(dyn Error + 'static)> {
        self.fault.as_ref().map(|fault| fault as &(dyn Error + 'static))
    }
}

impl From<io::Error> for PropertiesError {
    fn from(fault: io::Error) -> Self {
        PropertiesError::of_stream(fault, None)
    }
}
