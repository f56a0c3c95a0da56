use crate::sys;
use std::fmt::{self, Display, Formatter};

/// How the bytes of a file are read, unless a byte order mark at its front says otherwise, and how lines are written.
#[derive(Clone, Copy, Debug, PartialEq, Eq, PartialOrd, Ord, Hash)]
pub enum Encoding {
    /// ISO 8859-1, which Java's `Properties.load` reads from a stream, but for 27 of the bytes from 80 to 9F.
    Windows1252,
    /// UTF-8.
    Utf8,
    /// UTF-16 with the low byte first. It is read and converted, and not edited; in its place, UTF-8 is written.
    Utf16Le,
    /// UTF-16 with the high byte first, likewise.
    Utf16Be,
    /// What Java's `Properties.load` reads from a stream. It is read as [`Windows1252`](Self::Windows1252) is. Of what is
    /// written, characters that windows-1252 has at another byte, or not at all, are escapes: those up to U+007F and from
    /// U+00A0 to U+00FF aren't.
    Iso8859_1,
}

/// [`Encoding::Windows1252`], by its name in `encoding_rs`.
pub const WINDOWS_1252: Encoding = Encoding::Windows1252;
/// [`Encoding::Utf8`], by its name in `encoding_rs`.
pub const UTF_8: Encoding = Encoding::Utf8;
/// [`Encoding::Utf16Le`], by its name in `encoding_rs`.
pub const UTF_16LE: Encoding = Encoding::Utf16Le;
/// [`Encoding::Utf16Be`], by its name in `encoding_rs`.
pub const UTF_16BE: Encoding = Encoding::Utf16Be;
/// [`Encoding::Iso8859_1`], which `encoding_rs` has not: to it, the name is a label of windows-1252.
pub const ISO_8859_1: Encoding = Encoding::Iso8859_1;

const ALL: [Encoding; 5] = [WINDOWS_1252, UTF_8, UTF_16LE, UTF_16BE, ISO_8859_1];

// The labels of windows-1252 that mean ISO 8859-1.
const LATIN_1_LABELS: [&str; 11] = [
    "cp819",
    "csisolatin1",
    "ibm819",
    "iso-8859-1",
    "iso-ir-100",
    "iso8859-1",
    "iso88591",
    "iso_8859-1",
    "iso_8859-1:1987",
    "l1",
    "latin1",
];

impl Encoding {
    // The number by which the library reads it.
    pub(crate) fn number(self) -> u32 {
        match self {
            Encoding::Windows1252 | Encoding::Iso8859_1 => 0,
            Encoding::Utf8 => 1,
            Encoding::Utf16Le => 2,
            Encoding::Utf16Be => 3,
        }
    }

    /// Returns the encoding that a label means in the WHATWG Encoding Standard, such as `utf8` or `cp1252`, or `None` if it
    /// means none of these. The labels of windows-1252 that are names of ISO 8859-1, such as `latin1`, mean
    /// [`Iso8859_1`](Self::Iso8859_1).
    ///
    /// ```
    /// use todrenval::{Encoding, ISO_8859_1, WINDOWS_1252};
    ///
    /// assert_eq!(Encoding::for_label("ISO-8859-1"), Some(ISO_8859_1));
    /// assert_eq!(Encoding::for_label("cp1252"), Some(WINDOWS_1252));
    /// assert_eq!(Encoding::for_label(b"koi8-r"), None);
    /// ```
    #[must_use]
    pub fn for_label(label: impl AsRef<[u8]>) -> Option<Encoding> {
        let label = label.as_ref();
        let number = sys::encoding(label);
        let meant = ALL.into_iter().find(|encoding| encoding.number() == number)?;
        Some(if is_latin_1(label) { ISO_8859_1 } else { meant })
    }

    /// Returns the name of the encoding. It is one of its labels.
    #[must_use]
    pub fn name(self) -> &'static str {
        match self {
            Encoding::Windows1252 => "windows-1252",
            Encoding::Utf8 => "UTF-8",
            Encoding::Utf16Le => "UTF-16LE",
            Encoding::Utf16Be => "UTF-16BE",
            Encoding::Iso8859_1 => "ISO-8859-1",
        }
    }
}

fn is_latin_1(label: &[u8]) -> bool {
    let label = String::from_utf8_lossy(label);
    let label = label.trim_matches(|character: char| character.is_ascii_whitespace());
    LATIN_1_LABELS.iter().any(|row| row.eq_ignore_ascii_case(label))
}

impl Display for Encoding {
    fn fmt(&self, f: &mut Formatter<'_>) -> fmt::Result {
        f.write_str(self.name())
    }
}
