use crate::encoding::Encoding;
use crate::reader::Comments;
use crate::sys;

/// How the bytes of a file are read by [`get`](crate::get), [`edit`](crate::edit), [`convert`](crate::convert),
/// [`groups`](crate::groups) and the calls for [keys](crate::rename_key). An [`Encoding`] alone can be passed in its place.
///
/// ```
/// use todrenval::{edit, Edit, Options, UTF_8};
///
/// let options = Options::new(UTF_8).strict(true).ascii_only(true);
/// let edited = edit(b"drink = tea\n", options, &[Edit::SetValue("drink", "café")])?;
/// assert_eq!(edited, b"drink = caf\\u00e9\n");
/// # Ok::<(), todrenval::PropertiesError>(())
/// ```
#[derive(Clone, Copy, Debug, PartialEq, Eq, Hash)]
pub struct Options {
    pub(crate) encoding: Encoding,
    pub(crate) comments: Comments,
    is_strict: bool,
    is_ascii_only: bool,
}

impl Options {
    /// Reads this encoding, unless a byte order mark says otherwise. Comments are passed over, bytes that aren't text are
    /// read as U+FFFD, and what an edit puts in is written in the encoding.
    #[must_use]
    pub fn new(encoding: Encoding) -> Self {
        Options {
            encoding,
            comments: Comments::Skip,
            is_strict: false,
            is_ascii_only: false,
        }
    }

    /// Says what of comments is read. With [`Comments::Resolve`], `get`, `edit`, `rename_key`, `remove_with_comment` and
    /// `set_comment` refuse a malformed escape in a comment, and `groups` resolves its texts. Otherwise `groups` gives them as
    /// they stand.
    #[must_use]
    pub fn comments(mut self, comments: Comments) -> Self {
        self.comments = comments;
        self
    }

    /// Says whether a file is refused whose bytes aren't text of the encoding. In UTF-8 without a byte order mark a byte 0
    /// isn't text: UTF-16 looks so.
    #[must_use]
    pub fn strict(mut self, is_strict: bool) -> Self {
        self.is_strict = is_strict;
        self
    }

    /// Says whether `edit`, `rename_key` and `set_comment` write each character past U+007F as an escape. Such a line reads the
    /// same in ISO 8859-1, windows-1252 and UTF-8.
    #[must_use]
    pub fn ascii_only(mut self, is_ascii_only: bool) -> Self {
        self.is_ascii_only = is_ascii_only;
        self
    }

    // The flags of the calls that read, and of those that pass over comments or read them; and those of `edit`.

    pub(crate) fn strict_flag(self) -> u32 {
        if self.is_strict {
            sys::STRICT
        } else {
            0
        }
    }

    pub(crate) fn comments_flag(self) -> u32 {
        match self.comments {
            Comments::Resolve => sys::READ_COMMENTS,
            Comments::Raw | Comments::Skip => 0,
        }
    }

    pub(crate) fn putting_flags(self) -> u32 {
        match (self.is_ascii_only, self.encoding) {
            (true, _) => sys::ASCII_ONLY,
            (false, Encoding::Iso8859_1) => sys::LATIN_1,
            (false, _) => 0,
        }
    }
}

impl From<Encoding> for Options {
    fn from(encoding: Encoding) -> Self {
        Options::new(encoding)
    }
}
