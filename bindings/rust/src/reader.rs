use crate::encoding::{Encoding, WINDOWS_1252};
use crate::error::PropertiesError;
use crate::feed::Feed;
use crate::line::{ContentRef, Line, LineRef};
use crate::sys;
use std::collections::HashMap;
use std::fmt::{self, Debug, Formatter};
use std::io::Read;
use std::iter::FusedIterator;

/// What of comments is read.
#[derive(Clone, Copy, Debug, PartialEq, Eq, PartialOrd, Ord, Hash)]
pub enum Comments {
    /// Their texts with the escapes resolved, so that a malformed one is an error.
    Resolve,
    /// Their texts as they stand, with backslashes and all. Nothing in them is an error.
    Raw,
    /// Nothing: they are passed over, as Java does. Nothing in them is an error.
    Skip,
}

impl Comments {
    pub(crate) fn flags(self) -> u32 {
        match self {
            Comments::Resolve => sys::READ_COMMENTS,
            Comments::Raw => sys::RAW_COMMENTS,
            Comments::Skip => 0,
        }
    }
}

/// The comments and pairs of a reader, each with the number of its line.
///
/// An error is the last item; after it, or after the end of the reader, comes `None`, and nothing more is read. Items
/// before an error are given first, and so are those before a failed read, as far as no further byte could have changed
/// them.
///
/// The reader is read in parts of up to 64 KiB, or of as much as it gives, and an item is given before more is read, if the
/// line ending after it was: so those of a terminal or a socket come line by line. (Only an item that ends in a backslash,
/// as `a=b\\`, waits for one after it.) What is held is a part, its items, and the lines that make the longest item.
///
/// ```
/// use todrenval::{LineContent, PropertiesIter, UTF_8};
///
/// let input = "# the web server\n\nport = 80\ngreeting = Grüß \\\n    Gott\n".as_bytes();
/// for line in PropertiesIter::new_with_encoding(input, UTF_8) {
///     let line = line?;
///     match line.content() {
///         LineContent::Comment(text) => println!("{}: a comment: {text}", line.line_number()),
///         LineContent::KVPair(key, value) => println!("{}: {key} is {value}", line.line_number()),
///     }
/// }
/// # Ok::<(), todrenval::PropertiesError>(())
/// ```
pub struct PropertiesIter<R> {
    feed: Feed<R>,
}

impl<R: Read> PropertiesIter<R> {
    /// Reads windows-1252, unless a byte order mark says otherwise.
    pub fn new(input: R) -> Self {
        Self::new_with_encoding(input, WINDOWS_1252)
    }

    /// Reads this encoding, unless a byte order mark says otherwise.
    pub fn new_with_encoding(input: R, encoding: Encoding) -> Self {
        PropertiesIter {
            feed: Feed::new(input, encoding),
        }
    }

    /// Says what of comments is given, before the first item is. If nothing is said, it is [`Comments::Resolve`].
    ///
    /// ```
    /// use todrenval::{Comments, PropertiesIter};
    ///
    /// let input = &b"# C:\\users\nport = 80\n"[..];
    /// assert!(PropertiesIter::new(input).next().unwrap().is_err());
    ///
    /// let mut pairs = PropertiesIter::new(input).comments(Comments::Skip);
    /// assert_eq!(pairs.next().unwrap()?.line_number(), 2);
    /// # Ok::<(), todrenval::PropertiesError>(())
    /// ```
    #[must_use]
    pub fn comments(mut self, comments: Comments) -> Self {
        self.feed.flags &= sys::STRICT;
        self.feed.flags |= comments.flags();
        self
    }

    /// Says, before the first item is given, whether bytes that aren't text of the encoding are an error: that of the first
    /// line with such bytes, after the items before it. If nothing is said, they are read as U+FFFD. In UTF-8 without a byte order mark a byte 0 isn't text: UTF-16 looks so.
    ///
    /// ```
    /// use todrenval::{ErrorKind, PropertiesIter, UTF_8};
    ///
    /// let error = PropertiesIter::new_with_encoding(&b"a = 1\nb = \xe9\n"[..], UTF_8)
    ///     .strict(true)
    ///     .find_map(Result::err)
    ///     .unwrap();
    /// assert_eq!((error.kind(), error.line_number()), (ErrorKind::NotText, Some(2)));
    /// ```
    #[must_use]
    pub fn strict(mut self, is_strict: bool) -> Self {
        self.feed.flags &= !sys::STRICT;
        self.feed.flags |= if is_strict { sys::STRICT } else { 0 };
        self
    }

    /// Returns what [`next`](Iterator::next) returns, in texts that are borrowed until the next call. So no memory is taken
    /// for an item that is only looked at.
    ///
    /// ```
    /// use todrenval::{ContentRef, PropertiesIter};
    ///
    /// let mut lines = PropertiesIter::new(&b"# the web server\nport = 80\n"[..]);
    /// let mut length = 0;
    /// while let Some(line) = lines.next_ref() {
    ///     if let ContentRef::KVPair(key, value) = line?.content() {
    ///         length += key.len() + value.len();
    ///     }
    /// }
    /// assert_eq!(length, 6);
    /// # Ok::<(), todrenval::PropertiesError>(())
    /// ```
    #[inline]
    pub fn next_ref(&mut self) -> Option<Result<LineRef<'_>, PropertiesError>> {
        self.feed.next()
    }

    /// Returns the reader. What was read ahead of the last item is lost: the rest of a part, which is up to 64 KiB or the
    /// lines of the longest item, and items of it that weren't taken. After `None` the reader was read to its end.
    ///
    /// ```
    /// use todrenval::PropertiesIter;
    ///
    /// let mut items = PropertiesIter::new(&b"a = 1\nb = 2\n"[..]);
    /// assert!(items.next().is_some());
    /// assert_eq!(items.into_inner(), b"");
    /// ```
    pub fn into_inner(self) -> R {
        self.feed.into_reader()
    }

    /// Calls a function with the key and the value of each pair, in order.
    ///
    /// # Errors
    ///
    /// The first error ends it. The pairs before it were passed on.
    pub fn read_into<F: FnMut(String, String)>(&mut self, mut f: F) -> Result<(), PropertiesError> {
        while let Some(line) = self.next_ref() {
            if let ContentRef::KVPair(key, value) = line?.content {
                f(key.to_owned(), value.to_owned());
            }
        }
        Ok(())
    }
}

impl<R: Read> Iterator for PropertiesIter<R> {
    type Item = Result<Line, PropertiesError>;

    #[inline]
    fn next(&mut self) -> Option<Self::Item> {
        self.feed.next().map(|line| line.map(Line::from))
    }
}

impl<R: Read> FusedIterator for PropertiesIter<R> {}

impl<R> Debug for PropertiesIter<R> {
    fn fmt(&self, f: &mut Formatter<'_>) -> fmt::Result {
        f.debug_struct("PropertiesIter").finish_non_exhaustive()
    }
}

/// Reads the pairs of a reader into a map: the value of a key is that of the last pair with it. It reads windows-1252, unless
/// a byte order mark says otherwise; for another encoding, use [`PropertiesIter::read_into`].
///
/// ```
/// let map = todrenval::read(&b"port = 80\nport = 8080\n"[..])?;
/// assert_eq!(map["port"], "8080");
/// # Ok::<(), todrenval::PropertiesError>(())
/// ```
///
/// # Errors
///
/// A malformed escape, also one in a comment, and a failed read.
pub fn read<R: Read>(input: R) -> Result<HashMap<String, String>, PropertiesError> {
    let mut map = HashMap::new();
    PropertiesIter::new(input).read_into(|key, value| {
        map.insert(key, value);
    })?;
    Ok(map)
}
