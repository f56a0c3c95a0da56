use crate::edit::{given, Target};
use crate::encoding::{Encoding, ISO_8859_1, UTF_8, WINDOWS_1252};
use crate::error::{ErrorKind, PropertiesError};
use crate::line::LineEnding;
use crate::sys;
use std::collections::HashMap;
use std::fmt::{self, Debug, Formatter};
use std::io::{self, Write};

// How many bytes of lines are gathered, without what becomes escapes.
const MOST: usize = 1 << 13;

/// Writes comments and pairs, a line each, to a stream.
///
/// Lines are gathered, up to 8 KiB, and sent together: call [`finish`](Self::finish) at the end, which says whether all
/// were taken. A writer that is dropped sends what it holds, and can't say so. As with a `BufWriter`, the stream is borrowed
/// until then if it was passed by reference.
///
/// After a write of the stream that failed, which an error names by the line in which it did, nothing more is sent: the
/// stream has a front of what was written. Every later call then returns the kind [`Failed`](ErrorKind::Failed).
///
/// ```
/// use todrenval::{PropertiesWriter, UTF_8};
///
/// let mut bytes = Vec::new();
/// {
///     let mut writer = PropertiesWriter::new_with_encoding(&mut bytes, UTF_8);
///     writer.set_kv_separator(" = ")?;
///     writer.set_readable(true);
///     writer.write_comment("the web server")?;
///     writer.write("greeting", "Grüß Gott: a=b")?;
///     writer.finish()?;
/// }
/// assert_eq!(bytes, "# the web server\ngreeting = Grüß Gott: a=b\n".as_bytes());
/// # Ok::<(), todrenval::PropertiesError>(())
/// ```
pub struct PropertiesWriter<W: Write> {
    // None once `into_inner` has returned it.
    writer: Option<W>,
    encoding: Encoding,
    flags: u32,
    prefix: String,
    separator: String,
    // The lines that are gathered: first those that are made, and then those that are packed, to be made as is set now.
    made: Vec<u8>,
    packed: Vec<u8>,
    // How many lines these are, with how many bytes, and how many the stream took before.
    gathered: usize,
    held: usize,
    sent: usize,
    has_begun: bool,
    has_failed: bool,
}

impl<W: Write> PropertiesWriter<W> {
    /// Writes windows-1252, with escapes for characters that it doesn't have.
    pub fn new(writer: W) -> Self {
        Self::new_with_encoding(writer, WINDOWS_1252)
    }

    /// Writes this encoding, or UTF-8 in the place of UTF-16.
    pub fn new_with_encoding(writer: W, encoding: Encoding) -> Self {
        PropertiesWriter {
            writer: Some(writer),
            encoding,
            flags: 0,
            prefix: "# ".to_owned(),
            separator: "=".to_owned(),
            made: Vec::new(),
            packed: Vec::new(),
            gathered: 0,
            held: 0,
            sent: 0,
            has_begun: false,
            has_failed: false,
        }
    }

    /// Writes a comment. It stays one line: line endings and backslashes in it become escapes.
    ///
    /// # Errors
    ///
    /// A failed write of the stream, now or earlier. This comment isn't written then.
    pub fn write_comment(&mut self, comment: &str) -> Result<(), PropertiesError> {
        self.gather(sys::COMMENT, "", comment)
    }

    /// Writes a key and its value.
    ///
    /// # Errors
    ///
    /// A failed write of the stream, now or earlier; and an empty key, if the separator is blanks alone. This pair isn't
    /// written then.
    #[inline]
    pub fn write(&mut self, key: &str, value: &str) -> Result<(), PropertiesError> {
        if key.is_empty() {
            self.ask_without_key()?;
        }
        self.gather(sys::PAIR, key, value)
    }

    /// Sends the lines that are gathered, and flushes the stream.
    ///
    /// # Errors
    ///
    /// A failed write or flush of the stream. After a failed flush the writer can go on.
    pub fn flush(&mut self) -> Result<(), PropertiesError> {
        self.send()?;
        Ok(self.writer.as_mut().map_or(Ok(()), Write::flush)?)
    }

    /// Sends the lines that are gathered, and flushes the stream, as [`flush`](Self::flush) does. More may be written after
    /// it.
    ///
    /// # Errors
    ///
    /// A failed write or flush of the stream.
    pub fn finish(&mut self) -> Result<(), PropertiesError> {
        self.flush()
    }

    /// Sends the lines that are gathered, and returns the stream. It isn't flushed. If you need the stream after an error,
    /// make the writer with a reference to it.
    ///
    /// ```
    /// use todrenval::PropertiesWriter;
    ///
    /// let mut writer = PropertiesWriter::new(Vec::new());
    /// writer.write("port", "80")?;
    /// assert_eq!(writer.into_inner()?, b"port=80\n");
    /// # Ok::<(), todrenval::PropertiesError>(())
    /// ```
    ///
    /// # Errors
    ///
    /// A failed write of the stream, now or earlier. The stream is dropped then.
    pub fn into_inner(mut self) -> Result<W, PropertiesError> {
        self.send()?;
        self.writer
            .take()
            .ok_or_else(|| PropertiesError::new(ErrorKind::Failed))
    }

    /// Says what stands before the text of a comment: blanks, `#` or `!`, and any text in one line. If nothing is said, it is
    /// `# `.
    ///
    /// # Errors
    ///
    /// Another text. Nothing changes then.
    pub fn set_comment_prefix(&mut self, prefix: &str) -> Result<(), PropertiesError> {
        self.ask(ErrorKind::BadCommentPrefix, prefix, prefix, "=")?;
        self.make_packed()?;
        prefix.clone_into(&mut self.prefix);
        Ok(())
    }

    /// Says what stands between a key and its value: `=` or `:`, with blanks around it or without, or blanks alone. If nothing
    /// is said, it is `=`.
    ///
    /// # Errors
    ///
    /// Another text. Nothing changes then.
    pub fn set_kv_separator(&mut self, separator: &str) -> Result<(), PropertiesError> {
        self.ask(ErrorKind::BadKvSeparator, separator, "#", separator)?;
        self.make_packed()?;
        separator.clone_into(&mut self.separator);
        Ok(())
    }

    /// Says what ends lines. If nothing is said, it is a line feed.
    pub fn set_line_ending(&mut self, line_ending: LineEnding) {
        let flag = match line_ending {
            LineEnding::LF => 0,
            LineEnding::CR => sys::CR,
            LineEnding::CRLF => sys::CRLF,
        };
        self.set(sys::CR | sys::CRLF, flag);
    }

    /// Says whether each character past U+007F is written as an escape, so that the lines read the same in ISO 8859-1,
    /// windows-1252 and UTF-8.
    pub fn set_ascii_only(&mut self, is_ascii_only: bool) {
        self.set(sys::ASCII_ONLY, if is_ascii_only { sys::ASCII_ONLY } else { 0 });
    }

    /// Says whether values are written as people write them, without a backslash before each space, `=`, `:`, `#` and `!`.
    pub fn set_readable(&mut self, is_readable: bool) {
        self.set(sys::READABLE, if is_readable { sys::READABLE } else { 0 });
    }

    fn set(&mut self, among: u32, flag: u32) {
        let flags = self.flags & !among | flag;
        if flags != self.flags {
            // Only memory can be short for what is packed, and no later call can make it as was set then.
            self.has_failed |= self.make_packed().is_err();
            self.flags = flags;
        }
    }

    // Asks whether a writer takes this prefix and this separator, by having one write nothing. To the library, a text of no
    // bytes is the usual one.
    fn ask(&self, bad: ErrorKind, text: &str, prefix: &str, separator: &str) -> Result<(), PropertiesError> {
        let is_taken = !text.is_empty() && {
            let (prefix, separator) = (prefix.as_bytes(), separator.as_bytes());
            sys::write(&mut Vec::new(), &[], self.encoding.number(), 0, prefix, separator).status == sys::OK
        };
        if is_taken {
            Ok(())
        } else {
            Err(PropertiesError::of_text(bad, text))
        }
    }

    // Asks whether a pair may have an empty key, by having one made.
    #[cold]
    fn ask_without_key(&self) -> Result<(), PropertiesError> {
        if self.has_failed {
            return Ok(());
        }
        let mut pair = Vec::new();
        sys::push_record(&mut pair, sys::PAIR, "", "");
        given(self.make(&mut Vec::new(), &pair))
    }

    #[inline]
    fn gather(&mut self, kind: u64, key: &str, value: &str) -> Result<(), PropertiesError> {
        if self.has_failed || self.held >= MOST {
            self.send()?;
        }
        sys::push_record(&mut self.packed, kind, key, value);
        // A separator or a sign, and a line ending.
        self.held += key.len() + value.len() + 2;
        self.gathered += 1;
        Ok(())
    }

    // Makes packed lines as is set now.
    fn make(&self, made: &mut Vec<u8>, packed: &[u8]) -> sys::Answer {
        let flags = self.flags | if self.has_begun { sys::GOES_ON } else { 0 };
        let (prefix, separator) = (self.prefix.as_bytes(), self.separator.as_bytes());
        if self.encoding != ISO_8859_1 || flags & sys::ASCII_ONLY > 0 {
            return sys::write(made, packed, self.encoding.number(), flags, prefix, separator);
        }
        // The call has no flag for this: a conversion makes escapes of what only windows-1252 has. Behind other lines, no
        // line looks like a byte order mark.
        let front: &[u8] = if self.has_begun { b"#\n" } else { b"" };
        let mut lines = front.to_vec();
        let answer = sys::write(&mut lines, packed, UTF_8.number(), flags, prefix, separator);
        if answer.status != sys::OK {
            return answer;
        }
        let start = made.len();
        let answer = sys::convert(made, &lines, UTF_8.number(), Target::Iso8859_1 as u32, 0);
        if answer.status == sys::OK {
            made.drain(start..start + front.len());
        }
        answer
    }

    fn make_packed(&mut self) -> Result<(), PropertiesError> {
        if self.packed.is_empty() {
            return Ok(());
        }
        let mut made = std::mem::take(&mut self.made);
        let answer = self.make(&mut made, &self.packed);
        self.made = made;
        given(answer)?;
        self.has_begun = true;
        self.packed.clear();
        Ok(())
    }

    // Sends the lines that are gathered.
    fn send(&mut self) -> Result<(), PropertiesError> {
        if self.has_failed {
            return Err(PropertiesError::new(ErrorKind::Failed));
        }
        self.make_packed()?;
        let Some(writer) = &mut self.writer else {
            return Ok(());
        };
        // Until all is sent, and if the stream panics.
        self.has_failed = true;
        let mut at = 0;
        while at < self.made.len() {
            match writer.write(&self.made[at..]) {
                Ok(0) => return Err(self.failed_at(at, io::ErrorKind::WriteZero.into())),
                Ok(count) => at += count,
                Err(fault) if fault.kind() == io::ErrorKind::Interrupted => {}
                Err(fault) => return Err(self.failed_at(at, fault)),
            }
        }
        self.made.clear();
        self.sent += std::mem::take(&mut self.gathered);
        self.held = 0;
        self.has_failed = false;
        Ok(())
    }

    fn failed_at(&self, at: usize, fault: io::Error) -> PropertiesError {
        PropertiesError::of_stream(fault, Some(self.sent + lines_in(&self.made, at) + 1))
    }
}

impl<W: Write> Drop for PropertiesWriter<W> {
    fn drop(&mut self) {
        // Whoever wants to know calls `finish`.
        let _ = self.send();
    }
}

impl<W: Write> Debug for PropertiesWriter<W> {
    fn fmt(&self, f: &mut Formatter<'_>) -> fmt::Result {
        f.debug_struct("PropertiesWriter").finish_non_exhaustive()
    }
}

// How many lines end in the first bytes, of lines in which nothing else is a CR or an LF.
fn lines_in(bytes: &[u8], count: usize) -> usize {
    (0..count)
        .filter(|at| bytes[*at] == b'\n' || bytes[*at] == b'\r' && bytes.get(at + 1) != Some(&b'\n'))
        .count()
}

/// Writes the entries of a map in windows-1252, a line each, in ascending order of their keys, and flushes the stream.
///
/// ```
/// use std::collections::HashMap;
///
/// let map = HashMap::from([("port".to_owned(), "80".to_owned()), ("host".to_owned(), "example.org".to_owned())]);
/// let mut bytes = Vec::new();
/// todrenval::write(&mut bytes, &map)?;
/// assert_eq!(bytes, b"host=example.org\nport=80\n");
/// # Ok::<(), todrenval::PropertiesError>(())
/// ```
///
/// # Errors
///
/// A failed write or flush of the stream.
// With any hasher, a call whose map is collected in place wouldn't say which one.
#[allow(clippy::implicit_hasher)]
pub fn write<W: Write>(writer: W, map: &HashMap<String, String>) -> Result<(), PropertiesError> {
    let mut entries: Vec<_> = map.iter().collect();
    entries.sort_unstable();
    let mut writer = PropertiesWriter::new(writer);
    for (key, value) in entries {
        writer.write(key, value)?;
    }
    writer.finish()
}
