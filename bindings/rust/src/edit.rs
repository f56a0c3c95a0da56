use crate::error::PropertiesError;
use crate::options::Options;
use crate::sys;

/// A change of a file.
#[derive(Clone, Copy, Debug, PartialEq, Eq, Hash)]
#[non_exhaustive]
pub enum Edit<'a> {
    /// The last pair with the key gets the value, and keeps its indent, the spelling of its key, its separator and its line
    /// ending. If no pair has the key, one is added at the end, with the separator of the last pair and the last line
    /// ending.
    SetValue(&'a str, &'a str),
    /// The same, but the whole pair becomes `key=value`. One that is added ends in a line feed.
    SetKey(&'a str, &'a str),
    /// The pairs with the key are removed, if there are any.
    RemoveKey(&'a str),
    /// The first key becomes the second one, as by [`rename_key`].
    RenameKey(&'a str, &'a str),
    /// The comment of the key gets the text, as by [`set_comment`].
    SetComment(&'a str, &'a str),
    /// The pairs with the key are removed with their comments, as by [`remove_with_comment`].
    RemoveWithComment(&'a str),
}

/// Makes changes to the bytes of a file, one after another, and keeps every other byte.
///
/// Edits of one kind that follow each other are made together, and `SetValue`, `SetKey` and `RemoveKey` are of one kind. Whenever
/// the kind changes, the file is read again. Of several texts for a key that are set together, the last one counts.
///
/// ```
/// use todrenval::{edit, Edit, UTF_8};
///
/// let file = b"# C:\\users\r\nport    : 80\r\nhost = a\r\n";
/// let edits = [Edit::SetValue("port", "8080"), Edit::RemoveKey("host"), Edit::SetValue("user", "Jane Doe")];
/// assert_eq!(edit(file, UTF_8, &edits)?, b"# C:\\users\r\nport    : 8080\r\nuser : Jane Doe\r\n");
///
/// let edits = [Edit::RenameKey("host", "server"), Edit::SetComment("server", "where it is"), Edit::RenameKey("port", "server")];
/// assert_eq!(edit(file, UTF_8, &edits[..2])?, b"# C:\\users\r\nport    : 80\r\n# where it is\r\nserver = a\r\n");
/// let taken = edit(file, UTF_8, &edits).unwrap_err();
/// assert_eq!((taken.edit_index(), taken.line_number()), (Some(2), Some(4)));
/// # Ok::<(), todrenval::PropertiesError>(())
/// ```
///
/// # Errors
///
/// A malformed escape in a pair, or in a comment if the options read these; a file in UTF-16; and bytes that aren't text, if
/// the options are strict. An edit that is refused: [`NoKey`](crate::ErrorKind::NoKey) if no pair has the key that is to be
/// renamed, or whose comment is to be set, or [`KeyTaken`](crate::ErrorKind::KeyTaken) if a pair has the new key and it is
/// another one. [`edit_index`](PropertiesError::edit_index) is its index. Lines are those of what the earlier edits produced.
pub fn edit(source: &[u8], options: impl Into<Options>, edits: &[Edit<'_>]) -> Result<Vec<u8>, PropertiesError> {
    let options = options.into();
    let mut list = Vec::new();
    for edit in edits {
        let (kind, key, value) = match *edit {
            Edit::SetValue(key, value) => (sys::SET_VALUE, key, value),
            Edit::SetKey(key, value) => (sys::SET_KEY, key, value),
            Edit::RemoveKey(key) => (sys::REMOVE_KEY, key, ""),
            Edit::RenameKey(old_key, new_key) => (sys::RENAME_KEY, old_key, new_key),
            Edit::SetComment(key, text) => (sys::SET_COMMENT, key, text),
            Edit::RemoveWithComment(key) => (sys::REMOVE_WITH_COMMENT, key, ""),
        };
        sys::push_record(&mut list, kind, key, value);
    }
    let flags = options.strict_flag() | options.comments_flag() | options.putting_flags();
    let mut edited = Vec::new();
    let answer = sys::edit(&mut edited, source, options.encoding.number(), flags, &list);
    match answer.status {
        sys::OK => Ok(edited),
        _ => Err(PropertiesError::of_edits(answer)),
    }
}

/// Renames a key where it stands in the bytes of a file: in each pair with the key, only the bytes of the key change. If the
/// new key is empty, and blanks alone or nothing follow it, `=` comes in its place.
///
/// ```
/// use todrenval::{rename_key, ErrorKind, UTF_8};
///
/// let file = b"# the web server\n  port\t: 80\nhost = a\n";
/// assert_eq!(rename_key(file, UTF_8, "port", "http.port")?, b"# the web server\n  http.port\t: 80\nhost = a\n");
///
/// let taken = rename_key(file, UTF_8, "port", "host").unwrap_err();
/// assert_eq!((taken.kind(), taken.line_number()), (ErrorKind::KeyTaken, Some(3)));
/// # Ok::<(), todrenval::PropertiesError>(())
/// ```
///
/// # Errors
///
/// Those of [`edit`]; then [`NoKey`](crate::ErrorKind::NoKey) if no pair has the old key; and then
/// [`KeyTaken`](crate::ErrorKind::KeyTaken) if a pair has the new key and it is another one, with the line of the first.
pub fn rename_key(
    source: &[u8],
    options: impl Into<Options>,
    old_key: &str,
    new_key: &str,
) -> Result<Vec<u8>, PropertiesError> {
    let options = options.into();
    let flags = options.strict_flag() | options.comments_flag() | options.putting_flags();
    let keys = (old_key.as_bytes(), new_key.as_bytes());
    let mut renamed = Vec::new();
    given(sys::rename_key(
        &mut renamed,
        source,
        options.encoding.number(),
        flags,
        keys,
    ))?;
    Ok(renamed)
}

/// Removes the pairs with a key from the bytes of a file, and the comment lines directly above each of them: no blank line, no
/// other pair and no separator `#---` of Spring's documents is between. Every other byte stays. If no pair has the key, nothing
/// changes.
///
/// ```
/// use todrenval::{remove_with_comment, UTF_8};
///
/// let file = b"# the web server\nport = 80\n\n# where it is\nhost = a\n";
/// assert_eq!(remove_with_comment(file, UTF_8, "port")?, b"\n# where it is\nhost = a\n");
/// # Ok::<(), todrenval::PropertiesError>(())
/// ```
///
/// # Errors
///
/// Those of [`edit`], but no refused edit.
pub fn remove_with_comment(source: &[u8], options: impl Into<Options>, key: &str) -> Result<Vec<u8>, PropertiesError> {
    let options = options.into();
    let flags = options.strict_flag() | options.comments_flag();
    let mut rest = Vec::new();
    given(sys::remove_with_comment(
        &mut rest,
        source,
        options.encoding.number(),
        flags,
        key.as_bytes(),
    ))?;
    Ok(rest)
}

/// Returns the comment of a key in the bytes of a file, or `None` if no pair has the key: the texts of the comment lines
/// directly above the last pair with it, down from the last separator `#---` of Spring's documents, each what follows the sign
/// and one blank, as it stands.
///
/// ```
/// use todrenval::{comment_of, UTF_8};
///
/// let file = b"# the web server\n#   on C:\\users\nport = 80\n";
/// assert_eq!(comment_of(file, UTF_8, "port")?.unwrap(), ["the web server", "  on C:\\users"]);
/// assert_eq!(comment_of(file, UTF_8, "host")?, None);
/// # Ok::<(), todrenval::PropertiesError>(())
/// ```
///
/// # Errors
///
/// A malformed escape in a pair; a file in UTF-16; and bytes that aren't text, if the options are strict.
pub fn comment_of(
    source: &[u8],
    options: impl Into<Options>,
    key: &str,
) -> Result<Option<Vec<String>>, PropertiesError> {
    let options = options.into();
    let mut lines = Vec::new();
    let answer = sys::comment(
        &mut lines,
        source,
        options.encoding.number(),
        options.strict_flag(),
        key.as_bytes(),
    );
    if answer.status == sys::NO_KEY {
        return Ok(None);
    }
    given(answer)?;
    Ok(Some(
        sys::text(&lines).split_terminator('\n').map(str::to_owned).collect(),
    ))
}

/// Sets the comment of a key in the bytes of a file: the comment lines directly above the last pair with the key. The text is
/// divided at `\n`, `\r` and `\r\n`, and a last empty line doesn't count, so an empty text removes the comment. If the comment
/// has these lines already, nothing changes. Otherwise new lines replace the old ones, and every other byte stays.
///
/// New lines look like the first old one that has a text: its indent, its sign, the blank after it or none, and its line
/// ending. If there is none, they have the indent of the pair, `# `, and the line ending of the pair. If the pair has none,
/// they have the last one of the file, or a line feed. Directly below a separator `#---` the sign is `!`, and below `!---` it is
/// `#`. A backslash stays.
///
/// ```
/// use todrenval::{set_comment, UTF_8};
///
/// let file = b"  ! old\n  port = 80\n";
/// let commented = set_comment(file, UTF_8, "port", "the web server\n\non C:\\users")?;
/// assert_eq!(commented, b"  ! the web server\n  !\n  ! on C:\\users\n  port = 80\n");
/// # Ok::<(), todrenval::PropertiesError>(())
/// ```
///
/// # Errors
///
/// Those of [`edit`], but of refused edits only [`NoKey`](crate::ErrorKind::NoKey), if no pair has the key.
pub fn set_comment(
    source: &[u8],
    options: impl Into<Options>,
    key: &str,
    text: &str,
) -> Result<Vec<u8>, PropertiesError> {
    let options = options.into();
    let flags = options.strict_flag() | options.comments_flag() | options.putting_flags();
    let texts = (key.as_bytes(), text.as_bytes());
    let mut commented = Vec::new();
    given(sys::set_comment(
        &mut commented,
        source,
        options.encoding.number(),
        flags,
        texts,
    ))?;
    Ok(commented)
}

/// Returns the value of a key in the bytes of a file: that of the last pair with it. Each call reads the whole file; for
/// several keys, read a map.
///
/// ```
/// use todrenval::{get, UTF_8};
///
/// let file = b"# C:\\users\nport = 80\n";
/// assert_eq!(get(file, UTF_8, "port")?.as_deref(), Some("80"));
/// assert_eq!(get(file, UTF_8, "prot")?, None);
/// # Ok::<(), todrenval::PropertiesError>(())
/// ```
///
/// # Errors
///
/// A malformed escape in a pair, also after that of the key, or in a comment if the options read these; and bytes that
/// aren't text, if the options are strict.
pub fn get(source: &[u8], options: impl Into<Options>, key: &str) -> Result<Option<String>, PropertiesError> {
    let options = options.into();
    let flags = options.strict_flag() | options.comments_flag();
    let mut value = Vec::new();
    let answer = sys::get(&mut value, source, options.encoding.number(), flags, key.as_bytes());
    if answer.status == sys::NO_KEY {
        return Ok(None);
    }
    given(answer)?;
    Ok(Some(sys::text(&value).to_owned()))
}

/// What [`convert`] converts to.
#[derive(Clone, Copy, Debug, PartialEq, Eq, PartialOrd, Ord, Hash)]
#[repr(u32)]
pub enum Target {
    /// windows-1252.
    Windows1252 = 16,
    /// UTF-8.
    Utf8 = 17,
    /// ASCII, which reads the same in ISO 8859-1, windows-1252 and UTF-8.
    Ascii = 18,
    /// ISO 8859-1 without the bytes from 80 to 9F, which reads the same in windows-1252.
    Iso8859_1 = 19,
}

/// How [`convert`] spells characters past U+007F that the target has.
#[derive(Clone, Copy, Debug, PartialEq, Eq, PartialOrd, Ord, Hash)]
pub enum Spelling {
    /// As the file does: an escape stays an escape.
    Kept,
    /// As themselves.
    Readable,
}

/// Writes the bytes of a file in another encoding, and keeps all else: comments, layout, line endings, and what each text
/// means. What the target doesn't have becomes an escape, and a byte order mark is dropped. A malformed escape stays as it is.
///
/// ```
/// use todrenval::{convert, Spelling, Target, UTF_8};
///
/// let file = "# Grüße\ndrink : café\n".as_bytes();
/// let ascii = convert(file, UTF_8, Target::Ascii, Spelling::Kept)?;
/// assert_eq!(ascii, b"# Gr\\u00fc\\u00dfe\ndrink : caf\\u00e9\n");
/// assert_eq!(convert(&ascii, UTF_8, Target::Utf8, Spelling::Readable)?, file);
/// # Ok::<(), todrenval::PropertiesError>(())
/// ```
///
/// # Errors
///
/// Bytes that aren't text, if the options are strict; otherwise these become U+FFFD.
pub fn convert(
    source: &[u8],
    options: impl Into<Options>,
    target: Target,
    spelling: Spelling,
) -> Result<Vec<u8>, PropertiesError> {
    let options = options.into();
    let readable = match spelling {
        Spelling::Kept => 0,
        Spelling::Readable => sys::READABLE,
    };
    let flags = options.strict_flag() | readable;
    let mut converted = Vec::new();
    given(sys::convert(
        &mut converted,
        source,
        options.encoding.number(),
        target as u32,
        flags,
    ))?;
    Ok(converted)
}

pub(crate) fn given(answer: sys::Answer) -> Result<(), PropertiesError> {
    match answer.status {
        sys::OK => Ok(()),
        _ => Err(PropertiesError::of(answer)),
    }
}
