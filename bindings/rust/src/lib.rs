//! Java `.properties` files: read them, write them, change a value and keep every other byte, convert them, and look at them
//! as they stand.
//!
//! This crate calls a library that is written in Rattle, which is Rust with contracts. For all inputs it is proved which
//! items a file has, which bytes are written, and that no call of it panics or touches memory that isn't its own. The crate
//! itself is a layer over the library's interface for C: it is tested and not proved, and all that is unsafe is in one file.
//! The repository's docs/RUST.md says more.
//!
//! The types and calls for reading and writing are those of the crate `java-properties` 2.0.0, so that a program moves by
//! changing its `use`: see [From `java-properties`](#from-java-properties).
//!
//! # Tasks
//!
//! Read a map, and write one, in windows-1252, as `java-properties` does:
//!
//! ```
//! let map = todrenval::read(&b"# the web server\nport    = 80\n"[..])?;
//! assert_eq!(map["port"], "80");
//!
//! let mut bytes = Vec::new();
//! todrenval::write(&mut bytes, &map)?;
//! assert_eq!(bytes, b"port=80\n");
//! # Ok::<(), todrenval::PropertiesError>(())
//! ```
//!
//! Read a map in UTF-8, as Java 9 and later read resource bundles. Comments may hold anything:
//!
//! ```
//! use std::collections::BTreeMap;
//! use todrenval::{Comments, PropertiesIter, UTF_8};
//!
//! let file = "# C:\\users\ngreeting = Grüß Gott\n".as_bytes();
//! let mut map = BTreeMap::new();
//! PropertiesIter::new_with_encoding(file, UTF_8)
//!     .comments(Comments::Skip)
//!     .read_into(|key, value| {
//!         map.insert(key, value);
//!     })?;
//! assert_eq!(map["greeting"], "Grüß Gott");
//! # Ok::<(), todrenval::PropertiesError>(())
//! ```
//!
//! Go through comments and pairs with the numbers of their lines, by [`PropertiesIter`]:
//!
//! ```
//! use todrenval::{LineContent, PropertiesIter};
//!
//! for line in PropertiesIter::new(&b"# the web server\n\nport = 80\n"[..]) {
//!     let line = line?;
//!     if let LineContent::KVPair(key, value) = line.content() {
//!         assert_eq!((line.line_number(), &key[..], &value[..]), (3, "port", "80"));
//!     }
//! }
//! # Ok::<(), todrenval::PropertiesError>(())
//! ```
//!
//! Write comments and pairs, by [`PropertiesWriter`]:
//!
//! ```
//! use todrenval::{LineEnding, PropertiesWriter};
//!
//! let mut bytes = Vec::new();
//! {
//!     let mut writer = PropertiesWriter::new(&mut bytes);
//!     writer.set_line_ending(LineEnding::CRLF);
//!     writer.set_kv_separator(" = ")?;
//!     writer.write_comment("the web server")?;
//!     writer.write("port", "80")?;
//!     writer.finish()?;
//! }
//! assert_eq!(bytes, b"# the web server\r\nport = 80\r\n");
//! # Ok::<(), todrenval::PropertiesError>(())
//! ```
//!
//! Look up one value, by [`get`], and change a file, by [`edit`]:
//!
//! ```
//! use todrenval::{edit, get, Edit, UTF_8};
//!
//! let file = b"# the web server\nport    = 80\nhost = a\n";
//! if get(file, UTF_8, "port")?.as_deref() != Some("8080") {
//!     let edited = edit(file, UTF_8, &[Edit::SetValue("port", "8080"), Edit::RemoveKey("host")])?;
//!     assert_eq!(edited, b"# the web server\nport    = 8080\n");
//! }
//! # Ok::<(), todrenval::PropertiesError>(())
//! ```
//!
//! Rename a key where it stands, by [`rename_key`], tell its comment, by [`comment_of`], or remove both, by
//! [`remove_with_comment`]:
//!
//! ```
//! use todrenval::{comment_of, remove_with_comment, rename_key, UTF_8};
//!
//! let file = b"# the web server\nport    = 80\n";
//! assert_eq!(comment_of(file, UTF_8, "port")?.unwrap(), ["the web server"]);
//! assert_eq!(rename_key(file, UTF_8, "port", "http.port")?, b"# the web server\nhttp.port    = 80\n");
//! assert_eq!(remove_with_comment(file, UTF_8, "port")?, b"");
//! # Ok::<(), todrenval::PropertiesError>(())
//! ```
//!
//! Change the encoding of a file and nothing else, by [`convert`]. Any Java reads ASCII as it is meant:
//!
//! ```
//! use todrenval::{convert, Spelling, Target, UTF_8};
//!
//! let ascii = convert("drink : café\n".as_bytes(), UTF_8, Target::Ascii, Spelling::Kept)?;
//! assert_eq!(ascii, b"drink : caf\\u00e9\n");
//! # Ok::<(), todrenval::PropertiesError>(())
//! ```
//!
//! Write a file that Java reads by `Properties.load(InputStream)`, in [`ISO_8859_1`]: what that would read otherwise than it
//! is meant becomes an escape.
//!
//! ```
//! use todrenval::{edit, Edit, ISO_8859_1};
//!
//! let edited = edit(b"drink : tea\n", ISO_8859_1, &[Edit::SetValue("drink", "café, 2 €")])?;
//! assert_eq!(edited, b"drink : caf\xe9, 2 \\u20ac\n");
//! # Ok::<(), todrenval::PropertiesError>(())
//! ```
//!
//! Check a file, by [`groups`], which gives what is malformed as it stands, with lines, columns and ranges of bytes:
//!
//! ```
//! use todrenval::{groups, UTF_8};
//!
//! for group in groups(b"a = 1\nb = \\u12\n", UTF_8)? {
//!     if let Some(flaw) = &group.flaw {
//!         let report = format!("{}:{}: {}", flaw.line_number, flaw.column, flaw.kind);
//!         assert_eq!(report, "2:5: Malformed \\uxxxx encoding: not enough digits.");
//!     }
//! }
//! # Ok::<(), todrenval::PropertiesError>(())
//! ```
//!
//! # Errors
//!
//! A [`PropertiesError`] has a [kind](PropertiesError::kind), and the [number of the
//! line](PropertiesError::line_number) where it is in one; it prints as `java-properties` prints it. The error that a stream
//! returned is its [source](std::error::Error::source). A malformed escape ends the items of a reader, and makes `get` and
//! `edit` refuse a file, but not `convert` and `groups`. Bytes that aren't text of the encoding are read as U+FFFD, unless
//! [`PropertiesIter::strict`] or [`Options::strict`] refuses them.
//!
//! # From `java-properties`
//!
//! Replace `java_properties::` by `todrenval::`, and `encoding_rs::{UTF_8, ..}` by `todrenval::{UTF_8, ..}`. What isn't listed
//! is the same.
//!
//! | reading | `java-properties` 2.0.0 | here |
//! |---|---|---|
//! | encodings | all of `encoding_rs`, by reference | [`WINDOWS_1252`], [`ISO_8859_1`], [`UTF_8`], [`UTF_16LE`] and [`UTF_16BE`], by value; [`Encoding::for_label`], to which `latin1` is [`ISO_8859_1`] |
//! | escapes of a surrogate pair, as Java writes them | are refused | are one character |
//! | `\u+041` | is read as `A` | is malformed: a sign is no digit |
//! | a last line that ends in a continuing backslash | is lost | is the last item, without the backslash |
//! | Unicode blanks at the front of a continuation line | are dropped | stay; only spaces, tabs and form feeds are blanks |
//! | input that ends inside a character or a byte order mark | panics | is decoded, with U+FFFD |
//! | after an error | not said | `None`, and nothing is read |
//! | a line that ends in a CR | comes after one more character was read | comes at once |
//! | reading | character by character, as items are asked for | in parts of up to 64 KiB, or of what a read gives |
//! | [`read_into`](PropertiesIter::read_into), [`read`], texts of errors | | the same |
//!
//! | writing | `java-properties` 2.0.0 | here |
//! |---|---|---|
//! | a character that the encoding doesn't have | `\u` and as many digits as it has | `\u` and four digits, twice past U+FFFF: it reads back |
//! | many escapes in a row | some are lost when a buffer is full | are all written |
//! | line endings and backslashes in a comment | are written as they are | are `\n`, `\r` and `\\`: it stays one comment |
//! | a first key that begins like a byte order mark | is written as it is | its first character is an escape: it reads back |
//! | an empty key, with a separator of blanks | is written, and its value reads back as the key | [`ErrorKind::EmptyKey`] |
//! | lines | are sent one by one, in pieces | are gathered up to 8 KiB, and sent together |
//! | [`finish`](PropertiesWriter::finish) | must be called at the end | should be: it says whether all was sent. It is `flush`, and more may be written after it |
//! | a writer that is dropped | flushes nothing | sends what it holds, so a borrowed stream is borrowed until then |
//! | the line of a failed write | a pair counts as two lines | is the line in which the stream failed, which may be an earlier one than that of the call |
//! | after a failed write | sends again what it kept | [`ErrorKind::Failed`] |
//! | the order of [`write()`] | that of the map | ascending keys: equal maps are written alike |
//!
//! | errors | `java-properties` 2.0.0 | here |
//! |---|---|---|
//! | kinds | only in the text | [`PropertiesError::kind`] |
//! | the source of a malformed escape | the error of a number that was parsed | none |
//! | of an encoding | three, `Encoding error: ..` | none |
//! | between threads | can't be sent | can be, as all types here can if the stream can |
//! | texts of `Debug` | show the fields of its types | show those of these types |
//! | no memory | ends the program | ends the program; [`ErrorKind::Memory`] if the library ran out |
//!
//! Beyond it are [`PropertiesIter::comments`], [`strict`](PropertiesIter::strict) and
//! [`next_ref`](PropertiesIter::next_ref), [`PropertiesWriter::set_ascii_only`] and
//! [`set_readable`](PropertiesWriter::set_readable), `into_inner` of [readers](PropertiesIter::into_inner) and
//! [writers](PropertiesWriter::into_inner), [`get`], [`edit`], [`rename_key`], [`remove_with_comment`], [`comment_of`],
//! [`set_comment`], [`convert`] and [`groups`] with their [`Options`], and [`runs_here`].
//!
//! # Where it runs
//!
//! On Linux on x86-64, on processors with the features of x86-64-v2, as nearly all since 2009 have. On others the first call
//! panics; [`runs_here`] says so before. The crate has no dependencies, and needs the archive `libtodrenval.a`, which a
//! released package has in its folder `native`. `build.rs` looks for it in the folder that the environment variable
//! `TODRENVAL_LIB_DIR` names, then there, and then where `pkg-config` finds the package libtodrenval-dev. Without it,
//! `cargo check` and `cargo doc` work, and `cargo build` says that there is none.

mod edit;
mod encoding;
mod error;
mod feed;
mod groups;
mod line;
mod options;
mod reader;
mod sys;
mod writer;

pub use edit::{comment_of, convert, edit, get, remove_with_comment, rename_key, set_comment, Edit, Spelling, Target};
pub use encoding::{Encoding, ISO_8859_1, UTF_16BE, UTF_16LE, UTF_8, WINDOWS_1252};
pub use error::{ErrorKind, PropertiesError};
pub use groups::{groups, Flaw, Group, GroupKind};
pub use line::{ContentRef, Line, LineContent, LineEnding, LineRef};
pub use options::Options;
pub use reader::{read, Comments, PropertiesIter};
pub use writer::{write, PropertiesWriter};

/// Returns whether this processor has the features that the library was built for. On one without them, each call that
/// reads or writes panics.
#[must_use]
pub fn runs_here() -> bool {
    sys::runs_here()
}

#[cfg(doctest)]
#[doc = include_str!("../README.md")]
struct Readme;
