//! Reading: streams that give little or fail, comments, and what isn't text.
mod streams;

use std::error::Error;
use std::io;
use streams::{cases, Chance, Pieces};
use todrenval::{
    read, Comments, Encoding, ErrorKind, GroupKind, Line, LineContent, PropertiesError, PropertiesIter, ISO_8859_1,
    UTF_16BE, UTF_16LE, UTF_8, WINDOWS_1252,
};

const ENCODINGS: [Encoding; 4] = [WINDOWS_1252, UTF_8, UTF_16LE, UTF_16BE];
const COMMENTS: [Comments; 3] = [Comments::Resolve, Comments::Raw, Comments::Skip];

/// The items up to an error, and that one, as a text.
type Came = (Vec<Line>, Option<String>);

fn came(iter: impl Iterator<Item = Result<Line, PropertiesError>>) -> Came {
    let (mut lines, mut error) = (Vec::new(), None);
    for line in iter {
        assert!(error.is_none(), "an item after an error");
        match line {
            Ok(line) => lines.push(line),
            Err(other) => error = Some(other.to_string()),
        }
    }
    (lines, error)
}

fn came_from(bytes: &[u8], encoding: Encoding, comments: Comments, is_strict: bool) -> Came {
    came(
        PropertiesIter::new_with_encoding(bytes, encoding)
            .comments(comments)
            .strict(is_strict),
    )
}

fn pair(key: &str, value: &str) -> LineContent {
    LineContent::KVPair(key.to_owned(), value.to_owned())
}

fn gone() -> io::Error {
    io::Error::other("gone")
}

/// Bytes of parts that mean something, in an encoding: some of them are no text.
fn source(chance: &mut Chance, encoding: Encoding) -> Vec<u8> {
    const PARTS: [&str; 16] = [
        "a",
        "k",
        "=",
        ":",
        " ",
        "\t",
        "\n",
        "\r",
        "\r\n",
        "\\",
        "#",
        "!",
        "é",
        "\\u00e9",
        "\\u1",
        "\u{1f41e}",
    ];
    let text = chance.string(&PARTS, 20);
    let mut bytes: Vec<u8> = match encoding {
        Encoding::Windows1252 | Encoding::Iso8859_1 => text
            .chars()
            .map(|character| u8::try_from(character).unwrap_or(0x80))
            .collect(),
        Encoding::Utf8 => text.into_bytes(),
        Encoding::Utf16Le => text.encode_utf16().flat_map(u16::to_le_bytes).collect(),
        Encoding::Utf16Be => text.encode_utf16().flat_map(u16::to_be_bytes).collect(),
    };
    if chance.below(4) == 0 {
        let at = chance.below(bytes.len() + 1);
        bytes.insert(at, chance.pick(&[0, b'\n', 0xd8, 0xdc, 0xe2, 0xff]));
    }
    if chance.below(6) == 0 {
        let mark: &[u8] = chance.pick(&[&b"\xef\xbb\xbf"[..], b"\xff\xfe", b"\xfe\xff", b"\xef\xbb"]);
        bytes.splice(0..0, mark.iter().copied());
    }
    bytes
}

/// Where each line ending ends, and the encoding in force.
fn ends(bytes: &[u8], encoding: Encoding) -> Vec<usize> {
    let (size, high, begin) = match bytes {
        [0xfe, 0xff, ..] => (2, 0, 2),
        [0xff, 0xfe, ..] => (2, 1, 2),
        [0xef, 0xbb, 0xbf, ..] => (1, 0, 3),
        _ => match encoding {
            Encoding::Utf16Le => (2, 1, 0),
            Encoding::Utf16Be => (2, 0, 0),
            _ => (1, 0, 0),
        },
    };
    let unit = |at: usize| match bytes.get(at..at + size) {
        Some([low]) => u16::from(*low),
        Some(unit) => u16::from(unit[high]) << 8 | u16::from(unit[1 - high]),
        None => 0,
    };
    let mut found = Vec::new();
    let mut at = begin;
    while at + size <= bytes.len() {
        at += size;
        match unit(at - size) {
            13 if unit(at) == 10 => {
                at += size;
                found.push(at);
            }
            10 | 13 => found.push(at),
            _ => {}
        }
    }
    found
}

#[test]
fn pieces_of_any_size_give_the_same() {
    let mut chance = Chance(1);
    for round in cases(1500) {
        let encoding = ENCODINGS[round % 4];
        let bytes = source(&mut chance, encoding);
        for comments in COMMENTS {
            let is_strict = chance.below(2) == 0;
            let whole = came_from(&bytes, encoding, comments, is_strict);
            let mut iter = PropertiesIter::new_with_encoding(&bytes[..], encoding)
                .comments(comments)
                .strict(is_strict);
            let borrowed = std::iter::from_fn(|| iter.next_ref().map(|line| line.map(Line::from)));
            assert_eq!(came(borrowed), whole, "{bytes:?} {encoding} {comments:?} {is_strict}");
            for size in 1..4 {
                let pieces = Pieces::cut(&bytes, size, None);
                let iter = PropertiesIter::new_with_encoding(pieces, encoding).comments(comments);
                assert_eq!(
                    came(iter.strict(is_strict)),
                    whole,
                    "{bytes:?} {encoding} {comments:?} {is_strict}"
                );
            }
        }
    }
}

/// Sources of many parts have the items of their groups, which are not read in parts.
#[test]
fn many_parts_give_the_same() {
    let mut chance = Chance(5);
    for round in cases(8) {
        let mut bytes: Vec<u8> = if round % 8 == 0 {
            b"\xef\xbb\xbf".to_vec()
        } else {
            Vec::new()
        };
        let longest = [150_000, 70_000, 9_000, 80_000][round % 4];
        while bytes.len() < longest {
            let part: Vec<u8> = source(&mut chance, UTF_8).into_iter().filter(u8::is_ascii).collect();
            // Few are malformed.
            let is_sound = !part.contains(&0)
                && todrenval::groups(&part, UTF_8)
                    .unwrap()
                    .iter()
                    .all(|it| it.flaw.is_none());
            if is_sound || round % 2 == 0 && chance.below(3000) == 0 {
                bytes.extend(part);
                bytes.extend(chance.pick(&[&b""[..], "é\u{1f41e}".as_bytes(), b"\n", b"\r\n"]));
            }
        }
        let wanted: Vec<_> = todrenval::groups(&bytes, UTF_8)
            .unwrap()
            .into_iter()
            .filter(|group| group.kind != GroupKind::Blank)
            .map(|group| {
                let is_error = group.kind == GroupKind::Pair && group.flaw.is_some();
                (group.line_number, group.key_text, group.value_text, is_error)
            })
            .collect();
        let malformed = wanted
            .iter()
            .position(|(.., is_error)| *is_error)
            .unwrap_or(wanted.len());
        for encoding in [UTF_8, UTF_16LE, UTF_16BE] {
            let text = String::from_utf8(bytes.clone()).unwrap();
            let bytes: Vec<u8> = match encoding {
                Encoding::Utf16Le => text.encode_utf16().flat_map(u16::to_le_bytes).collect(),
                Encoding::Utf16Be => text.encode_utf16().flat_map(u16::to_be_bytes).collect(),
                _ => text.into_bytes(),
            };
            for size in [usize::MAX, 500 + chance.below(3000)] {
                let iter = PropertiesIter::new_with_encoding(Pieces::cut(&bytes, size, None), encoding);
                let (lines, _) = came(iter.comments(Comments::Raw).strict(round % 2 == 0));
                for (line, (number, key, value, _)) in lines.iter().zip(&wanted) {
                    let content = match line.content() {
                        LineContent::Comment(_) => LineContent::Comment(value.clone()),
                        LineContent::KVPair(..) => pair(key, value),
                    };
                    assert_eq!((line.line_number(), line.content()), (*number, &content));
                }
                assert_eq!(lines.len(), malformed, "{encoding} {size}");
            }
        }
    }
}

/// An item comes before anything is read that comes after its line ending.
#[test]
fn an_item_comes_before_more_is_read() {
    /// Gives a line at a time, and counts them.
    struct Lines<'a>(&'a [Vec<u8>], &'a std::cell::Cell<usize>);
    impl io::Read for Lines<'_> {
        fn read(&mut self, out: &mut [u8]) -> io::Result<usize> {
            let Some(line) = self.0.get(self.1.get()) else {
                return Ok(0);
            };
            self.1.set(self.1.get() + 1);
            out[..line.len()].copy_from_slice(line);
            Ok(line.len())
        }
    }
    for mark in ["", "\u{feff}"] {
        for ending in ["\n", "\r", "\r\n"] {
            for encoding in ENCODINGS {
                let lines: Vec<Vec<u8>> = ["a = 1", "#c", "", "b\\", "  = 2", "c"]
                    .iter()
                    .enumerate()
                    .map(|(number, line)| format!("{}{line}{ending}", if number == 0 { mark } else { "" }))
                    .map(|line| match encoding {
                        Encoding::Utf16Le => line.encode_utf16().flat_map(u16::to_le_bytes).collect(),
                        Encoding::Utf16Be => line.encode_utf16().flat_map(u16::to_be_bytes).collect(),
                        _ => line.into_bytes(),
                    })
                    .collect();
                let read = std::cell::Cell::new(0);
                let iter = PropertiesIter::new_with_encoding(Lines(&lines, &read), encoding);
                let came: Vec<_> = iter.map(|line| (line.unwrap().line_number(), read.get())).collect();
                assert_eq!(came, [(1, 1), (2, 2), (4, 5), (6, 6)], "{lines:?}");
            }
        }
    }
}

/// After each number of bytes the stream fails. What comes then are the items that every rest leaves as they are, and the
/// error names the line that wasn't ended.
#[test]
fn a_failed_read_leaves_what_no_byte_can_change() {
    let mut chance = Chance(2);
    for round in cases(600) {
        let encoding = ENCODINGS[round % 4];
        let bytes = source(&mut chance, encoding);
        let (comments, is_strict) = (COMMENTS[round % 3], round % 5 == 0);
        for size in 0..=bytes.len() {
            let front = &bytes[..size];
            let iter = PropertiesIter::new_with_encoding(Pieces::cut(front, 3, Some(gone())), encoding);
            let failed = came(iter.comments(comments).strict(is_strict));
            let place = format!("{front:?} {encoding} {comments:?} {is_strict}: {failed:?}");
            let error = failed.1.unwrap();
            // The same without a fault has at least the same.
            let whole = came_from(front, encoding, comments, is_strict);
            assert!(whole.0.starts_with(&failed.0), "{place}, {whole:?}");
            if error.starts_with("I/O error") {
                let line = ends(front, encoding).len() + 1;
                assert_eq!(error, format!("I/O error (line_number = {line})"), "{place}");
            } else {
                assert_eq!(Some(error), whole.1, "{place}");
            }
            // An item is given if and only if what may follow leaves it as it is.
            if !is_strict && comments == Comments::Raw {
                let longer: Vec<_> = [&b"z"[..], b"z\0", b"\0z", b"\nz", b"\n\0z\0", b"\0\n\0z"]
                    .into_iter()
                    .map(|rest| came_from(&[front, rest].concat(), encoding, comments, is_strict).0)
                    .collect();
                assert!(
                    longer.iter().all(|lines| lines.starts_with(&failed.0)),
                    "{place}, {longer:?}"
                );
            }
        }
    }
}

#[test]
fn a_failed_read_names_its_line() {
    for (bytes, before, number) in [
        (&b""[..], 0, 1),
        (b"a=1\nb=2", 1, 2),
        (b"a=1\r\n\r\nb", 1, 3),
        (b"a=1\r", 1, 2),
        (b"# c\\\n", 1, 2),
        (b"a\\\n\\\n", 0, 3),
        (b"  \n", 0, 2),
        (b"a=1\n\\u", 1, 2),
        (b"\xfe\xff\0a\0\n\0", 1, 2),
        (b"\xef", 0, 1),
    ] {
        let got: Vec<_> = PropertiesIter::new(Pieces::cut(bytes, 2, Some(gone()))).collect();
        assert_eq!(got.len(), before + 1, "{bytes:?}");
        let error = got[before].as_ref().unwrap_err();
        assert_eq!(
            (error.kind(), error.line_number()),
            (ErrorKind::Io, Some(number)),
            "{bytes:?}"
        );
        assert_eq!(error.source().unwrap().to_string(), "gone");
    }
    let error = PropertiesIter::new(Pieces::cut(b"a=\\u1\nb", 9, Some(gone())))
        .find_map(Result::err)
        .unwrap();
    assert_eq!(
        (error.kind(), error.line_number()),
        (ErrorKind::NotEnoughDigits, Some(1))
    );
    assert!(error.source().is_none());
}

#[test]
fn interrupted_reads_are_made_again() {
    struct Interrupted(bool);
    impl io::Read for Interrupted {
        fn read(&mut self, out: &mut [u8]) -> io::Result<usize> {
            self.0 = !self.0;
            if self.0 {
                return Err(io::ErrorKind::Interrupted.into());
            }
            out[..2].copy_from_slice(b"a\n");
            Ok(2)
        }
    }
    let map = read(io::Read::take(Interrupted(false), 8)).unwrap();
    assert_eq!(map.len(), 1);
}

#[test]
fn a_reader_comes_back_as_far_as_it_was_read() {
    let pieces = [&b"a=1\n"[..], b"b=2\nc=3\nd", b"=4\n"].map(<[u8]>::to_vec).to_vec();
    for (items, left) in [(0, 3), (1, 2), (2, 1), (3, 1), (4, 0)] {
        let mut iter = PropertiesIter::new(Pieces::new(pieces.clone(), Some(gone())));
        assert_eq!(iter.by_ref().take(items).flatten().count(), items);
        let reader = iter.into_inner();
        let unread = reader.pieces.iter().filter(|piece| !piece.is_empty()).count();
        assert_eq!((unread, reader.fault.is_some()), (left, true), "after {items} items");
    }
    // A part is no longer than 64 KiB, however much the reader has.
    let long = b"a=1\n".repeat(1 << 15);
    let mut iter = PropertiesIter::new(&long[..]);
    assert!(iter.next().unwrap().is_ok());
    assert_eq!(iter.into_inner().len(), long.len() - (1 << 16));
}

#[test]
fn after_the_end_nothing_is_read() {
    struct Once(usize);
    impl io::Read for Once {
        fn read(&mut self, _: &mut [u8]) -> io::Result<usize> {
            self.0 += 1;
            assert_eq!(self.0, 1, "it is read after its end");
            Ok(0)
        }
    }
    let mut iter = PropertiesIter::new(Once(0));
    assert!(iter.next().is_none() && iter.next().is_none());
    let mut iter = PropertiesIter::new(&b"\\u1"[..]);
    assert!(iter.next().unwrap().is_err() && iter.next().is_none() && iter.next().is_none());
}

#[test]
fn comments_are_resolved_raw_or_passed_over() {
    let source = b"# C:\\users\na = \\u00e9\n";
    let (lines, error) = came_from(source, UTF_8, Comments::Resolve, false);
    assert_eq!(
        (lines.len(), error.unwrap()),
        (0, "Malformed \\uxxxx encoding: not hex. (line_number = 1)".to_owned())
    );
    let (lines, error) = came_from(source, UTF_8, Comments::Raw, false);
    assert_eq!(
        (lines[0].content(), error),
        (&LineContent::Comment("C:\\users".to_owned()), None)
    );
    assert_eq!(lines[1].content(), &pair("a", "é"));
    let (lines, error) = came_from(source, UTF_8, Comments::Skip, false);
    assert_eq!((lines.len(), lines[0].line_number(), error), (1, 2, None));
}

#[test]
fn what_is_not_text_is_an_error_if_asked() {
    for (bytes, encoding, before, line) in [
        (&b"a=1\n\nb=\xe9\n"[..], UTF_8, 1, Some(3)),
        (b"a=1\n\nb=\xe9\n", WINDOWS_1252, 2, None),
        (b"z\na=\\\n\xff\\u1\n", UTF_8, 1, Some(3)),
        (b"\xfe\xff\xd8\x3d", UTF_8, 0, Some(1)),
        (b"a\0\n\0\n\0b\0\0\xd8", UTF_16LE, 1, Some(3)),
        (b"x=1\na\0", UTF_8, 1, Some(2)),
        (b"x\n#\xff\ny", UTF_8, 1, Some(2)),
    ] {
        for comments in COMMENTS {
            let (lines, error) = came_from(bytes, encoding, comments, true);
            let wanted = line.map(|line| format!("{} (line_number = {line})", ErrorKind::NotText));
            assert_eq!((lines.len(), error), (before, wanted), "{bytes:?} {comments:?}");
        }
    }
    // The first line that isn't text counts, in whatever parts it is read, and behind a mark a byte 0 is text.
    for size in [1, 2, 5, 9] {
        let strict = |bytes: &[u8]| {
            let pieces = Pieces::cut(bytes, size, None);
            came(PropertiesIter::new_with_encoding(pieces, UTF_8).strict(true))
        };
        let (lines, error) = strict(b"a\r\nb\nc=\xff\n\nd=\0\n");
        assert_eq!((lines.len(), error.unwrap().contains("line_number = 3")), (2, true));
        let (lines, error) = strict(b"\xef\xbb\xbfa=\0\nb=\0\nc=\0\nd\n\ne=\xff");
        assert_eq!((lines.len(), error.unwrap().contains("line_number = 6")), (4, true));
    }
    // The first error is the one of the earlier group.
    let (lines, error) = came_from(b"a\nb=\\u1\nc=\xff\n", UTF_8, Comments::Skip, true);
    assert_eq!((lines.len(), error.unwrap().contains("digits")), (1, true));
    let (lines, error) = came_from(b"a\nb=\xff\nc=\\u1\n", UTF_8, Comments::Skip, true);
    assert_eq!((lines.len(), error.unwrap().contains("line_number = 2")), (1, true));
}

#[test]
fn labels_are_those_of_the_standard() {
    assert_eq!(Encoding::for_label(" UTF8\n"), Some(UTF_8));
    for label in ["latin1", "\tISO-8859-1 ", "L1", "cp819", "ISO_8859-1:1987"] {
        assert_eq!(Encoding::for_label(label), Some(ISO_8859_1));
    }
    for label in ["cp1252", "ascii", "Windows-1252", "\x0cx-cp1252\r"] {
        assert_eq!(Encoding::for_label(label), Some(WINDOWS_1252));
    }
    assert_eq!(Encoding::for_label(b"utf-16"), Some(UTF_16LE));
    assert_eq!(Encoding::for_label("ebcdic"), None);
    assert_eq!(Encoding::for_label(b"\xe9latin1"), None);
    for encoding in ENCODINGS.into_iter().chain([ISO_8859_1]) {
        assert_eq!(Encoding::for_label(encoding.name()), Some(encoding));
        assert_eq!(encoding.to_string(), encoding.name());
    }
}

#[test]
fn a_map_has_the_last_values() {
    let map = read(&b"a=1\n!c\na : 2\nb\n"[..]).unwrap();
    assert_eq!((map.len(), &map["a"][..], &map["b"][..]), (2, "2", ""));
    assert_eq!(read(&b"a=1\nb=\\ud83d"[..]).unwrap_err().line_number(), Some(2));
    let mut pairs = Vec::new();
    let read = PropertiesIter::new(&b"a=1\na=2\n=\\u"[..]).read_into(|key, value| pairs.push(key + "=" + &value));
    assert_eq!(
        (read.unwrap_err().line_number(), pairs),
        (Some(3), vec!["a=1".to_owned(), "a=2".to_owned()])
    );
}

#[test]
fn types_may_be_sent() {
    fn sent<T: Send + Sync>() {}
    sent::<PropertiesIter<std::fs::File>>();
    sent::<todrenval::PropertiesWriter<std::fs::File>>();
    sent::<PropertiesError>();
    sent::<todrenval::Group>();
    let boxed: Box<dyn Error + Send + Sync> = read(&b"\\u"[..]).unwrap_err().into();
    let threads =
        [1, 2, 3].map(|number| std::thread::spawn(move || read(format!("a={number}").as_bytes()).unwrap().remove("a")));
    for (number, thread) in (1..).zip(threads) {
        assert_eq!(thread.join().unwrap(), Some(number.to_string()));
    }
    assert!(boxed.to_string().contains("not enough digits") && todrenval::runs_here());
}

#[test]
fn errors_of_streams_become_errors() {
    let error = PropertiesError::from(gone());
    assert_eq!(error.to_string(), "I/O error (line_number = unknown)");
    assert_eq!((error.kind(), error.line_number()), (ErrorKind::Io, None));
}
