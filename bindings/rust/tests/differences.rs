//! What differs from `java-properties` and from Java, as far as a caller can see it: docs/DIFFERENCES.md, and the table of the
//! crate page. Other tests have what is said there of streams.
use std::collections::HashMap;
use todrenval::{
    edit, get, read, write, Comments, Edit, Encoding, ErrorKind, LineContent, LineEnding, PropertiesIter,
    PropertiesWriter, UTF_16BE, UTF_16LE, UTF_8, WINDOWS_1252,
};

/// Each item as its line and its texts, and an error as its line and its kind.
fn items(bytes: &[u8], encoding: Encoding) -> Vec<(usize, String)> {
    PropertiesIter::new_with_encoding(bytes, encoding)
        .map(|line| match line {
            Err(error) => (error.line_number().unwrap_or(0), format!("{:?}", error.kind())),
            Ok(line) => match line.content() {
                LineContent::Comment(text) => (line.line_number(), format!("#{text}")),
                LineContent::KVPair(key, value) => (line.line_number(), format!("{key}={value}")),
            },
        })
        .collect()
}

fn reads(bytes: &[u8], encoding: Encoding, wanted: &[(usize, &str)]) {
    let came = items(bytes, encoding);
    let came: Vec<_> = came.iter().map(|(line, text)| (*line, &text[..])).collect();
    assert_eq!(came, wanted, "{bytes:?} in {encoding}");
}

#[test]
fn escapes_are_of_java() {
    reads(b"\\ud83d\\udc1e=\\u0001", UTF_8, &[(1, "\u{1f41e}=\u{1}")]);
    reads(b"a=1\n\\ud83d=x\nb", UTF_8, &[(1, "a=1"), (2, "InvalidCharacter")]);
    reads(b"\\u+041=x", UTF_8, &[(1, "NotHex")]);
    reads(b"\\u12=x", UTF_8, &[(1, "NotEnoughDigits")]);
    reads(b"\\u00E9=\\u00e9", UTF_8, &[(1, "é=é")]);
    // Of a malformed escape the line is the one that its pair begins in.
    reads(b"a=\\\n  b\\\n  \\uxxxx", UTF_8, &[(1, "NotHex")]);
}

#[test]
fn lines_are_joined_as_they_say() {
    reads(b"a\\", UTF_8, &[(1, "a=")]);
    reads(b"a\\\n\\\n", UTF_8, &[(1, "a=")]);
    reads(b"\\", UTF_8, &[]);
    reads("a=\\\n\u{a0}b".as_bytes(), UTF_8, &[(1, "a=\u{a0}b")]);
    reads(b"\\\n#b\\\nc=d", UTF_8, &[(1, "#bc=d")]);
    reads(b"# c\\\na", UTF_8, &[(1, "#c\0"), (2, "a=")]);
    reads(b"a=1\rb=2\r\nc=3\n", UTF_8, &[(1, "a=1"), (2, "b=2"), (3, "c=3")]);
}

#[test]
fn input_may_end_anywhere() {
    reads(b"k=\xe3\x81", UTF_8, &[(1, "k=\u{fffd}")]);
    reads(b"k=\xe3\x81A", UTF_8, &[(1, "k=\u{fffd}A")]);
    reads(b"\xef\xbb", WINDOWS_1252, &[(1, "ï»=")]);
    reads(b"\xef\xbb\xbf", WINDOWS_1252, &[]);
    reads(b"\xff\xfea\0=\0\x3d\xd8", UTF_8, &[(1, "a=\u{fffd}")]);
    reads(b"\xfe", UTF_16BE, &[(1, "\u{fffd}=")]);
}

#[test]
fn marks_and_bytes_say_the_encoding() {
    reads(b"\xef\xbb\xbfa=\xc3\xa9", WINDOWS_1252, &[(1, "a=é")]);
    reads(b"\xfe\xff\0a", UTF_8, &[(1, "a=")]);
    reads(b"a\0=\0b\0", UTF_16LE, &[(1, "a=b")]);
    reads(b"a=\x80\x81\x9f", WINDOWS_1252, &[(1, "a=€\u{81}Ÿ")]);
}

#[test]
fn comments_are_read_or_not() {
    reads(b"# C:\\users", UTF_8, &[(1, "NotHex")]);
    reads(b"#\\\\uD83D\\uDC1E", UTF_8, &[(1, "InvalidCharacter")]);
    assert_eq!(get(b"# C:\\users\na=1", UTF_8, "a").unwrap().as_deref(), Some("1"));
    let mut skipped = PropertiesIter::new(&b"# C:\\users\na=1"[..]).comments(Comments::Skip);
    assert!(skipped.next().unwrap().is_ok() && skipped.next().is_none());
}

fn written(encoding: Encoding, lines: impl Fn(&mut PropertiesWriter<&mut Vec<u8>>)) -> Vec<u8> {
    let mut bytes = Vec::new();
    lines(&mut PropertiesWriter::new_with_encoding(&mut bytes, encoding));
    bytes
}

fn writes(encoding: Encoding, key: &str, value: &str, wanted: &[u8]) {
    let bytes = written(encoding, |writer| writer.write(key, value).unwrap());
    assert_eq!(bytes, wanted, "{key:?} {value:?} in {encoding}");
    let reading = if encoding == UTF_16LE { UTF_8 } else { encoding };
    reads(&bytes, reading, &[(1, &format!("{key}={value}"))]);
}

#[test]
fn what_is_written_reads_back() {
    writes(WINDOWS_1252, "\u{1f41e}", "\u{1}", b"\\ud83d\\udc1e=\\u0001\n");
    writes(WINDOWS_1252, "é", "b c", b"\xe9=b\\ c\n");
    writes(WINDOWS_1252, "€", "日", b"\x80=\\u65e5\n");
    writes(UTF_8, "é", "日", "é=日\n".as_bytes());
    writes(UTF_16LE, "é", "日", "é=日\n".as_bytes());
    writes(UTF_8, " :=#!", "\t\n", b"\\ \\:\\=\\#\\!=\\t\\n\n");
    writes(WINDOWS_1252, "þÿ", "", b"\\u00fe\xff=\n");
    writes(UTF_8, "\u{feff}", "", b"\\ufeff=\n");
    writes(UTF_8, "", "", b"=\n");
    let many = "\u{1f41e}".repeat(10_000);
    writes(
        WINDOWS_1252,
        "a",
        &many,
        format!("a={}\n", "\\ud83d\\udc1e".repeat(10_000)).as_bytes(),
    );
}

/// The three ways to write a comment and a pair that docs/DIFFERENCES.md begins with, but for that of Java.
#[test]
fn values_are_escaped_or_readable() {
    for (is_readable, wanted) in [
        (false, &b"# text\n\\u00e9=b\\ c\n"[..]),
        (true, b"#text\n\\u00e9=b c\n"),
    ] {
        let bytes = written(UTF_8, |writer| {
            writer.set_ascii_only(true);
            if is_readable {
                writer.set_comment_prefix("#").unwrap();
                writer.set_readable(true);
            }
            writer.write_comment("text").unwrap();
            writer.write("é", "b c").unwrap();
        });
        assert_eq!(bytes, wanted);
        reads(&bytes, UTF_8, &[(1, "#text"), (2, "é=b c")]);
    }
    let cases = [
        ("=", "b c:=#!", &b"a=b c:=#!\n"[..]),
        ("=", " b ", b"a=\\ b\\u0020\n"),
        (" ", "=b", b"a \\=b\n"),
    ];
    for (separator, value, wanted) in cases {
        let readable = written(UTF_8, |writer| {
            writer.set_readable(true);
            writer.set_kv_separator(separator).unwrap();
            writer.write("a", value).unwrap();
        });
        assert_eq!(readable, wanted);
        let file = format!("a{separator}1\n");
        assert_eq!(
            edit(file.as_bytes(), UTF_8, &[Edit::SetValue("a", value)]).unwrap(),
            wanted
        );
    }
}

#[test]
fn comments_stay_one_line() {
    let bytes = written(WINDOWS_1252, |writer| writer.write_comment("a\r\nb\\").unwrap());
    assert_eq!(bytes, b"# a\\r\\nb\\\\\n");
    reads(&bytes, WINDOWS_1252, &[(1, "#a\r\nb\\")]);
}

#[test]
fn an_empty_key_needs_a_separator_to_see() {
    let bytes = written(UTF_8, |writer| {
        writer.set_kv_separator(" ").unwrap();
        assert_eq!(writer.write("", "v").unwrap_err().kind(), ErrorKind::EmptyKey);
        writer.set_kv_separator(" = ").unwrap();
        writer.write("", "v").unwrap();
    });
    assert_eq!(bytes, b" = v\n");
}

#[test]
fn more_may_be_written_after_finish() {
    let bytes = written(UTF_8, |writer| {
        writer.write("a", "1").unwrap();
        writer.finish().unwrap();
        writer.set_line_ending(LineEnding::CRLF);
        writer.write("b", "2").unwrap();
    });
    assert_eq!(bytes, b"a=1\nb=2\r\n");
}

#[test]
fn maps_are_written_in_order() {
    let map = ["é", "z", "b", "", "aa", "a"].map(|key| (key.to_owned(), key.to_owned()));
    let mut bytes = Vec::new();
    write(&mut bytes, &HashMap::from(map.clone())).unwrap();
    assert_eq!(bytes, b"=\na=a\naa=aa\nb=b\nz=z\n\xe9=\xe9\n");
    assert_eq!(read(&bytes[..]).unwrap(), HashMap::from(map));
}

#[test]
fn utf_16_is_not_edited() {
    for (bytes, encoding) in [(&b"a\0"[..], UTF_16LE), (b"\0a", UTF_16BE), (b"\xff\xfea\0", UTF_8)] {
        assert_eq!(edit(bytes, encoding, &[]).unwrap_err().kind(), ErrorKind::Unsupported);
    }
}
