//! Writing, editing, converting, and groups.
mod streams;

use std::collections::HashMap;
use std::error::Error;
use std::io::{self, Write};
use streams::{cases, Chance, Sink};
use todrenval::{
    comment_of, convert, edit, get, groups, read, remove_with_comment, rename_key, set_comment, write, Comments, Edit,
    Encoding, ErrorKind, GroupKind, LineContent, LineEnding, Options, PropertiesError, PropertiesIter,
    PropertiesWriter, Spelling, Target, ISO_8859_1, UTF_16LE, UTF_8, WINDOWS_1252,
};

const TEXTS: [&str; 14] = [
    "a",
    "b",
    " ",
    "=",
    ":",
    "#",
    "!",
    "\\",
    "\n",
    "\r",
    "\t",
    "é",
    "€",
    "\u{1f41e}",
];

fn written(encoding: Encoding, lines: impl Fn(&mut PropertiesWriter<&mut Vec<u8>>)) -> Vec<u8> {
    let mut bytes = Vec::new();
    {
        let mut writer = PropertiesWriter::new_with_encoding(&mut bytes, encoding);
        lines(&mut writer);
        writer.finish().unwrap();
    }
    bytes
}

fn set(writer: &mut PropertiesWriter<impl Write>, chance: &mut Chance) {
    writer.set_comment_prefix(chance.pick(&["#", "! ", " # x "])).unwrap();
    writer.set_kv_separator(chance.pick(&["=", " : ", ":"])).unwrap();
    writer.set_line_ending(chance.pick(&[LineEnding::CR, LineEnding::LF, LineEnding::CRLF]));
    writer.set_ascii_only(chance.below(2) == 0);
    writer.set_readable(chance.below(2) == 0);
}

/// Lines that are gathered are those that are sent one by one, and read back, whatever is set between them.
#[test]
fn gathered_lines_are_the_same_and_read_back() {
    let mut chance = Chance(3);
    for round in cases(200) {
        let encoding = [WINDOWS_1252, UTF_8, UTF_16LE, ISO_8859_1][round % 4];
        let count = if round % 10 < 2 { 2000 } else { 12 };
        let (gathered, single) = (Sink::new(7), Sink::new(usize::MAX));
        let mut pairs = Vec::new();
        {
            let mut writers =
                [&gathered, &single].map(|sink| PropertiesWriter::new_with_encoding(sink.clone(), encoding));
            for _ in 0..count {
                if chance.below(4) == 0 {
                    let seed = chance.0;
                    for writer in &mut writers {
                        set(writer, &mut Chance(seed));
                    }
                    chance.below(2);
                }
                let (key, value) = (chance.string(&TEXTS, 4), chance.string(&TEXTS, 9));
                let is_comment = chance.below(4) == 0;
                for writer in &mut writers {
                    if is_comment {
                        writer.write_comment(&value).unwrap();
                    } else {
                        writer.write(&key, &value).unwrap();
                    }
                }
                writers[1].flush().unwrap();
                pairs.extend(Some((key, value)).filter(|_| !is_comment));
            }
            // The first one is only dropped.
            writers[1].finish().unwrap();
        }
        let bytes = gathered.bytes.borrow();
        assert_eq!(*bytes, *single.bytes.borrow());
        let reading = if encoding == UTF_16LE { UTF_8 } else { encoding };
        let mut came = Vec::new();
        PropertiesIter::new_with_encoding(&bytes[..], reading)
            .read_into(|key, value| came.push((key, value)))
            .unwrap();
        assert_eq!(came, pairs);
    }
}

#[test]
fn lines_are_sent_together() {
    let sink = Sink::new(usize::MAX);
    let mut writer = PropertiesWriter::new(sink.clone());
    for number in 0..1000 {
        writer.write(&format!("some.key.{number}"), "a value").unwrap();
        assert!(
            sink.calls.get() <= number / 50,
            "line {number} is the end of a part too small"
        );
    }
    let before = sink.bytes.borrow().len();
    writer.flush().unwrap();
    let after = sink.bytes.borrow().len();
    assert!(before < after && after - before < 1 << 13);
    drop(writer);
    assert_eq!(sink.bytes.borrow().len(), after);
}

/// The stream fails at each byte: the error names the line of that byte, the bytes before it were sent, and no others are.
#[test]
fn a_failed_write_names_its_line() {
    for ending in [LineEnding::LF, LineEnding::CR, LineEnding::CRLF] {
        let write_all = |sink: &Sink| {
            let mut writer = PropertiesWriter::new(sink.clone());
            writer.set_line_ending(ending);
            writer.write("a", "1")?;
            writer.set_line_ending(LineEnding::CRLF);
            writer.write("b", "2")?;
            writer.set_line_ending(ending);
            writer.write_comment("c")?;
            let finished = writer.finish();
            if finished.is_err() {
                let more = [
                    writer.write("d", ""),
                    writer.write("", ""),
                    writer.write_comment(""),
                    writer.flush(),
                ];
                for error in more.map(Result::unwrap_err) {
                    assert_eq!((error.kind(), error.line_number()), (ErrorKind::Failed, None));
                    assert_eq!(error.to_string(), "The writer has failed. (line_number = unknown)");
                }
                writer.set_kv_separator(" ").unwrap();
            }
            finished
        };
        let sound = Sink::new(1);
        write_all(&sound).unwrap();
        let bytes = sound.bytes.borrow().clone();
        for at in 0..bytes.len() {
            for fault in [Some("gone".to_owned()), None] {
                let mut sink = Sink::new(1);
                (sink.fails_at, sink.fault) = (at + 1, fault.clone());
                let error = write_all(&sink).unwrap_err();
                assert_eq!(*sink.bytes.borrow(), bytes[..at]);
                let first = bytes.iter().position(|byte| b"\r\n".contains(byte)).unwrap();
                let ends = [first + if ending == LineEnding::CRLF { 2 } else { 1 }, bytes.len()];
                let second = ends[0] + 5;
                let line = 1 + usize::from(at >= ends[0]) + usize::from(at >= second);
                assert_eq!(
                    (error.kind(), error.line_number()),
                    (ErrorKind::Io, Some(line)),
                    "{ending} {at}"
                );
                let source = error.source().unwrap().to_string();
                assert_eq!(source == "gone", fault.is_some(), "{source}");
            }
        }
    }
}

#[test]
fn a_stream_comes_back_with_all_lines() {
    let mut bytes = Vec::new();
    let mut writer = PropertiesWriter::new(&mut bytes);
    writer.set_line_ending(LineEnding::CRLF);
    writer.write("a", "1").unwrap();
    writer.set_line_ending(LineEnding::LF);
    writer.write_comment("b").unwrap();
    writer.into_inner().unwrap().extend(b"c");
    assert_eq!(bytes, b"a=1\r\n# b\nc");

    let mut sink = Sink::new(1);
    (sink.fails_at, sink.fault, sink.flush_fault) = (3, Some("gone".to_owned()), Some("never flushed".to_owned()));
    assert!(PropertiesWriter::new(sink.clone()).into_inner().is_ok());
    let mut writer = PropertiesWriter::new(sink.clone());
    writer.write("a", "1").unwrap();
    let error = writer.into_inner().map(drop).unwrap_err();
    assert_eq!((error.kind(), error.line_number()), (ErrorKind::Io, Some(1)));
    assert_eq!(
        (&sink.bytes.borrow()[..], sink.calls.get()),
        (&b"a="[..], 3),
        "it is dropped and sends no more"
    );
}

#[test]
fn a_failed_write_is_counted_over_parts() {
    let mut sink = Sink::new(usize::MAX);
    (sink.fails_at, sink.fault) = (3, Some("gone".to_owned()));
    let mut writer = PropertiesWriter::new(sink.clone());
    let failed = (1..).find_map(|number| writer.write("key", "value").err().map(|error| (number, error)));
    let (called, error) = failed.unwrap();
    let sent = sink.bytes.borrow().len() / "key=value\n".len();
    assert_eq!(error.line_number(), Some(sent + 1));
    assert!(called > sent + 1, "an earlier line than that of the call");
}

#[test]
fn interrupted_writes_are_made_again_and_flushes_fail_alone() {
    struct Interrupted(Vec<u8>, bool);
    impl Write for Interrupted {
        fn write(&mut self, bytes: &[u8]) -> io::Result<usize> {
            self.1 = !self.1;
            if self.1 {
                return Err(io::ErrorKind::Interrupted.into());
            }
            self.0.write(&bytes[..1])
        }
        fn flush(&mut self) -> io::Result<()> {
            Ok(())
        }
    }
    let mut stream = Interrupted(Vec::new(), false);
    write(&mut stream, &HashMap::from([("a".to_owned(), "1".to_owned())])).unwrap();
    assert_eq!(stream.0, b"a=1\n");
    let mut sink = Sink::new(9);
    sink.flush_fault = Some("full".to_owned());
    let mut writer = PropertiesWriter::new(sink.clone());
    writer.write("a", "1").unwrap();
    let error = writer.flush().unwrap_err();
    assert_eq!(
        (error.line_number(), error.source().unwrap().to_string()),
        (None, "full".to_owned())
    );
    sink.is_quiet.set(true);
    writer.write("b", "2").unwrap();
    writer.finish().unwrap();
    assert_eq!(*sink.bytes.borrow(), b"a=1\nb=2\n");
}

#[test]
fn a_stream_that_panics_is_left_alone() {
    struct Panics(usize);
    impl Write for Panics {
        fn write(&mut self, _: &[u8]) -> io::Result<usize> {
            self.0 += 1;
            assert!(self.0 > 1, "the first call");
            panic!("another call");
        }
        fn flush(&mut self) -> io::Result<()> {
            Ok(())
        }
    }
    let thread = std::thread::spawn(|| {
        let mut writer = PropertiesWriter::new(Panics(0));
        writer.write("a", "1").unwrap();
        let _ = writer.flush();
    });
    let panic = thread.join().unwrap_err();
    assert_eq!(panic.downcast_ref(), Some(&"the first call"));
}

#[test]
fn a_front_like_a_mark_is_escaped_in_the_first_line_alone() {
    let bytes = written(UTF_8, |writer| {
        writer.write("\u{feff}a", "1").unwrap();
        writer.write("\u{feff}a", "1").unwrap();
        writer.flush().unwrap();
        writer.write("\u{feff}a", "1").unwrap();
    });
    assert_eq!(bytes, "\\ufeffa=1\n\u{feff}a=1\n\u{feff}a=1\n".as_bytes());
    let bytes = written(ISO_8859_1, |writer| {
        for key in ["\u{ef}\u{bb}\u{bf}a", "\u{feff}a", "\u{ef}\u{bb}\u{bf}a", "\u{feff}a"] {
            writer.write(key, "1").unwrap();
            writer.flush().unwrap();
        }
    });
    assert_eq!(bytes, b"\\u00ef\xbb\xbfa=1\n\\ufeffa=1\n\xef\xbb\xbfa=1\n\\ufeffa=1\n");
}

/// Every character of ISO 8859-1 and of windows-1252, and others: what is written in ISO 8859-1 is read as it was meant by
/// whoever takes a byte for the character with its number.
#[test]
fn java_reads_iso_8859_1_as_it_was_meant() {
    let bytes: Vec<u8> = (0x80..=0x9f).collect();
    let only_in_windows = get(&[b"k=", &bytes[..]].concat(), WINDOWS_1252, "k").unwrap().unwrap();
    let others = "\u{100}\u{2028}あ\u{feff}\u{fffd}\u{1f41e}".chars();
    for character in (0..=255).map(char::from).chain(only_in_windows.chars()).chain(others) {
        let text = String::from(character);
        let pairs = [("first", "1"), (&text[..], &text[..])];
        let file = b"first=1\n";
        let written = written(ISO_8859_1, |writer| {
            for (key, value) in pairs {
                writer.write(key, value).unwrap();
            }
        });
        let windows = edit(file, WINDOWS_1252, &[Edit::SetKey(&text, &text)]).unwrap();
        for bytes in [
            &edit(file, ISO_8859_1, &[Edit::SetValue(&text, &text)]).unwrap(),
            &edit(file, ISO_8859_1, &[Edit::SetKey(&text, &text)]).unwrap(),
            &convert(&windows, ISO_8859_1, Target::Iso8859_1, Spelling::Kept).unwrap(),
            &convert(&windows, WINDOWS_1252, Target::Iso8859_1, Spelling::Readable).unwrap(),
            &written,
        ] {
            let decoded: String = bytes.iter().copied().map(char::from).collect();
            for (source, encoding) in [(decoded.as_bytes(), UTF_8), (bytes, ISO_8859_1), (bytes, WINDOWS_1252)] {
                let mut came = Vec::new();
                PropertiesIter::new_with_encoding(source, encoding)
                    .read_into(|key, value| came.push((key, value)))
                    .unwrap();
                let came: Vec<_> = came.iter().map(|(key, value)| (&key[..], &value[..])).collect();
                assert_eq!(came, pairs, "{character:?} in {encoding}: {bytes:?}");
            }
            assert!(
                !bytes.iter().any(|byte| (0x80..=0x9f).contains(byte)),
                "{character:?}: {bytes:?}"
            );
            assert_eq!(
                bytes.is_ascii(),
                !('\u{a0}'..='\u{ff}').contains(&character),
                "{character:?}: {bytes:?}"
            );
        }
        let ascii = Options::new(ISO_8859_1).ascii_only(true);
        assert!(edit(file, ascii, &[Edit::SetKey(&text, &text)]).unwrap().is_ascii());
    }
    // What stands in the file stays.
    let file = b"# \x80\na=\x80\n";
    assert_eq!(
        edit(file, ISO_8859_1, &[Edit::SetKey("b", "€é")]).unwrap(),
        b"# \x80\na=\x80\nb=\\u20ac\xe9\n"
    );
    let ascii = self::written(ISO_8859_1, |writer| {
        writer.set_ascii_only(true);
        writer.write("k", "é").unwrap();
    });
    assert_eq!(ascii, b"k=\\u00e9\n");
    let comment = self::written(ISO_8859_1, |writer| {
        writer.set_comment_prefix("# €").unwrap();
        writer.write_comment("\u{85}é\0\\").unwrap();
    });
    assert_eq!(comment, b"# \\u20ac\\u0085\xe9\0\\\\\n");
}

#[test]
fn settings_are_kept_and_bad_ones_refused() {
    let bytes = written(WINDOWS_1252, |writer| {
        writer.set_comment_prefix("!").unwrap();
        writer.set_kv_separator(" : ").unwrap();
        writer.set_line_ending(LineEnding::CRLF);
        let error = writer.set_comment_prefix("x").unwrap_err();
        assert_eq!(error.to_string(), "Bad comment prefix: \"x\" (line_number = unknown)");
        for text in ["", "\n", "=="] {
            let error = writer.set_kv_separator(text).unwrap_err();
            assert_eq!(
                error.to_string(),
                format!("Bad key/value separator: {text:?} (line_number = unknown)")
            );
        }
        writer.write_comment("c\nd").unwrap();
        writer.set_readable(true);
        writer.write("k y", "v w\u{e9}").unwrap();
        writer.set_ascii_only(true);
        writer.set_line_ending(LineEnding::CR);
        writer.write("k", "\u{e9}").unwrap();
    });
    assert_eq!(bytes, b"!c\\nd\r\nk\\ y : v w\xe9\r\nk : \\u00e9\r");
    let bytes = written(WINDOWS_1252, |writer| {
        writer.set_kv_separator(" ").unwrap();
        let error = writer.write("", "v").unwrap_err();
        assert_eq!((error.kind(), error.line_number()), (ErrorKind::EmptyKey, None));
        writer.write("a", "").unwrap();
    });
    assert_eq!(bytes, b"a \n");
    assert_eq!(LineEnding::CRLF.to_string(), "LineEnding::CRLF");
}

#[test]
fn a_map_reads_back() {
    let map: HashMap<_, _> = (0..1000)
        .map(|n| (format!("key {n}"), format!("\u{1f41e}:{n}\n")))
        .collect();
    let mut bytes = Vec::new();
    write(&mut bytes, &map).unwrap();
    assert_eq!(read(&bytes[..]).unwrap(), map);
    assert!(bytes.starts_with(b"key\\ 0="));
    write(&mut bytes, &HashMap::new()).unwrap();
}

#[test]
fn edits_keep_all_else() {
    let file = b"# C:\\users\nport    = 80\r\nhost = a\n";
    let edits = [
        Edit::SetValue("port", "81"),
        Edit::RemoveKey("host"),
        Edit::SetKey("new", "x y"),
    ];
    assert_eq!(
        edit(file, UTF_8, &edits).unwrap(),
        b"# C:\\users\nport    = 81\r\nnew=x\\ y\n"
    );
    assert_eq!(get(file, UTF_8, "port").unwrap().as_deref(), Some("80"));
    assert_eq!(get(file, UTF_8, "prot").unwrap(), None);
    assert_eq!(get(b"a=\n\nb=\\u1", UTF_8, "a").unwrap_err().line_number(), Some(3));
    let error = edit(b"\xff\xfea\0", UTF_8, &edits).unwrap_err();
    assert_eq!((error.kind(), error.line_number()), (ErrorKind::Unsupported, None));
    assert_eq!(error.edit_index(), None);
    assert_eq!(edit(file, UTF_8, &[]).unwrap(), file);
}

/// Edits of every kind in one list, and of an edit that is refused the index, and the line in what those before gave.
#[test]
fn lists_have_edits_of_every_kind() {
    let file = b"# of b\nb : 1\n\n! of c\nc=2\n";
    let edits = [
        Edit::RenameKey("b", "é"),
        Edit::SetComment("é", "old"),
        Edit::SetComment("é", "one\ntwo"),
        Edit::SetValue("é", "3"),
        Edit::RemoveWithComment("c"),
        Edit::RemoveWithComment("c"),
    ];
    assert_eq!(edit(file, UTF_8, &edits).unwrap(), "# one\n# two\né : 3\n\n".as_bytes());
    let ascii = Options::new(UTF_8).ascii_only(true);
    assert_eq!(edit(file, ascii, &edits).unwrap(), b"# one\n# two\n\\u00e9 : 3\n\n");
    for (refused, kind, line) in [
        (Edit::RenameKey("b", "a"), ErrorKind::NoKey, None),
        (Edit::SetComment("c", ""), ErrorKind::NoKey, None),
        (Edit::RenameKey("a", "é"), ErrorKind::KeyTaken, Some(3)),
    ] {
        let mut edits = edits.to_vec();
        edits.extend([Edit::SetKey("a", "1"), refused, Edit::RenameKey("none", "d")]);
        let error = edit(file, UTF_8, &edits).unwrap_err();
        assert_eq!((error.kind(), error.line_number()), (kind, line), "{refused:?}");
        assert_eq!(error.edit_index(), Some(7), "{refused:?}");
    }
    let escape = [Edit::SetComment("c", "C:\\users"), Edit::RemoveKey("b")];
    assert_eq!(edit(file, UTF_8, &escape).unwrap(), b"# of b\n\n! C:\\users\nc=2\n");
    let error = edit(file, Options::new(UTF_8).comments(Comments::Resolve), &escape).unwrap_err();
    assert_eq!((error.kind(), error.line_number()), (ErrorKind::NotHex, Some(4)));
    assert_eq!(error.edit_index(), None);
}

#[test]
fn options_are_kept() {
    let comments = |comments| Options::new(UTF_8).comments(comments);
    let file = b"# C:\\users\na = 1\n";
    for (skipped, line) in [
        (Comments::Skip, None),
        (Comments::Raw, None),
        (Comments::Resolve, Some(1)),
    ] {
        let line_of = |error: PropertiesError| error.line_number();
        assert_eq!(get(file, comments(skipped), "a").err().and_then(line_of), line);
        assert_eq!(edit(file, comments(skipped), &[]).err().and_then(line_of), line);
    }
    let strict = Options::new(UTF_8).strict(true);
    for error in [
        get(b"a=\xff", strict, "b").unwrap_err(),
        edit(b"a=\xff", strict, &[]).unwrap_err(),
        convert(b"a=\xff", strict, Target::Ascii, Spelling::Kept).unwrap_err(),
        groups(b"a=\xff", strict).unwrap_err(),
    ] {
        assert_eq!((error.kind(), error.line_number()), (ErrorKind::NotText, Some(1)));
    }
    assert_eq!(get(b"a=\xff", UTF_8, "a").unwrap().unwrap(), "\u{fffd}");
    let ascii = Options::new(UTF_8).ascii_only(true);
    assert_eq!(edit(b"", ascii, &[Edit::SetKey("k", "é")]).unwrap(), b"k=\\u00e9\n");
    assert_eq!(edit(b"", UTF_8, &[Edit::SetKey("k", "é")]).unwrap(), "k=é\n".as_bytes());
    assert_eq!(edit(b"", WINDOWS_1252, &[Edit::SetKey("k", "é")]).unwrap(), b"k=\xe9\n");
}

#[test]
fn conversions_keep_the_meaning() {
    assert_eq!(
        convert(b"\xff\xfea\0=\0\xe9\0", UTF_8, Target::Utf8, Spelling::Kept).unwrap(),
        "a=\u{e9}".as_bytes()
    );
    assert_eq!(
        convert(b"a=\\u20ac", UTF_8, Target::Windows1252, Spelling::Readable).unwrap(),
        b"a=\x80"
    );
    let mut chance = Chance(4);
    for _ in cases(500) {
        let text = chance.string(&TEXTS, 20);
        let pairs = |bytes: &[u8], encoding| {
            PropertiesIter::new_with_encoding(bytes, encoding)
                .filter_map(Result::ok)
                .collect::<Vec<_>>()
        };
        let wanted = pairs(text.as_bytes(), UTF_8);
        for spelling in [Spelling::Kept, Spelling::Readable] {
            for (target, encoding) in [
                (Target::Ascii, UTF_8),
                (Target::Utf8, UTF_8),
                (Target::Windows1252, WINDOWS_1252),
            ] {
                let converted = convert(text.as_bytes(), UTF_8, target, spelling).unwrap();
                assert_eq!(pairs(&converted, encoding), wanted, "{text:?}");
                assert!(target != Target::Ascii || converted.is_ascii());
            }
        }
    }
}

#[test]
fn groups_are_the_file() {
    let file = b"\xef\xbb\xbf  a\\\n b\xc3\xa9 : v \r\n \t\n! c \\u \r\x0ck=\\\n\\u00e9\\uzz";
    let found = groups(file, WINDOWS_1252).unwrap();
    let kinds: Vec<_> = found.iter().map(|group| (group.kind, group.line_number)).collect();
    let (pair, blank, comment) = (GroupKind::Pair, GroupKind::Blank, GroupKind::Comment);
    assert_eq!(kinds, [(pair, 1), (blank, 3), (comment, 4), (pair, 5)]);
    assert_eq!(&file[found[0].key.clone()], b"a\\\n b\xc3\xa9");
    assert_eq!(&file[found[0].separator()], b" : ");
    assert_eq!(&file[found[0].value.clone()], b"v ");
    assert_eq!(&file[found[0].ending.clone()], b"\r\n");
    assert_eq!((&found[0].key_text[..], &found[0].value_text[..]), ("ab\u{e9}", "v "));
    assert_eq!(&file[found[2].value.clone()], b"c \\u");
    assert_eq!(
        found[2].flaw.as_ref().map(|flaw| flaw.kind),
        Some(ErrorKind::NotEnoughDigits)
    );
    let flaw = found[3].flaw.clone().unwrap();
    assert_eq!(
        (flaw.line_number, flaw.column, &file[flaw.offset..]),
        (6, 7, &b"\\uzz"[..])
    );
    assert_eq!(
        (&found[3].value_text[..], found[3].ill_formed_line),
        ("\\u00e9\\uzz", None)
    );
    assert_eq!(groups(b"a\nb=\\\n\xff", UTF_8).unwrap()[1].ill_formed_line, Some(3));
    assert_eq!(groups(b"", UTF_16LE).unwrap_err().kind(), ErrorKind::Unsupported);
    let texts = |comments| {
        groups(b"# \\u00e9", Options::new(UTF_8).comments(comments))
            .unwrap()
            .remove(0)
            .value_text
    };
    assert_eq!(
        (&texts(Comments::Resolve)[..], &texts(Comments::Skip)[..]),
        ("é", "\\u00e9")
    );
}

/// Groups follow one another to the end of the file, and say what the items do.
#[test]
fn groups_agree_with_items() {
    let mut chance = Chance(5);
    for _ in cases(2000) {
        let mut text = chance.string(&TEXTS, 20);
        if chance.below(3) == 0 {
            text.insert(0, '\u{feff}');
        }
        if chance.below(3) == 0 {
            text.push_str("\\u12");
        }
        let found = groups(text.as_bytes(), Options::new(UTF_8).comments(Comments::Resolve)).unwrap();
        let mut at = if text.starts_with('\u{feff}') { 3 } else { 0 };
        let mut items = PropertiesIter::new_with_encoding(text.as_bytes(), UTF_8);
        for group in found {
            let places = [
                group.span.start,
                group.key.start,
                group.key.end,
                group.value.start,
                group.value.end,
                group.ending.start,
                group.ending.end,
            ];
            assert!(
                group.span.start == at
                    && places.windows(2).all(|two| two[0] <= two[1])
                    && group.ending.end == group.span.end,
                "{text:?}"
            );
            at = group.span.end;
            if group.kind != GroupKind::Blank {
                let Some(line) = items.next() else { continue };
                let Ok(line) = line else {
                    assert_eq!(line.unwrap_err().kind(), group.flaw.unwrap().kind, "{text:?}");
                    continue;
                };
                let content = match group.kind {
                    GroupKind::Comment => LineContent::Comment(group.value_text),
                    _ => LineContent::KVPair(group.key_text, group.value_text),
                };
                assert_eq!(
                    (line.line_number(), line.content()),
                    (group.line_number, &content),
                    "{text:?}"
                );
            }
        }
        assert_eq!(at, text.len());
        assert!(items.next().is_none());
    }
}

/// An edit sets what it says, and leaves every other pair, and every byte of the groups that it doesn't touch.
#[test]
fn edits_change_nothing_else() {
    let mut chance = Chance(6);
    for _ in cases(2000) {
        let source = chance.string(&TEXTS, 24).into_bytes();
        let encoding = chance.pick(&[UTF_8, WINDOWS_1252]);
        let options = Options::new(encoding).ascii_only(chance.below(2) == 0);
        let (key, value) = (chance.pick(&["a", "b", "ab", ""]), chance.string(&TEXTS, 6));
        let pairs = |bytes: &[u8]| {
            let mut pairs = Vec::new();
            let mut iter = PropertiesIter::new_with_encoding(bytes, encoding).comments(Comments::Skip);
            iter.read_into(|key, value| pairs.push((key, value))).unwrap();
            pairs
        };
        let others = |bytes: &[u8]| {
            pairs(bytes)
                .into_iter()
                .filter(|pair| pair.0 != key)
                .collect::<Vec<_>>()
        };
        for single in [
            Edit::SetValue(key, &value),
            Edit::SetKey(key, &value),
            Edit::RemoveKey(key),
        ] {
            let edited = edit(&source, options, &[single]).unwrap();
            let wanted = Some(value.clone()).filter(|_| single != Edit::RemoveKey(key));
            assert_eq!(get(&edited, options, key).unwrap(), wanted, "{source:?} {single:?}");
            assert_eq!(others(&edited), others(&source), "{source:?} {single:?}");
            let kept = groups(&source, options)
                .unwrap()
                .into_iter()
                .filter(|group| group.kind != GroupKind::Pair);
            for group in kept {
                let bytes = &source[group.span];
                assert!(
                    edited.windows(bytes.len()).any(|window| window == bytes),
                    "{source:?} {single:?}"
                );
            }
        }
    }
}

/// A key is renamed in all of its pairs, and all other bytes stay: those of the groups, but for the key.
#[test]
fn a_key_is_renamed_where_it_stands() {
    let file = b"# key\r\n  \\u006bey\t= 1\\\r\n  key\nkey: 2";
    let renamed = rename_key(file, UTF_8, "key", "a b").unwrap();
    assert_eq!(renamed, b"# key\r\n  a\\ b\t= 1\\\r\n  key\na\\ b: 2");
    assert_eq!(rename_key(b"\\u0061", UTF_8, "a", "a").unwrap(), b"\\u0061");
    assert_eq!(rename_key(b"a 1\na", UTF_8, "a", "").unwrap(), b"= 1\n=");
    let ascii = Options::new(UTF_8).ascii_only(true);
    assert_eq!(
        rename_key(b"a=\xc3\xa9", ascii, "a", "\u{e9}").unwrap(),
        b"\\u00e9=\xc3\xa9"
    );
    assert_eq!(rename_key(b"a=1", ISO_8859_1, "a", "\u{20ac}").unwrap(), b"\\u20ac=1");
    for (bytes, kind, line) in [
        (&b"x=1\\\na"[..], ErrorKind::NoKey, None),
        (b"b=1", ErrorKind::NoKey, None),
        (b"\na=1\nc\\\n\nb=2\nb=3", ErrorKind::KeyTaken, Some(5)),
        (b"b=1\na=\\u12", ErrorKind::NotEnoughDigits, Some(2)),
        (b"\xff\xfea\0", ErrorKind::Unsupported, None),
    ] {
        let error = rename_key(bytes, UTF_8, "a", "b").unwrap_err();
        assert_eq!((error.kind(), error.line_number()), (kind, line), "{bytes:?}");
    }
    assert_eq!(ErrorKind::KeyTaken.to_string(), "A pair has the new key already.");
}

#[test]
fn renaming_changes_keys_alone() {
    let mut chance = Chance(9);
    for round in cases(4000) {
        let encoding = [WINDOWS_1252, UTF_8, ISO_8859_1][round % 3];
        let source = chance.string(&TEXTS, 24).into_bytes();
        let new_key = chance.string(&TEXTS, 3);
        let parts = |bytes: &[u8]| -> Vec<_> {
            groups(bytes, encoding)
                .unwrap()
                .into_iter()
                .map(|group| {
                    let before = bytes[group.span.start..group.key.start].to_vec();
                    let after = bytes[group.key.end..group.span.end].to_vec();
                    (group.kind, group.key_text, before, after, group.value_text)
                })
                .collect()
        };
        let Ok(renamed) = rename_key(&source, encoding, "a", &new_key) else {
            continue;
        };
        let mut wanted = parts(&source);
        for part in &mut wanted {
            if part.0 == GroupKind::Pair && part.1 == "a" {
                part.1.clone_from(&new_key);
            }
        }
        let mut came = parts(&renamed);
        if new_key.is_empty() {
            // `=` may stand where blanks were, or these are an indent now.
            for part in came.iter_mut().chain(&mut wanted) {
                part.2.clear();
                part.3.clear();
            }
        }
        assert_eq!(came, wanted, "{source:?} {new_key:?}");
    }
}

/// The comment of a key is told as it stands, and goes with the key. Every other group stays.
#[test]
fn a_key_goes_with_its_comment() {
    let file = b"# of C:\\users\n#\n  key\t= 1\n! a\n\n!  b\xe9\nkey: 2\n\n# c\nother";
    assert_eq!(comment_of(file, WINDOWS_1252, "key").unwrap().unwrap(), [" b\u{e9}"]);
    assert_eq!(
        comment_of(&file[..24], UTF_8, "key").unwrap().unwrap(),
        ["of C:\\users", ""]
    );
    assert_eq!(comment_of(b"\nkey", UTF_8, "key").unwrap().unwrap(), [""; 0]);
    assert_eq!(comment_of(file, UTF_8, "none").unwrap(), None);
    let rest = remove_with_comment(file, WINDOWS_1252, "key").unwrap();
    assert_eq!(rest, b"! a\n\n\n# c\nother");
    assert_eq!(remove_with_comment(file, WINDOWS_1252, "none").unwrap(), file);
    for (bytes, kind, line) in [
        (&b"#\\u\na\nb\\u12"[..], ErrorKind::NotEnoughDigits, Some(3)),
        (b"\xff\xfea\0", ErrorKind::Unsupported, None),
        (b"# \xff\na", ErrorKind::NotText, Some(1)),
    ] {
        let strict = Options::new(UTF_8).strict(true);
        for error in [
            comment_of(bytes, strict, "a").unwrap_err(),
            remove_with_comment(bytes, strict, "a").unwrap_err(),
        ] {
            assert_eq!((error.kind(), error.line_number()), (kind, line), "{bytes:?}");
        }
    }
    let read = Options::new(UTF_8).comments(Comments::Resolve);
    let error = remove_with_comment(b"#\\u\na", read, "a").unwrap_err();
    assert_eq!(error.kind(), ErrorKind::NotEnoughDigits);
    assert_eq!(comment_of(b"#\\u\na", read, "a").unwrap().unwrap(), ["\\u"]);
}

/// The comment of a key is set in the style of the old one, or of the pair.
#[test]
fn a_comment_is_set() {
    let file = b"# of\nkey\n\n\t!one\r\n #\nk\\u0065y=1\r";
    let set = |text| set_comment(file, UTF_8, "key", text).unwrap();
    assert_eq!(
        set("a\\u12\r\n\n b\r"),
        b"# of\nkey\n\n\t!a\\u12\r\n\t!\r\n\t!  b\r\nk\\u0065y=1\r"
    );
    assert_eq!(set("one\n\n"), file);
    assert_eq!(set(""), b"# of\nkey\n\nk\\u0065y=1\r");
    assert_eq!(set_comment(b"\tkey\r", UTF_8, "key", "a").unwrap(), b"\t# a\r\tkey\r");
    let ascii = Options::new(UTF_8).ascii_only(true);
    assert_eq!(set_comment(b"a", ascii, "a", "\u{e9}").unwrap(), b"# \\u00e9\na");
    assert_eq!(
        set_comment(b"a", ISO_8859_1, "a", "\u{e9}\u{20ac}").unwrap(),
        b"# \xe9\\u20ac\na"
    );
    assert_eq!(
        set_comment(b"a", WINDOWS_1252, "a", "\u{e9}\u{20ac}").unwrap(),
        b"# \xe9\x80\na"
    );
    let strict = Options::new(UTF_8).strict(true).comments(Comments::Resolve);
    for (bytes, kind, line) in [
        (&b"#\\u\na"[..], ErrorKind::NotEnoughDigits, Some(1)),
        (b"a\nb\\u12", ErrorKind::NotEnoughDigits, Some(2)),
        (b"\xff\xfea\0", ErrorKind::Unsupported, None),
        (b"\n# \xff\na", ErrorKind::NotText, Some(2)),
        (b"# a\nb", ErrorKind::NoKey, None),
    ] {
        let error = set_comment(bytes, strict, "a", "b").unwrap_err();
        assert_eq!((error.kind(), error.line_number()), (kind, line), "{bytes:?}");
    }
}

/// What was set is told, and all groups stay but the comment of the key.
#[test]
fn comments_are_told_as_they_were_set() {
    let mut chance = Chance(10);
    let mut set = 0;
    for round in cases(4000) {
        let encoding = [WINDOWS_1252, UTF_8, ISO_8859_1][round % 3];
        let source = chance.string(&TEXTS, 24).into_bytes();
        let text = chance.string(&TEXTS, 6).replace('\r', "\n");
        let Ok(commented) = set_comment(&source, encoding, "a", &text) else {
            continue;
        };
        set += 1;
        let told = comment_of(&commented, encoding, "a").unwrap().unwrap();
        if text.is_ascii() {
            assert_eq!(
                told,
                text.split_terminator('\n').collect::<Vec<_>>(),
                "{source:?} {text:?}"
            );
        }
        let same = told.iter().map(|line| line.clone() + "\n").collect::<String>();
        assert_eq!(
            set_comment(&commented, encoding, "a", &same).unwrap(),
            commented,
            "{source:?} {text:?}"
        );
        let parts = |bytes: &[u8]| -> Vec<_> {
            groups(bytes, encoding)
                .unwrap()
                .into_iter()
                .filter(|group| group.kind == GroupKind::Pair)
                .map(|group| bytes[group.span].to_vec())
                .collect()
        };
        assert_eq!(parts(&commented), parts(&source), "{source:?} {text:?}");
    }
    assert!(set > 0);
}
