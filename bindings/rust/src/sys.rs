//! The calls of the library, and safe functions over them. All that is unsafe is in this file.
//!
//! `todrenval.h` says what each call asks for and gives: pointers with their lengths, of which the library keeps none, and
//! room for the result, of which it fills a front. That it does so is proved.
#![allow(unsafe_code)]

use std::mem::MaybeUninit;
use std::ptr;

pub const OK: i32 = 0;
const NO_ROOM: i32 = 1;
pub const NO_KEY: i32 = 2;
pub const NO_MEMORY: i32 = 3;
pub const NOT_ENOUGH_DIGITS: i32 = 7;
pub const NOT_HEX: i32 = 8;
pub const INVALID_CHARACTER: i32 = 9;
pub const UNSUPPORTED: i32 = 11;
pub const BAD_PREFIX: i32 = 12;
pub const BAD_SEPARATOR: i32 = 13;
pub const EMPTY_KEY: i32 = 14;
pub const NOT_TEXT: i32 = 16;
pub const KEY_TAKEN: i32 = 17;

pub const ASCII_ONLY: u32 = 1;
pub const READABLE: u32 = 2;
pub const READ_COMMENTS: u32 = 4;
pub const CRLF: u32 = 8;
pub const CR: u32 = 16;
pub const STRICT: u32 = 32;
pub const RAW_COMMENTS: u32 = 64;
pub const RAW: u32 = 128;
pub const SPANS: u32 = 256;
pub const MORE: u32 = 512;
pub const GOES_ON: u32 = 4096;
pub const LATIN_1: u32 = 8192;

pub const COMMENT: u64 = 0;
pub const PAIR: u64 = 1;
pub const SET_KEY: u64 = 2;
pub const REMOVE_KEY: u64 = 3;
pub const SET_VALUE: u64 = 4;
pub const RENAME_KEY: u64 = 7;
pub const SET_COMMENT: u64 = 8;
pub const REMOVE_WITH_COMMENT: u64 = 9;
const END: u64 = 6;

/// The version of the interface that this file is written for.
const VERSION: u32 = 4;

#[allow(clippy::too_many_arguments)]
mod exports {
    extern "C" {
        pub fn todrenval_version() -> u32;
        pub fn todrenval_encoding(label: *const u8, label_length: usize) -> u32;
        pub fn todrenval_status_text(
            status: i32,
            out: *mut u8,
            room: usize,
            length: *mut usize,
            line: *mut usize,
        ) -> i32;
        pub fn todrenval_items(
            source: *const u8,
            source_length: usize,
            encoding: u32,
            flags: u32,
            out: *mut u8,
            room: usize,
            length: *mut usize,
            line: *mut usize,
        ) -> i32;
        pub fn todrenval_get(
            source: *const u8,
            source_length: usize,
            encoding: u32,
            flags: u32,
            key: *const u8,
            key_length: usize,
            out: *mut u8,
            room: usize,
            length: *mut usize,
            line: *mut usize,
        ) -> i32;
        pub fn todrenval_edit(
            source: *const u8,
            source_length: usize,
            encoding: u32,
            flags: u32,
            edits: *const u8,
            edits_length: usize,
            out: *mut u8,
            room: usize,
            length: *mut usize,
            line: *mut usize,
        ) -> i32;
        pub fn todrenval_rename_key(
            source: *const u8,
            source_length: usize,
            encoding: u32,
            flags: u32,
            old_key: *const u8,
            old_length: usize,
            new_key: *const u8,
            new_length: usize,
            out: *mut u8,
            room: usize,
            length: *mut usize,
            line: *mut usize,
        ) -> i32;
        pub fn todrenval_remove_with_comment(
            source: *const u8,
            source_length: usize,
            encoding: u32,
            flags: u32,
            key: *const u8,
            key_length: usize,
            out: *mut u8,
            room: usize,
            length: *mut usize,
            line: *mut usize,
        ) -> i32;
        pub fn todrenval_comment(
            source: *const u8,
            source_length: usize,
            encoding: u32,
            flags: u32,
            key: *const u8,
            key_length: usize,
            out: *mut u8,
            room: usize,
            length: *mut usize,
            line: *mut usize,
        ) -> i32;
        pub fn todrenval_set_comment(
            source: *const u8,
            source_length: usize,
            encoding: u32,
            flags: u32,
            key: *const u8,
            key_length: usize,
            text: *const u8,
            text_length: usize,
            out: *mut u8,
            room: usize,
            length: *mut usize,
            line: *mut usize,
        ) -> i32;
        pub fn todrenval_convert(
            source: *const u8,
            source_length: usize,
            encoding: u32,
            target: u32,
            flags: u32,
            out: *mut u8,
            room: usize,
            length: *mut usize,
            line: *mut usize,
        ) -> i32;
        pub fn todrenval_write(
            list: *const u8,
            list_length: usize,
            encoding: u32,
            flags: u32,
            prefix: *const u8,
            prefix_length: usize,
            separator: *const u8,
            separator_length: usize,
            out: *mut u8,
            room: usize,
            length: *mut usize,
            line: *mut usize,
        ) -> i32;
    }
}

/// What a call returned: its status, the line of an error or 0, and a length, which for an edit that is refused is its index.
#[derive(Clone, Copy)]
pub struct Answer {
    pub status: i32,
    pub line: usize,
    pub length: usize,
}

impl Answer {
    /// The same for what so many lines come before.
    pub fn after(self, lines: usize) -> Self {
        let line = if self.line > 0 { self.line + lines } else { 0 };
        Answer { line, ..self }
    }
}

/// Where a call puts its result, and how long it is.
struct Out<'a> {
    at: *mut u8,
    room: usize,
    length: &'a mut usize,
    line: &'a mut usize,
}

/// Returns whether this processor has the features that the library was built for.
pub fn runs_here() -> bool {
    std::is_x86_feature_detected!("ssse3")
        && std::is_x86_feature_detected!("sse4.1")
        && std::is_x86_feature_detected!("sse4.2")
        && std::is_x86_feature_detected!("popcnt")
}

fn check_library() {
    assert!(
        runs_here(),
        "todrenval needs a processor with the features of x86-64-v2"
    );
    // SAFETY: the function takes nothing, and only returns a number.
    let version = unsafe { exports::todrenval_version() };
    assert_eq!(
        version, VERSION,
        "libtodrenval.a has another interface than this crate is for"
    );
}

/// Makes a call that puts its result behind what `out` holds: with room for so many bytes at least, and again if it needs
/// more.
fn call(out: &mut Vec<u8>, room: usize, made: impl Fn(Out<'_>) -> i32) -> Answer {
    check_library();
    let mut room = room;
    loop {
        out.reserve(room);
        let spare: &mut [MaybeUninit<u8>] = out.spare_capacity_mut();
        let (mut length, mut line, given) = (0, 0, spare.len());
        let status = made(Out {
            at: spare.as_mut_ptr().cast(),
            room: given,
            length: &mut length,
            line: &mut line,
        });
        if status != NO_ROOM {
            let written = match status {
                NO_KEY | KEY_TAKEN => 0,
                _ => length,
            };
            assert!(
                written <= given,
                "the library says that it wrote more than there was room for"
            );
            // SAFETY: the call wrote the first `written` bytes, and there is capacity for them.
            unsafe { out.set_len(out.len() + written) };
            return Answer { status, line, length };
        }
        room = length;
    }
}

fn front(bytes: &[u8]) -> *const u8 {
    if bytes.is_empty() {
        ptr::null()
    } else {
        bytes.as_ptr()
    }
}

pub fn encoding(label: &[u8]) -> u32 {
    check_library();
    // SAFETY: the pointer is that of a slice, with its length.
    unsafe { exports::todrenval_encoding(front(label), label.len()) }
}

pub fn status_text(status: i32) -> String {
    let mut bytes = Vec::new();
    // SAFETY: `out` is what `call` made.
    call(&mut bytes, 64, |out| unsafe {
        exports::todrenval_status_text(status, out.at, out.room, out.length, out.line)
    });
    String::from_utf8_lossy(&bytes).into_owned()
}

// Of the calls below, each pointer is that of a slice, with its length, or it is from `call`: nothing else uses that memory.

pub fn items(list: &mut Vec<u8>, source: &[u8], encoding: u32, flags: u32) -> Answer {
    let room = if flags & SPANS == 0 {
        source.len().saturating_mul(4)
    } else {
        source.len().saturating_mul(8)
    };
    // SAFETY: see above.
    call(list, room.saturating_add(256), |out| unsafe {
        exports::todrenval_items(
            front(source),
            source.len(),
            encoding,
            flags,
            out.at,
            out.room,
            out.length,
            out.line,
        )
    })
}

pub fn get(value: &mut Vec<u8>, source: &[u8], encoding: u32, flags: u32, key: &[u8]) -> Answer {
    // SAFETY: see above.
    call(value, 256, |out| unsafe {
        exports::todrenval_get(
            front(source),
            source.len(),
            encoding,
            flags,
            front(key),
            key.len(),
            out.at,
            out.room,
            out.length,
            out.line,
        )
    })
}

pub fn edit(edited: &mut Vec<u8>, source: &[u8], encoding: u32, flags: u32, edits: &[u8]) -> Answer {
    // SAFETY: see above.
    call(edited, source.len() + edits.len(), |out| unsafe {
        exports::todrenval_edit(
            front(source),
            source.len(),
            encoding,
            flags,
            front(edits),
            edits.len(),
            out.at,
            out.room,
            out.length,
            out.line,
        )
    })
}

/// Renames the first of these keys to the second one.
pub fn rename_key(renamed: &mut Vec<u8>, source: &[u8], encoding: u32, flags: u32, keys: (&[u8], &[u8])) -> Answer {
    let (old, new) = keys;
    // SAFETY: see above.
    call(renamed, source.len() + new.len(), |out| unsafe {
        exports::todrenval_rename_key(
            front(source),
            source.len(),
            encoding,
            flags,
            front(old),
            old.len(),
            front(new),
            new.len(),
            out.at,
            out.room,
            out.length,
            out.line,
        )
    })
}

pub fn remove_with_comment(rest: &mut Vec<u8>, source: &[u8], encoding: u32, flags: u32, key: &[u8]) -> Answer {
    // SAFETY: see above.
    call(rest, source.len() + 1, |out| unsafe {
        exports::todrenval_remove_with_comment(
            front(source),
            source.len(),
            encoding,
            flags,
            front(key),
            key.len(),
            out.at,
            out.room,
            out.length,
            out.line,
        )
    })
}

pub fn comment(lines: &mut Vec<u8>, source: &[u8], encoding: u32, flags: u32, key: &[u8]) -> Answer {
    // SAFETY: see above.
    call(lines, 256, |out| unsafe {
        exports::todrenval_comment(
            front(source),
            source.len(),
            encoding,
            flags,
            front(key),
            key.len(),
            out.at,
            out.room,
            out.length,
            out.line,
        )
    })
}

/// Sets the comment of the first of these texts, which is a key, to the second one.
pub fn set_comment(commented: &mut Vec<u8>, source: &[u8], encoding: u32, flags: u32, texts: (&[u8], &[u8])) -> Answer {
    let (key, text) = texts;
    // SAFETY: see above.
    call(commented, source.len() + text.len() + 256, |out| unsafe {
        exports::todrenval_set_comment(
            front(source),
            source.len(),
            encoding,
            flags,
            front(key),
            key.len(),
            front(text),
            text.len(),
            out.at,
            out.room,
            out.length,
            out.line,
        )
    })
}

pub fn convert(converted: &mut Vec<u8>, source: &[u8], encoding: u32, target: u32, flags: u32) -> Answer {
    // SAFETY: see above.
    call(converted, source.len().saturating_mul(2), |out| unsafe {
        exports::todrenval_convert(
            front(source),
            source.len(),
            encoding,
            target,
            flags,
            out.at,
            out.room,
            out.length,
            out.line,
        )
    })
}

pub fn write(lines: &mut Vec<u8>, list: &[u8], encoding: u32, flags: u32, prefix: &[u8], separator: &[u8]) -> Answer {
    // SAFETY: see above.
    call(lines, list.len(), |out| unsafe {
        exports::todrenval_write(
            front(list),
            list.len(),
            encoding,
            flags,
            front(prefix),
            prefix.len(),
            front(separator),
            separator.len(),
            out.at,
            out.room,
            out.length,
            out.line,
        )
    })
}

/// The bytes of a record before its texts or its spans, those of its spans, and what is added to the kind of a record that
/// has these.
const RECORD: usize = 32;
const SPANS_SIZE: usize = 96;
const WITH_SPANS: u64 = 16;
const END_SIZE: usize = RECORD + 16;

/// Appends an edit, or a line to write, to a packed list.
#[inline]
pub fn push_record(list: &mut Vec<u8>, kind: u64, key: &str, value: &str) {
    let numbers = [
        kind.to_le_bytes(),
        [0; 8],
        key.len().to_le_bytes(),
        value.len().to_le_bytes(),
    ];
    let size = RECORD.saturating_add(key.len()).saturating_add(value.len());
    list.reserve(size);
    // SAFETY: there is capacity for `size` bytes, which are written, one part behind the other. No pointer into the list is one
    // into the texts, since the list is borrowed mutably.
    unsafe {
        let at = list.as_mut_ptr().add(list.len());
        at.cast::<[[u8; 8]; 4]>().write(numbers);
        copy(key.as_ptr(), at.add(RECORD), key.len());
        copy(value.as_ptr(), at.add(RECORD + key.len()), value.len());
        list.set_len(list.len() + size);
    }
}

/// Copies so many bytes. A few are copied in place, as two parts that may overlap: a call would take longer.
///
/// # Safety
///
/// As for `ptr::copy_nonoverlapping`.
#[inline]
unsafe fn copy(from: *const u8, to: *mut u8, size: usize) {
    // SAFETY: no byte past `size` is read or written; the caller answers for these.
    unsafe {
        match size {
            0 => {}
            1..=3 => {
                copy_part::<1>(from, to, 0);
                copy_part::<1>(from, to, size / 2);
                copy_part::<1>(from, to, size - 1);
            }
            4..=8 => {
                copy_part::<4>(from, to, 0);
                copy_part::<4>(from, to, size - 4);
            }
            9..=16 => {
                copy_part::<8>(from, to, 0);
                copy_part::<8>(from, to, size - 8);
            }
            _ => ptr::copy_nonoverlapping(from, to, size),
        }
    }
}

/// Copies `N` bytes from this place on.
///
/// # Safety
///
/// The bytes at `from` may be read, and those at `to` written.
#[inline]
unsafe fn copy_part<const N: usize>(from: *const u8, to: *mut u8, at: usize) {
    // SAFETY: the caller answers for it, and an array of bytes may be anywhere.
    unsafe {
        let part = from.add(at).cast::<[u8; N]>().read();
        to.add(at).cast::<[u8; N]>().write(part);
    }
}

/// A record of a packed list that a call gave.
#[derive(Clone, Copy)]
pub struct Record<'a> {
    pub kind: u64,
    pub line: usize,
    pub key: &'a str,
    pub value: &'a str,
    spans: &'a [u8],
    /// How many bytes it takes.
    pub size: usize,
}

impl Record<'_> {
    /// The numbers of `struct todrenval_spans`, of a record that has them.
    pub fn spans(&self) -> [usize; SPANS_SIZE / 8] {
        std::array::from_fn(|at| number(self.spans, 8 * at))
    }
}

/// Returns the record at this place of a packed list that a call gave.
#[inline]
pub fn record(list: &[u8], at: usize) -> Record<'_> {
    let (numbers, rest) = list[at..].split_at(RECORD);
    let kind = number(numbers, 0) as u64;
    let (spans, texts) = rest.split_at(if kind < WITH_SPANS { 0 } else { SPANS_SIZE });
    let (key, values) = texts.split_at(number(numbers, 16));
    let (value, after) = values.split_at(number(numbers, 24));
    Record {
        kind: kind % WITH_SPANS,
        line: number(numbers, 8),
        key: text(key),
        value: text(value),
        spans,
        size: list.len() - at - after.len(),
    }
}

/// Where the items of a part end: how many bytes and lines they take, and the number of the encoding in force.
pub struct End {
    pub length: usize,
    pub lines: usize,
    pub encoding: u32,
}

/// Takes the end from a packed list that a call gave for a part.
pub fn take_end(list: &mut Vec<u8>) -> End {
    let at = list.len() - END_SIZE;
    assert_eq!(number(list, at) as u64, END, "the library gave no end of a part");
    let end = End {
        length: number(list, at + RECORD),
        lines: number(list, at + 8),
        encoding: u32::try_from(number(list, at + RECORD + 8)).unwrap_or(u32::MAX),
    };
    list.truncate(at);
    end
}

#[inline]
#[allow(clippy::cast_possible_truncation)]
fn number(list: &[u8], at: usize) -> usize {
    let mut bytes = [0; 8];
    bytes.copy_from_slice(&list[at..at + 8]);
    // A pointer has 64 bits wherever the library runs.
    u64::from_le_bytes(bytes) as usize
}

/// The text of bytes that a call gave.
#[inline]
pub fn text(bytes: &[u8]) -> &str {
    debug_assert!(std::str::from_utf8(bytes).is_ok());
    // SAFETY: all texts that a call gives are UTF-8, which is proved.
    unsafe { std::str::from_utf8_unchecked(bytes) }
}
