//! The items of a reader, for `PropertiesIter`, which has no other way to them.
//!
//! The reader is read in parts. Of each, the library gives the items that no further byte can change, and says where they
//! end; what is left is the front of the next part.
use crate::encoding::{Encoding, UTF_16BE, UTF_16LE};
use crate::error::PropertiesError;
use crate::line::{ContentRef, LineRef};
use crate::sys::{self, Answer};
use std::io::{self, Read};

/// How much is read at once, if the reader gives that much.
const PART: usize = 1 << 16;

pub struct Feed<R> {
    reader: R,
    /// What of comments is given, and whether bytes that aren't text are refused.
    pub flags: u32,
    // The number of the encoding in force, once a byte order mark was read.
    encoding: u32,
    // Room, and how many bytes in its front were read and are the part, or its front.
    room: Vec<u8>,
    held: usize,
    // The lines before these bytes.
    lines: usize,
    // The items of the part before, packed, where the next one is, and the lines before them.
    list: Vec<u8>,
    at: usize,
    before: usize,
    // What comes after them: an error, or nothing.
    error: Option<PropertiesError>,
    is_over: bool,
}

/// What ends the items, and the line that its group begins in: items before that line stand.
struct Stop {
    line: usize,
    error: PropertiesError,
}

impl<R: Read> Feed<R> {
    pub fn new(reader: R, encoding: Encoding) -> Self {
        Feed {
            reader,
            flags: sys::READ_COMMENTS,
            encoding: encoding.number(),
            room: Vec::new(),
            held: 0,
            lines: 0,
            list: Vec::new(),
            at: 0,
            before: 0,
            error: None,
            is_over: false,
        }
    }

    pub fn into_reader(self) -> R {
        self.reader
    }

    /// Returns the next item, or the error after the last one, or `None` from then on.
    #[inline]
    pub fn next(&mut self) -> Option<Result<LineRef<'_>, PropertiesError>> {
        if self.at == self.list.len() {
            self.read_on();
        }
        if self.at == self.list.len() {
            return self.error.take().map(Err);
        }
        let record = sys::record(&self.list, self.at);
        self.at += record.size;
        Some(Ok(LineRef {
            number: self.before + record.line,
            content: match record.kind {
                sys::PAIR => ContentRef::KVPair(record.key, record.value),
                _ => ContentRef::Comment(record.value),
            },
        }))
    }

    // Reads until there are items, or there is nothing more to read.
    #[cold]
    fn read_on(&mut self) {
        while self.at == self.list.len() {
            if self.is_over {
                self.room = Vec::new();
                self.list = Vec::new();
                self.at = 0;
                return;
            }
            if self.room.len() < self.held + PART {
                // Memory that is asked for so comes cleared.
                let mut room = vec![0; 2 * self.held + PART];
                room[..self.held].copy_from_slice(&self.room[..self.held]);
                self.room = room;
            }
            match self.reader.read(&mut self.room[self.held..]) {
                Ok(0) => self.take(None, true),
                Ok(count) => {
                    let from = self.held;
                    self.held += count;
                    if ends_line(&self.room[..self.held], from, self.encoding) {
                        self.take(None, false);
                    }
                }
                Err(fault) if fault.kind() == io::ErrorKind::Interrupted => {}
                Err(fault) => self.take(Some(fault), true),
            }
        }
    }

    // Takes the items of the part, up to a fault of the reader, if there is one.
    fn take(&mut self, fault: Option<io::Error>, is_last: bool) {
        let part = &self.room[..self.held];
        let mut stop = fault.map(|fault| self.at_fault(part.to_vec(), fault));
        let flags = self.flags | if is_last { 0 } else { sys::MORE };
        self.list.clear();
        self.at = 0;
        self.before = self.lines;
        let mut answer = sys::items(&mut self.list, part, self.encoding, flags);
        if answer.status == sys::NOT_TEXT {
            // The library looks at all bytes first, and gives no items then.
            let found = self.first_not_text(answer);
            if stop.as_ref().map_or(true, |stop| found.line < stop.line) {
                stop = Some(Stop {
                    line: self.group_with(part, found.line),
                    error: PropertiesError::of(found.after(self.lines)),
                });
            }
            answer = sys::items(&mut self.list, part, self.encoding, flags & !sys::STRICT);
        }
        let mut is_over = is_last;
        if answer.status != sys::OK {
            self.error = Some(PropertiesError::of(answer.after(self.lines)));
            is_over = true;
        } else if !is_last {
            self.go_on();
        }
        if let Some(stop) = stop {
            if self.error.is_none() || answer.line >= stop.line {
                self.error = Some(stop.error);
            }
            self.list.truncate(front_before(&self.list, stop.line));
            is_over = true;
        }
        self.is_over = is_over;
    }

    // Takes the end from the list, and the bytes before it from the part.
    fn go_on(&mut self) {
        let end = sys::take_end(&mut self.list);
        let part = &self.room[..self.held];
        // Behind a byte order mark a byte 0 is text. So the mark stays, for whoever asks whether what comes later is text.
        let stays = if self.flags & sys::STRICT > 0 && part.starts_with(MARK) && end.length > 0 {
            MARK.len()
        } else {
            0
        };
        self.room.copy_within(end.length..self.held, stays);
        self.held -= end.length - stays;
        self.lines += end.lines;
        self.encoding = end.encoding;
    }

    // Of a part in UTF-8 that isn't text, the library names the first line with a byte 0. A line before it may be the first
    // one that isn't text.
    fn first_not_text(&self, answer: Answer) -> Answer {
        let part = &self.room[..self.held];
        if wide(part, self.encoding).is_some() {
            return answer;
        }
        let before = &part[..start_of_line(part, answer.line)];
        let earlier = sys::items(&mut Vec::new(), before, self.encoding, self.flags);
        if earlier.status == sys::NOT_TEXT {
            earlier
        } else {
            answer
        }
    }

    // What a fault ends is the group that a next byte would belong to. So the bytes get two letters more: one that goes on,
    // and one that is the pair of the line after that.
    fn at_fault(&self, mut part: Vec<u8>, fault: io::Error) -> Stop {
        match wide(&part, self.encoding) {
            None => part.extend(b"x\nx"),
            Some(order) => {
                part.truncate(part.len() & !1);
                for letter in [b'x', b'\n', b'x'] {
                    part.extend(if order == UTF_16LE { [letter, 0] } else { [0, letter] });
                }
            }
        }
        let lines = self.lines_as_they_stand(&part);
        let (line, unended) = match lines[..] {
            [.., line, last] => (line, last - 1),
            // Only memory can be short: no item is sure then.
            _ => (0, 0),
        };
        Stop {
            line,
            error: PropertiesError::of_stream(fault, Some(unended + self.lines).filter(|_| unended > 0)),
        }
    }

    // Returns the line in which the group begins that has this line. Groups of blanks alone are left out of account: all of
    // their bytes are text.
    fn group_with(&self, part: &[u8], line: usize) -> usize {
        let lines = self.lines_as_they_stand(part);
        lines.into_iter().rfind(|first| *first <= line).unwrap_or(0)
    }

    // Returns the lines of all comments and pairs, those with malformed escapes too.
    fn lines_as_they_stand(&self, part: &[u8]) -> Vec<usize> {
        let mut list = Vec::new();
        sys::items(&mut list, part, self.encoding, sys::RAW | sys::RAW_COMMENTS);
        let mut lines = Vec::new();
        let mut at = 0;
        while at < list.len() {
            let record = sys::record(&list, at);
            lines.push(record.line);
            at += record.size;
        }
        lines
    }
}

// Returns how many bytes of a list the items before this line take.
fn front_before(list: &[u8], line: usize) -> usize {
    let mut at = 0;
    while at < list.len() {
        let record = sys::record(list, at);
        if record.line >= line {
            break;
        }
        at += record.size;
    }
    at
}

/// The byte order mark of UTF-8.
const MARK: &[u8] = b"\xef\xbb\xbf";

// Returns which encoding of UTF-16 a part is in, if it is in one.
fn wide(part: &[u8], encoding: u32) -> Option<Encoding> {
    match part {
        [0xfe, 0xff, ..] => Some(UTF_16BE),
        [0xff, 0xfe, ..] => Some(UTF_16LE),
        _ if part.starts_with(MARK) => None,
        _ => [UTF_16LE, UTF_16BE].into_iter().find(|wide| wide.number() == encoding),
    }
}

// Returns whether the library reads up to a line ending in the bytes from this place on: one that no backslash stands
// before. Where it does not, it needn't be called.
fn ends_line(part: &[u8], from: usize, encoding: u32) -> bool {
    let order = wide(part, encoding);
    let size = if order.is_some() { 2 } else { 1 };
    let is = |at: usize, byte: u8| match order {
        None => part[at] == byte,
        Some(UTF_16LE) => part[at..].starts_with(&[byte, 0]),
        Some(_) => part[at..].starts_with(&[0, byte]),
    };
    let is_before = |at: usize, byte: u8| at >= size && is(at - size, byte);
    (from & !(size - 1)..part.len())
        .step_by(size)
        .any(|at| (is(at, b'\r') || is(at, b'\n') && !is_before(at, b'\r')) && !is_before(at, b'\\'))
}

// Returns where a line begins, in an encoding other than UTF-16.
fn start_of_line(part: &[u8], line: usize) -> usize {
    let is_end = |at: &usize| part[*at] == b'\n' || part[*at] == b'\r' && part.get(at + 1) != Some(&b'\n');
    let ends = (0..part.len()).filter(is_end).map(|at| at + 1);
    std::iter::once(0)
        .chain(ends)
        .nth(line.saturating_sub(1))
        .unwrap_or(part.len())
}
