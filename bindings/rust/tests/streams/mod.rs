//! Streams that give or take little at a time, and fail.
#![allow(dead_code)]

use std::cell::{Cell, RefCell};
use std::io::{self, Error, Read, Write};
use std::rc::Rc;

/// Gives the bytes of one piece at a time, then the error, if there is one, and then its end.
pub struct Pieces {
    pub pieces: Vec<Vec<u8>>,
    pub fault: Option<Error>,
}

impl Pieces {
    pub fn new(pieces: Vec<Vec<u8>>, fault: Option<Error>) -> Self {
        Pieces { pieces, fault }
    }

    /// The same bytes, so many at a time.
    pub fn cut(bytes: &[u8], size: usize, fault: Option<Error>) -> Self {
        Pieces::new(bytes.chunks(size).map(<[u8]>::to_vec).collect(), fault)
    }
}

impl Read for Pieces {
    fn read(&mut self, out: &mut [u8]) -> io::Result<usize> {
        while let Some(piece) = self.pieces.first_mut() {
            if piece.is_empty() {
                self.pieces.remove(0);
                continue;
            }
            let count = piece.len().min(out.len());
            out[..count].copy_from_slice(&piece[..count]);
            piece.drain(..count);
            return Ok(count);
        }
        self.fault.take().map_or(Ok(0), Err)
    }
}

/// Takes at most so many bytes a call, and fails at one call. Its clones are the same sink.
#[derive(Clone)]
pub struct Sink {
    pub bytes: Rc<RefCell<Vec<u8>>>,
    pub most: usize,
    /// The call, counted from 1, that returns this error, or takes nothing.
    pub fails_at: usize,
    pub fault: Option<String>,
    pub calls: Rc<Cell<usize>>,
    pub flush_fault: Option<String>,
    /// No flush fails while this is set.
    pub is_quiet: Rc<Cell<bool>>,
}

impl Sink {
    pub fn new(most: usize) -> Self {
        Sink {
            bytes: Rc::default(),
            most,
            fails_at: 0,
            fault: None,
            calls: Rc::default(),
            flush_fault: None,
            is_quiet: Rc::default(),
        }
    }
}

impl Write for Sink {
    fn write(&mut self, bytes: &[u8]) -> io::Result<usize> {
        self.calls.set(self.calls.get() + 1);
        if self.calls.get() == self.fails_at {
            return self.fault.clone().map_or(Ok(0), |fault| Err(Error::other(fault)));
        }
        let count = bytes.len().min(self.most);
        self.bytes.borrow_mut().extend(&bytes[..count]);
        Ok(count)
    }

    fn flush(&mut self) -> io::Result<()> {
        match &self.flush_fault {
            Some(fault) if !self.is_quiet.get() => Err(Error::other(fault.clone())),
            _ => Ok(()),
        }
    }
}

/// How many random cases a test tries: few under valgrind, where `TODRENVAL_FEW` is set.
pub fn cases(usual: usize) -> std::ops::Range<usize> {
    let is_slow = std::env::var_os("TODRENVAL_FEW").is_some();
    0..if is_slow { usual / 50 } else { usual }
}

/// Numbers that look like chance, and are the same in each run.
pub struct Chance(pub u64);

impl Chance {
    pub fn below(&mut self, bound: usize) -> usize {
        self.0 ^= self.0 << 13;
        self.0 ^= self.0 >> 7;
        self.0 ^= self.0 << 17;
        usize::try_from(self.0 >> 33).unwrap() % bound
    }

    pub fn pick<T: Copy>(&mut self, among: &[T]) -> T {
        among[self.below(among.len())]
    }

    /// Up to so many of these, one after another.
    pub fn string(&mut self, among: &[&str], most: usize) -> String {
        (0..self.below(most + 1)).map(|_| self.pick(among)).collect()
    }
}
