r"""Reads, checks, edits, converts and writes Java .properties files, and keeps the layout of what it edits.

    >>> import todrenval
    >>> data = b"# the web server\nport    = 80\n"
    >>> todrenval.loads(data)
    {'port': '80'}
    >>> todrenval.set_value(data, "port", "8080")
    b'# the web server\nport    = 8080\n'

A file as a mapping, which is written whole or not at all:

    with todrenval.open("app.properties") as settings:
        settings["port"] = "8080"

`load` and `dump` take a path or a binary file; all other functions take and return bytes, which may also be a bytearray, a
memoryview or an mmap. Keys and values are str.

The encoding is utf-8 if none is given. Others are iso-8859-1, cp1252, utf-16, utf-16-le and utf-16-be, by any label that
Python has for them. A byte order mark overrides the encoding. Bytes that aren't text of the encoding raise a PropertiesError
with their line; with errors="replace" they are read as U+FFFD. A byte 0 isn't text in UTF-8 without a byte order mark, since
UTF-16 without its mark looks like this.

iso-8859-1 is for files that Java reads by `Properties.load(InputStream)`. It is read as cp1252, which has other characters
at 27 of the bytes from 80 to 9F. What is written in it has only characters that both have at the same byte, and escapes
for all others.

What is written is ASCII-only, with escapes for other characters, as Java's `Properties.store` and `json.dumps` write it, so
it reads the same in iso-8859-1 and utf-8. With ascii_only=False a non-ASCII character is an escape only if the encoding
doesn't have it, or if it is the first one of a key at the front of a file that would begin like a byte order mark.

Java passes over comments, so that one may be `# C:\users`, and so do functions with comments="skip". With comments="read" the
escapes in comments are resolved, and a malformed one is an error. With comments="raw" comments are given as they stand. By
default `items` reads them, `groups` gives them raw, and all other functions skip them.

Any thread may call the functions at any time. They need the shared object libtodrenval.so.2 beside this file, or at the path
that the environment variable TODRENVAL_LIBRARY names.
"""

from __future__ import annotations

import codecs
import contextlib
import ctypes
import enum
import errno
import io
import mmap
import os
import pathlib
import secrets
import stat
import struct
import threading
from types import TracebackType
from typing import Any, BinaryIO, Dict, Iterable, Iterator, List, Mapping, MutableMapping, NamedTuple, Optional, Tuple, Type
from typing import Union, overload

from . import processor

__all__ = [
    "Comment",
    "Document",
    "Edit",
    "Finding",
    "FindingKind",
    "Flaw",
    "Group",
    "Item",
    "MalformedEscape",
    "Pair",
    "PropertiesError",
    "RemoveKey",
    "RemoveWithComment",
    "RenameKey",
    "SetComment",
    "SetKey",
    "SetValue",
    "Spans",
    "Status",
    "comment",
    "convert",
    "dump",
    "dumps",
    "edit",
    "findings",
    "get",
    "groups",
    "items",
    "load",
    "loads",
    "open",
    "remove_key",
    "remove_with_comment",
    "rename_key",
    "set_comment",
    "set_key",
    "set_value",
]

#: The version of the package, which bindings/build.sh writes here. Where nothing was built, there is none.
__version__ = "0"
#: The version of the interface for C, which rises more rarely: TODRENVAL_VERSION of todrenval.h.
VERSION = 4
Bytes = Union[bytes, bytearray, memoryview, mmap.mmap]
Path = Union[str, "os.PathLike[str]"]


class _Number(enum.IntEnum):
    """A number of the library. One that only a newer library has is a member too, by a name such as UNKNOWN_99."""

    @classmethod
    def _missing_(cls, value: object) -> Any:
        if not isinstance(value, int):
            return None
        member = int.__new__(cls, value)
        member._name_, member._value_ = f"UNKNOWN_{value}", value
        return member


class Status(_Number):
    """Why a call failed, as in todrenval.h."""

    OK = 0
    NO_ROOM = 1
    NO_KEY = 2
    NO_MEMORY = 3
    UNKNOWN_ENCODING = 4
    NOT_UTF_8 = 5
    BAD_LIST = 6
    NOT_ENOUGH_DIGITS = 7
    NOT_HEX = 8
    INVALID_CHARACTER = 9
    TOO_MANY_LINES = 10
    UNSUPPORTED = 11
    BAD_PREFIX = 12
    BAD_SEPARATOR = 13
    EMPTY_KEY = 14
    UNKNOWN_FLAGS = 15
    NOT_TEXT = 16
    KEY_TAKEN = 17


class Comment(NamedTuple):
    """A comment, with the number of the line that it is in. Blanks at its ends are no part of the text."""

    text: str
    line: int = 0


class Pair(NamedTuple):
    """A key with its value, and the number of the line that they begin in."""

    key: str
    value: str
    line: int = 0


Item = Union[Comment, Pair]


class Spans(NamedTuple):
    """Where a group of lines and its parts are in a file, in bytes from its front. The places don't descend. Between them are
    an indent; the key, or the sign of a comment; the separator; the value, or the text of a comment; blanks after a comment;
    and the line ending. A backslash, a line ending and blanks that join two lines belong to the part that follows them."""

    start: int
    key_start: int
    key_end: int
    value_start: int
    value_end: int
    end: int
    next: int


class Flaw(NamedTuple):
    """A malformed escape: why it is one, where its backslash is in the file, and in which line. The column says which byte of
    that line the backslash is, counted from 1."""

    status: Status
    start: int
    line: int
    column: int

    @property
    def reason(self) -> str:
        """Why it is malformed, in words."""
        return _reason(self.status)


class Group(NamedTuple):
    """The lines that make a pair or a comment, or a line of blanks, whose `item` is None; with the number of the first line.

    `flaw` is the first malformed escape. If there is one, the texts of the item are as they stand. `ill_formed_line` is the
    first line with bytes that aren't text of the encoding, which only errors="replace" lets through."""

    item: Optional[Item]
    line: int
    spans: Spans
    flaw: Optional[Flaw] = None
    ill_formed_line: Optional[int] = None


class SetValue(NamedTuple):
    """The edit that `set_value` makes."""

    key: str
    value: str


class SetKey(NamedTuple):
    """The edit that `set_key` makes."""

    key: str
    value: str


class RemoveKey(NamedTuple):
    """The edit that `remove_key` makes."""

    key: str


class RenameKey(NamedTuple):
    """The edit that `rename_key` makes."""

    key: str
    new_key: str


class RemoveWithComment(NamedTuple):
    """The edit that `remove_with_comment` makes."""

    key: str


class SetComment(NamedTuple):
    """The edit that `set_comment` makes."""

    key: str
    text: Union[str, Iterable[str]]


#: A tuple of a key and a value sets the value, and one of a key and None removes the key.
Edit = Union[SetValue, SetKey, RemoveKey, RenameKey, RemoveWithComment, SetComment, Tuple[str, Optional[str]]]


class FindingKind(_Number):
    """What is wrong in a line."""

    REPEATED_KEY = 0
    NOT_ENOUGH_DIGITS = 1
    NOT_HEX = 2
    INVALID_CHARACTER = 3


class Finding(NamedTuple):
    """What is wrong in the pair or comment that begins in a line. Repeated keys alone have a `key`, and as `first` the line of
    the first pair with it. Malformed escapes alone may be in a comment.

    The column says which byte of the line the key or the backslash is, counted from 1. There is none in UTF-16, nor for a
    backslash in a later line, which `groups` tells."""

    line: int
    kind: FindingKind
    key: Optional[str] = None
    first: Optional[int] = None
    in_comment: bool = False
    column: Optional[int] = None

    @property
    def reason(self) -> str:
        """What is wrong, in words.

        >>> findings(b"a=1\\na=2")[0].reason
        'repeats the key of line 1'
        """
        if self.kind == FindingKind.REPEATED_KEY:
            return f"repeats the key of line {self.first}"
        status = Status.__members__.get(self.kind.name)
        if status is None:
            return "Unknown kind of finding."
        return _reason(status) + (" (in a comment)" if self.in_comment else "")


class PropertiesError(ValueError):
    r"""Why a call failed: a status, the reason in words, and the number of a line, or None. The status is NOT_TEXT if bytes
    aren't text of the encoding, and NOT_UTF_8 if a key or a value has a surrogate; it is None if a file has changed since
    `open` read it.

    >>> try:
    ...     loads(b"a=1\nb=caf\xe9")
    ... except PropertiesError as error:
    ...     print(error.line, error.reason)
    2 Not text of utf-8.
    """

    __match_args__ = ("status", "line", "reason")

    #: The file, if `load`, `open` or `save` raised the error and knows its path.
    path: Optional[str] = None

    def __init__(self, status: Optional[Status], line: Optional[int] = None, reason: Optional[str] = None) -> None:
        self.status = status
        self.line = line
        self.reason = reason or ("Unknown status." if status is None else _reason(status))
        super().__init__(self.reason)

    def __str__(self) -> str:
        if self.path is None:
            return self.reason if self.line is None else f"line {self.line}: {self.reason}"
        return f"{self.path}: {self.reason}" if self.line is None else f"{self.path}:{self.line}: {self.reason}"

    def __repr__(self) -> str:
        return f"{type(self).__name__}({str(self)!r})"

    def __reduce__(self) -> Tuple[Any, ...]:
        return type(self), (self.status, self.line, self.reason), self.__dict__


class MalformedEscape(PropertiesError):
    r"""A backslash with a u isn't followed by four hexadecimal digits that make a character.

    >>> items(b"# C:\\users")
    Traceback (most recent call last):
    ...
    todrenval.MalformedEscape: line 1: Malformed \uxxxx encoding: not hex.
    """

    #: Whether it is in a comment, which Java passes over.
    in_comment = False

    def __init__(self, status: Optional[Status], line: Optional[int] = None, reason: Optional[str] = None) -> None:
        super().__init__(status, line, reason)
        #: If `items` raised the error, the items before the line.
        self.items: List[Item] = []


_ENCODINGS = {
    "cp1252": 0,
    "iso8859-1": 0,
    "utf-8": 1,
    "utf-8-sig": 1,
    "utf-16": 2,
    "utf-16-le": 2,
    "utf-16-be": 3,
}
_DECODED = {1: "utf-8", 2: "utf-16-le", 3: "utf-16-be"}
_MARKS = {codecs.BOM_UTF8: 1, codecs.BOM_UTF16_LE: 2, codecs.BOM_UTF16_BE: 3}
_TARGETS = {"cp1252": 16, "utf-8": 17, "ascii": 18, "iso8859-1": 19}
_ASCII_ONLY, _READABLE, _READ_COMMENTS, _STRICT, _RAW_COMMENTS, _RAW, _SPANS = 1, 2, 4, 32, 64, 128, 256
_LATIN_1 = 8192
_COMMENTS = {"skip": 0, "read": _READ_COMMENTS, "raw": _RAW_COMMENTS}
_ERRORS = {"strict": _STRICT, "replace": 0}
_ENDINGS = {"\n": 0, "\r\n": 8, "\r": 16}

_IN = [ctypes.c_char_p, ctypes.c_size_t]
_OUT = [ctypes.c_char_p, ctypes.c_size_t, ctypes.POINTER(ctypes.c_size_t), ctypes.POINTER(ctypes.c_size_t)]
_NUMBER = ctypes.c_uint32
_ARGUMENTS: Dict[str, List[Any]] = {
    "todrenval_get": [*_IN, _NUMBER, _NUMBER, *_IN, *_OUT],
    "todrenval_items": [*_IN, _NUMBER, _NUMBER, *_OUT],
    "todrenval_findings": [*_IN, _NUMBER, *_OUT],
    "todrenval_edit": [*_IN, _NUMBER, _NUMBER, *_IN, *_OUT],
    "todrenval_comment": [*_IN, _NUMBER, _NUMBER, *_IN, *_OUT],
    "todrenval_convert": [*_IN, _NUMBER, _NUMBER, _NUMBER, *_OUT],
    "todrenval_write": [*_IN, _NUMBER, _NUMBER, *_IN, *_IN, *_OUT],
    "todrenval_status_text": [ctypes.c_int, *_OUT],
}


def _library() -> ctypes.CDLL:
    path = os.environ.get("TODRENVAL_LIBRARY") or str(pathlib.Path(__file__).resolve().with_name("libtodrenval.so.2"))
    try:
        library = ctypes.CDLL(path)
    except OSError as error:
        where = "bindings/build.sh makes it; TODRENVAL_LIBRARY says where it is"
        raise ImportError(f"{error}. {where}.", path=path) from None
    library.todrenval_version.argtypes = []
    library.todrenval_version.restype = _NUMBER
    version = library.todrenval_version()
    if version != VERSION:
        raise ImportError(f"{path} has version {version} of the interface, and this module needs {VERSION}", path=path)
    for name, arguments in _ARGUMENTS.items():
        function = getattr(library, name, None)
        if function is None:
            raise ImportError(f"{path} is older than this module: it has no {name}", path=path)
        function.argtypes = arguments
        function.restype = ctypes.c_int
    return library


if not os.environ.get("TODRENVAL_LIBRARY"):
    # Another library may be built for any x86-64 processor.
    processor.refuse_older()
_LIBRARY = _library()


def _call(name: str, room: int, *inputs: Union[bytes, int]) -> Tuple[Status, memoryview, int, Optional[int]]:
    """Makes a call, again if the room is too small, and returns its status, its room, a length and a line."""
    arguments: List[Union[bytes, int]] = []
    for given in inputs:
        arguments += [given, len(given)] if isinstance(given, bytes) else [given]
    length, line = ctypes.c_size_t(), ctypes.c_size_t()
    while True:
        out = ctypes.create_string_buffer(max(room, 1))
        status = getattr(_LIBRARY, name)(*arguments, out, room, ctypes.byref(length), ctypes.byref(line))
        if status != Status.NO_ROOM:
            # string_at takes its length as a C int in older Pythons.
            return Status(status), memoryview(out), length.value, line.value or None
        room = length.value


def _answer(name: str, room: int, *inputs: Union[bytes, int]) -> Tuple[Status, bytes, Optional[int]]:
    """Makes a call, and returns its status, what it wrote, and a line."""
    status, out, length, line = _call(name, room, *inputs)
    return status, bytes(out[:length]), line


def _reason(status: Status) -> str:
    """Returns a status in words."""
    return _answer("todrenval_status_text", 64, status)[1].decode()


def _error(status: Status, line: Optional[int]) -> Exception:
    if status == Status.NO_MEMORY:
        return MemoryError()
    if status in (Status.NOT_ENOUGH_DIGITS, Status.NOT_HEX, Status.INVALID_CHARACTER):
        return MalformedEscape(status, line)
    return PropertiesError(status, line)


def _error_in(source: bytes, number: int, flags: int, status: Status, line: Optional[int]) -> Exception:
    """Returns the error of a call that read a file with these flags."""
    if status == Status.NOT_TEXT:
        in_force = _in_force(source, number)
        reason = f"Not text of {_DECODED.get(in_force, 'the encoding')}."
        # If there is a byte 0, the line is that of the first one.
        if in_force == 1 and b"\0" in source and not source.startswith(codecs.BOM_UTF8):
            reason = "U+0000. If this is UTF-16, give that as the encoding."
        return PropertiesError(status, line, reason)
    error = _error(status, line)
    if isinstance(error, MalformedEscape) and flags & _READ_COMMENTS:
        # It is the first one of all, then. If the file has none, an edit put it into a comment.
        found = [finding for finding in _findings(source, number) if finding.kind != FindingKind.REPEATED_KEY]
        error.in_comment = not found or found[0].in_comment
    return error


def _result(name: str, room: int, *inputs: Union[bytes, int]) -> bytes:
    status, result, line = _answer(name, room, *inputs)
    if status != Status.OK:
        raise _error(status, line)
    return result


def _bytes(data: Bytes) -> bytes:
    if isinstance(data, bytes):
        return data
    try:
        return memoryview(data).tobytes()
    except TypeError:
        cure = "encode it, or give a path to load or open" if isinstance(data, str) else "load and open take a path"
        raise TypeError(f"a file is bytes, not {type(data).__name__}; {cure}") from None


def _utf_8(text: str, what: str = "the key", key: Optional[str] = None) -> bytes:
    """Returns a text in UTF-8. An error says what it is, and names the key that it is, or whose value."""
    if isinstance(text, str):
        try:
            return text.encode("utf-8")
        except UnicodeEncodeError:
            pass
    named = what if what.startswith("a ") else f"{what} {text if key is None else key!r}"
    if isinstance(text, str):
        raise PropertiesError(Status.NOT_UTF_8, None, f"{named[0].upper()}{named[1:]} has a surrogate without its partner.")
    raise TypeError(f"{named} has to be a str, not {type(text).__name__}")


def _number(encoding: str) -> int:
    number = _ENCODINGS.get(codecs.lookup(encoding).name)
    if number is None:
        raise LookupError(f"not an encoding of properties files: {encoding}")
    return number


def _is_latin_1(encoding: str) -> bool:
    """Returns whether only what iso-8859-1 and cp1252 have at the same byte is written as it is."""
    return codecs.lookup(encoding).name == "iso8859-1"


def _source(data: Bytes, encoding: str, errors: str) -> Tuple[bytes, int, int]:
    """Returns a file, the number of its encoding, and the flag with which bytes that aren't text of it are an error."""
    source, number = _bytes(data), _number(encoding)
    if errors not in _ERRORS:
        raise ValueError(f"errors are to be 'strict' or 'replace', not {errors!r}")
    return source, number, _ERRORS[errors]


def _in_force(source: bytes, number: int) -> int:
    """Returns the number of the encoding that a byte order mark names, or else the number that is given."""
    return next((_MARKS[mark] for mark in _MARKS if source.startswith(mark)), number)


@contextlib.contextmanager
def _naming(path: Path) -> Iterator[None]:
    """An error that is raised has the path, also that of a call on a descriptor, a temporary file or the folder."""
    try:
        yield
    except PropertiesError as error:
        error.path = os.fspath(path)
        raise
    except OSError as error:
        if error.errno is None or error.filename == os.fspath(path):
            raise
        raise OSError(error.errno, error.strerror, os.fspath(path)) from error


def _comments(comments: str, *words: str) -> int:
    """Returns the flag for comments, which is to be that of one of these words."""
    if comments not in words:
        raise ValueError(f"comments are to be {' or '.join(map(repr, words))}, not {comments!r}")
    return _COMMENTS[comments]


def _flags(comments: str, ascii_only: bool = False) -> int:
    return bool(ascii_only) * _ASCII_ONLY + _comments(comments, "skip", "read")


def _edited(data: Bytes, edits: List[Edit], encoding: str, errors: str, comments: str, ascii_only: bool = False) -> bytes:
    """Returns a file after a list of edits."""
    packed = b"".join(_edit_record(each) for each in edits)
    source, number, flags = _source(data, encoding, errors)
    flags += _flags(comments, ascii_only) + _is_latin_1(encoding) * _LATIN_1
    status, out, length, line = _call("todrenval_edit", len(source) + len(packed) + 256, source, number, flags, packed)
    if status == Status.NO_KEY:
        raise KeyError(edits[length][0])
    if status == Status.KEY_TAKEN:
        raise PropertiesError(status, line, f"A pair has the new key {edits[length][-1]!r} already.")
    if status != Status.OK:
        raise _error_in(source, number, flags, status, line)
    return bytes(out[:length])


def _record(kind: int, key: str, value: str) -> bytes:
    return _packed(kind, _utf_8(key), _utf_8(value, "the value of", key))


def _packed(kind: int, key: bytes, value: bytes) -> bytes:
    return struct.pack("<4Q", kind, 0, len(key), len(value)) + key + value


def _records(packed: bytes) -> Iterator[Tuple[int, int, str, str, Tuple[int, ...]]]:
    """Yields of each record its kind, line, key and value, and its spans, if it has them."""
    place = 0
    spans: Tuple[int, ...] = ()
    while place < len(packed):
        kind, line, key_length, value_length = struct.unpack_from("<4Q", packed, place)
        place += 32
        if kind >= 16:
            spans = struct.unpack_from("<12Q", packed, place)
            place += 96
        value_place = place + key_length
        end = value_place + value_length
        yield kind % 16, line, packed[place:value_place].decode("utf-8"), packed[value_place:end].decode("utf-8"), spans
        place = end


def _item(kind: int, line: int, key: str, value: str) -> Item:
    return Pair(key, value, line) if kind == 1 else Comment(value, line)


def items(data: Bytes, *, encoding: str = "utf-8", errors: str = "strict", comments: str = "read") -> List[Item]:
    r"""Returns all comments and pairs in order, each with the number of its line. With comments="raw" the texts of comments
    are as they stand, and with comments="skip" there are none.

    Raises MalformedEscape, which has the items before it, also for one in a comment that is read.

    >>> items(b"# one\na = 1\nb = \\\n    2")
    [Comment(text='one', line=1), Pair(key='a', value='1', line=2), Pair(key='b', value='2', line=3)]
    >>> items(b"# C:\\users\na = 1", comments="raw")
    [Comment(text='C:\\users', line=1), Pair(key='a', value='1', line=2)]
    """
    source, number, flags = _source(data, encoding, errors)
    return _items(source, number, flags + _comments(comments, "skip", "read", "raw"))


def _items(source: bytes, number: int, flags: int) -> List[Item]:
    status, packed, line = _answer("todrenval_items", 4 * len(source), source, number, flags)
    found = [_item(*record[:4]) for record in _records(packed)]
    if status == Status.OK:
        return found
    error = _error_in(source, number, flags, status, line)
    if isinstance(error, MalformedEscape):
        error.items = found
    raise error


def groups(
    data: Bytes, *, encoding: str = "utf-8", errors: str = "strict", comments: str = "raw", raw: bool = False
) -> List[Group]:
    r"""Returns the lines of all pairs, comments and blanks in order, each with the places of its parts and with what is wrong
    in it. Together they are the file, but for a byte order mark. So a linter or an editor can show where something is.

    A malformed escape is no error here. With comments="read" the escapes in comments are resolved, and with raw=True those in
    keys and values aren't. Raises PropertiesError if the file is UTF-16.

    >>> group = groups(b"# one\nport = \\\n  \\u12")[1]
    >>> group.item, group.flaw
    (Pair(key='port', value='\\u12', line=2), Flaw(status=<Status.NOT_ENOUGH_DIGITS: 7>, start=17, line=3, column=3))
    """
    source, number, flags = _source(data, encoding, errors)
    flags += _SPANS + bool(raw) * _RAW + _comments(comments, "read", "raw")
    status, packed, line = _answer("todrenval_items", 8 * len(source), source, number, flags)
    if status != Status.OK:
        raise _error_in(source, number, flags, status, line)
    return [_group(*record) for record in _records(packed)]


def _group(kind: int, line: int, key: str, value: str, spans: Tuple[int, ...]) -> Group:
    item = None if kind == 5 else _item(kind, line, key, value)
    flaw = Flaw(Status(spans[7]), *spans[8:11]) if spans[7] else None
    return Group(item, line, Spans(*spans[:7]), flaw, spans[11] or None)


def loads(data: Bytes, *, encoding: str = "utf-8", errors: str = "strict", comments: str = "skip") -> Dict[str, str]:
    r"""Returns the value of each key. If several pairs have a key, it is that of the last one.

    >>> loads(b"# C:\\users\na = 1\nb : caf\\u00e9\na = 2")
    {'a': '2', 'b': 'café'}
    >>> loads("drink = café".encode("cp1252"), encoding="cp1252")
    {'drink': 'café'}
    """
    source, number, flags = _source(data, encoding, errors)
    found = _items(source, number, flags + _flags(comments))
    return {item.key: item.value for item in found if isinstance(item, Pair)}


def load(
    file: Union[Path, BinaryIO], *, encoding: str = "utf-8", errors: str = "strict", comments: str = "skip"
) -> Dict[str, str]:
    r"""Does what `loads` does, with a path, or with a file that is open in the mode "rb".

    >>> load(io.BytesIO(b"a = 1\n"))
    {'a': '1'}
    """
    if isinstance(file, (str, os.PathLike)):
        with _naming(file):
            return loads(pathlib.Path(file).read_bytes(), encoding=encoding, errors=errors, comments=comments)
    if hasattr(file, "read"):
        data = file.read()
        if isinstance(data, str):
            raise TypeError('a file is to be open for bytes, as by open(path, "rb")')
    else:
        raise TypeError(f"a path or a binary file, not {type(file).__name__}; loads takes bytes")
    return loads(data, encoding=encoding, errors=errors, comments=comments)


@overload
def get(
    data: Bytes, key: str, *, default: str, encoding: str = "utf-8", errors: str = "strict", comments: str = "skip"
) -> str: ...


@overload
def get(
    data: Bytes, key: str, *, default: None = None, encoding: str = "utf-8", errors: str = "strict", comments: str = "skip"
) -> Optional[str]: ...


def get(
    data: Bytes,
    key: str,
    *,
    default: Optional[str] = None,
    encoding: str = "utf-8",
    errors: str = "strict",
    comments: str = "skip",
) -> Optional[str]:
    r"""Returns the value of a key, or the default if no pair has it. It makes no dict.

    >>> get(b"port = 80\nhost = a", "port")
    '80'
    >>> get(b"port = 80", "host", default="localhost")
    'localhost'
    """
    source, number, flags = _source(data, encoding, errors)
    flags += _flags(comments)
    status, value, line = _answer("todrenval_get", 4096, source, number, flags, _utf_8(key))
    if status == Status.NO_KEY:
        return default
    if status != Status.OK:
        raise _error_in(source, number, flags, status, line)
    return value.decode("utf-8")


def set_value(
    data: Bytes,
    key: str,
    value: str,
    *,
    encoding: str = "utf-8",
    errors: str = "strict",
    ascii_only: bool = True,
    comments: str = "skip",
) -> bytes:
    r"""Returns the file with the value of a key set, and with the layout of its line. If no pair has the key, one is
    added at the end. Every other line stays as it is.

    Raises MalformedEscape for one in a pair, and PropertiesError if the file is UTF-16.

    >>> set_value(b"port    = 80\n", "port", "8080")
    b'port    = 8080\n'
    >>> set_value(b"drink : tea\n", "food", "crêpe")
    b'drink : tea\nfood : cr\\u00eape\n'
    """
    return _edited(data, [SetValue(key, value)], encoding, errors, comments, ascii_only)


def set_key(
    data: Bytes,
    key: str,
    value: str,
    *,
    encoding: str = "utf-8",
    errors: str = "strict",
    ascii_only: bool = True,
    comments: str = "skip",
) -> bytes:
    r"""Does what `set_value` does, but prints the whole pair, as `dumps` does with readable=False.

    >>> set_key(b"port    = 80\n", "port", "8080")
    b'port=8080\n'
    """
    return _edited(data, [SetKey(key, value)], encoding, errors, comments, ascii_only)


def remove_key(
    data: Bytes, key: str, *, encoding: str = "utf-8", errors: str = "strict", comments: str = "skip"
) -> bytes:
    r"""Returns the file without the pairs that have a key. Every other line stays as it is.

    >>> remove_key(b"# one\na = 1\nb = 2\n", "a")
    b'# one\nb = 2\n'
    """
    return _edited(data, [RemoveKey(key)], encoding, errors, comments)


def rename_key(
    data: Bytes,
    key: str,
    new_key: str,
    *,
    encoding: str = "utf-8",
    errors: str = "strict",
    ascii_only: bool = True,
    comments: str = "skip",
) -> bytes:
    r"""Returns the file with a key renamed where it stands: in each pair with the key, only the bytes of the key change. If
    the new key is empty, and blanks alone or nothing follow it, `=` comes in its place.

    Raises what `set_value` raises; then KeyError if no pair has the key; and then PropertiesError with the status KEY_TAKEN if
    a pair has the new key, with the line of the first such pair.

    >>> rename_key(b"  port\t: 80\n", "port", "http.port")
    b'  http.port\t: 80\n'
    >>> rename_key(b"port = 80\nhost = a\n", "port", "host")
    Traceback (most recent call last):
    ...
    todrenval.PropertiesError: line 2: A pair has the new key 'host' already.
    """
    return _edited(data, [RenameKey(key, new_key)], encoding, errors, comments, ascii_only)


def remove_with_comment(
    data: Bytes, key: str, *, encoding: str = "utf-8", errors: str = "strict", comments: str = "skip"
) -> bytes:
    r"""Returns the file without the pairs that have a key, and without the comment lines directly above each of them. Every
    other line stays as it is.

    >>> remove_with_comment(b"# one\na = 1\n\n# two\nb = 2\n", "a")
    b'\n# two\nb = 2\n'
    """
    return _edited(data, [RemoveWithComment(key)], encoding, errors, comments)


def comment(data: Bytes, key: str, *, encoding: str = "utf-8", errors: str = "strict") -> List[str]:
    r"""Returns the comment of a key: the texts of the comment lines directly above the last pair with it, each what follows
    the sign and one blank, as it stands. No blank line, no other pair and no separator "#---" of Spring's documents is between.

    Raises KeyError if no pair has the key, MalformedEscape for one in a pair, and PropertiesError if the file is UTF-16.

    >>> comment(b"# the web server\n#   on C:\\users\nport = 80\n", "port")
    ['the web server', '  on C:\\users']
    """
    source, number, flags = _source(data, encoding, errors)
    status, lines, line = _answer("todrenval_comment", 4096, source, number, flags, _utf_8(key))
    if status == Status.NO_KEY:
        raise KeyError(key)
    if status != Status.OK:
        raise _error_in(source, number, flags, status, line)
    return lines.decode("utf-8").split("\n")[:-1]


def set_comment(
    data: Bytes,
    key: str,
    text: Union[str, Iterable[str]],
    *,
    encoding: str = "utf-8",
    errors: str = "strict",
    ascii_only: bool = True,
    comments: str = "skip",
) -> bytes:
    r"""Returns the file with the comment of a key set: the comment lines directly above the last pair with it. The text is a
    list of lines, as `comment` returns it, or a str, which is divided at "\n", "\r" and "\r\n", and whose last empty line
    doesn't count. So [] and "" remove the comment. If the comment has these lines already, nothing changes. Otherwise new lines
    replace the old ones, and every other line stays as it is.

    New lines look like the first old one that has a text: its indent, its sign, the blank after it or none, and its line
    ending. If there is none, they have the indent of the pair, "# ", and the line ending of the pair. If the pair has none,
    they have the last one of the file, or a line feed. Directly below a separator "#---" the sign is "!", and below "!---" it
    is "#". A backslash stays.

    Raises what `set_value` raises, and then KeyError if no pair has the key.

    >>> set_comment(b"  ! old\n  port = 80\n", "port", "the web server\n\non C:\\users")
    b'  ! the web server\n  !\n  ! on C:\\users\n  port = 80\n'
    >>> set_comment(b"host = a\n", "host", comment(b"# one\n#\nport = 80\n", "port"))
    b'# one\n#\nhost = a\n'
    """
    return _edited(data, [SetComment(key, text)], encoding, errors, comments, ascii_only)


def edit(
    data: Bytes,
    edits: Union[Mapping[str, Optional[str]], Iterable[Edit]],
    *,
    encoding: str = "utf-8",
    errors: str = "strict",
    ascii_only: bool = True,
    comments: str = "skip",
) -> bytes:
    r"""Returns the file after several edits, each made to what the earlier ones produced. A mapping has the value that each key is
    to have, or None if the key is to be removed. So do tuples.

    Edits of one kind that follow each other are made together, and all but RenameKey, RemoveWithComment and SetComment are of
    one kind: 20,000 edits of 20,000 pairs take a tenth of a second. Whenever the kind changes, the file is read again. Of
    several texts for a key that are set together, the last one counts.

    Raises what the calls raise: KeyError, or a PropertiesError that names the key, with its line in what the earlier edits produced.

    >>> edit(b"a = 1\nb = 2\n", {"a": "3", "b": None})
    b'a = 3\n'
    >>> edit(b"a = 1\nb = 2\n", [("a", "3"), RemoveKey("b"), SetKey("c", "4")])
    b'a = 3\nc=4\n'
    >>> edit(b"a = 1\n", [RenameKey("a", "b"), SetComment("b", "one"), ("b", "2")])
    b'# one\nb = 2\n'
    """
    each: Iterable[Edit] = edits.items() if isinstance(edits, Mapping) else edits
    return _edited(data, list(each), encoding, errors, comments, ascii_only)


def _edit_record(each: Edit) -> bytes:
    if isinstance(each, SetKey):
        return _record(2, each.key, each.value)
    if isinstance(each, RemoveKey):
        return _record(3, each.key, "")
    if isinstance(each, SetValue):
        return _record(4, each.key, each.value)
    if isinstance(each, RenameKey):
        return _packed(7, _utf_8(each.key), _utf_8(each.new_key, "the new key"))
    if isinstance(each, SetComment):
        return _packed(8, _utf_8(each.key), _comment_text(each.text))
    if isinstance(each, RemoveWithComment):
        return _record(9, each.key, "")
    if type(each) is tuple and len(each) == 2:
        key, value = each
        return _record(3, key, "") if value is None else _record(4, key, value)
    kinds = "a SetValue, a SetKey, a RemoveKey, a RenameKey, a RemoveWithComment, a SetComment"
    raise TypeError(f"an edit is {kinds} or a tuple of a key and a value, not {each!r}")


def _comment_text(text: Union[str, Iterable[str]]) -> bytes:
    if isinstance(text, str):
        return _utf_8(text, "a comment")
    if isinstance(text, (bytes, bytearray)) or not hasattr(text, "__iter__"):
        raise TypeError(f"a comment has to be a str or lines, not {type(text).__name__}")
    return b"".join(_utf_8(line, "a comment") + b"\n" for line in text)


def convert(
    data: Bytes, to: str, *, encoding: str = "utf-8", errors: str = "strict", readable: bool = False
) -> bytes:
    r"""Returns the file in another encoding: ascii, cp1252, iso-8859-1 or utf-8. Everything else stays: comments, blank
    lines, layout, line endings, and what each key, value and comment means.

    A character that `to` doesn't have becomes an escape. Other characters and escapes stay as they are written; but if the
    result is to be readable, each non-ASCII character that `to` has becomes itself. Escapes of ASCII characters stay.

    A byte order mark is dropped, and if the result would begin like one, its first character becomes an escape. Malformed
    escapes are no error: the result has them in the same lines.

    In iso-8859-1 there are no bytes from 80 to 9F, at which cp1252 has other characters: what is there becomes an escape.
    So from iso-8859-1 to iso-8859-1, a file that was written as cp1252 becomes one that Java reads as it was meant.

    >>> convert("# café\nprice : 3 €\n".encode("utf-8"), "ascii")
    b'# caf\\u00e9\nprice : 3 \\u20ac\n'
    >>> convert(b"# caf\\u00e9\nprice : 3 \\u20ac\n", "utf-8", readable=True).decode("utf-8")
    '# café\nprice : 3 €\n'
    >>> convert(b"caf\xe9 : 3 \x80\n", "iso-8859-1", encoding="iso-8859-1")
    b'caf\xe9 : 3 \\u20ac\n'
    """
    target = _TARGETS.get(codecs.lookup(to).name)
    if target is None:
        raise LookupError(f"not an encoding that files are converted to: {to}; use ascii, cp1252, iso-8859-1 or utf-8")
    source, number, flags = _source(data, encoding, errors)
    flags += bool(readable) * _READABLE
    status, result, line = _answer("todrenval_convert", 2 * len(source) + 16, source, number, target, flags)
    if status != Status.OK:
        raise _error_in(source, number, flags, status, line)
    return result


Line = Union[Item, Tuple[str, str]]


def dumps(
    content: Union[Mapping[str, str], Iterable[Line]],
    *,
    encoding: str = "utf-8",
    ascii_only: bool = True,
    readable: bool = True,
    prefix: str = "# ",
    separator: str = "=",
    ending: str = "\n",
) -> bytes:
    r"""Returns a file with these lines: the entries of a mapping, or comments and pairs, as `items` returns them or as
    plain tuples of a key and a value. For utf-16 it is UTF-8.

    Values are written as people write them, and as `set_value` writes them: a space at the end is \u0020, even if it is
    the whole value, one at the front gets a backslash, and other spaces, =, :, # and ! are as they are. With
    readable=False each of these gets a backslash. It reads back the same.

    The prefix comes before the text of a comment: blanks, a # or a !, and any text. The separator comes between a key and
    its value: = or :, with blanks around it or without, or blanks alone. The ending is "\n", "\r\n" or "\r".

    >>> dumps({"port": "80", "drink": "café"})
    b'port=80\ndrink=caf\\u00e9\n'
    >>> dumps([Comment("the web server"), ("port", "80")], prefix="! ", separator=" : ")
    b'! the web server\nport : 80\n'
    >>> dumps({"quote": "Hi you: a=b"}, readable=False)
    b'quote=Hi\\ you\\:\\ a\\=b\n'
    """
    lines: Iterable[Line] = content.items() if isinstance(content, Mapping) else content
    packed = b"".join(_line_record(line) for line in lines)
    if ending not in _ENDINGS:
        raise ValueError(f"an ending is '\\n', '\\r\\n' or '\\r', not {ending!r}")
    flags = bool(ascii_only) * _ASCII_ONLY + bool(readable) * _READABLE + _ENDINGS[ending]
    texts = [_utf_8(prefix, "a prefix"), _utf_8(separator, "a separator")]
    for text, status in zip(texts, (Status.BAD_PREFIX, Status.BAD_SEPARATOR)):
        if not text:
            raise PropertiesError(status)
    if ascii_only or not _is_latin_1(encoding):
        return _result("todrenval_write", len(packed), packed, _number(encoding), flags, *texts)
    # The call has no flag for this: the conversion makes escapes of what only cp1252 has.
    written = _result("todrenval_write", len(packed), packed, _ENCODINGS["utf-8"], flags, *texts)
    return convert(written, "iso-8859-1", errors="replace")


def _line_record(line: Line) -> bytes:
    if isinstance(line, Comment):
        return _packed(0, b"", _utf_8(line.text, "a comment"))
    if isinstance(line, Pair) or (type(line) is tuple and len(line) == 2):
        return _record(1, line[0], line[1])
    raise TypeError(f"a line is a Comment, a Pair or a tuple of a key and a value, not {line!r}")


def dump(
    content: Union[Mapping[str, str], Iterable[Line]],
    file: Union[Path, BinaryIO],
    *,
    encoding: str = "utf-8",
    ascii_only: bool = True,
    readable: bool = True,
    prefix: str = "# ",
    separator: str = "=",
    ending: str = "\n",
) -> None:
    r"""Writes what `dumps` returns to a file that is open in the mode "wb"; or to a path, whole or not at all. A pipe,
    a device or the like stays what it is, and is written to.

    >>> file = io.BytesIO()
    >>> dump({"port": "80"}, file, separator=" = ")
    >>> file.getvalue()
    b'port = 80\n'
    """
    named = {"prefix": prefix, "separator": separator, "ending": ending}
    data = dumps(content, encoding=encoding, ascii_only=ascii_only, readable=readable, **named)
    if isinstance(file, (str, os.PathLike)):
        with _naming(file):
            if _is_regular(file):
                _replace(file, data)
            else:
                with io.open(file, "wb") as special:
                    special.write(data)
    elif hasattr(file, "write"):
        file.write(data)
    else:
        raise TypeError(f"a path or a binary file, not {type(file).__name__}; dumps returns bytes")


def findings(data: Bytes, *, encoding: str = "utf-8", errors: str = "strict") -> List[Finding]:
    r"""Returns what is wrong, in the order of the lines: the first malformed escape of each, and each pair whose key an
    earlier pair has. Unlike the other functions it goes on after a malformed escape, and it tells whether the escape is
    in a comment.

    With errors="replace", keys that differ in bytes that aren't text may read as one key, which then counts as repeated.

    >>> for finding in findings(b"a = 1\nb = \\u12\n a = 2\n"):
    ...     print(finding.line, finding.column, finding.reason)
    2 5 Malformed \uxxxx encoding: not enough digits.
    3 2 repeats the key of line 1
    """
    source, number, flags = _source(data, encoding, errors)
    if flags:
        # todrenval_findings takes none.
        status, _, line = _answer("todrenval_get", 4096, source, number, flags, b"")
        if status == Status.NOT_TEXT:
            raise _error_in(source, number, flags, status, line)
    found = sorted(_findings(source, number), key=lambda finding: finding.line)
    columns = _columns(source, number) if found else {}
    return [finding._replace(column=columns.get(finding.line)) for finding in found]


def _columns(source: bytes, number: int) -> Dict[int, int]:
    """Returns for the line in which a pair or comment begins which of its bytes the first malformed escape is, or else the key."""
    columns: Dict[int, int] = {}
    if _in_force(source, number) < 2:
        packed = _result("todrenval_items", 8 * len(source), source, number, _SPANS)
        for _, line, _, _, spans in _records(packed):
            if not spans[7]:
                columns[line] = spans[1] - spans[0] + 1
            elif spans[9] == line:
                columns[line] = spans[10]
    return columns


def _findings(source: bytes, number: int) -> List[Finding]:
    """Returns the malformed escapes and then the repeated keys, each in the order of the lines."""
    packed = _result("todrenval_findings", 4096, source, number)
    found: List[Finding] = []
    place = 0
    while place < len(packed):
        kind, line, first, key_length = struct.unpack_from("<4Q", packed, place)
        place += 32
        key = packed[place : place + key_length].decode("utf-8")
        place += key_length
        named = FindingKind(kind)
        if named == FindingKind.REPEATED_KEY:
            found.append(Finding(line, named, key, first))
        else:
            found.append(Finding(line, named, in_comment=named.name in Status.__members__ and first == 1))
    return found


class Document(MutableMapping[str, str]):
    r"""A file as a mapping of its keys to their values. What is set or deleted is an edit of the bytes, as `set_value` and
    `remove_key` make it, so that everything else stays as it is.

    >>> document = Document(b"# the web server\nport    = 80\nhost = a\n")
    >>> document["port"]
    '80'
    >>> document["port"] = "8080"
    >>> del document["host"]
    >>> bytes(document)
    b'# the web server\nport    = 8080\n'
    >>> bytes(document | {"port": "81", "user": "jo"})
    b'# the web server\nport    = 81\nuser = jo\n'

    Threads may share a document. To get, set, rename or delete a key, to get or set its comment, `bytes`, `line`, `copy` and
    `save` are each one step that no other thread sees half done. `pop`, `setdefault`, `update`, `|=` and the like take several
    steps, so hold a lock of your own. As with a dict, a loop over a document raises RuntimeError if another thread adds or
    deletes a key: loop over a copy.
    """

    def __init__(
        self,
        data: Bytes = b"",
        *,
        encoding: str = "utf-8",
        errors: str = "strict",
        ascii_only: bool = True,
        comments: str = "skip",
        path: Optional[Path] = None,
    ) -> None:
        self._data = _bytes(data)
        self._read = {"encoding": encoding, "errors": errors, "comments": comments}
        self._ascii_only = ascii_only
        self._values = loads(self._data, **self._read)
        self._edits: List[Edit] = []
        # The line of each key, once it was asked for.
        self._lines: Optional[Dict[str, int]] = None
        self._is_utf_16 = _in_force(self._data, _number(encoding)) > 1
        #: Where `save` writes it. What is given is made absolute here.
        self.path: Optional[Path] = None if path is None else _absolute(path)
        # What the file has, or None if there is none.
        self._saved: Optional[bytes] = self._data
        # Where the bytes of _saved are, if it is known.
        self._place: Optional[str] = None
        # Held while bytes, edits and values don't belong together.
        self._lock = threading.RLock()

    def __getitem__(self, key: str) -> str:
        return self._values[key]

    def __setitem__(self, key: str, value: str) -> None:
        _record(4, key, value)
        self._refuse_utf_16()
        with self._lock:
            self._edits.append(SetValue(key, value))
            self._values[key] = value
            self._lines = None

    def __delitem__(self, key: str) -> None:
        with self._lock:
            if key in self._values:
                self._refuse_utf_16()
            del self._values[key]
            self._edits.append(RemoveKey(key))
            self._lines = None

    def _refuse_utf_16(self) -> None:
        if self._is_utf_16:
            raise PropertiesError(Status.UNSUPPORTED)

    def __iter__(self) -> Iterator[str]:
        return iter(self._values)

    def __reversed__(self) -> Iterator[str]:
        return reversed(self._values)

    def __len__(self) -> int:
        return len(self._values)

    def __or__(self, other: Mapping[str, str]) -> Document:
        """A copy, in which each key of the other mapping has its value from there."""
        if not isinstance(other, Mapping):
            return NotImplemented
        made = self.copy()
        made.update(other)
        return made

    def __ror__(self, other: Mapping[str, str]) -> Dict[str, str]:
        """A dict, since what comes first isn't a document."""
        if not isinstance(other, Mapping):
            return NotImplemented
        return {**other, **self}

    def __ior__(self, other: Union[Mapping[str, str], Iterable[Tuple[str, str]]]) -> Document:
        self.update(other)
        return self

    def __repr__(self) -> str:
        return f"{type(self).__name__}({bytes(self)!r})"

    def __bytes__(self) -> bytes:
        """The file with all edits."""
        with self._lock:
            if self._edits:
                data = edit(self._data, self._edits, ascii_only=self._ascii_only, **self._read)
                self._data, self._edits = data, []
            return self._data

    def line(self, key: str) -> int:
        """Returns the number of the line in which the pair begins that gives a key its value, in what `bytes` returns.

        >>> document = Document(b"# the web server\\nport = http\\n", path="/app.properties")
        >>> print(f"{document.path}:{document.line('port')}: port is a number, not {document['port']}")
        /app.properties:2: port is a number, not http
        """
        with self._lock:
            if key not in self._values:
                raise KeyError(key)
            if self._lines is None:
                # What could not be read was refused when the document was made.
                pairs = items(bytes(self), **{**self._read, "comments": "skip"})
                self._lines = {pair.key: pair.line for pair in pairs if isinstance(pair, Pair)}
            return self._lines[key]

    def rename(self, key: str, new_key: str) -> None:
        r"""Renames a key where it stands, as `rename_key` does, and raises what that raises. This call and the next three read
        the whole file. A loop that is under way keeps the old key.

        >>> document = Document(b"# the web server\nport = 80\nhost = a\n")
        >>> document.rename("port", "web.port")
        >>> document.set_comment("host", "where it is")
        >>> bytes(document)
        b'# the web server\nweb.port = 80\n# where it is\nhost = a\n'
        """
        with self._lock:
            self._data = rename_key(bytes(self), key, new_key, ascii_only=self._ascii_only, **self._read)
            self._values = {new_key if each == key else each: value for each, value in self._values.items()}
            self._lines = None

    def remove_with_comment(self, key: str) -> None:
        """Deletes a key, as `del` does, and the comment lines directly above each of its pairs."""
        with self._lock:
            if key not in self._values:
                raise KeyError(key)
            self._data = remove_with_comment(bytes(self), key, **self._read)
            del self._values[key]
            self._lines = None

    def comment(self, key: str) -> List[str]:
        """Returns the comment of a key, as the function `comment` does: a list with the text of each comment line."""
        return comment(bytes(self), key, encoding=self._read["encoding"], errors=self._read["errors"])

    def set_comment(self, key: str, text: Union[str, Iterable[str]]) -> None:
        """Sets the comment of a key, as the function `set_comment` does. If the document reads comments, a malformed escape in
        the text is a MalformedEscape, and nothing changes."""
        with self._lock:
            data = set_comment(bytes(self), key, text, ascii_only=self._ascii_only, **self._read)
            if self._read["comments"] == "read":
                loads(data, **self._read)
            self._data = data
            self._lines = None

    def copy(self) -> Document:
        """Returns a document with the same bytes and the same path, which changes on its own."""
        other = type(self).__new__(type(self))
        other.__setstate__(self.__getstate__())
        return other

    __copy__ = copy

    def __getstate__(self) -> Dict[str, Any]:
        with self._lock:
            state = {**self.__dict__, "_values": dict(self._values), "_edits": list(self._edits)}
        del state["_lock"]
        return state

    def __setstate__(self, state: Dict[str, Any]) -> None:
        self.__dict__.update(state, _lock=threading.RLock())

    def save(self) -> None:
        """Writes the file to `path` if the document has changed: whole or not at all, by a new file that is synced and takes
        the place of the old one, with its mode and its owner. Raises PropertiesError if the file has other bytes than `open`
        read or `save` wrote there last, and FileNotFoundError if it is gone. A file that `open` didn't find is made, unless
        there is nothing to write."""
        if self.path is None:
            raise ValueError("a document without a path; bytes(document) has its bytes")
        with self._lock:
            data = bytes(self)
            if data != (self._saved or b""):
                place = os.fspath(self.path)
                if not _is_regular(place):
                    raise _not_regular(place)
                with _naming(place):
                    if place == self._place:
                        _replace(place, data, expected=(self._saved, data))
                    else:
                        _replace(place, data)
                self._saved, self._place = data, place

    def __enter__(self) -> Document:
        return self

    def __exit__(
        self, kind: Optional[Type[BaseException]], error: Optional[BaseException], trace: Optional[TracebackType]
    ) -> None:
        """Saves it, unless an error was raised."""
        if kind is None:
            self.save()


def open(  # noqa: A001
    path: Path,
    *,
    encoding: str = "utf-8",
    errors: str = "strict",
    ascii_only: bool = True,
    comments: str = "skip",
    create: bool = False,
) -> Document:
    """Returns the file at a path as a Document, which a `with` saves at its end if nothing was raised. With create=True a file
    that isn't there is read as an empty one, and made when the document is saved with something in it.

    >>> import tempfile
    >>> path = tempfile.mktemp()
    >>> with open(path, create=True) as settings:
    ...     settings["port"] = "80"
    >>> with open(path) as settings:
    ...     settings["port"] = "8080"
    >>> pathlib.Path(path).read_bytes()
    b'port=8080\\n'
    >>> os.remove(path)
    """
    place = _absolute(path)
    if not _is_regular(place):
        raise _not_regular(path)
    data: Optional[bytes] = None
    try:
        data = pathlib.Path(place).read_bytes()
    except FileNotFoundError:
        # Without its folder the file couldn't be made.
        if not create or not os.path.isdir(os.path.dirname(os.path.realpath(place))):
            raise
    named = {"encoding": encoding, "errors": errors, "comments": comments}
    with _naming(path):
        document = Document(data or b"", ascii_only=ascii_only, path=place, **named)
    document._saved, document._place = data, place
    return document


def _absolute(path: Path) -> str:
    """The path from the root. `os.path.abspath` would drop a link that `..` follows."""
    text = os.fspath(path)
    return text if os.path.isabs(text) else os.path.join(os.getcwd(), text)


def _is_regular(path: Path) -> bool:
    """Returns whether a path is that of a regular file, or of none, which may be made."""
    try:
        return stat.S_ISREG(os.stat(path).st_mode)
    except FileNotFoundError:
        return True


def _not_regular(path: Path) -> OSError:
    return OSError(errno.EINVAL, "Not a regular file", os.fspath(path))


def _replace(path: Path, data: bytes, expected: Tuple[Optional[bytes], ...] = ()) -> None:
    """Puts bytes in the place of a file, whole or not at all: into a new file in its folder, which is renamed. Raises an error
    instead if the file has none of the bytes that are expected, of which None stands for no file."""
    real = os.path.realpath(path)
    folder, name = os.path.split(real)
    # The name may be as long as a name can be.
    new = os.path.join(folder, f".{name[:50]}.{secrets.token_hex(8)}")
    try:
        old: Optional[os.stat_result] = os.stat(real)
    except FileNotFoundError:
        old = None
    # Opened first: once the file has its new bytes, only a sync that fails can raise.
    folder_descriptor = os.open(folder, os.O_RDONLY)
    try:
        descriptor = os.open(new, os.O_WRONLY | os.O_CREAT | os.O_EXCL, 0o666 if old is None else 0o600)
        try:
            with os.fdopen(descriptor, "wb") as file:
                file.write(data)
                if old is not None:
                    made = os.fstat(descriptor)
                    if (made.st_uid, made.st_gid) != (old.st_uid, old.st_gid):
                        os.fchown(descriptor, old.st_uid, old.st_gid)
                    os.fchmod(descriptor, stat.S_IMODE(old.st_mode))
                file.flush()
                os.fsync(descriptor)
            if expected and not (None in expected and not os.path.exists(real)):
                if pathlib.Path(real).read_bytes() not in expected:
                    raise PropertiesError(None, None, "The file has changed since it was read.")
            os.replace(new, real)
        except BaseException:
            os.unlink(new)
            raise
        os.fsync(folder_descriptor)
    finally:
        os.close(folder_descriptor)
