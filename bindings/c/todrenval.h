/* Reads, checks, edits, converts and writes Java .properties files, in memory.
 *
 *     todrenval_get                    the value of a key
 *     todrenval_items                  all pairs with their lines; comments, places and parts of a source, by flags
 *     todrenval_findings               malformed escapes and repeated keys
 *     todrenval_edit                   the source after a list of edits
 *     todrenval_set_value_new          the source with a value set, and the layout of its line kept
 *     todrenval_set_key_new            the source with a pair set, and its line rewritten
 *     todrenval_remove_key_new         the source without the pairs of a key
 *     todrenval_rename_key             the source with a key renamed in place
 *     todrenval_remove_with_comment    the source without a key and the comment lines directly above it
 *     todrenval_comment                the comment of a key, a line for each of those lines
 *     todrenval_set_comment            the source with the comment of a key set
 *     todrenval_convert                the source in another encoding
 *     todrenval_write                  the bytes of comments and pairs
 *     todrenval_walk                   a cursor at the front of a packed list
 *     todrenval_next_item              the next item of a list
 *     todrenval_next_spanned           the next item and its places
 *     todrenval_next_finding           the next finding of a list
 *     todrenval_find                   the last pair with a key in a list of items
 *     todrenval_end_of                 where the items of a part end
 *     todrenval_append                 adds an edit, or a line to write, to a list
 *     todrenval_push                   the same, in memory that grows
 *     todrenval_encoding               the number of the encoding that a label means
 *     todrenval_status_text            a status in words
 *     todrenval_reason                 the same, as a C string
 *     todrenval_version                the version of the interface
 *     todrenval_release                the release of the library, as a number
 *     todrenval_runs_here              whether this processor has what the library needs
 *
 * This prints a value, or why there is none:
 *
 *     struct todrenval_result port = todrenval_get_new(file, length, TODRENVAL_UTF_8, 0, "port", 4);
 *     char reason[TODRENVAL_REASON_ROOM];
 *     puts(port.status == TODRENVAL_OK ? port.bytes : todrenval_reason(port.status, reason));
 *     free(port.bytes);
 *
 * bindings/c/example.c is a program, and docs/C.md says how to build and link. The functions are written and proved in
 * Rattle; only what is `static inline` here is C. A call that gives bytes has two forms: todrenval_get writes them into
 * memory of the caller, and todrenval_get_new, which calls it, into memory that it takes by malloc.
 * todrenval_status_text has only the first form, and the calls for one edit have only the second.
 *
 * What every call into memory of the caller has in common:
 *
 * - Bytes go in as a pointer and a length. The call reads them and keeps no pointer to them.
 * - The result goes to `out`, which has room for `room` bytes. *length is set to the length of the result, and *line to
 *   the number of the line that an error is in, or to 0 if there is no error or no line. Lines are numbered from 1.
 * - The call returns one of enum todrenval_status. If the room is too small, it returns TODRENVAL_NO_ROOM, *length is
 *   the room that is needed, and `out` is as it was. With any other status but TODRENVAL_OK, *length is 0 and `out` is
 *   as it was; but at a malformed escape todrenval_items gives the items before it, and if todrenval_edit refuses an
 *   edit, *length is the index of that edit. Past its result, `out` always is as it was.
 * - If there are several errors, it reports the first of these: the encoding, the target, the flags, a key, a text, a
 *   prefix or a separator that isn't UTF-8, the packed list, from its front on, bytes that aren't text, and then the
 *   rest.
 *
 * How much room: try four times the length of the source for items, eight times with spans, twice its length for a
 * conversion, the length of the list and some more for what is written, and once the length of the source and some more
 * for everything else. If that is too little, call again with the room that *length says, which repeats the work. A
 * call with room for 0 bytes asks for the length.
 *
 * The caller's obligations:
 *
 * - A pointer to no bytes may be null. Every other pointer is valid.
 * - `out` has `room` bytes, and they overlap no input, nor *length nor *line; those two are two variables.
 * - Nothing else changes the inputs or uses `out`, *length or *line during the call.
 *
 * The inputs may be any bytes: an invalid source, key or list does no harm and returns an error status.
 *
 * Any thread may make any call at any time: there is no state, nothing to set up and nothing to free. A call takes
 * memory by malloc, and has freed it when it returns. Don't call from a signal handler.
 */
#ifndef TODRENVAL_H
#define TODRENVAL_H

#include <stdbool.h>
#include <stddef.h>
#include <stdint.h>
#include <stdlib.h>
#include <string.h>

/* A cast for C and for C++. Only the functions below need it. */
#ifdef __cplusplus
#define TODRENVAL_CAST(type, value) static_cast<type>(value)
extern "C" {
#else
#define TODRENVAL_CAST(type, value) ((type)(value))
#endif

/* The interface that this header describes. todrenval_version returns that of the library. */
#define TODRENVAL_VERSION 4

/* The release that this header came with, as the programs and the Python package have it, and the same as a number to
 * compare: 1.28.0 is 12800. todrenval_release returns the number of the library. build.sh sets both. */
#define TODRENVAL_RELEASE "0"
#define TODRENVAL_RELEASE_NUMBER 0

/* What a call returns. */
enum todrenval_status {
    TODRENVAL_OK = 0,
    TODRENVAL_NO_ROOM = 1,           /* *length bytes are needed in `out` */
    TODRENVAL_NO_KEY = 2,            /* _get, _edit, _rename_key, _comment, _set_comment: no pair has the key */
    TODRENVAL_NO_MEMORY = 3,         /* malloc or realloc returned null */
    TODRENVAL_UNKNOWN_ENCODING = 4,  /* no number of enum todrenval_encoding or todrenval_target */
    TODRENVAL_NOT_UTF_8 = 5,         /* a key, a text, a prefix, a separator or a text of a list isn't UTF-8 */
    TODRENVAL_BAD_LIST = 6,          /* a packed list ends too early, or has a record that it may not have */
    TODRENVAL_NOT_ENOUGH_DIGITS = 7, /* fewer than four characters follow a \u in the line */
    TODRENVAL_NOT_HEX = 8,           /* one of the four characters after a \u isn't a hexadecimal digit */
    TODRENVAL_INVALID_CHARACTER = 9, /* an escape is a surrogate without its partner */
    TODRENVAL_TOO_MANY_LINES = 10,   /* never comes: no source in memory has so many lines */
    TODRENVAL_UNSUPPORTED = 11,      /* a source in UTF-16 can't be edited, nor gives it spans or comments of keys */
    TODRENVAL_BAD_PREFIX = 12,       /* todrenval_write: a comment can't begin so */
    TODRENVAL_BAD_SEPARATOR = 13,    /* todrenval_write: a key and a value can't be separated so */
    TODRENVAL_EMPTY_KEY = 14,        /* todrenval_write: an empty key, and blanks alone as the separator */
    TODRENVAL_UNKNOWN_FLAGS = 15,    /* flags that the call doesn't take, or not together */
    TODRENVAL_NOT_TEXT = 16,         /* with TODRENVAL_STRICT: the bytes of a line aren't text of the encoding */
    TODRENVAL_KEY_TAKEN = 17         /* todrenval_rename_key, _edit: a pair has the new key, the first one in *line */
};

/* How the bytes of a source are read, and an edit or a list is written. A byte order mark at the front of a source
 * overrides it. What isn't UTF-8 or UTF-16 is read as U+FFFD, or refused with TODRENVAL_STRICT. */
enum todrenval_encoding {
    TODRENVAL_WINDOWS_1252 = 0, /* ISO 8859-1, but for 27 of the bytes from 80 to 9F */
    TODRENVAL_UTF_8 = 1,
    TODRENVAL_UTF_16LE = 2, /* sources can't be edited, nor have spans; todrenval_write writes UTF-8 */
    TODRENVAL_UTF_16BE = 3  /* likewise */
};

/* What todrenval_convert converts to. No encoding has one of these numbers, so neither is taken for the other. */
enum todrenval_target {
    TODRENVAL_TO_WINDOWS_1252 = 16,
    TODRENVAL_TO_UTF_8 = 17,
    TODRENVAL_TO_ASCII = 18, /* reads the same in ISO 8859-1, windows-1252 and UTF-8 */
    TODRENVAL_TO_LATIN_1 = 19 /* reads the same in ISO 8859-1 and windows-1252, as Properties.load(InputStream) of Java
                                 reads it: U+0080 to U+009F become escapes, and so does what is past U+00FF */
};

/* Flags: 0, one of these, or several, as in TODRENVAL_ASCII_ONLY | TODRENVAL_READABLE. A call refuses flags that don't
 * apply to it, and any other bit. */
enum todrenval_flag {
    /* Each non-ASCII character that is put in is an escape: todrenval_edit, _rename_key, _set_comment, _write. */
    TODRENVAL_ASCII_ONLY = 1,
    /* todrenval_write: values are written as people write them. todrenval_convert: an escape of a non-ASCII character
     * that the target has becomes that character. */
    TODRENVAL_READABLE = 2,
    /* Comments are read: their escapes are resolved, and a malformed one is an error. todrenval_get, _items, _edit,
     * _rename_key, _remove_with_comment, _set_comment. Without this flag, and without the two for todrenval_items that
     * give comments as they stand, comments are passed over, as in Java, so one may be `# C:\users`. */
    TODRENVAL_READ_COMMENTS = 4,
    /* Lines end in CR LF, or in CR, and not in LF: todrenval_write. It takes one of the two at most. */
    TODRENVAL_CRLF = 8,
    TODRENVAL_CR = 16,
    /* A source whose bytes aren't text of the encoding is refused as TODRENVAL_NOT_TEXT: by all calls with flags but
     * todrenval_write. A byte 0 isn't text in UTF-8 without a byte order mark: that is how UTF-16 looks when its mark is
     * missing. *line is the first line with such a byte; or, if there is none, the first one that isn't text. In
     * windows-1252 every byte is text, but the byte order mark of UTF-32 isn't: line 1. */
    TODRENVAL_STRICT = 32,
    /* Comments are given as they stand, and nothing in them is an error: todrenval_items, which takes one of this and
     * TODRENVAL_READ_COMMENTS at most. */
    TODRENVAL_RAW_COMMENTS = 64,
    /* Keys and values are given as they stand, with their escapes: todrenval_items. Lines are joined. */
    TODRENVAL_RAW = 128,
    /* Every group of lines is given, blank ones too, and with its places: todrenval_items. */
    TODRENVAL_SPANS = 256,
    /* More bytes of the source follow these: todrenval_items, without TODRENVAL_SPANS. */
    TODRENVAL_MORE = 512,
    /* Lines were written before those of the list, so none begins a file: todrenval_write. */
    TODRENVAL_GOES_ON = 4096,
    /* Each character that is put in is an escape, unless it is U+0000 to U+007F or U+00A0 to U+00FF, which ISO 8859-1
     * and windows-1252 write alike: todrenval_edit, _rename_key, _set_comment. In UTF-8 it is TODRENVAL_ASCII_ONLY.
     * With that flag it changes nothing. */
    TODRENVAL_LATIN_1 = 8192
};

/* What an item of a source is, and a line to write. */
enum todrenval_item_kind {
    TODRENVAL_COMMENT = 0, /* no key; the value is the text after the # or !, less the blanks at its ends */
    TODRENVAL_PAIR = 1,
    TODRENVAL_BLANK = 5, /* with TODRENVAL_SPANS alone: no key and no value */
    TODRENVAL_END = 6    /* with TODRENVAL_MORE alone, and last: todrenval_end_of says what it holds */
};

/* What an edit does. None of these numbers is that of a kind of item, so a list of items isn't taken for a list of
 * edits. */
enum todrenval_edit_kind {
    TODRENVAL_EDIT_SET_KEY = 2,            /* the whole pair becomes `key=value` */
    TODRENVAL_EDIT_REMOVE_KEY = 3,         /* all pairs with the key go; no value */
    TODRENVAL_EDIT_SET_VALUE = 4,          /* the value is set, and the layout of its line kept */
    TODRENVAL_EDIT_RENAME_KEY = 7,         /* the key is renamed where it stands; the value is the new key */
    TODRENVAL_EDIT_SET_COMMENT = 8,        /* the comment of the key is set; the value is its text */
    TODRENVAL_EDIT_REMOVE_WITH_COMMENT = 9 /* all pairs with the key go, with the comment lines above; no value */
};

/* What is wrong in a line. */
enum todrenval_finding_kind {
    TODRENVAL_FOUND_REPEATED_KEY = 0, /* an earlier pair, in line `first`, has the key */
    TODRENVAL_FOUND_NOT_ENOUGH_DIGITS = 1,
    TODRENVAL_FOUND_NOT_HEX = 2,
    TODRENVAL_FOUND_INVALID_CHARACTER = 3
};

/* Packed lists.
 *
 * A list is its records, one after another, with nothing before, between or after them. A record is four numbers of 8
 * bytes, unsigned and little endian, and then bytes of texts, which are UTF-8:
 *
 *     an item, an edit, a line to write: kind, line, length of the key, length of the value; key; value
 *     a finding:                         kind, line, first, length of the key;               key
 *     an item with spans:                kind + 16, line, the two lengths; twelve numbers;   key; value
 *     TODRENVAL_END:                     kind, lines, 0, 16; two numbers: length, encoding
 *
 * A malformed escape has no key, and in the place of `first` it has 1 if it is in a comment, and 0 if it isn't. The
 * twelve numbers are those of struct todrenval_spans, in its order.
 *
 * Edits and lines to write may have any number as their `line`. So the list that todrenval_items gives without spans
 * can be passed to todrenval_write as it is. todrenval_edit refuses a list of items, and todrenval_write a list of
 * edits, and both refuse one with spans, unless it is empty. todrenval_write refuses TODRENVAL_END too, which is the
 * last TODRENVAL_END_SIZE bytes of a list that has it. The functions below walk these lists and make them. */

/* The bytes of a record before its texts, or before its spans. */
#define TODRENVAL_RECORD_SIZE 32

/* The bytes of its spans, and what is added to the kind of a record that has them. */
#define TODRENVAL_SPANS_SIZE 96
#define TODRENVAL_WITH_SPANS 16

/* The bytes of a record TODRENVAL_END. */
#define TODRENVAL_END_SIZE 48

/* An item. Its texts are in the list, and end in no zero byte. */
struct todrenval_item {
    uint64_t kind; /* enum todrenval_item_kind */
    uint64_t line; /* the number of the line that it begins in */
    uint8_t const *key;
    size_t key_length;
    uint8_t const *value;
    size_t value_length;
};

/* Where a group of lines and its parts are in the source, in bytes from its front, and what is wrong in it. The places
 * up to `next` don't descend. What is between two of them is: an indent; the key, or the sign of a comment; the
 * separator; the value, or the text of a comment; blanks after a comment; the line ending. So these are the group, and
 * the groups after a byte order mark are the source. In a blank group, all that comes before the line ending is indent.
 *
 * A backslash, a line ending and blanks that join two lines belong to the part that follows them, so the value of
 * "a=\\\n b" is at 2. The value of a pair ends where the last line of its group ends, behind a last backslash too. */
struct todrenval_spans {
    uint64_t start, key_start, key_end, value_start, value_end, end, next;
    uint64_t flaw;        /* the status of the first malformed escape of its texts, or 0 */
    uint64_t flaw_start;  /* where the backslash of that escape is */
    uint64_t flaw_line;   /* the line that it is in, which may come after the one that the group begins in */
    uint64_t flaw_column; /* it is this byte of that line, counted from 1 */
    uint64_t ill_formed;  /* the first line of the group whose bytes aren't text of the encoding, or 0 */
};

/* Where the items of a part end, and the source goes on. */
struct todrenval_end {
    size_t length;     /* how many bytes of the part they were read from */
    uint64_t lines;    /* how many line endings these bytes have: what comes later is so many lines further on */
    uint32_t encoding; /* enum todrenval_encoding: the one for the bytes that come later; that of the source, if length
                          isn't 0 */
};

/* A finding. The key of a malformed escape is empty, and its `first` is 0. */
struct todrenval_finding {
    uint64_t kind; /* enum todrenval_finding_kind */
    uint64_t line;
    uint64_t first;
    bool in_comment; /* whether a malformed escape is in a comment, which Java passes over */
    uint8_t const *key;
    size_t key_length;
};

/* Where a walk through a list is, and how many bytes come after that place. */
struct todrenval_cursor {
    uint8_t const *next;
    size_t left;
};

/* A list that is being made, in memory of the caller: room for `room` bytes, of which `length` hold records. */
struct todrenval_list {
    uint8_t *bytes;
    size_t room;
    size_t length;
};

/* Sets *length to the length of the value of a key, and writes the value to `out` in UTF-8. If several pairs have the
 * key, it is the value of the last one. A malformed escape of any pair is an error, even after that pair, and with
 * TODRENVAL_READ_COMMENTS one in a comment is too.
 *
 * Each call reads the whole source. To look up several keys, make one list of items, and call todrenval_find.
 *
 * Returns TODRENVAL_OK, _NO_ROOM, _NO_KEY, _NO_MEMORY, _UNKNOWN_ENCODING, _UNKNOWN_FLAGS, _NOT_UTF_8 (of the key),
 * _NOT_TEXT, _NOT_ENOUGH_DIGITS, _NOT_HEX or _INVALID_CHARACTER. */
int todrenval_get(uint8_t const *source, size_t source_length, uint32_t encoding, uint32_t flags, uint8_t const *key,
                  size_t key_length, uint8_t *out, size_t room, size_t *length, size_t *line);

/* Writes the packed list of all pairs, in order, each with the number of the line that it begins in; and of comments
 * among them, with TODRENVAL_READ_COMMENTS or TODRENVAL_RAW_COMMENTS.
 *
 * At a malformed escape `out` gets the items before it, *length is how many bytes they take, and *line is the number of
 * the line that the pair or comment with the escape begins in. (If the room is too small for these items, it returns
 * _NO_ROOM instead.) Keys and values that are given as they stand have no such error, nor have comments that are given
 * so or passed over.
 *
 * With TODRENVAL_SPANS all groups of lines come, each with its spans: blank ones, comments and pairs. No malformed
 * escape is an error then: the spans of its group say it, and the texts of that group are given as they stand. The
 * texts of comments are given as they stand, unless TODRENVAL_READ_COMMENTS resolves them. A source in UTF-16 has no
 * spans: todrenval_convert makes UTF-8 of it, and the places are those of its result.
 *
 * With TODRENVAL_MORE, the source is only a part. It is read up to its last line ending that no backslash stands
 * before, and that line ending is left. No bytes after the part can change the items of what is read. They come, and
 * then TODRENVAL_END, unless an escape in them is malformed. The next part is what is left and bytes that follow, in
 * the encoding that TODRENVAL_END says; so a character, a byte order mark or a CR LF may be cut anywhere. Add the lines
 * of each end to the numbers of all lines that come later. The last part, which no bytes follow, is read without the
 * flag. All that these calls give is what one call would give for the whole, up to the same error.
 *
 * If an end says 0 bytes, more are needed: let the next part be twice as long, and the time for all parts stays linear.
 * Parts of 64 KiB or more cost little more than the whole. With TODRENVAL_STRICT each part is looked at by itself, up
 * to its end: items, or a malformed escape, may come before a line that isn't text, the first such line of a part may
 * be another than that of the whole, and in UTF-8 a byte 0 is no text in a part without a byte order mark, whatever
 * the first one has.
 *
 * Returns TODRENVAL_OK, _NO_ROOM, _NO_MEMORY, _UNKNOWN_ENCODING, _UNKNOWN_FLAGS, _NOT_TEXT, _NOT_ENOUGH_DIGITS,
 * _NOT_HEX, _INVALID_CHARACTER or _UNSUPPORTED (of UTF-16 with spans). */
int todrenval_items(uint8_t const *source, size_t source_length, uint32_t encoding, uint32_t flags, uint8_t *out,
                    size_t room, size_t *length, size_t *line);

/* Writes the packed list of what is wrong: first the malformed escapes, of each logical line the first one, in the
 * order of the lines, and then the pairs whose key an earlier pair has, in that order too. Pairs with a malformed
 * escape are left out of the latter. If nothing is wrong, *length is 0.
 *
 * Lines that aren't text of the encoding are not reported. In them, what isn't text is read as U+FFFD, so keys that
 * differ in their bytes may read as one key, which is then reported as repeated: in UTF-8, the second of the lines
 * "\xe4=1" and "\xf6=2". (`propedit check` reports such lines, and compares no keys with U+FFFD then.)
 *
 * Returns TODRENVAL_OK, _NO_ROOM, _NO_MEMORY or _UNKNOWN_ENCODING. */
int todrenval_findings(uint8_t const *source, size_t source_length, uint32_t encoding, uint8_t *out, size_t room,
                       size_t *length, size_t *line);

/* Writes the source after a packed list of edits, in order: each edit is made to what those before it gave.
 * todrenval_push makes such a list, and todrenval_set_value_new, _set_key_new and _remove_key_new make one edit.
 *
 * TODRENVAL_EDIT_SET_VALUE: the last pair with the key gets the value, and keeps its indent, the spelling of its key,
 * its separator and its line ending. If no pair has the key, one is added at the end, with the separator of the last
 * pair and the last line ending of the source, but with no indent.
 *
 * TODRENVAL_EDIT_SET_KEY: `key=value` replaces the whole last pair, but for its line ending; or it is added at the end,
 * with a line feed after it.
 *
 * TODRENVAL_EDIT_REMOVE_KEY: the pairs with the key go, of which there may be none. If what is left would begin like a
 * byte order mark, a line feed comes first.
 *
 * TODRENVAL_EDIT_RENAME_KEY, _SET_COMMENT, _REMOVE_WITH_COMMENT: these do what todrenval_rename_key, _set_comment and
 * _remove_with_comment do.
 *
 * Every other line stays as it is, but for a line ending that a new pair needs before it.
 *
 * With TODRENVAL_ASCII_ONLY, what is new is written in ASCII only, with an escape for each other character. With
 * TODRENVAL_LATIN_1, it has only characters that load(InputStream) of Java reads as they are meant. Without both, a
 * non-ASCII character is an escape only if it isn't in the encoding, or if it is the first one of a key at the front of
 * the source that would begin like a byte order mark.
 *
 * A malformed escape of any pair is an error, and with TODRENVAL_READ_COMMENTS one in a comment is too.
 *
 * Edits of one kind that follow each other are made together, and the first three kinds count as one: a list of them
 * takes little more time than one edit. Whenever the kind changes, what the earlier edits produced is read again. Of
 * several texts for a key that are set together, the last one counts.
 *
 * Returns TODRENVAL_OK, _NO_ROOM, _NO_MEMORY, _UNKNOWN_ENCODING, _UNKNOWN_FLAGS, _NOT_UTF_8 (of a key or a value of
 * the list), _BAD_LIST, _NOT_TEXT, _NOT_ENOUGH_DIGITS, _NOT_HEX, _INVALID_CHARACTER (of these the first that counts in
 * the source, or in what earlier edits produced) or _UNSUPPORTED. A list is bad if a record is cut short, has a kind that no edit has, such as that of an
 * item, or removes a key and has a value.
 *
 * If an edit is refused, it returns _NO_KEY (no pair has the key that is to be renamed, or whose comment is to be set)
 * or _KEY_TAKEN, and *length is the index of that edit in the list, from 0. The line of an error, and that of the first
 * pair with the new key, is a line of what the earlier edits produced. */
int todrenval_edit(uint8_t const *source, size_t source_length, uint32_t encoding, uint32_t flags, uint8_t const *edits,
                   size_t edits_length, uint8_t *out, size_t room, size_t *length, size_t *line);

/* Writes the source with a key renamed where it stands: in each pair with the old key, the new key replaces its bytes,
 * written as todrenval_edit writes a key with these flags. Every other byte stays: the indent, the separator, the value
 * and the line endings. If the new key is empty, and blanks alone or nothing follow it, `=` comes in its place. If the
 * new key is the old one, nothing changes.
 *
 * Returns what todrenval_edit returns, but for _BAD_LIST. If all else is well, it returns _NO_KEY if no pair has the
 * old key; and then _KEY_TAKEN if a pair has the new key, and *line is where the first such pair begins. */
int todrenval_rename_key(uint8_t const *source, size_t source_length, uint32_t encoding, uint32_t flags,
                         uint8_t const *old_key, size_t old_length, uint8_t const *new_key, size_t new_length,
                         uint8_t *out, size_t room, size_t *length, size_t *line);

/* Writes the source without the pairs that have a key, and without the comment lines directly above each of them: no
 * blank line, no other pair and no separator `#---` of Spring's documents is between. Every other byte stays. If no
 * pair has the key, nothing changes. If what is left would begin like a byte order mark, a line feed comes first.
 *
 * Returns what todrenval_edit returns, but for _BAD_LIST, _NO_KEY and _KEY_TAKEN. */
int todrenval_remove_with_comment(uint8_t const *source, size_t source_length, uint32_t encoding, uint32_t flags,
                                  uint8_t const *key, size_t key_length, uint8_t *out, size_t room, size_t *length,
                                  size_t *line);

/* Writes the comment of a key: the text of each comment line directly above the last pair with it, down from the last
 * separator `#---` of Spring's documents, in UTF-8, and a line feed after each. A text is what follows the sign and one
 * blank, as it stands, and has no line feed. If there is no such line, *length is 0. Malformed escapes in comments are
 * no error. Of the flags it takes TODRENVAL_STRICT.
 *
 * Returns TODRENVAL_OK, _NO_ROOM, _NO_KEY, _NO_MEMORY, _UNKNOWN_ENCODING, _UNKNOWN_FLAGS, _NOT_UTF_8 (of the key),
 * _NOT_TEXT, _UNSUPPORTED, or _NOT_ENOUGH_DIGITS, _NOT_HEX or _INVALID_CHARACTER of a pair. */
int todrenval_comment(uint8_t const *source, size_t source_length, uint32_t encoding, uint32_t flags,
                      uint8_t const *key, size_t key_length, uint8_t *out, size_t room, size_t *length, size_t *line);

/* Writes the source with the comment of a key set: the comment lines directly above the last pair with it. The text is
 * UTF-8, and is divided at LF, CR and CR LF. A last empty line doesn't count, so what todrenval_comment gives can be
 * passed as it is, an empty text removes the comment, and "\n" makes the line `#`. If the comment has these lines
 * already, the result is the source. Otherwise new lines replace the old ones, and every other byte stays.
 *
 * New lines look like the first old one that has a text: its indent, its sign, the blank after it or none, and its line
 * ending. If there is none, they have the indent of the pair, `# `, and the line ending of the pair. If the pair has
 * none, they have the last one of the source, or a line feed. Directly below a separator `#---` the sign is `!`, and
 * below `!---` it is `#`. A blank is put before a text that begins with one, and none before an empty one. Characters
 * are escapes as in todrenval_edit with these flags; a backslash stays. If the result would begin like a byte order
 * mark, a line feed comes first.
 *
 * Returns what todrenval_edit returns, but for _BAD_LIST and _KEY_TAKEN. If all else is well, it returns _NO_KEY if no
 * pair has the key. */
int todrenval_set_comment(uint8_t const *source, size_t source_length, uint32_t encoding, uint32_t flags,
                          uint8_t const *key, size_t key_length, uint8_t const *text, size_t text_length, uint8_t *out,
                          size_t room, size_t *length, size_t *line);

/* Writes the source in another encoding. All else stays as it is: comments, blank lines, layout, line endings, and what
 * each key, value and comment means.
 *
 * A non-ASCII character that isn't in the target becomes an escape. Each other character and each escape stays as it is
 * written; but with TODRENVAL_READABLE, a non-ASCII character that the target has becomes itself. Escapes of ASCII
 * characters stay in each case.
 *
 * A byte order mark is dropped. What isn't text of the encoding becomes U+FFFD, as it reads, or is refused with
 * TODRENVAL_STRICT. A malformed escape is no error: it stays malformed, in the same line. If the result would begin
 * like a byte order mark, its first character is an escape. The result is never longer than six times the source.
 *
 * Returns TODRENVAL_OK, _NO_ROOM, _NO_MEMORY, _UNKNOWN_ENCODING (of `encoding` or `target`), _UNKNOWN_FLAGS or
 * _NOT_TEXT. */
int todrenval_convert(uint8_t const *source, size_t source_length, uint32_t encoding, uint32_t target, uint32_t flags,
                      uint8_t *out, size_t room, size_t *length, size_t *line);

/* Writes a packed list of comments and pairs as a file, a line each. It reads back as the same pairs, and as the same
 * comments but for blanks at their ends.
 *
 * Before a comment comes the prefix: blanks, a # or a !, and any text in one line, such as "#" or "! ". Between a key
 * and its value comes the separator: an = or a :, with blanks around it or without, or blanks alone. A prefix or a
 * separator of no bytes is the usual one, "# " or "=". Lines end in a line feed if no flag asks for another ending. If
 * the prefix has a backslash, what is read back of comments may differ.
 *
 * With TODRENVAL_ASCII_ONLY, each non-ASCII character is an escape; without it, it is one where it is in
 * todrenval_edit. Without TODRENVAL_READABLE, each space, `=`, `:`, `#` and `!` of a value gets a backslash. With it,
 * values are written as TODRENVAL_EDIT_SET_VALUE writes them: a space at the end is \u0020, even if it is the whole
 * value, one at the front gets a backslash, and all others of these are as they are. Keys are written alike in both. A
 * prefix is written as it is, but for characters that aren't in the encoding.
 *
 * If the first line would begin like a byte order mark, it gets an escape, but not with TODRENVAL_GOES_ON. So a list
 * can be written in parts, each with that flag once a line was written.
 *
 * Returns TODRENVAL_OK, _NO_ROOM, _NO_MEMORY, _UNKNOWN_ENCODING, _UNKNOWN_FLAGS, _NOT_UTF_8, _BAD_LIST, _BAD_PREFIX,
 * _BAD_SEPARATOR or _EMPTY_KEY. A list is bad if a record is cut short, has a kind that no item has, such as that of an
 * edit, or is a comment and has a key. An empty key is refused if the separator is blanks alone: its value would read
 * as the key. */
int todrenval_write(uint8_t const *list, size_t list_length, uint32_t encoding, uint32_t flags, uint8_t const *prefix,
                    size_t prefix_length, uint8_t const *separator, size_t separator_length, uint8_t *out, size_t room,
                    size_t *length, size_t *line);

/* Writes the text of a status, in ASCII and without a line: "No pair has the key." or the like, and "Unknown status."
 * for a number that no status has. No text is longer than 63 bytes. *line is always 0.
 *
 * Returns TODRENVAL_OK or _NO_ROOM. */
int todrenval_status_text(int status, uint8_t *out, size_t room, size_t *length, size_t *line);

/* Returns the number of the encoding that a label means in the WHATWG Encoding Standard, such as "utf8" or "Latin1", or
 * TODRENVAL_NO_ENCODING if it means none of enum todrenval_encoding. */
#define TODRENVAL_NO_ENCODING 255
uint32_t todrenval_encoding(uint8_t const *label, size_t label_length);

/* Returns the version of the interface that the library has: TODRENVAL_VERSION, if the header fits. */
uint32_t todrenval_version(void);

/* Returns the release of the library as a number. If it is less than TODRENVAL_RELEASE_NUMBER, the library is older than the
 * header, and may refuse flags and kinds of edits that the header has. */
uint32_t todrenval_release(void);

/* Returns whether this processor has the features of x86-64-v2, which the library was built for. On one without them
 * the calls above may end the program by an illegal instruction. This one runs everywhere. */
static inline bool todrenval_runs_here(void) {
#ifdef __x86_64__
    return __builtin_cpu_supports("ssse3") && __builtin_cpu_supports("sse4.1") && __builtin_cpu_supports("sse4.2") &&
           __builtin_cpu_supports("popcnt");
#else
    return false;
#endif
}

/* Room for the text of a status, and for a zero byte after it. */
#define TODRENVAL_REASON_ROOM 64

/* Puts the text of a status into `reason`, which has TODRENVAL_REASON_ROOM bytes, as a C string, and returns it. */
static inline char const *todrenval_reason(int status, char *reason) {
    void *out = reason;
    size_t length, line;
    if (todrenval_status_text(status, TODRENVAL_CAST(uint8_t *, out), TODRENVAL_REASON_ROOM - 1, &length, &line) !=
        TODRENVAL_OK) {
        length = 0;
    }
    reason[length] = 0;
    return reason;
}

/* The number in eight bytes, and the bytes of a number. The low byte comes first, as the processor has it that the
 * library is for. Only the functions below need them. */
static inline uint64_t todrenval_number_at(uint8_t const *bytes) {
    uint64_t number;
    memcpy(&number, bytes, sizeof number);
    return number;
}

static inline void todrenval_put_number(uint8_t *bytes, uint64_t number) {
    memcpy(bytes, &number, sizeof number);
}

/* Returns a cursor at the front of a list. */
static inline struct todrenval_cursor todrenval_walk(void const *list, size_t length) {
    struct todrenval_cursor cursor;
    cursor.next = TODRENVAL_CAST(uint8_t const *, list);
    cursor.left = length;
    return cursor;
}

/* Sets end to what the record TODRENVAL_END at the end of a list holds, and returns true; or returns false, if the list
 * is too short for it, or its last bytes aren't such a record. Call it only for a list of TODRENVAL_MORE, and only if
 * the status was TODRENVAL_OK: the texts of any other list may look like such a record. */
static inline bool todrenval_end_of(void const *list, size_t length, struct todrenval_end *end) {
    uint8_t const *record;
    if (length < TODRENVAL_END_SIZE) {
        return false;
    }
    record = TODRENVAL_CAST(uint8_t const *, list) + (length - TODRENVAL_END_SIZE);
    if (todrenval_number_at(record) != TODRENVAL_END) {
        return false;
    }
    end->lines = todrenval_number_at(record + 8);
    end->length = todrenval_number_at(record + TODRENVAL_RECORD_SIZE);
    end->encoding = TODRENVAL_CAST(uint32_t, todrenval_number_at(record + TODRENVAL_RECORD_SIZE + 8));
    return true;
}

/* Sets spans to the numbers of a record that has them. Only the next function needs this. */
static inline void todrenval_spans_at(uint8_t const *numbers, struct todrenval_spans *spans) {
    spans->start = todrenval_number_at(numbers);
    spans->key_start = todrenval_number_at(numbers + 8);
    spans->key_end = todrenval_number_at(numbers + 16);
    spans->value_start = todrenval_number_at(numbers + 24);
    spans->value_end = todrenval_number_at(numbers + 32);
    spans->end = todrenval_number_at(numbers + 40);
    spans->next = todrenval_number_at(numbers + 48);
    spans->flaw = todrenval_number_at(numbers + 56);
    spans->flaw_start = todrenval_number_at(numbers + 64);
    spans->flaw_line = todrenval_number_at(numbers + 72);
    spans->flaw_column = todrenval_number_at(numbers + 80);
    spans->ill_formed = todrenval_number_at(numbers + 88);
}

/* Goes to the next item of a list, or edit, and returns true; or returns false, at the end of the list. It also
 * returns false if what is left isn't a whole record: `left` isn't 0 then. That can't be in a list that a call gave.
 * The kind of the item is one of enum todrenval_item_kind. `spans` is set if the record has spans, and may be null. */
static inline bool todrenval_next_spanned(struct todrenval_cursor *cursor, struct todrenval_item *item,
                                          struct todrenval_spans *spans) {
    size_t key_length, value_length, texts, front = TODRENVAL_RECORD_SIZE;
    uint64_t kind;
    if (cursor->left < TODRENVAL_RECORD_SIZE) {
        return false;
    }
    kind = todrenval_number_at(cursor->next);
    if (kind >= TODRENVAL_WITH_SPANS) {
        kind -= TODRENVAL_WITH_SPANS;
        front += TODRENVAL_SPANS_SIZE;
        if (cursor->left < front) {
            return false;
        }
        if (spans != NULL) {
            todrenval_spans_at(cursor->next + TODRENVAL_RECORD_SIZE, spans);
        }
    }
    texts = cursor->left - front;
    key_length = todrenval_number_at(cursor->next + 16);
    value_length = todrenval_number_at(cursor->next + 24);
    if (key_length > texts || value_length > texts - key_length) {
        return false;
    }
    item->kind = kind;
    item->line = todrenval_number_at(cursor->next + 8);
    item->key = cursor->next + front;
    item->key_length = key_length;
    item->value = item->key + key_length;
    item->value_length = value_length;
    cursor->next = item->value + value_length;
    cursor->left = texts - key_length - value_length;
    return true;
}

static inline bool todrenval_next_item(struct todrenval_cursor *cursor, struct todrenval_item *item) {
    return todrenval_next_spanned(cursor, item, NULL);
}

/* Sets *item to the last pair with this key in a list of items, and returns true; or returns false: no pair has it. In
 * a list without TODRENVAL_RAW and TODRENVAL_SPANS it is the pair that todrenval_get finds in the source.
 *
 * It walks through the whole list, so put thousands of keys into a map. */
static inline bool todrenval_find(void const *list, size_t length, void const *key, size_t key_length,
                                  struct todrenval_item *item) {
    struct todrenval_cursor cursor = todrenval_walk(list, length);
    struct todrenval_item next;
    bool found = false;
    while (todrenval_next_item(&cursor, &next)) {
        if (next.kind == TODRENVAL_PAIR && next.key_length == key_length &&
            (key_length == 0 || memcmp(next.key, key, key_length) == 0)) {
            *item = next;
            found = true;
        }
    }
    return found;
}

/* Goes to the next finding of a list, as todrenval_next_item goes to the next item. */
static inline bool todrenval_next_finding(struct todrenval_cursor *cursor, struct todrenval_finding *finding) {
    size_t key_length, texts;
    bool is_escape;
    if (cursor->left < TODRENVAL_RECORD_SIZE) {
        return false;
    }
    texts = cursor->left - TODRENVAL_RECORD_SIZE;
    key_length = todrenval_number_at(cursor->next + 24);
    if (key_length > texts) {
        return false;
    }
    finding->kind = todrenval_number_at(cursor->next);
    finding->line = todrenval_number_at(cursor->next + 8);
    finding->first = todrenval_number_at(cursor->next + 16);
    is_escape =
        finding->kind >= TODRENVAL_FOUND_NOT_ENOUGH_DIGITS && finding->kind <= TODRENVAL_FOUND_INVALID_CHARACTER;
    finding->in_comment = is_escape && finding->first == 1;
    if (is_escape) {
        finding->first = 0;
    }
    finding->key = cursor->next + TODRENVAL_RECORD_SIZE;
    finding->key_length = key_length;
    cursor->next = finding->key + key_length;
    cursor->left = texts - key_length;
    return true;
}

/* Appends an edit, or a line to write, to a list, and returns true; or returns false, and the list is as it was: the
 * record doesn't fit. It needs room for TODRENVAL_RECORD_SIZE + key_length + value_length bytes. `kind` is of enum
 * todrenval_edit_kind, or of enum todrenval_item_kind. A key or a value of no bytes may be null here, and so may the
 * bytes of a list without room. */
static inline bool todrenval_append(struct todrenval_list *list, uint64_t kind, void const *key, size_t key_length,
                                    void const *value, size_t value_length) {
    uint8_t *record;
    size_t left = list->room - list->length;
    if (left < TODRENVAL_RECORD_SIZE || key_length > left - TODRENVAL_RECORD_SIZE ||
        value_length > left - TODRENVAL_RECORD_SIZE - key_length) {
        return false;
    }
    record = list->bytes + list->length;
    todrenval_put_number(record, kind);
    todrenval_put_number(record + 8, 0);
    todrenval_put_number(record + 16, key_length);
    todrenval_put_number(record + 24, value_length);
    if (key_length > 0) {
        memcpy(record + TODRENVAL_RECORD_SIZE, key, key_length);
    }
    if (value_length > 0) {
        memcpy(record + TODRENVAL_RECORD_SIZE + key_length, value, value_length);
    }
    list->length += TODRENVAL_RECORD_SIZE + key_length + value_length;
    return true;
}

/* Appends as todrenval_append does, and takes more room by realloc if there is too little. A list begins as
 * {NULL, 0, 0}, and its bytes are freed by free. Returns false, and the list is as it was, if there is no memory. */
static inline bool todrenval_push(struct todrenval_list *list, uint64_t kind, void const *key, size_t key_length,
                                  void const *value, size_t value_length) {
    size_t needed = list->length + TODRENVAL_RECORD_SIZE + key_length + value_length;
    if (needed > list->room) {
        void *bytes = realloc(list->bytes, 2 * needed);
        if (bytes == NULL) {
            return false;
        }
        list->bytes = TODRENVAL_CAST(uint8_t *, bytes);
        list->room = 2 * needed;
    }
    return todrenval_append(list, kind, key, key_length, value, value_length);
}

/* Calls that take memory for their result.
 *
 * Each of the functions with _new at the end of its name makes the call of that name, again if there was too little
 * room. It takes what that takes before `out`. `bytes` of what it returns is to be freed by free, whatever the status
 * is. A zero byte that isn't counted comes after the result, so a value without zero bytes is a C string. */

/* What a call returned and gave. */
struct todrenval_result {
    int status;      /* enum todrenval_status, but never TODRENVAL_NO_ROOM */
    char *bytes;     /* the result; it may be null if there is no memory */
    size_t length;   /* how long the result is, or the index of an edit that is refused */
    size_t line;     /* the line of the error, or 0 */
    bool in_comment; /* whether the error is a malformed escape in a comment, which Java passes over */
};

/* A result for which `room` bytes are to be tried. Only the functions below need this and the next three functions. */
static inline struct todrenval_result todrenval_try_room(size_t room) {
    struct todrenval_result result;
    result.status = TODRENVAL_NO_ROOM;
    result.bytes = NULL;
    result.length = room;
    result.line = 0;
    result.in_comment = false;
    return result;
}

/* Makes the room that is needed and returns true, or returns false: the call is not to be made again. */
static inline bool todrenval_make_room(struct todrenval_result *result, size_t *room) {
    if (result->status != TODRENVAL_NO_ROOM) {
        result->bytes[result->length] = 0;
        return false;
    }
    free(result->bytes);
    *room = result->length;
    result->bytes = TODRENVAL_CAST(char *, malloc(*room + 1));
    if (result->bytes == NULL) {
        result->status = TODRENVAL_NO_MEMORY;
        result->length = 0;
        return false;
    }
    return true;
}

static inline uint8_t *todrenval_out(struct todrenval_result const *result) {
    void *out = result->bytes;
    return TODRENVAL_CAST(uint8_t *, out);
}

static inline uint8_t const *todrenval_in(void const *bytes) {
    return TODRENVAL_CAST(uint8_t const *, bytes);
}

static inline struct todrenval_result todrenval_findings_new(void const *source, size_t source_length,
                                                             uint32_t encoding) {
    size_t room;
    struct todrenval_result result = todrenval_try_room(1024);
    while (todrenval_make_room(&result, &room)) {
        result.status = todrenval_findings(todrenval_in(source), source_length, encoding, todrenval_out(&result), room,
                                           &result.length, &result.line);
    }
    return result;
}

/* Sets in_comment of the result of a call that reads comments: the error is the first finding, or an edit put it in. */
static inline void todrenval_see_comment(struct todrenval_result *result, void const *source, size_t source_length,
                                         uint32_t encoding) {
    struct todrenval_result findings;
    struct todrenval_cursor cursor;
    struct todrenval_finding finding;
    if (result->status < TODRENVAL_NOT_ENOUGH_DIGITS || result->status > TODRENVAL_INVALID_CHARACTER) {
        return;
    }
    findings = todrenval_findings_new(source, source_length, encoding);
    cursor = todrenval_walk(findings.bytes, findings.length);
    if (findings.status != TODRENVAL_OK) {
        result->status = findings.status;
        result->bytes[0] = 0;
        result->length = 0;
        result->line = 0;
    } else {
        /* If the source has no malformed escape, an edit set a comment that has one. */
        result->in_comment = !todrenval_next_finding(&cursor, &finding) ||
                             finding.kind == TODRENVAL_FOUND_REPEATED_KEY || finding.in_comment;
    }
    free(findings.bytes);
}

static inline struct todrenval_result todrenval_items_new(void const *source, size_t source_length, uint32_t encoding,
                                                          uint32_t flags) {
    size_t room;
    struct todrenval_result result = todrenval_try_room((flags & TODRENVAL_SPANS ? 8 : 4) * source_length);
    while (todrenval_make_room(&result, &room)) {
        result.status = todrenval_items(todrenval_in(source), source_length, encoding, flags, todrenval_out(&result),
                                        room, &result.length, &result.line);
    }
    if (flags & TODRENVAL_RAW) {
        /* Escapes are read in comments alone. */
        result.in_comment =
            result.status >= TODRENVAL_NOT_ENOUGH_DIGITS && result.status <= TODRENVAL_INVALID_CHARACTER;
    } else if (flags & TODRENVAL_READ_COMMENTS) {
        todrenval_see_comment(&result, source, source_length, encoding);
    }
    return result;
}

static inline struct todrenval_result todrenval_get_new(void const *source, size_t source_length, uint32_t encoding,
                                                        uint32_t flags, void const *key, size_t key_length) {
    size_t room;
    struct todrenval_result result = todrenval_try_room(1024);
    while (todrenval_make_room(&result, &room)) {
        result.status = todrenval_get(todrenval_in(source), source_length, encoding, flags, todrenval_in(key),
                                      key_length, todrenval_out(&result), room, &result.length, &result.line);
    }
    if (flags & TODRENVAL_READ_COMMENTS) {
        todrenval_see_comment(&result, source, source_length, encoding);
    }
    return result;
}

static inline struct todrenval_result todrenval_edit_new(void const *source, size_t source_length, uint32_t encoding,
                                                         uint32_t flags, void const *edits, size_t edits_length) {
    size_t room;
    struct todrenval_result result = todrenval_try_room(source_length + edits_length);
    while (todrenval_make_room(&result, &room)) {
        result.status = todrenval_edit(todrenval_in(source), source_length, encoding, flags, todrenval_in(edits),
                                       edits_length, todrenval_out(&result), room, &result.length, &result.line);
        if (result.status == TODRENVAL_NO_KEY || result.status == TODRENVAL_KEY_TAKEN) {
            /* The length is an index, and there is no result. A record takes 32 bytes of the room, so there is room. */
            memset(result.bytes, 0, result.length + 1);
        }
    }
    if (flags & TODRENVAL_READ_COMMENTS) {
        todrenval_see_comment(&result, source, source_length, encoding);
    }
    return result;
}

/* Makes one edit. Only the next three functions need this. */
static inline struct todrenval_result todrenval_edit_one(void const *source, size_t source_length, uint32_t encoding,
                                                         uint32_t flags, uint64_t kind, void const *key,
                                                         size_t key_length, void const *value, size_t value_length) {
    struct todrenval_list list = {NULL, 0, 0};
    struct todrenval_result result = todrenval_try_room(0);
    if (todrenval_push(&list, kind, key, key_length, value, value_length)) {
        result = todrenval_edit_new(source, source_length, encoding, flags, list.bytes, list.length);
    } else {
        result.status = TODRENVAL_NO_MEMORY;
    }
    free(list.bytes);
    return result;
}

/* Makes the edit TODRENVAL_EDIT_SET_VALUE. */
static inline struct todrenval_result todrenval_set_value_new(void const *source, size_t source_length,
                                                              uint32_t encoding, uint32_t flags, void const *key,
                                                              size_t key_length, void const *value,
                                                              size_t value_length) {
    return todrenval_edit_one(source, source_length, encoding, flags, TODRENVAL_EDIT_SET_VALUE, key, key_length, value,
                              value_length);
}

/* Makes the edit TODRENVAL_EDIT_SET_KEY. */
static inline struct todrenval_result todrenval_set_key_new(void const *source, size_t source_length, uint32_t encoding,
                                                            uint32_t flags, void const *key, size_t key_length,
                                                            void const *value, size_t value_length) {
    return todrenval_edit_one(source, source_length, encoding, flags, TODRENVAL_EDIT_SET_KEY, key, key_length, value,
                              value_length);
}

/* Makes the edit TODRENVAL_EDIT_REMOVE_KEY. */
static inline struct todrenval_result todrenval_remove_key_new(void const *source, size_t source_length,
                                                               uint32_t encoding, uint32_t flags, void const *key,
                                                               size_t key_length) {
    return todrenval_edit_one(source, source_length, encoding, flags, TODRENVAL_EDIT_REMOVE_KEY, key, key_length, NULL,
                              0);
}

static inline struct todrenval_result todrenval_rename_key_new(void const *source, size_t source_length,
                                                               uint32_t encoding, uint32_t flags, void const *old_key,
                                                               size_t old_length, void const *new_key,
                                                               size_t new_length) {
    size_t room;
    struct todrenval_result result = todrenval_try_room(source_length + new_length);
    while (todrenval_make_room(&result, &room)) {
        result.status = todrenval_rename_key(todrenval_in(source), source_length, encoding, flags,
                                             todrenval_in(old_key), old_length, todrenval_in(new_key), new_length,
                                             todrenval_out(&result), room, &result.length, &result.line);
    }
    if (flags & TODRENVAL_READ_COMMENTS) {
        todrenval_see_comment(&result, source, source_length, encoding);
    }
    return result;
}

static inline struct todrenval_result todrenval_remove_with_comment_new(void const *source, size_t source_length,
                                                                        uint32_t encoding, uint32_t flags,
                                                                        void const *key, size_t key_length) {
    size_t room;
    struct todrenval_result result = todrenval_try_room(source_length + 1);
    while (todrenval_make_room(&result, &room)) {
        result.status = todrenval_remove_with_comment(todrenval_in(source), source_length, encoding, flags,
                                                      todrenval_in(key), key_length, todrenval_out(&result), room,
                                                      &result.length, &result.line);
    }
    if (flags & TODRENVAL_READ_COMMENTS) {
        todrenval_see_comment(&result, source, source_length, encoding);
    }
    return result;
}

static inline struct todrenval_result todrenval_comment_new(void const *source, size_t source_length, uint32_t encoding,
                                                            uint32_t flags, void const *key, size_t key_length) {
    size_t room;
    struct todrenval_result result = todrenval_try_room(1024);
    while (todrenval_make_room(&result, &room)) {
        result.status = todrenval_comment(todrenval_in(source), source_length, encoding, flags, todrenval_in(key),
                                          key_length, todrenval_out(&result), room, &result.length, &result.line);
    }
    return result;
}

static inline struct todrenval_result todrenval_set_comment_new(void const *source, size_t source_length,
                                                                uint32_t encoding, uint32_t flags, void const *key,
                                                                size_t key_length, void const *text,
                                                                size_t text_length) {
    size_t room;
    struct todrenval_result result = todrenval_try_room(source_length + text_length + 256);
    while (todrenval_make_room(&result, &room)) {
        result.status = todrenval_set_comment(todrenval_in(source), source_length, encoding, flags, todrenval_in(key),
                                              key_length, todrenval_in(text), text_length, todrenval_out(&result), room,
                                              &result.length, &result.line);
    }
    if (flags & TODRENVAL_READ_COMMENTS) {
        todrenval_see_comment(&result, source, source_length, encoding);
    }
    return result;
}

static inline struct todrenval_result todrenval_convert_new(void const *source, size_t source_length, uint32_t encoding,
                                                            uint32_t target, uint32_t flags) {
    size_t room;
    struct todrenval_result result = todrenval_try_room(2 * source_length);
    while (todrenval_make_room(&result, &room)) {
        result.status = todrenval_convert(todrenval_in(source), source_length, encoding, target, flags,
                                          todrenval_out(&result), room, &result.length, &result.line);
    }
    return result;
}

/* The prefix and the separator are C strings here, and null is the usual one. */
static inline struct todrenval_result todrenval_write_new(void const *list, size_t list_length, uint32_t encoding,
                                                          uint32_t flags, char const *prefix, char const *separator) {
    size_t room;
    size_t prefix_length = prefix == NULL ? 0 : strlen(prefix);
    size_t separator_length = separator == NULL ? 0 : strlen(separator);
    struct todrenval_result result = todrenval_try_room(list_length);
    while (todrenval_make_room(&result, &room)) {
        result.status = todrenval_write(todrenval_in(list), list_length, encoding, flags, todrenval_in(prefix),
                                        prefix_length, todrenval_in(separator), separator_length,
                                        todrenval_out(&result), room, &result.length, &result.line);
    }
    return result;
}

#ifdef __cplusplus
}
#endif

#endif
