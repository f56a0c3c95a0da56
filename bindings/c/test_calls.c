/* Makes every call with enough room, one byte too little and none, and with memory for its result; brings about every
 * refusal, and compares what comes with what the header says. bindings/test.sh compiles it as C and as C++, with
 * malloc, realloc and free wrapped. The last line counts. */
#include "todrenval.h"

#include <stdio.h>
#include <stdlib.h>

enum { GUARD = 64, PATTERN = 0xa5, UNSET = 12345 };

static long passed, failed;

/* Memory: the allocation of this number fails, if it isn't 0, and how many blocks are in use. They are volatile, since
 * a compiler may take it that malloc changes no variable. */
static volatile long refuse_at, allocations, blocks;

#ifdef __cplusplus
extern "C" {
#endif
void *__real_malloc(size_t size);
void *__real_realloc(void *block, size_t size);
void __real_free(void *block);
void *__wrap_malloc(size_t size);
void *__wrap_realloc(void *block, size_t size);
void __wrap_free(void *block);

void *__wrap_malloc(size_t size) {
    void *block;
    if (++allocations == refuse_at) {
        return NULL;
    }
    block = __real_malloc(size);
    blocks += block != NULL;
    return block;
}

void *__wrap_realloc(void *block, size_t size) {
    void *larger;
    if (++allocations == refuse_at) {
        return NULL;
    }
    larger = __real_realloc(block, size);
    blocks += block == NULL && larger != NULL;
    return larger;
}

void __wrap_free(void *block) {
    blocks -= block != NULL;
    __real_free(block);
}
#ifdef __cplusplus
}
#endif

struct text {
    uint8_t const *bytes;
    size_t length;
};

static struct text text_of(char const *bytes, size_t length) {
    struct text text;
    text.bytes = (uint8_t const *)bytes;
    text.length = length;
    return text;
}

#define T(literal) text_of(literal, sizeof(literal) - 1)

/* A packed list, made by other code than that of the header. */
struct packed {
    uint8_t bytes[2000];
    size_t length;
};

static void put_byte(struct packed *list, unsigned long long byte) {
    list->bytes[list->length++] = (uint8_t)(byte % 256);
}

static void put_number(struct packed *list, unsigned long long number) {
    int byte;
    for (byte = 0; byte < 8; byte++) {
        put_byte(list, number);
        number /= 256;
    }
}

static void put_text(struct packed *list, struct text text) {
    size_t place;
    for (place = 0; place < text.length; place++) {
        put_byte(list, text.bytes[place]);
    }
}

/* An item, an edit or a line to write. */
static void put_item(struct packed *list, unsigned long long kind, unsigned long long line, struct text key,
                     struct text value) {
    put_number(list, kind);
    put_number(list, line);
    put_number(list, key.length);
    put_number(list, value.length);
    put_text(list, key);
    put_text(list, value);
}

static void put_finding(struct packed *list, unsigned long long kind, unsigned long long line, unsigned long long first,
                        struct text key) {
    put_number(list, kind);
    put_number(list, line);
    put_number(list, first);
    put_number(list, key.length);
    put_text(list, key);
}

static struct text text_of_list(struct packed const *list) {
    struct text text;
    text.bytes = list->bytes;
    text.length = list->length;
    return text;
}

enum call {
    GET, ITEMS, FINDINGS, SET_VALUE, SET_KEY, REMOVE_KEY, EDIT, RENAME_KEY, REMOVE_WITH_COMMENT, COMMENT, SET_COMMENT,
    WRITE, CONVERT, CALLS
};

static char const *const names[] = {
    "get", "items", "findings", "set_value", "set_key", "remove_key", "edit", "rename_key", "remove_with_comment",
    "comment", "set_comment", "write", "convert",
};

/* What is passed to a call; each call takes of it what it has. The value is the new name of a key that is renamed, and
 * the text of a comment that is set. */
struct request {
    enum call call;
    struct text source;
    uint32_t encoding;
    uint32_t flags;
    struct text key;
    struct text value;
    struct text list;
    uint32_t target;
    struct text prefix;
    struct text separator;
};

static struct request request_of(enum call call, struct text source, uint32_t encoding) {
    struct request request;
    request.call = call;
    request.source = source;
    request.encoding = encoding;
    request.flags = 0;
    request.key = T("k");
    request.value = T("v");
    request.list = T("");
    request.target = TODRENVAL_TO_ASCII;
    request.prefix = T("");
    request.separator = T("");
    return request;
}

/* Items of UTF-8, with comments that are read. */
static struct request items_of(struct text source) {
    struct request request = request_of(ITEMS, source, TODRENVAL_UTF_8);
    request.flags = TODRENVAL_READ_COMMENTS;
    return request;
}

/* One edit, as a list of it. */
static int make_edit(struct request const *r, unsigned long long kind, uint8_t *out, size_t room, size_t *length,
                     size_t *line) {
    struct packed list = {{0}, 0};
    put_item(&list, kind, 0, r->key, kind == TODRENVAL_EDIT_REMOVE_KEY ? T("") : r->value);
    return todrenval_edit(r->source.bytes, r->source.length, r->encoding, r->flags, list.bytes, list.length, out, room,
                          length, line);
}

static int make_call(struct request const *r, uint8_t *out, size_t room, size_t *length, size_t *line) {
    switch (r->call) {
    case GET:
        return todrenval_get(r->source.bytes, r->source.length, r->encoding, r->flags, r->key.bytes, r->key.length,
                              out, room, length, line);
    case ITEMS:
        return todrenval_items(r->source.bytes, r->source.length, r->encoding, r->flags, out, room, length,
                               line);
    case FINDINGS:
        return todrenval_findings(r->source.bytes, r->source.length, r->encoding, out, room, length, line);
    case SET_VALUE:
        return make_edit(r, TODRENVAL_EDIT_SET_VALUE, out, room, length, line);
    case SET_KEY:
        return make_edit(r, TODRENVAL_EDIT_SET_KEY, out, room, length, line);
    case REMOVE_KEY:
        return make_edit(r, TODRENVAL_EDIT_REMOVE_KEY, out, room, length, line);
    case EDIT:
        return todrenval_edit(r->source.bytes, r->source.length, r->encoding, r->flags, r->list.bytes,
                               r->list.length, out, room, length, line);
    case RENAME_KEY:
        return todrenval_rename_key(r->source.bytes, r->source.length, r->encoding, r->flags, r->key.bytes,
                                    r->key.length, r->value.bytes, r->value.length, out, room, length, line);
    case REMOVE_WITH_COMMENT:
        return todrenval_remove_with_comment(r->source.bytes, r->source.length, r->encoding, r->flags, r->key.bytes,
                                             r->key.length, out, room, length, line);
    case COMMENT:
        return todrenval_comment(r->source.bytes, r->source.length, r->encoding, r->flags, r->key.bytes,
                                 r->key.length, out, room, length, line);
    case SET_COMMENT:
        return todrenval_set_comment(r->source.bytes, r->source.length, r->encoding, r->flags, r->key.bytes,
                                     r->key.length, r->value.bytes, r->value.length, out, room, length, line);
    case CONVERT:
        return todrenval_convert(r->source.bytes, r->source.length, r->encoding, r->target, r->flags, out, room,
                                  length, line);
    default:
        return todrenval_write(r->list.bytes, r->list.length, r->encoding, r->flags, r->prefix.bytes,
                               r->prefix.length, r->separator.bytes, r->separator.length, out, room, length, line);
    }
}

/* A text as a C string, or null if it has no bytes. */
static char *string_of(struct text text) {
    char *string = NULL;
    if (text.length > 0) {
        string = (char *)__real_malloc(text.length + 1);
        memcpy(string, text.bytes, text.length);
        string[text.length] = 0;
    }
    return string;
}

/* The same by the calls that take memory. Prefixes and separators end at a zero byte there. */
static struct todrenval_result make_new(struct request const *r) {
    struct todrenval_result result;
    char *prefix, *separator;
    switch (r->call) {
    case GET:
        return todrenval_get_new(r->source.bytes, r->source.length, r->encoding, r->flags, r->key.bytes,
                                 r->key.length);
    case ITEMS:
        return todrenval_items_new(r->source.bytes, r->source.length, r->encoding, r->flags);
    case FINDINGS:
        return todrenval_findings_new(r->source.bytes, r->source.length, r->encoding);
    case SET_VALUE:
        return todrenval_set_value_new(r->source.bytes, r->source.length, r->encoding, r->flags, r->key.bytes,
                                       r->key.length, r->value.bytes, r->value.length);
    case SET_KEY:
        return todrenval_set_key_new(r->source.bytes, r->source.length, r->encoding, r->flags, r->key.bytes,
                                     r->key.length, r->value.bytes, r->value.length);
    case REMOVE_KEY:
        return todrenval_remove_key_new(r->source.bytes, r->source.length, r->encoding, r->flags, r->key.bytes,
                                        r->key.length);
    case EDIT:
        return todrenval_edit_new(r->source.bytes, r->source.length, r->encoding, r->flags, r->list.bytes,
                                  r->list.length);
    case RENAME_KEY:
        return todrenval_rename_key_new(r->source.bytes, r->source.length, r->encoding, r->flags, r->key.bytes,
                                        r->key.length, r->value.bytes, r->value.length);
    case REMOVE_WITH_COMMENT:
        return todrenval_remove_with_comment_new(r->source.bytes, r->source.length, r->encoding, r->flags,
                                                 r->key.bytes, r->key.length);
    case COMMENT:
        return todrenval_comment_new(r->source.bytes, r->source.length, r->encoding, r->flags, r->key.bytes,
                                     r->key.length);
    case SET_COMMENT:
        return todrenval_set_comment_new(r->source.bytes, r->source.length, r->encoding, r->flags, r->key.bytes,
                                         r->key.length, r->value.bytes, r->value.length);
    case CONVERT:
        return todrenval_convert_new(r->source.bytes, r->source.length, r->encoding, r->target, r->flags);
    default:
        prefix = string_of(r->prefix);
        separator = string_of(r->separator);
        result = todrenval_write_new(r->list.bytes, r->list.length, r->encoding, r->flags, prefix, separator);
        __real_free(prefix);
        __real_free(separator);
        return result;
    }
}

static void count(bool holds, char const *what, char const *name, long room) {
    if (holds) {
        passed++;
    } else {
        failed++;
        printf("%s, room %ld: not %s\n", name, room, what);
    }
}

/* Whether all bytes are as they were before the call. */
static bool is_untouched(uint8_t const *bytes, size_t length) {
    size_t place;
    for (place = 0; place < length; place++) {
        if (bytes[place] != PATTERN) {
            return false;
        }
    }
    return true;
}

static struct text copied(struct text text) {
    uint8_t *copy = (uint8_t *)__real_malloc(text.length > 0 ? text.length : 1);
    struct text result;
    memcpy(copy, text.bytes, text.length);
    result.bytes = copy;
    result.length = text.length;
    return result;
}

static void release(struct text text) {
    __real_free((void *)text.bytes);
}

/* Makes the call with this room. The inputs are in blocks of their size, so that tools see a read past them. */
static void check_room(char const *name, struct request request, size_t room, int wanted, size_t wanted_line,
                       struct text result) {
    uint8_t *memory = (uint8_t *)__real_malloc(GUARD + room + GUARD);
    uint8_t *out = memory + GUARD;
    size_t length = UNSET, line = UNSET, written = result.length;
    struct request copy = request;
    char reason[TODRENVAL_REASON_ROOM];
    int status;
    if (written > room) {
        wanted = TODRENVAL_NO_ROOM;
        wanted_line = 0;
        written = 0;
    }
    copy.source = copied(request.source);
    copy.key = copied(request.key);
    copy.value = copied(request.value);
    copy.list = copied(request.list);
    memset(memory, PATTERN, GUARD + room + GUARD);
    blocks = 0;
    status = make_call(&copy, out, room, &length, &line);
    if (status != wanted) {
        printf("%s: status %d: %s\n", name, status, todrenval_reason(status, reason));
    }
    count(status == wanted, todrenval_reason(wanted, reason), name, (long)room);
    count(length == result.length, "the length", name, (long)room);
    count(line == wanted_line, "the line", name, (long)room);
    count(memcmp(out, result.bytes, written) == 0, "the bytes", name, (long)room);
    count(is_untouched(memory, GUARD), "as it was before", name, (long)room);
    count(is_untouched(out + written, room - written + GUARD), "as it was behind", name, (long)room);
    count(blocks == 0, "all memory freed", name, (long)room);
    release(copy.source);
    release(copy.key);
    release(copy.value);
    release(copy.list);
    __real_free(memory);
}

/* Null in the place of a pointer to no bytes. */
static void drop_pointer(struct text *text) {
    if (text->length == 0) {
        text->bytes = NULL;
    }
}

/* Makes the call with null for what has no bytes, and the call that takes memory for its result. */
static void check_new(char const *name, struct request request, int status, size_t line, struct text result) {
    struct todrenval_result made;
    size_t length = UNSET, its_line = UNSET;
    int came;
    drop_pointer(&request.source);
    drop_pointer(&request.key);
    drop_pointer(&request.value);
    drop_pointer(&request.list);
    drop_pointer(&request.prefix);
    drop_pointer(&request.separator);
    came = make_call(&request, NULL, 0, &length, &its_line);
    count(came == (result.length > 0 ? TODRENVAL_NO_ROOM : status), "the status", name, -1);
    count(length == result.length && its_line == (result.length > 0 ? 0 : line), "its length and line", name, -1);
    blocks = 0;
    made = make_new(&request);
    count(made.status == status && made.length == result.length && made.line == line, "the same", name, -2);
    count(memcmp(made.bytes, result.bytes, result.length) == 0, "the bytes", name, -2);
    count(made.bytes[made.length] == 0, "a zero byte after them", name, -2);
    count(blocks == 1, "one block in use", name, -2);
    free(made.bytes);
    count(blocks == 0, "all memory freed", name, -2);
}

/* Makes the call with more room than it needs, with just enough, with one byte too little and with none, and then the
 * call that takes memory. */
static void check(char const *name, struct request request, int status, size_t line, struct text result) {
    check_new(name, request, status, line, result);
    check_room(name, request, result.length + 50, status, line, result);
    check_room(name, request, result.length, status, line, result);
    if (result.length > 1) {
        check_room(name, request, result.length - 1, status, line, result);
    }
    if (result.length > 0) {
        check_room(name, request, 0, status, line, result);
    }
}

static void refuses(char const *name, struct request request, int status, size_t line) {
    check_room(name, request, 0, status, line, T(""));
    check_room(name, request, 300, status, line, T(""));
    check_new(name, request, status, line, T(""));
}

static char const SOURCE[] = "# one\na = 1\n\nk : caf\xc3\xa9\na\\\n  =2\n";

static void try_get(void) {
    struct request request = request_of(GET, T(SOURCE), TODRENVAL_UTF_8);
    check("get", request, TODRENVAL_OK, 0, T("caf\xc3\xa9"));
    request.encoding = TODRENVAL_WINDOWS_1252;
    check("get, windows-1252", request, TODRENVAL_OK, 0, T("caf\xc3\x83\xc2\xa9"));
    request.key = T("a");
    check("get of the last", request, TODRENVAL_OK, 0, T("2"));
    request.key = T("b");
    check("get of none", request, TODRENVAL_NO_KEY, 0, T(""));
    request.key = T("");
    check("get of no key", request, TODRENVAL_NO_KEY, 0, T(""));
    request = request_of(GET, T("k="), TODRENVAL_UTF_8);
    check("get of nothing", request, TODRENVAL_OK, 0, T(""));
    request = request_of(GET, T("k\0=\0v\0\xac\x20"), TODRENVAL_UTF_16LE);
    check("get, UTF-16LE", request, TODRENVAL_OK, 0, T("v\xe2\x82\xac"));
    request = request_of(GET, T("\0k\0=\0v\x20\xac"), TODRENVAL_UTF_16BE);
    check("get, UTF-16BE", request, TODRENVAL_OK, 0, T("v\xe2\x82\xac"));
    request = request_of(GET, T("\xef\xbb\xbfk=\xc3\xa9"), TODRENVAL_WINDOWS_1252);
    check("get after a byte order mark", request, TODRENVAL_OK, 0, T("\xc3\xa9"));
    request = request_of(GET, T("\xff=1"), TODRENVAL_UTF_8);
    request.key = T("\xef\xbf\xbd");
    check("get of a replacement", request, TODRENVAL_OK, 0, T("1"));
}

static void try_items(void) {
    struct packed list = {{0}, 0};
    struct todrenval_cursor cursor;
    struct todrenval_item item;
    struct request request = request_of(ITEMS, T(SOURCE), TODRENVAL_UTF_8);
    size_t end;
    check("items of nothing", request_of(ITEMS, T(""), TODRENVAL_UTF_8), TODRENVAL_OK, 0, T(""));
    check("items of blanks", request_of(ITEMS, T("\n \r\n"), TODRENVAL_UTF_8), TODRENVAL_OK, 0, T(""));
    put_item(&list, TODRENVAL_COMMENT, 1, T(""), T("one"));
    put_item(&list, TODRENVAL_PAIR, 2, T("a"), T("1"));
    put_item(&list, TODRENVAL_PAIR, 4, T("k"), T("caf\xc3\xa9"));
    put_item(&list, TODRENVAL_PAIR, 5, T("a"), T("2"));
    request.flags = TODRENVAL_READ_COMMENTS;
    check("items", request, TODRENVAL_OK, 0, text_of_list(&list));

    /* The cursor gives the records, and nothing of a list that is cut. */
    for (end = 0; end <= list.length; end++) {
        uint8_t *cut = (uint8_t *)__real_malloc(end > 0 ? end : 1);
        size_t seen = 0, whole = 0;
        memcpy(cut, list.bytes, end);
        cursor = todrenval_walk(cut, end);
        while (todrenval_next_item(&cursor, &item)) {
            seen++;
            whole += TODRENVAL_RECORD_SIZE + item.key_length + item.value_length;
        }
        count(cursor.left == end - whole, "what is left", "a cursor", (long)end);
        count((seen == 4) == (end == list.length), "all records", "a cursor", (long)end);
        __real_free(cut);
    }
    cursor = todrenval_walk(list.bytes, list.length);
    count(todrenval_next_item(&cursor, &item) && item.kind == TODRENVAL_COMMENT && item.line == 1 &&
              item.key_length == 0 && item.value_length == 3 && memcmp(item.value, "one", 3) == 0,
          "the comment", "a cursor", 0);
    count(todrenval_next_item(&cursor, &item) && item.kind == TODRENVAL_PAIR && item.line == 2 &&
              item.key_length == 1 && *item.key == 'a' && item.value_length == 1 && *item.value == '1',
          "the pair", "a cursor", 0);

    /* Lengths whose sum is more than any number. */
    list.length = 0;
    put_number(&list, 1);
    put_number(&list, 1);
    put_number(&list, 1);
    put_number(&list, 0xffffffffffffffffULL);
    put_text(&list, T("ab"));
    cursor = todrenval_walk(list.bytes, list.length);
    count(!todrenval_next_item(&cursor, &item) && cursor.left == list.length, "refused", "a cursor", 0);
}

static void try_findings(void) {
    struct packed list = {{0}, 0};
    struct todrenval_cursor cursor;
    struct todrenval_finding finding;
    static char const source[] = "a=1\nb=2\na=3\n\\u0062=\\u12\n#C:\\users\n k\\u0020=\\udc1e\n\\u0062=4\na\n";
    check("findings of nothing", request_of(FINDINGS, T(""), TODRENVAL_UTF_8), TODRENVAL_OK, 0, T(""));
    check("no findings", request_of(FINDINGS, T("a=1\nb=1\n#a\n"), TODRENVAL_UTF_8), TODRENVAL_OK, 0, T(""));
    put_finding(&list, TODRENVAL_FOUND_NOT_ENOUGH_DIGITS, 4, 0, T(""));
    put_finding(&list, TODRENVAL_FOUND_NOT_HEX, 5, 1, T(""));
    put_finding(&list, TODRENVAL_FOUND_INVALID_CHARACTER, 6, 0, T(""));
    put_finding(&list, TODRENVAL_FOUND_REPEATED_KEY, 3, 1, T("a"));
    put_finding(&list, TODRENVAL_FOUND_REPEATED_KEY, 7, 2, T("b"));
    put_finding(&list, TODRENVAL_FOUND_REPEATED_KEY, 8, 1, T("a"));
    check("findings", request_of(FINDINGS, T(source), TODRENVAL_UTF_8), TODRENVAL_OK, 0, text_of_list(&list));
    cursor = todrenval_walk(list.bytes, list.length);
    count(todrenval_next_finding(&cursor, &finding) && finding.kind == TODRENVAL_FOUND_NOT_ENOUGH_DIGITS &&
              finding.line == 4 && finding.first == 0 && !finding.in_comment && finding.key_length == 0,
          "the escape", "a cursor", 0);
    count(todrenval_next_finding(&cursor, &finding) && finding.kind == TODRENVAL_FOUND_NOT_HEX && finding.line == 5 &&
              finding.first == 0 && finding.in_comment && finding.key_length == 0,
          "the escape in a comment", "a cursor", 0);
    count(todrenval_next_finding(&cursor, &finding) && !finding.in_comment &&
              todrenval_next_finding(&cursor, &finding) && finding.kind == TODRENVAL_FOUND_REPEATED_KEY &&
              finding.line == 3 && finding.first == 1 && !finding.in_comment && finding.key_length == 1 &&
              *finding.key == 'a',
          "the key", "a cursor", 0);
    cursor = todrenval_walk(list.bytes, list.length - 1);
    while (todrenval_next_finding(&cursor, &finding)) {
    }
    count(cursor.left == TODRENVAL_RECORD_SIZE, "what is left", "a cursor", 0);

    /* Keys that aren't UTF-8 read as one, and the lines aren't reported. */
    list.length = 0;
    put_finding(&list, TODRENVAL_FOUND_REPEATED_KEY, 2, 1, T("\xef\xbf\xbd"));
    check("findings in what isn't UTF-8", request_of(FINDINGS, T("\xe4=1\n\xf6=2\n"), TODRENVAL_UTF_8), TODRENVAL_OK,
          0, text_of_list(&list));
    check("no findings in windows-1252", request_of(FINDINGS, T("\xe4=1\n\xf6=2\n"), TODRENVAL_WINDOWS_1252),
          TODRENVAL_OK, 0, T(""));
}

static void try_edits(void) {
    struct packed list = {{0}, 0};
    struct request request = request_of(SET_VALUE, T("k    = 1\nb=2"), TODRENVAL_UTF_8);
    check("set_value", request, TODRENVAL_OK, 0, T("k    = v\nb=2"));
    request.call = SET_KEY;
    check("set_key", request, TODRENVAL_OK, 0, T("k=v\nb=2"));
    request.call = REMOVE_KEY;
    check("remove_key", request, TODRENVAL_OK, 0, T("b=2"));
    request.key = T("c");
    check("remove_key of none", request, TODRENVAL_OK, 0, T("k    = 1\nb=2"));
    request.call = SET_VALUE;
    check("set_value of none", request, TODRENVAL_OK, 0, T("k    = 1\nb=2\nc=v\n"));
    request = request_of(REMOVE_KEY, T("k\\\n=v"), TODRENVAL_UTF_8);
    check("remove_key of all", request, TODRENVAL_OK, 0, T(""));
    request = request_of(SET_KEY, T(""), TODRENVAL_WINDOWS_1252);
    request.key = T("");
    request.value = T("");
    check("set_key of nothing", request, TODRENVAL_OK, 0, T("=\n"));

    /* ASCII only, and each encoding. What was there stays. */
    request = request_of(SET_VALUE, T("# \xe9\n\xe9 = \xe9\n"), TODRENVAL_WINDOWS_1252);
    request.key = T("\xc3\xa9");
    request.value = T("\xc3\xa8\xe2\x82\xac\xe3\x81\x82");
    check("set_value, windows-1252", request, TODRENVAL_OK, 0, T("# \xe9\n\xe9 = \xe8\x80\\u3042\n"));
    request.flags = TODRENVAL_ASCII_ONLY;
    check("set_value, ASCII", request, TODRENVAL_OK, 0, T("# \xe9\n\xe9 = \\u00e8\\u20ac\\u3042\n"));
    request.flags |= TODRENVAL_LATIN_1;
    check("set_value, ASCII and Latin-1", request, TODRENVAL_OK, 0, T("# \xe9\n\xe9 = \\u00e8\\u20ac\\u3042\n"));
    request.flags = TODRENVAL_LATIN_1;
    check("set_value, Latin-1", request, TODRENVAL_OK, 0, T("# \xe9\n\xe9 = \xe8\\u20ac\\u3042\n"));
    request.call = SET_KEY;
    check("set_key, Latin-1", request, TODRENVAL_OK, 0, T("# \xe9\n\xe9=\xe8\\u20ac\\u3042\n"));
    request.flags = TODRENVAL_ASCII_ONLY;
    check("set_key, ASCII", request, TODRENVAL_OK, 0, T("# \xe9\n\\u00e9=\\u00e8\\u20ac\\u3042\n"));
    request.source = T("# \xc3\xa9\n");
    request.encoding = TODRENVAL_UTF_8;
    check("set_key, ASCII in UTF-8", request, TODRENVAL_OK, 0, T("# \xc3\xa9\n\\u00e9=\\u00e8\\u20ac\\u3042\n"));
    request.flags = TODRENVAL_LATIN_1;
    check("set_key, Latin-1 in UTF-8", request, TODRENVAL_OK, 0, T("# \xc3\xa9\n\\u00e9=\\u00e8\\u20ac\\u3042\n"));
    request.flags = 0;
    check("set_key, UTF-8", request, TODRENVAL_OK, 0, T("# \xc3\xa9\n\xc3\xa9=\xc3\xa8\xe2\x82\xac\xe3\x81\x82\n"));
    request.encoding = TODRENVAL_UTF_16LE;
    request.source = T("\xef\xbb\xbf");
    check("set_key after a byte order mark", request, TODRENVAL_OK, 0,
          T("\xef\xbb\xbf\xc3\xa9=\xc3\xa8\xe2\x82\xac\xe3\x81\x82\n"));

    /* Escapes of ASCII, and of what would begin like a byte order mark; and a new pair takes no indent. */
    request = request_of(SET_KEY, T(""), TODRENVAL_UTF_8);
    request.key = T("\xef\xbb\xbf\x01");
    request.value = T("\n\xef\xbb\xbf");
    check("set_key like a byte order mark", request, TODRENVAL_OK, 0, T("\\ufeff\\u0001=\\n\xef\xbb\xbf\n"));
    request = request_of(REMOVE_KEY, T("k=v\n\xef\xbb\xbf" "a=1\n"), TODRENVAL_UTF_8);
    check("remove_key before a byte order mark", request, TODRENVAL_OK, 0, T("\n\xef\xbb\xbf" "a=1\n"));
    request = request_of(SET_VALUE, T("  a  :  1\r\n"), TODRENVAL_UTF_8);
    check("set_value without indent", request, TODRENVAL_OK, 0, T("  a  :  1\r\nk : v\r\n"));

    request = request_of(EDIT, T("a : 1\nb=2\n"), TODRENVAL_UTF_8);
    check("edit by no edits", request, TODRENVAL_OK, 0, T("a : 1\nb=2\n"));
    put_item(&list, TODRENVAL_EDIT_SET_VALUE, 7, T("a"), T("3"));
    put_item(&list, TODRENVAL_EDIT_REMOVE_KEY, 0xffffffffffffffffULL, T("b"), T(""));
    put_item(&list, TODRENVAL_EDIT_SET_KEY, 0, T("c"), T("\xc3\xa9"));
    request.list = text_of_list(&list);
    check("edit", request, TODRENVAL_OK, 0, T("a : 3\nc=\xc3\xa9\n"));
    request.flags = TODRENVAL_ASCII_ONLY;
    check("edit, ASCII", request, TODRENVAL_OK, 0, T("a : 3\nc=\\u00e9\n"));
    request.flags = TODRENVAL_LATIN_1 | TODRENVAL_READ_COMMENTS | TODRENVAL_STRICT;
    check("edit, Latin-1 in UTF-8", request, TODRENVAL_OK, 0, T("a : 3\nc=\\u00e9\n"));
    request.encoding = TODRENVAL_WINDOWS_1252;
    check("edit, Latin-1", request, TODRENVAL_OK, 0, T("a : 3\nc=\xe9\n"));
}

/* An edit of the list is refused: nothing is written, and the length is its index. */
static void refuses_edit(char const *name, struct request request, int status, size_t index, size_t line) {
    uint8_t out[50];
    struct todrenval_result made;
    size_t room;
    for (room = 0; room <= sizeof out; room += sizeof out) {
        size_t length = UNSET, its_line = UNSET;
        int came;
        memset(out, PATTERN, sizeof out);
        blocks = 0;
        came = make_call(&request, out, room, &length, &its_line);
        count(came == status, "the status", name, (long)room);
        count(length == index && its_line == line, "its index and line", name, (long)room);
        count(is_untouched(out, sizeof out), "as it was", name, (long)room);
        count(blocks == 0, "all memory freed", name, (long)room);
    }
    made = make_new(&request);
    count(made.status == status && made.length == index && made.line == line, "the same", name, -2);
    count(made.bytes[0] == 0, "an empty C string", name, -2);
    free(made.bytes);
    count(blocks == 0, "all memory freed", name, -2);
}

/* Edits of every kind in one list. */
static void try_edit_kinds(void) {
    struct packed list = {{0}, 0};
    struct request request = request_of(EDIT, T("# of b\nb : 1\n\n! of c\nc=2\n"), TODRENVAL_UTF_8);
    put_item(&list, TODRENVAL_EDIT_RENAME_KEY, 7, T("b"), T("\xc3\xa9"));
    put_item(&list, TODRENVAL_EDIT_SET_COMMENT, 0, T("\xc3\xa9"), T("old"));
    put_item(&list, TODRENVAL_EDIT_SET_COMMENT, 0, T("\xc3\xa9"), T("\xc3\xa8\nnew"));
    put_item(&list, TODRENVAL_EDIT_SET_VALUE, 0, T("\xc3\xa9"), T("3"));
    put_item(&list, TODRENVAL_EDIT_REMOVE_WITH_COMMENT, 0xffffffffffffffffULL, T("c"), T(""));
    put_item(&list, TODRENVAL_EDIT_REMOVE_WITH_COMMENT, 0, T("none"), T(""));
    request.list = text_of_list(&list);
    check("edit of each kind", request, TODRENVAL_OK, 0, T("# \xc3\xa8\n# new\n\xc3\xa9 : 3\n\n"));
    request.flags = TODRENVAL_ASCII_ONLY | TODRENVAL_READ_COMMENTS | TODRENVAL_STRICT;
    check("edit of each kind, ASCII", request, TODRENVAL_OK, 0, T("# \\u00e8\n# new\n\\u00e9 : 3\n\n"));

    /* Renames are made in turn, and the other way round the first one is refused, or the second. */
    list.length = 0;
    put_item(&list, TODRENVAL_EDIT_RENAME_KEY, 0, T("b"), T("a"));
    put_item(&list, TODRENVAL_EDIT_RENAME_KEY, 0, T("a"), T("d"));
    request.list = text_of_list(&list);
    check("edit by renames", request, TODRENVAL_OK, 0, T("# of b\nd : 1\n\n! of c\nc=2\n"));
    put_item(&list, TODRENVAL_EDIT_RENAME_KEY, 0, T("a"), T("c"));
    request.list = text_of_list(&list);
    refuses_edit("edit by a rename of none", request, TODRENVAL_NO_KEY, 2, 0);
    list.length = 0;
    put_item(&list, TODRENVAL_EDIT_RENAME_KEY, 0, T("b"), T("c"));
    request.list = text_of_list(&list);
    refuses_edit("edit by a rename to one that is there", request, TODRENVAL_KEY_TAKEN, 0, 5);

    /* The index counts all edits, and the line is one of what those before gave. */
    list.length = 0;
    put_item(&list, TODRENVAL_EDIT_SET_VALUE, 0, T("a"), T("1"));
    put_item(&list, TODRENVAL_EDIT_SET_COMMENT, 0, T("a"), T("one\ntwo"));
    put_item(&list, TODRENVAL_EDIT_REMOVE_KEY, 0, T("none"), T(""));
    put_item(&list, TODRENVAL_EDIT_RENAME_KEY, 0, T("b"), T("b"));
    put_item(&list, TODRENVAL_EDIT_RENAME_KEY, 0, T("b"), T("a"));
    request.list = text_of_list(&list);
    refuses_edit("edit by a rename to a new one", request, TODRENVAL_KEY_TAKEN, 4, 8);
    list.length = 0;
    put_item(&list, TODRENVAL_EDIT_SET_COMMENT, 0, T("c"), T(""));
    put_item(&list, TODRENVAL_EDIT_SET_COMMENT, 0, T("none"), T(""));
    request.list = text_of_list(&list);
    refuses_edit("edit by a comment of none", request, TODRENVAL_NO_KEY, 1, 0);
    request.source = T("b\n\\u1");
    refuses("edit by a comment of none before an escape", request, TODRENVAL_NOT_ENOUGH_DIGITS, 2);
}

/* A malformed escape that an edit puts into a comment is an error of the next one, if comments are read. */
static void try_edited_escapes(void) {
    struct packed list = {{0}, 0};
    struct request request = request_of(EDIT, T("a=1\na=1\n\nb=2\n"), TODRENVAL_UTF_8);
    struct todrenval_result made;
    put_item(&list, TODRENVAL_EDIT_SET_COMMENT, 0, T("b"), T("c\nC:\\users"));
    put_item(&list, TODRENVAL_EDIT_REMOVE_KEY, 0, T("none"), T(""));
    request.list = text_of_list(&list);
    check("edit by a comment", request, TODRENVAL_OK, 0, T("a=1\na=1\n\n# c\n# C:\\users\nb=2\n"));
    request.flags = TODRENVAL_READ_COMMENTS;
    refuses("edit after a malformed escape", request, TODRENVAL_NOT_HEX, 5);
    made = make_new(&request);
    count(made.in_comment, "in a comment", "edit", -2);
    free(made.bytes);
}

static void try_renaming(void) {
    struct request request = request_of(RENAME_KEY, T("# k\n  k\t= 1\\\n  k\n\\u006b: 2"), TODRENVAL_UTF_8);
    check("rename_key", request, TODRENVAL_OK, 0, T("# k\n  v\t= 1\\\n  k\nv: 2"));
    request.value = T("k");
    check("rename_key to what it is", request, TODRENVAL_OK, 0, request.source);
    request.value = T("");
    check("rename_key to nothing", request, TODRENVAL_OK, 0, T("# k\n  \t= 1\\\n  k\n: 2"));
    request.key = T("v");
    refuses("rename_key of none", request, TODRENVAL_NO_KEY, 0);
    request = request_of(RENAME_KEY, T("\nk=1\na\\\n\nv\\\n\nv=2"), TODRENVAL_UTF_8);
    refuses("rename_key to one that is there", request, TODRENVAL_KEY_TAKEN, 5);
    request.key = T("b");
    refuses("rename_key of none to one that is there", request, TODRENVAL_NO_KEY, 0);
    request = request_of(RENAME_KEY, T("k 1\nk"), TODRENVAL_UTF_8);
    request.value = T("");
    check("rename_key to a sign", request, TODRENVAL_OK, 0, T("= 1\n="));

    /* What may stand unescaped, and what would begin like a byte order mark. */
    request = request_of(RENAME_KEY, T("k=\xe9\n"), TODRENVAL_WINDOWS_1252);
    request.value = T("\xc3\xa9 \xe2\x82\xac");
    check("rename_key, windows-1252", request, TODRENVAL_OK, 0, T("\xe9\\ \x80=\xe9\n"));
    request.flags = TODRENVAL_LATIN_1;
    check("rename_key, Latin-1", request, TODRENVAL_OK, 0, T("\xe9\\ \\u20ac=\xe9\n"));
    request.flags = TODRENVAL_ASCII_ONLY | TODRENVAL_STRICT;
    check("rename_key, ASCII", request, TODRENVAL_OK, 0, T("\\u00e9\\ \\u20ac=\xe9\n"));
    request = request_of(RENAME_KEY, T("k=1\nk=2"), TODRENVAL_UTF_8);
    request.value = T("\xef\xbb\xbf");
    check("rename_key like a byte order mark", request, TODRENVAL_OK, 0, T("\\ufeff=1\n\xef\xbb\xbf=2"));
}

static void try_key_comments(void) {
    struct request request = request_of(COMMENT, T("# k\nk=1\n# of\n\n # the\n#\n!  last\\u00e9\r\n\\u006b"), TODRENVAL_UTF_8);
    check("comment", request, TODRENVAL_OK, 0, T("the\n\n last\\u00e9\n"));
    request.key = T("the");
    refuses("comment of none", request, TODRENVAL_NO_KEY, 0);
    request = request_of(REMOVE_WITH_COMMENT, request.source, TODRENVAL_UTF_8);
    check("remove_with_comment", request, TODRENVAL_OK, 0, T("# of\n\n"));
    request.key = T("the");
    check("remove_with_comment of none", request, TODRENVAL_OK, 0, request.source);
    request.source = T("#\nthe\n\xef\xbb\xbf=1");
    check("remove_with_comment before a byte order mark", request, TODRENVAL_OK, 0, T("\n\xef\xbb\xbf=1"));
    request.source = T("\xef\xbb\xbf#\nthe");
    check("remove_with_comment after a byte order mark", request, TODRENVAL_OK, 0, T("\xef\xbb\xbf"));

    /* A comment is raw: no escape of it is read. One of another pair is. */
    request = request_of(COMMENT, T("# C:\\users \xe9\nk"), TODRENVAL_WINDOWS_1252);
    check("comment, raw", request, TODRENVAL_OK, 0, T("C:\\users \xc3\xa9\n"));
    request.encoding = TODRENVAL_UTF_8;
    check("comment, replaced", request, TODRENVAL_OK, 0, T("C:\\users \xef\xbf\xbd\n"));
    request.flags = TODRENVAL_STRICT;
    refuses("comment, strict", request, TODRENVAL_NOT_TEXT, 1);
    request = request_of(COMMENT, T("#C:\\users\nk\n\nb\\ud83d"), TODRENVAL_UTF_8);
    refuses("comment before an escape", request, TODRENVAL_INVALID_CHARACTER, 4);
}

static void try_setting_comments(void) {
    struct request request =
        request_of(SET_COMMENT, T("# k\nk=1\n\n \t!one\\u00e9\r\n #\n  \\u006b = 2\n"), TODRENVAL_UTF_8);
    request.value = T("a\\u12\n\r\n b\r");
    check("set_comment", request, TODRENVAL_OK, 0,
          T("# k\nk=1\n\n \t!a\\u12\r\n \t!\r\n \t!  b\r\n  \\u006b = 2\n"));
    request.value = T("one\\u00e9\n\n");
    check("set_comment to what it is", request, TODRENVAL_OK, 0, request.source);
    request.value = T("");
    check("set_comment to none", request, TODRENVAL_OK, 0, T("# k\nk=1\n\n  \\u006b = 2\n"));
    request.value = T("\n");
    check("set_comment to an empty line", request, TODRENVAL_OK, 0, T("# k\nk=1\n\n \t!\r\n  \\u006b = 2\n"));
    request.key = T("one");
    refuses("set_comment of none", request, TODRENVAL_NO_KEY, 0);
    request = request_of(SET_COMMENT, T("#\n\t k=1\r\n"), TODRENVAL_UTF_8);
    check("set_comment like the pair", request, TODRENVAL_OK, 0, T("\t # v\r\n\t k=1\r\n"));
    request.source = T("k");
    check("set_comment without a line ending", request, TODRENVAL_OK, 0, T("# v\nk"));

    /* What may stand unescaped, and what would begin like a byte order mark. */
    request = request_of(SET_COMMENT, T("k=\xe9\n"), TODRENVAL_WINDOWS_1252);
    request.value = T("\xc3\xa9 \xe2\x82\xac");
    check("set_comment, windows-1252", request, TODRENVAL_OK, 0, T("# \xe9 \x80\nk=\xe9\n"));
    request.flags = TODRENVAL_LATIN_1;
    check("set_comment, Latin-1", request, TODRENVAL_OK, 0, T("# \xe9 \\u20ac\nk=\xe9\n"));
    request.flags = TODRENVAL_ASCII_ONLY | TODRENVAL_STRICT;
    check("set_comment, ASCII", request, TODRENVAL_OK, 0, T("# \\u00e9 \\u20ac\nk=\xe9\n"));
    request = request_of(SET_COMMENT, T("#v\n\xef\xbb\xbf=1"), TODRENVAL_UTF_8);
    request.key = T("\xef\xbb\xbf");
    request.value = T("");
    check("set_comment before a byte order mark", request, TODRENVAL_OK, 0, T("\n\xef\xbb\xbf=1"));
}

static void try_write(void) {
    struct packed list = {{0}, 0};
    struct request request = request_of(WRITE, T(""), TODRENVAL_UTF_8);
    check("write of nothing", request, TODRENVAL_OK, 0, T(""));
    put_item(&list, TODRENVAL_COMMENT, 9, T(""), T("c \xc3\xa9"));
    put_item(&list, TODRENVAL_PAIR, 0, T("a b"), T("\xe2\x82\xac\n"));
    put_item(&list, TODRENVAL_PAIR, 0, T(""), T(""));
    request.list = text_of_list(&list);
    check("write", request, TODRENVAL_OK, 0, T("# c \xc3\xa9\na\\ b=\xe2\x82\xac\\n\n=\n"));
    request.encoding = TODRENVAL_UTF_16LE;
    check("write, UTF-16LE", request, TODRENVAL_OK, 0, T("# c \xc3\xa9\na\\ b=\xe2\x82\xac\\n\n=\n"));
    request.encoding = TODRENVAL_UTF_16BE;
    check("write, UTF-16BE", request, TODRENVAL_OK, 0, T("# c \xc3\xa9\na\\ b=\xe2\x82\xac\\n\n=\n"));
    request.encoding = TODRENVAL_WINDOWS_1252;
    check("write, windows-1252", request, TODRENVAL_OK, 0, T("# c \xe9\na\\ b=\x80\\n\n=\n"));
    request.flags = TODRENVAL_ASCII_ONLY;
    check("write, ASCII", request, TODRENVAL_OK, 0, T("# c \\u00e9\na\\ b=\\u20ac\\n\n=\n"));

    /* Values as people write them, or not. */
    list.length = 0;
    put_item(&list, TODRENVAL_COMMENT, 0, T(""), T("a b"));
    put_item(&list, TODRENVAL_PAIR, 0, T("a b"), T(" x: \xc3\xa9=#! "));
    put_item(&list, TODRENVAL_PAIR, 0, T("c"), T("=\t"));
    request.list = text_of_list(&list);
    request.flags = 0;
    check("write, escaped", request, TODRENVAL_OK, 0, T("# a b\na\\ b=\\ x\\:\\ \xe9\\=\\#\\!\\ \nc=\\=\\t\n"));
    request.flags = TODRENVAL_READABLE;
    check("write, readable", request, TODRENVAL_OK, 0, T("# a b\na\\ b=\\ x: \xe9=#!\\u0020\nc==\\t\n"));
    request.flags = TODRENVAL_ASCII_ONLY | TODRENVAL_READABLE;
    check("write, readable ASCII", request, TODRENVAL_OK, 0, T("# a b\na\\ b=\\ x: \\u00e9=#!\\u0020\nc==\\t\n"));
}

/* Prefixes, separators and line endings. */
static void try_settings(void) {
    static char const *const prefixes[] = {"x", " ", "\xc3\xa9#", "#\n", "#\r", "\n#", "=#"};
    static char const *const separators[] = {"x", "==", "=:", "= :", "a=", "\n", "= \r", "\xc2\xa0"};
    static uint32_t const endings[] = {0, TODRENVAL_CRLF, TODRENVAL_CR};
    static uint32_t const both[] = {
        24, 25, 26, 28, 31, 32, 40, 48, 64, 512, 2048, 4104 + 16, 8192, 8193, 12288, 0x80001000,
    };
    struct packed list = {{0}, 0};
    struct packed empty = {{0}, 0};
    struct text wanted[3];
    struct request request = request_of(WRITE, T(""), TODRENVAL_UTF_8);
    size_t place;
    put_item(&list, TODRENVAL_COMMENT, 0, T(""), T("c"));
    put_item(&list, TODRENVAL_PAIR, 0, T("a"), T("1 2"));
    put_item(&list, TODRENVAL_PAIR, 0, T("b"), T(""));
    put_item(&empty, TODRENVAL_PAIR, 0, T("a"), T("1"));
    put_item(&empty, TODRENVAL_PAIR, 0, T(""), T("2"));
    put_item(&empty, TODRENVAL_PAIR, 0, T("b"), T("3"));
    wanted[0] = T("# c\na=1\\ 2\nb=\n");
    wanted[1] = T("# c\r\na=1\\ 2\r\nb=\r\n");
    wanted[2] = T("# c\ra=1\\ 2\rb=\r");
    request.list = text_of_list(&list);
    for (place = 0; place < 3; place++) {
        request.flags = endings[place];
        check("endings", request, TODRENVAL_OK, 0, wanted[place]);
    }
    for (place = 0; place < sizeof both / sizeof *both; place++) {
        request.flags = both[place];
        refuses("no endings", request, TODRENVAL_UNKNOWN_FLAGS, 0);
    }
    request.flags = TODRENVAL_READABLE | TODRENVAL_CRLF;
    request.prefix = T("  ! \xc3\xa9");
    request.separator = T(" : ");
    check("settings", request, TODRENVAL_OK, 0, T("  ! \xc3\xa9" "c\r\na : 1 2\r\nb : \r\n"));
    request.flags |= TODRENVAL_ASCII_ONLY;
    check("settings, ASCII", request, TODRENVAL_OK, 0, T("  ! \\u00e9c\r\na : 1 2\r\nb : \r\n"));
    request.flags = TODRENVAL_READABLE;
    request.prefix = T("#");
    request.separator = T("\t");
    check("blanks", request, TODRENVAL_OK, 0, T("#c\na\t1 2\nb\t\n"));
    request.list = text_of_list(&empty);
    refuses("an empty key", request, TODRENVAL_EMPTY_KEY, 0);
    request.separator = T("\t:");
    check("an empty key", request, TODRENVAL_OK, 0, T("a\t:1\n\t:2\nb\t:3\n"));
    request.separator = T(" ");
    request.list = T("x");
    refuses("a bad list before an empty key", request, TODRENVAL_BAD_LIST, 0);
    request.list = T("");
    check("no lines", request, TODRENVAL_OK, 0, T(""));
    for (place = 0; place < sizeof prefixes / sizeof *prefixes; place++) {
        request.prefix = text_of(prefixes[place], strlen(prefixes[place]));
        request.separator = T("x");
        request.list = text_of_list(&empty);
        refuses("a bad prefix", request, TODRENVAL_BAD_PREFIX, 0);
        request.list = T("x");
        refuses("a bad list before a bad prefix", request, TODRENVAL_BAD_LIST, 0);
    }
    request.prefix = T("#");
    request.list = text_of_list(&empty);
    for (place = 0; place < sizeof separators / sizeof *separators; place++) {
        request.separator = text_of(separators[place], strlen(separators[place]));
        refuses("a bad separator", request, TODRENVAL_BAD_SEPARATOR, 0);
    }
    request.list = T("x");
    request.separator = T("\xff");
    refuses("a separator that isn't UTF-8", request, TODRENVAL_NOT_UTF_8, 0);
    request.separator = T("=");
    request.prefix = T("#\xc3");
    refuses("a prefix that isn't UTF-8", request, TODRENVAL_NOT_UTF_8, 0);
}

/* Converts to each target, with spellings kept and readable. In ASCII that is the same. */
static void converts(char const *name, struct text source, uint32_t encoding, struct text windows_1252,
                     struct text windows_1252_readable, struct text utf_8, struct text utf_8_readable,
                     struct text ascii) {
    struct request request = request_of(CONVERT, source, encoding);
    check(name, request, TODRENVAL_OK, 0, ascii);
    request.flags = TODRENVAL_READABLE;
    check(name, request, TODRENVAL_OK, 0, ascii);
    request.target = TODRENVAL_TO_UTF_8;
    check(name, request, TODRENVAL_OK, 0, utf_8_readable);
    request.flags = 0;
    check(name, request, TODRENVAL_OK, 0, utf_8);
    request.target = TODRENVAL_TO_WINDOWS_1252;
    check(name, request, TODRENVAL_OK, 0, windows_1252);
    request.flags = TODRENVAL_READABLE;
    check(name, request, TODRENVAL_OK, 0, windows_1252_readable);
}

static void try_convert(void) {
    static uint32_t const targets[] = {
        0, 1, 2, 3, 4, 15, 20, 255, 256, 272, 0x10010, 0x7fffffff, 0x80000010, 0xffffffff,
    };
    struct request latin_1;
    struct text text;
    size_t place;
    text = T("");
    converts("convert of nothing", text, TODRENVAL_UTF_8, text, text, text, text, text);
    converts("convert of windows-1252", T("# caf\xe9\nk\xe9y : \\u20ac\n"), TODRENVAL_WINDOWS_1252,
             T("# caf\xe9\nk\xe9y : \\u20ac\n"), T("# caf\xe9\nk\xe9y : \x80\n"),
             T("# caf\xc3\xa9\nk\xc3\xa9y : \\u20ac\n"), T("# caf\xc3\xa9\nk\xc3\xa9y : \xe2\x82\xac\n"),
             T("# caf\\u00e9\nk\\u00e9y : \\u20ac\n"));
    converts("convert of UTF-8", T("\xe3\x81\x82=\\u3042\\u00E9"), TODRENVAL_UTF_8, T("\\u3042=\\u3042\\u00E9"),
             T("\\u3042=\\u3042\xe9"), T("\xe3\x81\x82=\\u3042\\u00E9"), T("\xe3\x81\x82=\xe3\x81\x82\xc3\xa9"),
             T("\\u3042=\\u3042\\u00E9"));
    text = T("\\u3042=\xe9");
    converts("convert of UTF-16LE", T("\x42\x30=\0\xe9\0"), TODRENVAL_UTF_16LE, text, text,
             T("\xe3\x81\x82=\xc3\xa9"), T("\xe3\x81\x82=\xc3\xa9"), T("\\u3042=\\u00e9"));
    converts("convert of UTF-16BE", T("\x30\x42\0=\0\xe9"), TODRENVAL_UTF_16BE, text, text, T("\xe3\x81\x82=\xc3\xa9"),
             T("\xe3\x81\x82=\xc3\xa9"), T("\\u3042=\\u00e9"));
    text = T("k=\\ud83d\\udc1e");
    converts("convert of two escapes", text, TODRENVAL_UTF_8, text, text, text, T("k=\xf0\x9f\x90\x9e"), text);
    converts("convert past U+FFFF", T("k=\xf0\x9f\x90\x9e"), TODRENVAL_UTF_8, text, text, T("k=\xf0\x9f\x90\x9e"),
             T("k=\xf0\x9f\x90\x9e"), text);

    /* Layout stays, escapes of ASCII stay, and the backslash goes with its character. */
    text = T("\t! one \r\n\n  a\\\n  \t: \\t\\u003d\\\r\n");
    converts("convert of ASCII", text, TODRENVAL_WINDOWS_1252, text, text, text, text, text);
    converts("convert after a backslash", T("\\\xc3\xa9=1"), TODRENVAL_UTF_8, T("\\\xe9=1"), T("\xe9=1"),
             T("\\\xc3\xa9=1"), T("\xc3\xa9=1"), T("\\u00e9=1"));
    text = T("\\\\u00e9=\\u00\\\ne9");
    converts("convert of no escapes", text, TODRENVAL_UTF_8, text, text, text, text, text);

    /* A byte order mark is dropped, and nothing at the front is like one. */
    text = T("k=1");
    converts("convert after a byte order mark", T("\xef\xbb\xbfk=1"), TODRENVAL_UTF_16LE, text, text, text, text, text);
    converts("convert after a byte order mark", T("\xfe\xff\0k\0=\0001"), TODRENVAL_UTF_8, text, text, text, text, text);
    text = T("\\ufeffk=1");
    converts("convert after two marks", T("\xef\xbb\xbf\xef\xbb\xbfk=1"), TODRENVAL_UTF_8, text, text, text, text,
             text);
    text = T("\\u00ef\xbb\xbfk=1");
    converts("convert like a byte order mark", T("\xc3\xaf\xc2\xbb\xc2\xbfk=1"), TODRENVAL_UTF_8, text, text,
             T("\xc3\xaf\xc2\xbb\xc2\xbfk=1"), T("\xc3\xaf\xc2\xbb\xc2\xbfk=1"), T("\\u00ef\\u00bb\\u00bfk=1"));

    /* Malformed escapes, and bytes that aren't text. */
    converts("convert of a malformed escape", T("# C:\\users \xe9\nk=\\u12\n\\ud83d=\\uxxxx"), TODRENVAL_WINDOWS_1252,
             T("# C:\\users \xe9\nk=\\u12\n\\ud83d=\\uxxxx"), T("# C:\\users \xe9\nk=\\u12\n\\ud83d=\\uxxxx"),
             T("# C:\\users \xc3\xa9\nk=\\u12\n\\ud83d=\\uxxxx"), T("# C:\\users \xc3\xa9\nk=\\u12\n\\ud83d=\\uxxxx"),
             T("# C:\\users \\u00e9\nk=\\u12\n\\ud83d=\\uxxxx"));
    text = T("k=\\ufffd");
    converts("convert of what isn't UTF-8", T("k=\xff"), TODRENVAL_UTF_8, text, text, T("k=\xef\xbf\xbd"),
             T("k=\xef\xbf\xbd"), text);

    /* What ISO 8859-1 has as well stays, and what only windows-1252 has doesn't. */
    latin_1 = request_of(CONVERT, T("# \xe9\xa0\xff\nk\x80=\x99\\u00e9\\u0178\n"), TODRENVAL_WINDOWS_1252);
    latin_1.target = TODRENVAL_TO_LATIN_1;
    check("convert to Latin-1", latin_1, TODRENVAL_OK, 0, T("# \xe9\xa0\xff\nk\\u20ac=\\u2122\\u00e9\\u0178\n"));
    latin_1.flags = TODRENVAL_READABLE;
    check("convert to readable Latin-1", latin_1, TODRENVAL_OK, 0,
          T("# \xe9\xa0\xff\nk\\u20ac=\\u2122\xe9\\u0178\n"));
    latin_1.source = T("k\xc3\xa9=\xe3\x81\x82\xc2\x9f\xc3\xbf");
    latin_1.encoding = TODRENVAL_UTF_8;
    check("convert of UTF-8 to Latin-1", latin_1, TODRENVAL_OK, 0, T("k\xe9=\\u3042\\u009f\xff"));

    for (place = 0; place < sizeof targets / sizeof *targets; place++) {
        struct request request = request_of(CONVERT, T("k=1"), TODRENVAL_UTF_8);
        request.target = targets[place];
        refuses("convert to none", request, TODRENVAL_UNKNOWN_ENCODING, 0);
    }
}

/* Sources that aren't text are refused where a call is strict, before malformed escapes, and read where it isn't. */
static void try_strict(void) {
    static enum call const calls[] = {GET, EDIT, RENAME_KEY, REMOVE_WITH_COMMENT, COMMENT, SET_COMMENT, CONVERT};
    static size_t const lines[] = {2, 1, 1, 3, 2, 2, 1, 2};
    static uint32_t const encodings[] = {
        TODRENVAL_UTF_8,    TODRENVAL_UTF_8,    TODRENVAL_UTF_16LE, TODRENVAL_UTF_8,
        TODRENVAL_UTF_16LE, TODRENVAL_UTF_16BE, TODRENVAL_UTF_8,    TODRENVAL_WINDOWS_1252,
    };
    struct text sources[8], sound[5];
    size_t number, place;
    sources[0] = T("k=1\n\xff=\\u12\n\xff");
    sources[1] = T("\xff\0\n\0");
    sources[2] = T("\xef\xbb\xbf\xc3");
    sources[3] = T("\xff\r\n\r\n\0");
    sources[4] = T("k\0\n\0\x3d\xd8k\0");
    sources[5] = T("\0k\0\n\0");
    sources[6] = T("\xff\xfe\0\xdc");
    sources[7] = T("\xef\xbb\xbf\n\x80");
    for (number = 0; number < sizeof calls / sizeof *calls; number++) {
        for (place = 0; place < 8; place++) {
            struct request request = request_of(calls[number], sources[place], encodings[place]);
            request.flags = TODRENVAL_STRICT;
            refuses("strict", request, TODRENVAL_NOT_TEXT, lines[place]);
            if (calls[number] != CONVERT) {
                request.key = T("\xff");
                request.list = T("x");
                refuses("before strict", request,
                        calls[number] == EDIT ? TODRENVAL_BAD_LIST : TODRENVAL_NOT_UTF_8, 0);
            }
        }
    }
    /* Text, and what is read as if it were. */
    sound[0] = T("k=caf\xc3\xa9\n#\xe2\x82\xac");
    sound[1] = T("\xef\xbb\xbfk=caf\xc3\xa9\n\0");
    sound[2] = T("k=caf\xe9\n\0\x81");
    sound[3] = T("k\0=\0" "c\0" "a\0" "f\0\xe9\0\n\0\x3d\xd8\x1e\xdc");
    sound[4] = T("\0k\0=\0" "c\0" "a\0" "f\0\xe9\0\n\0\0");
    for (place = 0; place < 5; place++) {
        static uint32_t const own[] = {
            TODRENVAL_UTF_8, TODRENVAL_UTF_8, TODRENVAL_WINDOWS_1252, TODRENVAL_UTF_16LE, TODRENVAL_UTF_16BE,
        };
        struct request request = request_of(GET, sound[place], own[place]);
        request.flags = TODRENVAL_STRICT | TODRENVAL_READ_COMMENTS;
        check("strict text", request, TODRENVAL_OK, 0, T("caf\xc3\xa9"));
    }
    {
        struct request request = request_of(CONVERT, T("k=\xff\0"), TODRENVAL_UTF_8);
        request.target = TODRENVAL_TO_UTF_8;
        check("not strict", request, TODRENVAL_OK, 0, T("k=\xef\xbf\xbd\0"));
        request.encoding = TODRENVAL_WINDOWS_1252;
        request.flags = TODRENVAL_STRICT | TODRENVAL_READABLE;
        check("strict windows-1252", request, TODRENVAL_OK, 0, T("k=\xc3\xbf\0"));
        request = request_of(EDIT, T("k=\xff\0\n"), TODRENVAL_UTF_8);
        check("not strict", request, TODRENVAL_OK, 0, T("k=\xff\0\n"));
        request.source = T("\0k");
        request.encoding = TODRENVAL_UTF_16BE;
        request.flags = TODRENVAL_STRICT;
        refuses("strict, and unsupported", request, TODRENVAL_UNSUPPORTED, 0);
    }
}

/* Lines that go on: the first is written as any other. */
static void try_going_on(void) {
    static char const bom[] = "\xef\xbb\xbf";
    struct packed list = {{0}, 0};
    struct packed empty = {{0}, 0};
    struct request request = request_of(WRITE, T(""), TODRENVAL_UTF_8);
    request.flags = TODRENVAL_GOES_ON;
    check("no lines go on", request, TODRENVAL_OK, 0, T(""));
    put_item(&list, TODRENVAL_PAIR, 0, text_of(bom, 3), T("1"));
    put_item(&list, TODRENVAL_PAIR, 0, text_of(bom, 3), T("2"));
    put_item(&empty, TODRENVAL_PAIR, 0, T(""), T("2"));
    request.list = text_of_list(&list);
    check("lines go on", request, TODRENVAL_OK, 0, T("\xef\xbb\xbf=1\n\xef\xbb\xbf=2\n"));
    request.flags = 0;
    check("lines begin", request, TODRENVAL_OK, 0, T("\\ufeff=1\n\xef\xbb\xbf=2\n"));
    request.encoding = TODRENVAL_WINDOWS_1252;
    request.prefix = T("  ! ");
    request.separator = T(" ");
    request.flags = TODRENVAL_GOES_ON | TODRENVAL_CRLF | TODRENVAL_ASCII_ONLY | TODRENVAL_READABLE;
    check("lines go on, with settings", request, TODRENVAL_OK, 0, T("\\ufeff 1\r\n\\ufeff 2\r\n"));
    request.list = text_of_list(&empty);
    refuses("an empty key goes on", request, TODRENVAL_EMPTY_KEY, 0);
    request.separator = T("x");
    refuses("a bad separator goes on", request, TODRENVAL_BAD_SEPARATOR, 0);
    request.prefix = T("x");
    refuses("a bad prefix goes on", request, TODRENVAL_BAD_PREFIX, 0);
}

static void try_labels(void) {
    static char const *const labels[] = {
        "windows-1252", "utf-8", "utf-16le", "utf-16be", "Latin1", " UTF8\n", "UTF-16", "unicodeFFFE",
        "\tISO-8859-1 ", "", "latin2", "utf-32", "utf 8", "\xff", "utf-8\x80", "\xc2\xa0utf-8",
    };
    static uint32_t const numbers[] = {0, 1, 2, 3, 0, 1, 2, 3, 0, 255, 255, 255, 255, 255, 255, 255};
    size_t place;
    for (place = 0; place < sizeof labels / sizeof *labels; place++) {
        struct text label = copied(text_of(labels[place], strlen(labels[place])));
        count(todrenval_encoding(label.bytes, label.length) == numbers[place], "its number", labels[place], 0);
        release(label);
    }
    count(todrenval_encoding(NULL, 0) == TODRENVAL_NO_ENCODING, "no encoding", "no label", 0);
    count(todrenval_encoding((uint8_t const *)"utf-8\0", 6) == TODRENVAL_NO_ENCODING, "no encoding", "a zero byte", 0);
}

/* Whether the error of a call that takes memory is in a comment. */
static void sees_comment(char const *name, struct request request, bool wanted) {
    struct todrenval_result made = make_new(&request);
    count(made.in_comment == wanted, "in a comment or not", name, -2);
    free(made.bytes);
}

/* What the flags of todrenval_items ask for, in each encoding. */
static void try_item_flags(void) {
    static char const source[] = "# C:\\users\n\n! \\u00e9 \nk\\u0041 = \\t\\\n  v\n";
    static uint32_t const encodings[] = {TODRENVAL_WINDOWS_1252, TODRENVAL_UTF_8, TODRENVAL_UTF_16LE,
                                         TODRENVAL_UTF_16BE};
    static uint32_t const unknown[] = {
        1, 2, 8, 16, 768, 580, 1024, 1536, 2048, 4096, 8192, 68, 324, 0x80000000u, 0xffffffffu,
    };
    size_t number;
    for (number = 0; number < 4; number++) {
        struct packed bytes = {{0}, 0};
        struct packed pairs = {{0}, 0}, raw_pairs = {{0}, 0}, comments = {{0}, 0}, all_raw = {{0}, 0};
        struct request request;
        size_t place;
        for (place = 0; place < sizeof source - 1; place++) {
            if (encodings[number] == TODRENVAL_UTF_16BE) {
                put_byte(&bytes, 0);
            }
            put_byte(&bytes, (uint8_t)source[place]);
            if (encodings[number] == TODRENVAL_UTF_16LE) {
                put_byte(&bytes, 0);
            }
        }
        request = request_of(ITEMS, text_of_list(&bytes), encodings[number]);
        put_item(&pairs, TODRENVAL_PAIR, 4, T("kA"), T("\tv"));
        put_item(&raw_pairs, TODRENVAL_PAIR, 4, T("k\\u0041"), T("\\tv"));
        put_item(&comments, TODRENVAL_COMMENT, 1, T(""), T("C:\\users"));
        put_item(&comments, TODRENVAL_COMMENT, 3, T(""), T("\\u00e9"));
        all_raw = comments;
        put_item(&comments, TODRENVAL_PAIR, 4, T("kA"), T("\tv"));
        put_item(&all_raw, TODRENVAL_PAIR, 4, T("k\\u0041"), T("\\tv"));
        check("items without comments", request, TODRENVAL_OK, 0, text_of_list(&pairs));
        request.flags = TODRENVAL_RAW;
        check("raw pairs", request, TODRENVAL_OK, 0, text_of_list(&raw_pairs));
        request.flags = TODRENVAL_RAW_COMMENTS;
        check("raw comments", request, TODRENVAL_OK, 0, text_of_list(&comments));
        request.flags = TODRENVAL_RAW_COMMENTS | TODRENVAL_RAW | TODRENVAL_STRICT;
        check("raw items", request, TODRENVAL_OK, 0, text_of_list(&all_raw));
        request.flags = TODRENVAL_READ_COMMENTS;
        refuses("a comment that is read", request, TODRENVAL_NOT_HEX, 1);
        sees_comment("a comment that is read", request, true);
        request.flags = TODRENVAL_READ_COMMENTS | TODRENVAL_RAW;
        refuses("a comment that is read among raw pairs", request, TODRENVAL_NOT_HEX, 1);
        sees_comment("a comment that is read among raw pairs", request, true);
        for (place = 0; place < sizeof unknown / sizeof *unknown; place++) {
            request.flags = unknown[place];
            refuses("flags that items don't take", request, TODRENVAL_UNKNOWN_FLAGS, 0);
        }
        if (encodings[number] >= TODRENVAL_UTF_16LE) {
            request.flags = TODRENVAL_SPANS;
            refuses("spans of UTF-16", request, TODRENVAL_UNSUPPORTED, 0);
        }
    }
    {
        struct request request = request_of(ITEMS, T("a=1\nb=\\\n  \xff\n"), TODRENVAL_UTF_8);
        request.flags = TODRENVAL_STRICT;
        refuses("strict items", request, TODRENVAL_NOT_TEXT, 3);
        request.flags = TODRENVAL_STRICT | TODRENVAL_SPANS;
        refuses("strict items with spans", request, TODRENVAL_NOT_TEXT, 3);
        request.source = T("a=\\u1\n\n\0");
        refuses("strict items with a zero byte", request, TODRENVAL_NOT_TEXT, 3);
    }
}

/* Where a part ends. */
static void put_end(struct packed *list, unsigned long long length, unsigned long long lines,
                    unsigned long long encoding) {
    put_number(list, TODRENVAL_END);
    put_number(list, lines);
    put_number(list, 0);
    put_number(list, 16);
    put_number(list, length);
    put_number(list, encoding);
}

/* A part without items, and where it ends. */
static void ends_at(char const *name, struct text part, uint32_t encoding, unsigned long long length,
                    unsigned long long lines, unsigned long long in_force) {
    struct request request = request_of(ITEMS, part, encoding);
    struct packed list = {{0}, 0};
    put_end(&list, length, lines, in_force);
    request.flags = TODRENVAL_MORE;
    check(name, request, TODRENVAL_OK, 0, text_of_list(&list));
}

/* Parts of sources. */
static void try_parts(void) {
    struct packed list = {{0}, 0}, comments = {{0}, 0}, first = {{0}, 0};
    struct request request = request_of(ITEMS, T("# \\\na = \\t\\\n b\r\n\nc=2"), TODRENVAL_UTF_8);
    struct todrenval_end end;
    put_item(&comments, TODRENVAL_COMMENT, 1, T(""), T("\\"));
    put_item(&list, TODRENVAL_PAIR, 2, T("a"), T("\tb"));
    put_item(&comments, TODRENVAL_PAIR, 2, T("a"), T("\\tb"));
    put_end(&list, 16, 3, TODRENVAL_UTF_8);
    put_end(&comments, 16, 3, TODRENVAL_UTF_8);
    request.flags = TODRENVAL_MORE | TODRENVAL_STRICT;
    check("a part", request, TODRENVAL_OK, 0, text_of_list(&list));
    request.flags = TODRENVAL_MORE | TODRENVAL_RAW_COMMENTS | TODRENVAL_RAW;
    check("a raw part", request, TODRENVAL_OK, 0, text_of_list(&comments));
    memset(&end, 0, sizeof end);
    count(todrenval_end_of(list.bytes, list.length, &end), "an end", "end_of", -3);
    count(end.length == 16 && end.lines == 3 && end.encoding == TODRENVAL_UTF_8, "its numbers", "end_of", -3);
    count(!todrenval_end_of(list.bytes, list.length - TODRENVAL_END_SIZE, &end), "without it", "end_of", -3);
    count(!todrenval_end_of(NULL, 0, &end), "of no list", "end_of", -3);

    /* Nothing is read up to a line ending that may be continued, or without one. */
    ends_at("no part", T(""), TODRENVAL_UTF_16BE, 0, 0, TODRENVAL_UTF_16BE);
    ends_at("a part of a line", T("a=1"), TODRENVAL_UTF_8, 0, 0, TODRENVAL_UTF_8);
    ends_at("a part of a logical line", T("a=1\\\nb=2\\\\\r\nc"), TODRENVAL_UTF_8, 0, 0, TODRENVAL_UTF_8);
    ends_at("a part that begins with a line ending", T("\r\na=1"), TODRENVAL_UTF_8, 0, 0, TODRENVAL_UTF_8);
    ends_at("a part of a byte order mark", T("\xef\xbb"), TODRENVAL_WINDOWS_1252, 0, 0, TODRENVAL_WINDOWS_1252);
    ends_at("a byte order mark", T("\xef\xbb\xbf"), TODRENVAL_WINDOWS_1252, 0, 0, TODRENVAL_WINDOWS_1252);
    ends_at("a line after a byte order mark", T("\xef\xbb\xbf\n"), TODRENVAL_WINDOWS_1252, 3, 0, TODRENVAL_UTF_8);
    ends_at("a CR at the end", T("#a\n#\r"), TODRENVAL_WINDOWS_1252, 4, 1, TODRENVAL_WINDOWS_1252);
    ends_at("bytes of line endings in UTF-16", T("#\0\012a\0\012\012\0\012"), TODRENVAL_UTF_16LE, 6, 0,
            TODRENVAL_UTF_16LE);
    ends_at("a CR LF in UTF-16", T("\xfe\xff\0#\0\r\0\n\0\r\0"), TODRENVAL_UTF_8, 8, 1, TODRENVAL_UTF_16BE);
    ends_at("half a line ending", T("\xff\xfe#\0\r"), TODRENVAL_UTF_8, 0, 0, TODRENVAL_UTF_8);

    /* An error in what is read, and one in what is left. */
    put_item(&first, TODRENVAL_PAIR, 1, T("a"), T("1"));
    request = request_of(ITEMS, T("a=1\nb=\\u1\nc=2"), TODRENVAL_UTF_8);
    request.flags = TODRENVAL_MORE;
    check("a malformed escape of a part", request, TODRENVAL_NOT_ENOUGH_DIGITS, 2, text_of_list(&first));
    request.source = T("a=1\nb=\xff\nc=2");
    request.flags = TODRENVAL_MORE | TODRENVAL_STRICT;
    refuses("a strict part", request, TODRENVAL_NOT_TEXT, 2);
    put_end(&first, 3, 0, TODRENVAL_UTF_8);
    request.source = T("a=1\nb=\xff");
    check("a strict part whose rest isn't text", request, TODRENVAL_OK, 0, text_of_list(&first));
    request.source = T("a=1\nb=\\u1");
    check("a malformed escape of the rest", request, TODRENVAL_OK, 0, text_of_list(&first));
}

static uint32_t drawn;

/* A number below a limit. */
static uint32_t draw(uint32_t limit) {
    drawn = drawn * 1664525u + 1013904223u;
    return (drawn >> 8) % limit;
}

/* A source of characters that matter, with a byte order mark or what is like one, and sometimes cut in a unit. */
static struct text draw_source(uint32_t encoding, struct packed *bytes) {
    static char const characters[] = "ab=: \\\\\\u00\n\n\r\r#!\x80\xc3\xa9\xef\xbb\xbf\xfe\xff\0";
    static char const *const marks[] = {"\xef\xbb\xbf", "\xff\xfe", "\xfe\xff", "\xef\xbb"};
    uint32_t length = draw(60);
    uint32_t mark = draw(8);
    bytes->length = 0;
    if (mark < 4) {
        put_text(bytes, text_of(marks[mark], strlen(marks[mark])));
    }
    while (length-- > 0) {
        uint8_t character = (uint8_t)characters[draw(sizeof characters - 1)];
        if (encoding == TODRENVAL_UTF_16BE) {
            put_byte(bytes, draw(20) == 0 ? 0xd8 + draw(8) : 0);
        }
        put_byte(bytes, character);
        if (encoding == TODRENVAL_UTF_16LE && draw(100) != 0) {
            put_byte(bytes, draw(20) == 0 ? 0xd8 + draw(8) : 0);
        }
    }
    return text_of_list(bytes);
}

/* Appends the items of a list, so many lines later, without its end. */
static void put_later(struct packed *items, struct todrenval_result const *list, uint64_t lines) {
    struct todrenval_cursor cursor = todrenval_walk(list->bytes, list->length);
    struct todrenval_item item;
    while (todrenval_next_item(&cursor, &item)) {
        struct text key, value;
        key.bytes = item.key;
        key.length = item.key_length;
        value.bytes = item.value;
        value.length = item.value_length;
        if (item.kind != TODRENVAL_END) {
            put_item(items, item.kind, item.line + lines, key, value);
        }
    }
}

/* Random sources, read whole and in parts of random lengths. */
static void try_random_parts(void) {
    static uint32_t const flags[] = {0, TODRENVAL_READ_COMMENTS, TODRENVAL_RAW_COMMENTS,
                                     TODRENVAL_RAW | TODRENVAL_READ_COMMENTS};
    long number;
    uint32_t asked;
    for (number = 0; number < 6000; number++) {
        uint32_t asked_for = (uint32_t)(number % 4), longest = 1 + draw(30);
        struct packed bytes;
        struct text source = draw_source(asked_for, &bytes);
        for (asked = 0; asked < 4; asked++) {
            struct packed whole = {{0}, 0}, parted = {{0}, 0};
            struct todrenval_result all = todrenval_items_new(source.bytes, source.length, asked_for, flags[asked]);
            struct todrenval_result part;
            struct todrenval_end end = {0, 0, 0};
            size_t from = 0, to = 0;
            uint64_t lines = 0;
            bool is_last;
            end.encoding = asked_for;
            put_later(&whole, &all, 0);
            do {
                to += 1 + draw(longest);
                is_last = to >= source.length;
                to = is_last ? source.length : to;
                part = todrenval_items_new(source.bytes + from, to - from, end.encoding,
                                           flags[asked] | (is_last ? 0 : TODRENVAL_MORE));
                put_later(&parted, &part, lines);
                if (part.status != TODRENVAL_OK || is_last) {
                    break;
                }
                if (!todrenval_end_of(part.bytes, part.length, &end)) {
                    count(false, "an end", "random parts", number);
                    break;
                }
                free(part.bytes);
                from += end.length;
                lines += end.lines;
            } while (true);
            count(part.status == all.status, "the status", "random parts", number);
            count(part.line + (part.line == 0 ? 0 : lines) == all.line, "the line", "random parts", number);
            count(part.in_comment == all.in_comment, "in a comment", "random parts", number);
            count(parted.length == whole.length && memcmp(parted.bytes, whole.bytes, whole.length) == 0, "the items",
                  "random parts", number);
            free(part.bytes);
            free(all.bytes);
        }
    }
}

/* A group with its places, which are its spans up to `next`, and what is wrong in it. */
static void put_spanned(struct packed *list, unsigned long long kind, unsigned long long line,
                        unsigned long long const *numbers, struct text key, struct text value) {
    size_t place;
    put_number(list, kind + 16);
    put_number(list, line);
    put_number(list, key.length);
    put_number(list, value.length);
    for (place = 0; place < 12; place++) {
        put_number(list, numbers[place]);
    }
    put_text(list, key);
    put_text(list, value);
}

/* All groups of a source, with their places. */
static void try_spans(void) {
    static unsigned long long const comment[] = {3, 4, 5, 6, 14, 15, 16, 8, 8, 1, 6, 0};
    static unsigned long long const blank[] = {16, 18, 18, 18, 18, 18, 20, 0, 0, 0, 0, 0};
    static unsigned long long const pair[] = {20, 20, 21, 24, 32, 32, 33, 7, 28, 4, 3, 4};
    static unsigned long long const last[] = {33, 33, 39, 40, 42, 42, 42, 0, 0, 0, 0, 0};
    static char const source[] = "\xef\xbb\xbf #\tC:\\users \n \t\r\nk : \\\n \xff\\u12\n\\u0041=\\t";
    struct packed list = {{0}, 0}, raw = {{0}, 0};
    struct request request = request_of(ITEMS, T(source), TODRENVAL_WINDOWS_1252);
    struct todrenval_cursor cursor;
    struct todrenval_item item;
    struct todrenval_spans spans;
    size_t place = 3;
    memset(&spans, 0, sizeof spans);
    put_spanned(&list, TODRENVAL_COMMENT, 1, comment, T(""), T("C:\\users"));
    put_spanned(&list, TODRENVAL_BLANK, 2, blank, T(""), T(""));
    put_spanned(&list, TODRENVAL_PAIR, 3, pair, T("k"), T("\xef\xbf\xbd\\u12"));
    raw = list;
    put_spanned(&list, TODRENVAL_PAIR, 5, last, T("A"), T("\t"));
    put_spanned(&raw, TODRENVAL_PAIR, 5, last, T("\\u0041"), T("\\t"));
    request.flags = TODRENVAL_SPANS;
    check("spans", request, TODRENVAL_OK, 0, text_of_list(&list));
    request.flags = TODRENVAL_SPANS | TODRENVAL_RAW_COMMENTS;
    check("spans, raw comments", request, TODRENVAL_OK, 0, text_of_list(&list));
    request.flags = TODRENVAL_SPANS | TODRENVAL_READ_COMMENTS;
    check("spans, comments read", request, TODRENVAL_OK, 0, text_of_list(&list));
    request.flags = TODRENVAL_SPANS | TODRENVAL_RAW;
    check("spans, raw", request, TODRENVAL_OK, 0, text_of_list(&raw));
    request.source = T("");
    check("spans of nothing", request, TODRENVAL_OK, 0, T(""));

    /* The cursor gives what was put, group after group. */
    cursor = todrenval_walk(list.bytes, list.length);
    while (todrenval_next_spanned(&cursor, &item, &spans)) {
        count(spans.start == place && spans.start <= spans.key_start && spans.key_start <= spans.key_end &&
                  spans.key_end <= spans.value_start && spans.value_start <= spans.value_end &&
                  spans.value_end <= spans.end && spans.end <= spans.next,
              "in order", "spans", (long)place);
        if (item.line == 3) {
            count(item.kind == TODRENVAL_PAIR && spans.flaw == TODRENVAL_NOT_ENOUGH_DIGITS && spans.flaw_start == 28 &&
                      spans.flaw_line == 4 && spans.flaw_column == 3 && spans.ill_formed == 4,
                  "what is wrong", "spans", 3);
        }
        place = spans.next;
    }
    count(place == sizeof source - 1 && cursor.left == 0, "the whole source", "spans", 0);
    cursor = todrenval_walk(list.bytes, list.length);
    count(todrenval_next_item(&cursor, &item) && item.kind == TODRENVAL_COMMENT && item.value_length == 8,
          "the comment", "a cursor of spans", 0);
    cursor = todrenval_walk(list.bytes, TODRENVAL_RECORD_SIZE + TODRENVAL_SPANS_SIZE - 1);
    count(!todrenval_next_item(&cursor, &item) && cursor.left > 0, "a record cut short", "a cursor of spans", 0);
}

/* The last pair with a key in a list. */
static void try_find(void) {
    struct packed list = {{0}, 0};
    struct todrenval_item item;
    put_item(&list, TODRENVAL_COMMENT, 1, T(""), T("k"));
    put_item(&list, TODRENVAL_PAIR, 2, T("k"), T("1"));
    put_item(&list, TODRENVAL_PAIR, 3, T(""), T("2"));
    put_item(&list, TODRENVAL_PAIR, 4, T("k"), T("3"));
    put_item(&list, TODRENVAL_PAIR, 5, T("kk"), T("4"));
    count(todrenval_find(list.bytes, list.length, "k", 1, &item) && item.line == 4, "the last pair", "find", 1);
    count(todrenval_find(list.bytes, list.length, NULL, 0, &item) && item.line == 3, "the empty key", "find", 0);
    count(!todrenval_find(list.bytes, list.length, "kkk", 3, &item), "no pair", "find", 3);
    count(!todrenval_find(NULL, 0, "k", 1, &item), "no pair", "find in nothing", 1);
}

/* What todrenval_items gives is what todrenval_write takes. */
static void try_round_trip(void) {
    static char const source[] = "# one\na=1\nb=\\u00e9\n";
    uint8_t list[200], out[200];
    size_t length, written, line;
    count(todrenval_items((uint8_t const *)source, sizeof source - 1, TODRENVAL_UTF_8, TODRENVAL_READ_COMMENTS, list,
                           sizeof list, &length, &line) == TODRENVAL_OK,
          "read", "a round trip", 0);
    count(todrenval_write(list, length, TODRENVAL_UTF_8, TODRENVAL_ASCII_ONLY, NULL, 0, NULL, 0, out, sizeof out,
                          &written, &line) == TODRENVAL_OK,
          "written", "a round trip", 0);
    count(written == sizeof source - 1 && memcmp(out, source, written) == 0, "the same", "a round trip", 0);
}

/* The lists that the header's functions make are those that are laid out. */
static void try_append(void) {
    struct packed wanted = {{0}, 0};
    uint8_t memory[200];
    struct todrenval_list list;
    size_t room;
    put_item(&wanted, TODRENVAL_EDIT_SET_VALUE, 0, T("a"), T("3"));
    put_item(&wanted, TODRENVAL_EDIT_REMOVE_KEY, 0, T("b"), T(""));
    for (room = 0; room <= wanted.length; room++) {
        size_t before;
        bool fits;
        memset(memory, PATTERN, sizeof memory);
        list.bytes = memory;
        list.room = room;
        list.length = 0;
        fits = todrenval_append(&list, TODRENVAL_EDIT_SET_VALUE, "a", 1, "3", 1);
        count(fits == (room >= 34) && list.length == (fits ? 34u : 0u), "appended", "append", (long)room);
        before = list.length;
        fits = todrenval_append(&list, TODRENVAL_EDIT_REMOVE_KEY, "b", 1, "", 0);
        count(fits == (room - before >= 33), "appended", "append", (long)room);
        count(list.length == before + (fits ? 33 : 0), "the length", "append", (long)room);
        count(is_untouched(memory + list.length, sizeof memory - list.length), "as it was", "append", (long)room);
        count(room < wanted.length || memcmp(memory, wanted.bytes, wanted.length) == 0, "the list", "append",
              (long)room);
    }
    list.room = sizeof memory;
    count(!todrenval_append(&list, TODRENVAL_PAIR, memory, SIZE_MAX, memory, SIZE_MAX), "refused", "append", 0);
    count(!todrenval_append(&list, TODRENVAL_PAIR, memory, 1, memory, SIZE_MAX), "refused", "append", 0);

    /* Null where there are no bytes. */
    list.length = 0;
    count(todrenval_append(&list, TODRENVAL_PAIR, NULL, 0, NULL, 0) && list.length == 32, "appended", "append", 0);
    list.bytes = NULL;
    list.room = list.length = 0;
    count(!todrenval_append(&list, TODRENVAL_PAIR, NULL, 0, NULL, 0) && list.length == 0, "refused", "append", 0);

    /* A list that grows, and one without memory. */
    blocks = allocations = 0;
    count(todrenval_push(&list, TODRENVAL_EDIT_SET_VALUE, "a", 1, "3", 1) && blocks == 1, "pushed", "push", 0);
    count(todrenval_push(&list, TODRENVAL_EDIT_REMOVE_KEY, "b", 1, NULL, 0) && blocks == 1, "pushed", "push", 1);
    count(list.length == wanted.length && memcmp(list.bytes, wanted.bytes, wanted.length) == 0, "the list", "push", 2);
    while (list.room - list.length >= TODRENVAL_RECORD_SIZE + 1) {
        count(todrenval_push(&list, TODRENVAL_PAIR, "k", 1, NULL, 0), "pushed", "push", 3);
    }
    refuse_at = allocations + 1;
    room = list.length;
    count(!todrenval_push(&list, TODRENVAL_PAIR, "k", 1, NULL, 0) && list.length == room, "refused", "push", 4);
    refuse_at = 0;
    count(memcmp(list.bytes, wanted.bytes, wanted.length) == 0, "the list", "push", 5);
    free(list.bytes);
    count(blocks == 0, "all memory freed", "push", 6);
}

/* Encodings that there are not, before all else that is wrong. */
static void try_encodings(void) {
    static uint32_t const encodings[] = {4, 5, 16, 17, 18, 19, 255, 256, 0x7fffffff, 0x80000000, 0xffffffff};
    size_t place;
    int call;
    for (place = 0; place < sizeof encodings / sizeof *encodings; place++) {
        for (call = 0; call < CALLS; call++) {
            struct request request = request_of((enum call)call, T("k=\\u1\n"), encodings[place]);
            request.key = T("\xff");
            request.list = T("x");
            refuses(names[call], request, TODRENVAL_UNKNOWN_ENCODING, 0);
        }
    }
}

/* Flags that there are not, and those that a call has no use for, before a key and a list that are no good. */
static void try_flags(void) {
    static enum call const calls[] = {
        GET,     SET_VALUE,   SET_KEY, REMOVE_KEY, EDIT, RENAME_KEY, REMOVE_WITH_COMMENT,
        COMMENT, SET_COMMENT, WRITE,   CONVERT,
    };
    static uint32_t const taken[] = {36, 8229, 8229, 8229, 8229, 8229, 36, 32, 8229, 4123, 34};
    static uint32_t const flags[] = {
        0,    1,    2,    3,    4,    5,    6,     7,     8,     12,         16,         32,         33,         34,
        36,   37,   38,   64,   128,  255,  256,   512,   1024,  2048,       4096,       4097,       4128,       4160,
        5120, 8192, 8196, 8229, 8256, 8704, 12288, 16384, 24576, 0x7fffffff, 0x80000000, 0x80000001, 0x80001000,
        0xffffffff,
    };
    size_t place, number;
    for (number = 0; number < sizeof calls / sizeof *calls; number++) {
        for (place = 0; place < sizeof flags / sizeof *flags; place++) {
            struct request request = request_of(calls[number], T("k=1"), TODRENVAL_UTF_8);
            bool is_list = calls[number] == EDIT || calls[number] == WRITE;
            int status = is_list ? TODRENVAL_BAD_LIST : TODRENVAL_NOT_UTF_8;
            if (calls[number] == CONVERT && (flags[place] & ~taken[number]) == 0) {
                continue;
            }
            request.flags = flags[place];
            request.key = T("\xff");
            request.list = T("x");
            request.prefix = T("\xff");
            refuses(names[calls[number]], request,
                    (flags[place] & ~taken[number]) != 0 ? TODRENVAL_UNKNOWN_FLAGS
                    : calls[number] == WRITE             ? TODRENVAL_NOT_UTF_8
                                                         : status,
                    0);
        }
    }
}

/* Malformed escapes in comments: passed over, and errors where comments are read. */
static void try_comments(void) {
    static enum call const calls[] = {
        GET, SET_VALUE, SET_KEY, REMOVE_KEY, EDIT, EDIT, EDIT, RENAME_KEY, REMOVE_WITH_COMMENT, SET_COMMENT,
    };
    static size_t const lines[] = {1, 2, 3};
    struct text sources[3], results[10][3];
    struct packed lists[10];
    size_t number, place, line;
    uint32_t ascii;
    memset(lists, 0, sizeof lists);
    put_item(&lists[4], TODRENVAL_EDIT_SET_VALUE, 0, T("k"), T("v"));
    put_item(&lists[5], TODRENVAL_EDIT_SET_VALUE, 0, T("k"), T("w"));
    put_item(&lists[5], TODRENVAL_EDIT_SET_VALUE, 0, T("k"), T("v"));
    sources[0] = T("# C:\\users\nk : 1\n");
    sources[1] = T("k : 1\n!\\u12\nb=2\n");
    sources[2] = T("\nk : 1\n  #\\ud83d\\u0041");
    for (place = 0; place < 3; place++) {
        results[GET][place] = T("1");
    }
    results[1][0] = T("# C:\\users\nk : v\n");
    results[1][1] = T("k : v\n!\\u12\nb=2\n");
    results[1][2] = T("\nk : v\n  #\\ud83d\\u0041");
    results[2][0] = T("# C:\\users\nk=v\n");
    results[2][1] = T("k=v\n!\\u12\nb=2\n");
    results[2][2] = T("\nk=v\n  #\\ud83d\\u0041");
    results[3][0] = T("# C:\\users\n");
    results[3][1] = T("!\\u12\nb=2\n");
    results[3][2] = T("\n  #\\ud83d\\u0041");
    for (place = 0; place < 3; place++) {
        results[4][place] = results[5][place] = results[1][place];
        results[6][place] = sources[place];
        results[8][place] = results[3][place];
    }
    results[7][0] = T("# C:\\users\nv : 1\n");
    results[7][1] = T("v : 1\n!\\u12\nb=2\n");
    results[7][2] = T("\nv : 1\n  #\\ud83d\\u0041");
    results[8][0] = T("");
    results[9][0] = T("# v\nk : 1\n");
    results[9][1] = T("# v\nk : 1\n!\\u12\nb=2\n");
    results[9][2] = T("\n# v\nk : 1\n  #\\ud83d\\u0041");
    for (number = 0; number < 10; number++) {
        for (place = 0; place < 3; place++) {
            static int const statuses[] = {
                TODRENVAL_NOT_HEX, TODRENVAL_NOT_ENOUGH_DIGITS, TODRENVAL_INVALID_CHARACTER,
            };
            struct request request = request_of(calls[number], sources[place], TODRENVAL_UTF_8);
            bool puts_text =
                calls[number] != GET && calls[number] != REMOVE_KEY && calls[number] != REMOVE_WITH_COMMENT;
            request.list = text_of_list(&lists[number]);
            for (ascii = 0; ascii <= (puts_text ? 1u : 0u); ascii++) {
                request.flags = ascii;
                check("comments passed over", request, TODRENVAL_OK, 0, results[number][place]);
                request.flags |= TODRENVAL_READ_COMMENTS;
                refuses("comments read", request, statuses[place], lines[place]);
                sees_comment("comments read", request, true);
            }
        }
        /* A malformed escape of another pair, behind one in a comment, and no pair with the key. */
        for (line = 0; line < 2; line++) {
            struct request request = request_of(calls[number], T("# C:\\users\n\nb=\\u12"), TODRENVAL_UTF_8);
            request.list = text_of_list(&lists[number]);
            request.flags = line == 0 ? TODRENVAL_READ_COMMENTS : 0;
            refuses("an escape of a pair", request, line == 0 ? TODRENVAL_NOT_HEX : TODRENVAL_NOT_ENOUGH_DIGITS,
                    line == 0 ? 1 : 3);
            sees_comment("an escape of a pair", request, line == 0);
            request.flags = TODRENVAL_READ_COMMENTS;
            request.source = T("b=\\u12\n# C:\\users\n");
            sees_comment("an escape before a comment", request, false);
        }
    }
    refuses("items of a comment", items_of(T("# C:\\users")), TODRENVAL_NOT_HEX, 1);
    sees_comment("items of a comment", items_of(T("a\n# C:\\users")), true);
    sees_comment("items of a pair", items_of(T("\\u1\n# C:\\users")), false);
    sees_comment("no error", items_of(T("a\n# C")), false);
    refuses("get of none", request_of(GET, T("# C:\\users"), TODRENVAL_UTF_8), TODRENVAL_NO_KEY, 0);
}

static void try_texts(void) {
    /* Bytes that no character has, characters that are cut or too long, a surrogate, and one past the last. */
    struct text texts[8];
    static enum call const calls[] = {
        SET_VALUE, SET_KEY, RENAME_KEY, SET_COMMENT, GET, REMOVE_KEY, REMOVE_WITH_COMMENT, COMMENT,
    };
    static unsigned long long const edits[] = {
        TODRENVAL_EDIT_SET_VALUE, TODRENVAL_EDIT_RENAME_KEY, TODRENVAL_EDIT_SET_COMMENT, TODRENVAL_EDIT_SET_KEY,
    };
    size_t place, number;
    texts[0] = T("\xff");
    texts[1] = T("a\x80");
    texts[2] = T("\xc3");
    texts[3] = T("\xf0\x9f\x90");
    texts[4] = T("\xc0\xaf");
    texts[5] = T("\xed\xa0\x80");
    texts[6] = T("\xf4\x90\x80\x80");
    texts[7] = T("\xe3\x81z");
    for (place = 0; place < 8; place++) {
        for (number = 0; number < sizeof calls / sizeof *calls; number++) {
            struct request request = request_of(calls[number], T("k=\\u1\n"), TODRENVAL_UTF_16LE);
            request.key = texts[place];
            refuses(names[calls[number]], request, TODRENVAL_NOT_UTF_8, 0);
            if (number < 4) {
                request.key = T("k");
                request.value = texts[place];
                refuses(names[calls[number]], request, TODRENVAL_NOT_UTF_8, 0);
            }
        }
        {
            struct packed list = {{0}, 0};
            struct request request = request_of(EDIT, T("k=\\u1\n"), TODRENVAL_UTF_16LE);
            put_item(&list, TODRENVAL_EDIT_REMOVE_WITH_COMMENT, 0, texts[place], T(""));
            request.list = text_of_list(&list);
            refuses("edit by a removal", request, TODRENVAL_NOT_UTF_8, 0);
        }
        for (number = 0; number < 4; number++) {
            struct packed list = {{0}, 0};
            struct request request = request_of(number < 2 ? EDIT : WRITE, T("k=\\u1\n"), TODRENVAL_UTF_16LE);
            put_item(&list, number < 2 ? 3 : 1, 1, T("k"), number < 2 ? T("") : T("v"));
            put_item(&list, number < 2 ? edits[place % 4] : 1, 1, number % 2 ? texts[place] : T("k"),
                     number % 2 ? T("v") : texts[place]);
            request.list = text_of_list(&list);
            refuses(names[request.call], request, TODRENVAL_NOT_UTF_8, 0);
        }
    }
}

static void refuses_list(enum call call, struct packed const *list) {
    struct request request = request_of(call, T("k=\\u1\n"), TODRENVAL_UTF_16LE);
    request.list = text_of_list(list);
    refuses(names[call], request, TODRENVAL_BAD_LIST, 0);
}

static void try_lists(void) {
    static enum call const calls[] = {EDIT, WRITE};
    static unsigned long long const numbers[] = {
        5, 6, 10, 256, 0x100000000ULL, 0x8000000000000000ULL, 0xffffffffffffffffULL,
    };
    unsigned long long kind;
    size_t place, end;
    int number;
    for (number = 0; number < 2; number++) {
        struct packed list = {{0}, 0};
        size_t first;
        put_item(&list, number == 0 ? 3 : 1, 0, T("key"), number == 0 ? T("") : T("value"));
        first = list.length;
        put_item(&list, number == 0 ? 2 : 0, 0, number == 0 ? T("k") : T(""), T("v"));
        for (end = 1; end < list.length; end++) {
            struct packed cut = list;
            cut.length = end;
            if (end != first) {
                refuses_list(calls[number], &cut);
            }
        }
        for (end = 0; end < sizeof numbers / sizeof *numbers; end++) {
            struct packed other = {{0}, 0};
            put_item(&other, numbers[end], 0, T("k"), T("v"));
            refuses_list(calls[number], &other);
        }
        /* Edits are no lines to write, nor the other way round, alone and after a record that is one. */
        for (kind = number == 0 ? 0 : 2; kind <= (number == 0 ? 1u : 9u); kind += kind == 4 ? 3 : 1) {
            struct packed other = {{0}, 0};
            struct packed after = list;
            put_item(&other, kind, 0, kind == 0 ? T("") : T("k"), kind == 3 || kind == 9 ? T("") : T("v"));
            refuses_list(calls[number], &other);
            put_text(&after, text_of_list(&other));
            refuses_list(calls[number], &after);
        }
        /* Lengths that are more than what is left, alone and together. */
        for (place = 0; place < 2; place++) {
            for (end = 1; end < sizeof numbers / sizeof *numbers; end++) {
                struct packed other = {{0}, 0};
                put_number(&other, number == 0 ? 4 : 1);
                put_number(&other, 0);
                put_number(&other, place == 0 ? numbers[end] : 1);
                put_number(&other, place == 0 ? 1 : numbers[end]);
                put_text(&other, T("kv"));
                refuses_list(calls[number], &other);
            }
        }
    }
    {
        struct packed list = {{0}, 0};
        put_item(&list, TODRENVAL_EDIT_REMOVE_KEY, 0, T("k"), T("v"));
        refuses_list(EDIT, &list);
        list.length = 0;
        put_item(&list, TODRENVAL_EDIT_REMOVE_WITH_COMMENT, 0, T("k"), T("v"));
        refuses_list(EDIT, &list);
        list.length = 0;
        put_item(&list, TODRENVAL_COMMENT, 0, T("k"), T("v"));
        refuses_list(WRITE, &list);
    }
}

static void try_escapes(void) {
    static int const statuses[] = {TODRENVAL_NOT_ENOUGH_DIGITS, TODRENVAL_NOT_HEX, TODRENVAL_INVALID_CHARACTER};
    static enum call const calls[] = {
        GET, SET_VALUE, SET_KEY, REMOVE_KEY, EDIT, RENAME_KEY, REMOVE_WITH_COMMENT, SET_COMMENT,
    };
    struct text sources[3];
    size_t number, place;
    sources[0] = T("# c\nk=1\n\nb=\\\n  \\u12\nk=2\\uxxxx");
    sources[1] = T("# c\nk=1\n\n#C:\\users\n\nk=2\\u1");
    sources[2] = T("# c\nk=1\n\nk=\\ud83d\\u0041\n\nk=2\\u1");
    for (number = 0; number < 3; number++) {
        struct packed list = {{0}, 0};
        struct packed edits = {{0}, 0};
        put_item(&list, TODRENVAL_COMMENT, 1, T(""), T("c"));
        put_item(&list, TODRENVAL_PAIR, 2, T("k"), T("1"));
        put_item(&edits, TODRENVAL_EDIT_SET_KEY, 0, T("a"), T("1"));
        check("items before an escape", items_of(sources[number]), statuses[number], 4, text_of_list(&list));
        for (place = 0; place < sizeof calls / sizeof *calls; place++) {
            struct request request = request_of(calls[place], sources[number], TODRENVAL_WINDOWS_1252);
            request.list = text_of_list(&edits);
            request.flags = TODRENVAL_READ_COMMENTS;
            refuses(names[calls[place]], request, statuses[number], 4);
        }
    }
    refuses("items of an escape", request_of(ITEMS, T("\\u1"), TODRENVAL_UTF_8), TODRENVAL_NOT_ENOUGH_DIGITS, 1);
    refuses("edit by no edits", request_of(EDIT, T("\n\\u1"), TODRENVAL_UTF_8), TODRENVAL_NOT_ENOUGH_DIGITS, 2);
}

static void try_unsupported(void) {
    struct text little = T("\xff\xfek\0"), big = T("\xfe\xff\0k");
    int call;
    for (call = SET_VALUE; call <= SET_COMMENT; call++) {
        enum call edit = (enum call)call;
        refuses(names[call], request_of(edit, T(""), TODRENVAL_UTF_16LE), TODRENVAL_UNSUPPORTED, 0);
        refuses(names[call], request_of(edit, T("\0k"), TODRENVAL_UTF_16BE), TODRENVAL_UNSUPPORTED, 0);
        refuses(names[call], request_of(edit, little, TODRENVAL_UTF_8), TODRENVAL_UNSUPPORTED, 0);
        refuses(names[call], request_of(edit, big, TODRENVAL_WINDOWS_1252), TODRENVAL_UNSUPPORTED, 0);
    }
}

/* Each allocation of a call is refused in turn, until it needs no more. Then this comes. */
static void refuse_each(char const *name, struct request request, int wanted, size_t wanted_line, struct text result) {
    uint8_t out[300];
    size_t length, line;
    int status;
    long number = 0;
    do {
        number++;
        length = line = UNSET;
        memset(out, PATTERN, sizeof out);
        blocks = allocations = 0;
        refuse_at = number;
        status = make_call(&request, out, sizeof out, &length, &line);
        refuse_at = 0;
        count(blocks == 0, "all memory freed", name, number);
        if (allocations >= number) {
            count(status == TODRENVAL_NO_MEMORY, "refused", name, number);
            count(length == 0 && line == 0, "without length and line", name, number);
            count(is_untouched(out, sizeof out), "as it was", name, number);
        }
    } while (allocations >= number && number < 1000);
    count(status == wanted && line == wanted_line, "done in the end", name, number);
    count(length == result.length && memcmp(out, result.bytes, length) == 0, "the bytes", name, number);
    count(number > 1, "taking memory", name, number);

    /* The same of the call that takes memory for its result, and perhaps looks for a comment. */
    number = 0;
    do {
        struct todrenval_result made;
        number++;
        blocks = allocations = 0;
        refuse_at = number;
        made = make_new(&request);
        refuse_at = 0;
        if (allocations >= number) {
            count(made.status == TODRENVAL_NO_MEMORY && made.length == 0 && made.line == 0, "refused", name, -number);
        } else {
            count(made.status == wanted && made.line == wanted_line, "done in the end", name, -number);
            count(made.length == result.length && memcmp(made.bytes, result.bytes, made.length) == 0, "the bytes",
                  name, -number);
        }
        free(made.bytes);
        count(blocks == 0, "all memory freed", name, -number);
    } while (allocations >= number && number < 1000);
}

static void try_memory(void) {
    struct packed edits = {{0}, 0};
    struct packed lines = {{0}, 0};
    struct packed items = {{0}, 0};
    struct packed findings = {{0}, 0};
    struct packed pairs = {{0}, 0};
    struct packed first, before;
    struct text results[CALLS][2];
    static uint32_t const all_flags[] = {36, 36, 0, 37, 37, 37, 37, 37, 36, 32, 37, 4099, 34};
    int call, flagged;
    put_item(&edits, TODRENVAL_EDIT_SET_KEY, 0, T("a"), T("\xc3\xa9"));
    put_item(&edits, TODRENVAL_EDIT_SET_VALUE, 0, T("k"), T("12"));
    put_item(&edits, TODRENVAL_EDIT_REMOVE_KEY, 0, T("a"), T(""));
    put_item(&edits, TODRENVAL_EDIT_SET_VALUE, 0, T("b"), T("\xc3\xa9"));
    put_item(&lines, TODRENVAL_COMMENT, 0, T(""), T("c"));
    put_item(&lines, TODRENVAL_PAIR, 0, T("k"), T("\xc3\xa9"));
    put_item(&items, TODRENVAL_COMMENT, 1, T(""), T("c"));
    put_item(&items, TODRENVAL_PAIR, 2, T("k"), T("1"));
    before = items;
    put_item(&items, TODRENVAL_PAIR, 3, T("k"), T("2"));
    put_finding(&findings, TODRENVAL_FOUND_REPEATED_KEY, 3, 2, T("k"));
    results[GET][0] = results[GET][1] = T("2");
    put_item(&pairs, TODRENVAL_PAIR, 2, T("k"), T("1"));
    first = pairs;
    put_item(&pairs, TODRENVAL_PAIR, 3, T("k"), T("2"));
    results[ITEMS][0] = text_of_list(&pairs);
    results[ITEMS][1] = text_of_list(&items);
    results[FINDINGS][0] = results[FINDINGS][1] = text_of_list(&findings);
    results[SET_VALUE][0] = results[SET_KEY][0] = T("# c\nk : \\u0031\nk=\xc3\xa9\n");
    results[SET_VALUE][1] = results[SET_KEY][1] = T("# c\nk : \\u0031\nk=\\u00e9\n");
    results[REMOVE_KEY][0] = results[REMOVE_KEY][1] = T("# c\n");
    results[EDIT][0] = T("# c\nk : \\u0031\nk=12\nb=\xc3\xa9\n");
    results[EDIT][1] = T("# c\nk : \\u0031\nk=12\nb=\\u00e9\n");
    results[RENAME_KEY][0] = T("# c\n\xc3\xa9 : \\u0031\n\xc3\xa9=2\n");
    results[RENAME_KEY][1] = T("# c\n\\u00e9 : \\u0031\n\\u00e9=2\n");
    results[REMOVE_WITH_COMMENT][0] = results[REMOVE_WITH_COMMENT][1] = T("");
    results[COMMENT][0] = results[COMMENT][1] = T("");
    results[SET_COMMENT][0] = T("# c\nk : \\u0031\n# \xc3\xa9\nk=2\n");
    results[SET_COMMENT][1] = T("# c\nk : \\u0031\n# \\u00e9\nk=2\n");
    results[WRITE][0] = T("# c\nk=\xc3\xa9\n");
    results[WRITE][1] = T("# c\nk=\\u00e9\n");
    results[CONVERT][0] = results[CONVERT][1] = T("# c\nk : \\u0031\nk=2\n");
    for (call = 0; call < CALLS; call++) {
        for (flagged = 0; flagged < 2; flagged++) {
            struct packed list = call == WRITE ? lines : edits;
            struct request request = request_of((enum call)call, T("# c\nk : \\u0031\nk=2\n"), TODRENVAL_UTF_8);
            request.flags = flagged == 1 ? all_flags[call] : 0;
            request.value = T("\xc3\xa9");
            request.list = text_of_list(&list);
            refuse_each(names[call], request, TODRENVAL_OK, 0, results[call][flagged]);

            /* A malformed escape, before which there are items. */
            if (call != FINDINGS && call != WRITE && call != CONVERT) {
                request.source = T("# c\nk = 1\nb=\\u12\n");
                refuse_each(names[call], request, TODRENVAL_NOT_ENOUGH_DIGITS, 3,
                            call == ITEMS ? text_of_list(flagged == 1 ? &before : &first) : T(""));
            }

            /* Lists that are refused after their first records. */
            if (call == EDIT || call == WRITE) {
                put_item(&list, 10, 0, T(""), T(""));
                request.list = text_of_list(&list);
                refuse_each(names[call], request, TODRENVAL_BAD_LIST, 0, T(""));
                list.length -= 32;
                put_item(&list, call == EDIT ? 4 : 1, 0, T("k"), T("\xff"));
                request.list = text_of_list(&list);
                refuse_each(names[call], request, TODRENVAL_NOT_UTF_8, 0, T(""));
            }
        }
    }
}

/* The same of a source that is decoded first, and of which the first character becomes an escape. */
static void try_memory_converting(void) {
    struct request request = request_of(CONVERT, T("\xff\xfe\xff\xfek\0=\0\xe9\0"), TODRENVAL_UTF_8);
    request.target = TODRENVAL_TO_UTF_8;
    refuse_each("convert of UTF-16", request, TODRENVAL_OK, 0, T("\\ufeffk=\xc3\xa9"));
    request.source = T("\xef\xbb\xbf\xef\xbb\xbfk=\xff");
    refuse_each("convert of what isn't UTF-8", request, TODRENVAL_OK, 0, T("\\ufeffk=\xef\xbf\xbd"));
}

/* The same of a comment of some lines, of a key that is taken, and of edits of every kind. */
static void try_memory_keys(void) {
    struct packed list = {{0}, 0};
    struct request request = request_of(COMMENT, T("# c\n# d\nk\n"), TODRENVAL_UTF_8);
    refuse_each("comment", request, TODRENVAL_OK, 0, T("c\nd\n"));
    request = request_of(RENAME_KEY, T("k\nv\n"), TODRENVAL_UTF_8);
    refuse_each("rename_key", request, TODRENVAL_KEY_TAKEN, 2, T(""));
    put_item(&list, TODRENVAL_EDIT_RENAME_KEY, 0, T("k"), T("a"));
    put_item(&list, TODRENVAL_EDIT_SET_COMMENT, 0, T("a"), T("c\nd"));
    put_item(&list, TODRENVAL_EDIT_SET_KEY, 0, T("b"), T("1"));
    put_item(&list, TODRENVAL_EDIT_REMOVE_WITH_COMMENT, 0, T("v"), T(""));
    request = request_of(EDIT, request.source, TODRENVAL_UTF_8);
    request.list = text_of_list(&list);
    refuse_each("edit of each kind", request, TODRENVAL_OK, 0, T("# c\n# d\na\nb=1\n"));
    request.source = T("k\na");
    refuse_each("edit that is refused", request, TODRENVAL_KEY_TAKEN, 2, T(""));
}

static void try_memory_parts(void) {
    struct packed list = {{0}, 0};
    struct request request = request_of(ITEMS, T("# c\nk : \\u0031\nk=2\n\nk"), TODRENVAL_UTF_8);
    put_item(&list, TODRENVAL_PAIR, 2, T("k"), T("1"));
    put_item(&list, TODRENVAL_PAIR, 3, T("k"), T("2"));
    put_end(&list, 19, 3, TODRENVAL_UTF_8);
    request.flags = TODRENVAL_MORE;
    refuse_each("a part", request, TODRENVAL_OK, 0, text_of_list(&list));
}

/* The text of a status comes with this room, whole or not at all. */
static void check_text(int status, char const *text, size_t room) {
    uint8_t memory[GUARD + TODRENVAL_REASON_ROOM + GUARD];
    uint8_t *out = memory + GUARD;
    size_t length = UNSET, line = UNSET, fits = strlen(text) <= room ? strlen(text) : 0;
    int came;
    memset(memory, PATTERN, sizeof memory);
    blocks = 0;
    came = todrenval_status_text(status, room == 0 ? NULL : out, room, &length, &line);
    count(came == (fits > 0 ? TODRENVAL_OK : TODRENVAL_NO_ROOM), "the status", text, (long)room);
    count(length == strlen(text) && line == 0, "the length and no line", text, (long)room);
    count(memcmp(out, text, fits) == 0, "the bytes", text, (long)room);
    count(is_untouched(memory, GUARD), "as it was before", text, (long)room);
    count(is_untouched(out + fits, TODRENVAL_REASON_ROOM - fits + GUARD), "as it was behind", text, (long)room);
    count(blocks == 0, "all memory freed", text, (long)room);
}

static void try_words(void) {
    static char const *const texts[] = {
        "No error.",
        "The room is too small.",
        "No pair has the key.",
        "Out of memory.",
        "Unknown encoding.",
        "A text isn't UTF-8.",
        "A packed list isn't well formed.",
        "Malformed \\uxxxx encoding: not enough digits.",
        "Malformed \\uxxxx encoding: not hex.",
        "Malformed \\uxxxx encoding: invalid character.",
        "Too many lines.",
        "The call doesn't take this encoding.",
        "Bad comment prefix.",
        "Bad key/value separator.",
        "Empty key with a blank key/value separator.",
        "Unknown flags.",
        "The source isn't text in its encoding.",
        "A pair has the new key already.",
    };
    static int const unknown[] = {-2147483647 - 1, -1, TODRENVAL_KEY_TAKEN + 1, 2147483647};
    int const known = (int)(sizeof texts / sizeof *texts);
    char reason[TODRENVAL_REASON_ROOM];
    int each;
    count(known == TODRENVAL_KEY_TAKEN + 1, "each status", "status_text", known);
    for (each = 0; each < known + 4; each++) {
        int status = each < known ? each : unknown[each - known];
        char const *text = each < known ? texts[each] : "Unknown status.";
        size_t room;
        for (room = 0; room <= TODRENVAL_REASON_ROOM; room++) {
            check_text(status, text, room);
        }
        count(strcmp(todrenval_reason(status, reason), text) == 0, "a C string", text, status);
    }
    count(todrenval_version() == TODRENVAL_VERSION, "the version", "version", 0);
}

int main(void) {
    try_get();
    try_items();
    try_item_flags();
    try_spans();
    try_parts();
    try_random_parts();
    try_find();
    try_findings();
    try_edits();
    try_edit_kinds();
    try_edited_escapes();
    try_renaming();
    try_key_comments();
    try_setting_comments();
    try_write();
    try_settings();
    try_convert();
    try_strict();
    try_going_on();
    try_labels();
    try_round_trip();
    try_append();
    try_encodings();
    try_flags();
    try_comments();
    try_texts();
    try_lists();
    try_escapes();
    try_unsupported();
    try_memory();
    try_memory_converting();
    try_memory_keys();
    try_memory_parts();
    try_words();
    printf("%ld passed, %ld failed\n", passed, failed);
    return failed > 0;
}
