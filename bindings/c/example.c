/* Lists the items of a file in UTF-8, and prints the file with a value changed: example FILE KEY VALUE. */
#include "todrenval.h"

#include <errno.h>
#include <stdio.h>

struct bytes {
    char *start;
    size_t length;
};

/* Prints FILE:LINE: REASON, or FILE: REASON if there is no line, and returns false. */
static bool fail(char const *name, size_t line, char const *reason) {
    if (line > 0) {
        fprintf(stderr, "%s:%zu: %s\n", name, line, reason);
    } else {
        fprintf(stderr, "%s: %s\n", name, reason);
    }
    return false;
}

static bool read_file(char const *name, struct bytes *file) {
    size_t room = 4096;
    FILE *stream = fopen(name, "rb");
    if (stream == NULL) {
        return fail(name, 0, strerror(errno));
    }
    for (;;) {
        char *larger = realloc(file->start, room);
        if (larger == NULL) {
            fclose(stream);
            return fail(name, 0, "Out of memory.");
        }
        file->start = larger;
        file->length += fread(file->start + file->length, 1, room - file->length, stream);
        if (file->length < room) {
            break;
        }
        room *= 2;
    }
    if (ferror(stream)) {
        fclose(stream);
        return fail(name, 0, "It can't be read.");
    }
    fclose(stream);
    return true;
}

/* Prints the items up to the end or to a malformed escape. */
static bool list_items(char const *name, struct bytes const *file) {
    struct todrenval_result list =
        todrenval_items_new(file->start, file->length, TODRENVAL_UTF_8, TODRENVAL_READ_COMMENTS);
    struct todrenval_cursor cursor = todrenval_walk(list.bytes, list.length);
    struct todrenval_item item;
    char reason[TODRENVAL_REASON_ROOM];
    while (todrenval_next_item(&cursor, &item)) {
        if (item.kind == TODRENVAL_PAIR) {
            printf("line %llu, ", (unsigned long long)item.line);
            fwrite(item.key, 1, item.key_length, stdout);
        } else {
            printf("line %llu, a comment", (unsigned long long)item.line);
        }
        printf(": ");
        fwrite(item.value, 1, item.value_length, stdout);
        printf("\n");
    }
    free(list.bytes);
    return list.status == TODRENVAL_OK || fail(name, list.line, todrenval_reason(list.status, reason));
}

static bool print_changed(char const *name, struct bytes const *file, char const *key, char const *value) {
    struct todrenval_result changed = todrenval_set_value_new(file->start, file->length, TODRENVAL_UTF_8, 0, key,
                                                              strlen(key), value, strlen(value));
    size_t printed = fwrite(changed.bytes, 1, changed.length, stdout);
    char reason[TODRENVAL_REASON_ROOM];
    free(changed.bytes);
    if (changed.status != TODRENVAL_OK) {
        return fail(name, changed.line, todrenval_reason(changed.status, reason));
    }
    return (printed == changed.length && fflush(stdout) == 0) || fail("standard output", 0, strerror(errno));
}

int main(int count, char **words) {
    struct bytes file = {NULL, 0};
    bool done;
    if (count != 4) {
        fprintf(stderr, "usage: example FILE KEY VALUE\n");
        return 2;
    }
    if (todrenval_version() != TODRENVAL_VERSION) {
        fprintf(stderr, "The library is of another version than its header.\n");
        return 2;
    }
    done = read_file(words[1], &file) && list_items(words[1], &file) &&
           print_changed(words[1], &file, words[2], words[3]);
    free(file.start);
    return done ? 0 : 1;
}
