/* Reads standard input, and prints how many items todrenval_items finds in it. With the argument `copy` it only reads
 * the input, and prints its length. */
#include "todrenval.h"

#include <stdio.h>
#include <stdlib.h>

static uint8_t *source;
static size_t source_length;

static int read_input(void) {
    size_t room = 1 << 16;
    for (;;) {
        uint8_t *larger = realloc(source, room);
        if (larger == NULL) {
            return 0;
        }
        source = larger;
        source_length += fread(source + source_length, 1, room - source_length, stdin);
        if (source_length < room) {
            return !ferror(stdin);
        }
        room *= 2;
    }
}

int main(int count, char **words) {
    size_t room, length, line, items = 0;
    uint8_t *list;
    struct todrenval_cursor cursor;
    struct todrenval_item item;
    if (!read_input()) {
        return 1;
    }
    if (count > 1 && strcmp(words[1], "copy") == 0) {
        printf("%zu\n", source_length);
        return 0;
    }
    room = 4 * source_length + 1;
    list = malloc(room);
    if (list == NULL || todrenval_items(source, source_length, TODRENVAL_WINDOWS_1252, list, room, &length, &line)) {
        return 1;
    }
    cursor = todrenval_walk(list, length);
    while (todrenval_next_item(&cursor, &item)) {
        items++;
    }
    printf("%zu\n", items);
    free(list);
    free(source);
    return 0;
}
