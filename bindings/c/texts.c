/* Prints what the library says of each text of a list: texts < LIST. A list has, for each text, a line with its length in bytes, the text, and a
 * line feed. For each text it prints its tokens, its errors with what they want, the elements of its tree, and the parts of its strings. */
#include <inttypes.h>
#include <stdio.h>
#include <stdlib.h>
#include <string.h>

#include "rnix.h"

static const char *const names[] = RNIX_KIND_NAMES;

static void stop(int64_t answer) {
    fprintf(stderr, "texts: %s\n", RNIX_REFUSAL_TEXT(answer));
    exit(2);
}

/* Returns a count, or stops if the call was refused. */
static size_t counted(int64_t answer) {
    if (answer < 0) {
        stop(answer);
    }
    return (size_t)answer;
}

static void *room_of(size_t count, size_t size) {
    void *room = malloc(count * size + 1);
    if (room == NULL) {
        stop(RNIX_NO_MEMORY);
    }
    return room;
}

static void print_tokens(const uint8_t *text, size_t len) {
    struct rnix_token *tokens = room_of(len, sizeof *tokens);
    size_t count = counted(rnix_tokens(text, len, tokens, len));
    for (size_t number = 0; number < count; number++) {
        printf("token %s %" PRIu64 "\n", names[tokens[number].kind], tokens[number].end - tokens[number].start);
    }
    free(tokens);
}

static void print_errors(const uint8_t *text, size_t len, const struct rnix_error *errors, size_t count) {
    size_t room = counted(rnix_error_texts(text, len, NULL, 0));
    char *said = room_of(room, 1);
    char *line = said;
    counted(rnix_error_texts(text, len, (uint8_t *)said, room));
    for (size_t number = 0; number < count; number++) {
        char *end = memchr(line, '\n', (size_t)(said + room - line));
        printf("error %.*s\n", (int)(end - line), line);
        line = end + 1;
        for (size_t place = 0; place < RNIX_WANTED_ROOM && errors[number].wanted[place] != RNIX_NOT_WANTED; place++) {
            printf("wanted %s\n", names[errors[number].wanted[place]]);
        }
    }
    free(said);
}

static void print_tree(const uint8_t *text, size_t len) {
    size_t room = RNIX_ELEMENTS_MOST(len);
    struct rnix_element *elements = room_of(room, sizeof *elements);
    struct rnix_error *errors = room_of(room, sizeof *errors);
    uint64_t error_count = 0;
    size_t count = counted(rnix_parse(text, len, elements, room, errors, room, &error_count));
    if (count > room || error_count > room) {
        stop(RNIX_NO_MEMORY);
    }
    print_errors(text, len, errors, error_count);
    for (size_t number = 0; number < count; number++) {
        const struct rnix_element *element = &elements[number];
        printf("%s %s %" PRIu64 "..%" PRIu64 " in %" PRId64 "\n", element->is_token ? "leaf" : "node", names[element->kind], element->start, element->end,
               element->parent == RNIX_NO_NUMBER ? INT64_C(-1) : (int64_t)element->parent);
    }
    free(elements);
    free(errors);
}

static void print_strings(const uint8_t *text, size_t len) {
    struct rnix_string_part *parts = room_of(len, sizeof *parts);
    uint8_t *joined = room_of(len, 1);
    uint64_t joined_len = 0;
    size_t count = counted(rnix_strings(text, len, parts, len, joined, len, &joined_len));
    if (count > len || joined_len > len) {
        stop(RNIX_NO_MEMORY);
    }
    for (size_t number = 0; number < count; number++) {
        const struct rnix_string_part *part = &parts[number];
        if (part->is_interpolation) {
            printf("string %" PRIu64 " interpolation %" PRIu64 "..%" PRIu64 "\n", part->string, part->start, part->end);
        } else {
            printf("string %" PRIu64 " literal %" PRIu64 "\n", part->string, part->end - part->start);
            fwrite(joined + part->start, 1, part->end - part->start, stdout);
            putchar('\n');
        }
    }
    free(parts);
    free(joined);
}

int main(void) {
    size_t len;
    while (scanf("%zu", &len) == 1) {
        uint8_t *text = room_of(len, 1);
        if (getchar() != '\n' || fread(text, 1, len, stdin) != len || getchar() != '\n') {
            fputs("texts: the list is cut off\n", stderr);
            return 2;
        }
        printf("text %zu\n", len);
        print_tokens(text, len);
        print_tree(text, len);
        print_strings(text, len);
        free(text);
    }
    return fflush(stdout) == 0 ? 0 : 2;
}
