/* Prints the errors and the tree of each file, or of standard input, as `rnix tree` does: tree [FILE..]
 * It ends with 0 if no text has errors, with 1 if one has, and with 2 if something is refused. */
#include <inttypes.h>
#include <stdio.h>
#include <stdlib.h>
#include <string.h>

#include "rnix.h"

enum { GOOD = 0, WRONG = 1, REFUSED = 2 };

/* The longest name of a kind, with its zero, is shorter. */
#define NAME_ROOM 32

/* The deepest level that is indented. */
enum { INDENTED = 100 };

static char names[RNIX_KINDS][NAME_ROOM];

static int refuse(const char *why) {
    fprintf(stderr, "tree: %s\n", why);
    return REFUSED;
}

static int refuse_answer(int64_t answer) {
    return refuse(answer == RNIX_NOT_UTF8 ? "the text is not UTF-8" : "no memory is left");
}

/* Asks for the names of all kinds. */
static int learn_names(void) {
    for (uint32_t kind = 0; kind < RNIX_KINDS; kind++) {
        int64_t len = rnix_kind_name(kind, (uint8_t *)names[kind], NAME_ROOM - 1);
        if (len < 0 || len >= NAME_ROOM) {
            return refuse("the library is another than the header describes");
        }
        names[kind][len] = '\0';
    }
    return GOOD;
}

/* Reads all of a file. The caller frees the bytes; NULL says that the file cannot be read or that no memory is left. */
static uint8_t *read_all(FILE *file, size_t *len) {
    size_t room = 1 << 16;
    uint8_t *bytes = malloc(room);
    *len = 0;
    while (bytes != NULL) {
        *len += fread(bytes + *len, 1, room - *len, file);
        if (*len < room) {
            break;
        }
        room *= 2;
        uint8_t *more = realloc(bytes, room);
        if (more == NULL) {
            free(bytes);
        }
        bytes = more;
    }
    if (bytes != NULL && ferror(file)) {
        free(bytes);
        bytes = NULL;
    }
    return bytes;
}

/* Prints what is said of each error. */
static int print_errors(const uint8_t *text, size_t len) {
    int64_t count = rnix_error_texts(text, len, NULL, 0);
    if (count < 0) {
        return refuse_answer(count);
    }
    uint8_t *lines = malloc((size_t)count + 1);
    if (lines == NULL) {
        return refuse_answer(RNIX_NO_MEMORY);
    }
    int64_t answer = rnix_error_texts(text, len, lines, (size_t)count);
    for (uint8_t *line = lines; answer == count && line < lines + count;) {
        uint8_t *end = memchr(line, '\n', (size_t)(lines + count - line));
        printf("error: %.*s\n", (int)(end - line), (char *)line);
        line = end + 1;
    }
    free(lines);
    return answer < 0 ? refuse_answer(answer) : GOOD;
}

/* Prints how a line begins: with two spaces for each level, and deeper than 100 levels with the number of its level. */
static void print_margin(size_t depth) {
    if (depth > INDENTED) {
        printf("%zu ", depth);
        return;
    }
    for (size_t level = 0; level < depth; level++) {
        fputs("  ", stdout);
    }
}

/* Prints the elements, each on a line, one level deeper than the node around it. */
static void print_elements(const struct rnix_element *elements, uint64_t count) {
    size_t depth = 0;
    for (uint64_t number = 0; number < count; number++) {
        const struct rnix_element *element = &elements[number];
        if (number > 0) {
            /* From the element before: inside it, or out to the one that has the same parent. */
            uint64_t at = number - 1;
            depth++;
            while (element->parent != at) {
                at = elements[at].parent;
                depth--;
            }
        }
        print_margin(depth);
        printf("%s@%" PRIu64 "..%" PRIu64 "\n", names[element->kind], element->start, element->end);
    }
}

/* Prints the errors and the tree of a text. */
static int print_tree(const uint8_t *text, size_t len) {
    uint64_t errors = 0;
    int64_t count = rnix_parse(text, len, NULL, 0, NULL, 0, &errors);
    if (count < 0) {
        return refuse_answer(count);
    }
    struct rnix_element *elements = malloc((size_t)count * sizeof *elements);
    if (elements == NULL) {
        return refuse_answer(RNIX_NO_MEMORY);
    }
    int status = errors > 0 ? print_errors(text, len) : GOOD;
    int64_t answer = rnix_elements(text, len, elements, (size_t)count);
    if (answer < 0) {
        status = refuse_answer(answer);
    } else if (status == GOOD) {
        print_elements(elements, (uint64_t)count);
        status = errors > 0 ? WRONG : GOOD;
    }
    free(elements);
    return status;
}

static int print_file(FILE *file) {
    size_t len;
    uint8_t *text = read_all(file, &len);
    if (text == NULL) {
        return refuse("cannot read");
    }
    int status = print_tree(text, len);
    free(text);
    return status;
}

int main(int argc, char **argv) {
    int status = rnix_version() == RNIX_VERSION ? learn_names() : refuse("the library is another than the header describes");
    if (status == GOOD && argc < 2) {
        status = print_file(stdin);
    }
    for (int number = 1; number < argc && status != REFUSED; number++) {
        FILE *file = fopen(argv[number], "rb");
        int found = file == NULL ? refuse("cannot read") : print_file(file);
        if (file != NULL) {
            fclose(file);
        }
        status = found > status ? found : status;
    }
    if (fflush(stdout) != 0) {
        status = refuse("cannot write");
    }
    return status;
}
