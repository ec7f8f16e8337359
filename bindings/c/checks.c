/* Checks the library through its header: structs, arrays with little room and none, refusals, numbers at their limits, a deep text, threads.
 * Prints what fails, and ends with 1 if something does. With an argument, it leaves out the text of 2^32 bytes. It is linked with --wrap=malloc
 * and --wrap=realloc. */
#define _DEFAULT_SOURCE

#include <pthread.h>
#include <stdio.h>
#include <stdlib.h>
#include <string.h>
#include <sys/mman.h>

#include "rnix.h"

static int failures = 0;

#define CHECK(condition) check((condition), #condition, __LINE__)

static void check(int holds, const char *what, int line) {
    if (!holds) {
        printf("checks.c:%d: %s does not hold\n", line, what);
        failures++;
    }
}

static const char sample[] = "[ \"x${y}z\" ; ]";
static const uint8_t *const text = (const uint8_t *)sample;
static const size_t len = sizeof sample - 1;

static void check_structs(void) {
    CHECK(rnix_version() == RNIX_VERSION);
    CHECK(sizeof(struct rnix_token) == 24);
    CHECK(sizeof(struct rnix_element) == 40);
    CHECK(sizeof(struct rnix_range) == 8);
    CHECK(sizeof(struct rnix_link) == 12);
    CHECK(sizeof(struct rnix_error) == 40);
    CHECK(sizeof(struct rnix_part) == 24);
    CHECK(sizeof(struct rnix_string_part) == 32);
    CHECK(sizeof(struct rnix_position) == 16);
    CHECK(sizeof(struct rnix_diagnostic) == 48);
    CHECK(sizeof(struct rnix_note) == 64);
    CHECK(sizeof(struct rnix_fix) == 24);
    CHECK(sizeof(struct rnix_binding) == 48);
    CHECK(sizeof(struct rnix_reference) == 40);
    CHECK(offsetof(struct rnix_element, kind) == 32);
    CHECK(offsetof(struct rnix_link, is_token) == 10);
    CHECK(offsetof(struct rnix_error, wanted) == 16);
    CHECK(offsetof(struct rnix_diagnostic, severity) == 44);
}

static const char *const names[] = RNIX_KIND_NAMES;

static void check_kinds(void) {
    uint8_t name[32];
    CHECK(sizeof names / sizeof *names == RNIX_KINDS);
    for (uint32_t kind = 0; kind < RNIX_KINDS; kind++) {
        int64_t count = rnix_kind_name(kind, name, sizeof name);
        CHECK(count > 0 && rnix_kind_of_name(name, (size_t)count) == kind);
        CHECK(strlen(names[kind]) == (size_t)count && memcmp(names[kind], name, (size_t)count) == 0);
    }
    CHECK(rnix_kind_name(RNIX_KINDS, name, sizeof name) == RNIX_NONE_SUCH);
    CHECK(rnix_kind_name(RNIX_NO_KIND, NULL, 0) == RNIX_NONE_SUCH);
    CHECK(rnix_kind_name(RNIX_NODE_WITH, name, 4) == 9 && memcmp(name, "NODE", 4) == 0);
    CHECK(rnix_kind_of_name((const uint8_t *)"TOKEN", 5) == RNIX_NONE_SUCH);
    CHECK(rnix_kind_of_name(NULL, 0) == RNIX_NONE_SUCH);
}

/* For each room up to the count: the first elements are those of a full array, and what is behind them stays. */
static void check_rooms_of_elements(void) {
    struct rnix_element full[64], some[64];
    int64_t count = rnix_elements(text, len, full, 64);
    CHECK(count > 10 && count <= 64);
    CHECK(rnix_elements(text, len, NULL, 0) == count);
    for (size_t room = 0; room <= (size_t)count; room++) {
        memset(some, 0x5a, sizeof some);
        CHECK(rnix_elements(text, len, some, room) == count);
        CHECK(memcmp(some, full, room * sizeof *some) == 0);
        for (size_t byte = room * sizeof *some; byte < sizeof some; byte++) {
            CHECK(((uint8_t *)some)[byte] == 0x5a);
        }
    }
    CHECK(full[0].parent == RNIX_NO_NUMBER && full[0].inside == (uint64_t)count - 1 && full[0].end == len);
}

/* An element in two parts is the element. */
static int is_same(struct rnix_element element, struct rnix_range range, struct rnix_link link) {
    return range.start == element.start && range.end == element.end && link.inside == element.inside && link.kind == element.kind &&
           link.is_token == element.is_token && link.parent == (element.parent == RNIX_NO_NUMBER ? RNIX_NO_PARENT : element.parent);
}

/* For each two rooms up to the count: the first elements are those of rnix_elements, and what is behind them in each array stays. */
static void check_compact_elements(void) {
    struct rnix_element full[64];
    struct rnix_range ranges[64], no_ranges[64];
    struct rnix_link links[64], no_links[64];
    struct rnix_error errors[2];
    int64_t count = rnix_elements(text, len, full, 64);
    memset(no_ranges, 0x5a, sizeof no_ranges);
    memset(no_links, 0x5a, sizeof no_links);
    for (size_t rooms = 0; rooms < (size_t)(count * count); rooms++) {
        size_t few = rooms / (size_t)count, many = rooms % (size_t)count + 1;
        uint64_t error_count = 0;
        memcpy(ranges, no_ranges, sizeof ranges);
        memcpy(links, no_links, sizeof links);
        CHECK(rnix_parse_compact(text, len, ranges, few, links, many, errors, 2, &error_count) == count && error_count == 1);
        for (size_t number = 0; number < few && number < many; number++) {
            CHECK(is_same(full[number], ranges[number], links[number]));
        }
        CHECK(memcmp(ranges + few, no_ranges, sizeof ranges - few * sizeof *ranges) == 0);
        CHECK(memcmp(links + many, no_links, sizeof links - many * sizeof *links) == 0);
    }
    CHECK(errors[0].variant == RNIX_UNEXPECTED_WANTED && errors[0].start == 11);
}

/* What is kept of the parse of a text. */
struct kept {
    struct rnix_range ranges[64];
    struct rnix_link links[64];
    struct rnix_error errors[16];
    uint64_t error_count;
    int64_t count;
};

static struct kept kept_of(const char *of) {
    struct kept kept;
    memset(&kept, 0, sizeof kept);
    kept.count = rnix_parse_compact((const uint8_t *)of, strlen(of), kept.ranges, 64, kept.links, 64, kept.errors, 16, &kept.error_count);
    CHECK(kept.count > 0 && kept.count <= 64 && kept.error_count <= 16);
    return kept;
}

/* Parses a text again after an edit, given arrays with some room after the elements, and writes to what is kept. */
static int64_t again_in(size_t more, const char *of, const struct kept *old, uint64_t start, uint64_t end, const char *new, struct kept *kept) {
    const size_t count = (size_t)old->count;
    return rnix_parse_again((const uint8_t *)of, strlen(of), old->ranges, count + more, old->links, count + (more + 1) / 2, old->error_count, start, end,
                            (const uint8_t *)new, strlen(new), kept->ranges, 64, kept->links, 64, kept->errors, 16, &kept->error_count);
}

static int64_t again(const char *of, const struct kept *old, uint64_t start, uint64_t end, const char *new, struct kept *kept) {
    return again_in(0, of, old, start, end, new, kept);
}

/* Arrays that are longer than what was written are read as far as it goes. */
static void check_longer_arrays(void) {
    static const char of[] = "{ a = [ 1 (b) ]; }";
    struct kept old = kept_of(of), kept, whole;
    for (size_t more = 0; more <= 64 - (size_t)old.count; more++) {
        memset(&kept, 0, sizeof kept);
        memset(&whole, 0, sizeof whole);
        memset(old.ranges + old.count, 0x5a, sizeof *old.ranges * (64 - (size_t)old.count));
        memset(old.links + old.count, 0x5a, sizeof *old.links * (64 - (size_t)old.count));
        kept.count = again_in(more, of, &old, 8, 9, "c", &kept);
        whole.count = again(of, &old, 8, 9, "c", &whole);
        CHECK(kept.count > 0 && memcmp(&kept, &whole, sizeof kept) == 0);
    }
}

/* For each range of a text and some replacements: what is written is what is kept of the new text. */
static void check_edits(const char *of) {
    static const char *const pieces[] = {"", "x", " ", "{", "]", "\"", "''", "${", "#", "/*", "(c)", "\n"};
    const struct kept old = kept_of(of);
    char made[64];
    for (size_t start = 0; start <= strlen(of); start++) {
        for (size_t end = start; end <= strlen(of); end++) {
            for (size_t piece = 0; piece < sizeof pieces / sizeof *pieces; piece++) {
                struct kept kept;
                memset(&kept, 0, sizeof kept);
                kept.count = again(of, &old, start, end, pieces[piece], &kept);
                snprintf(made, sizeof made, "%.*s%s%s", (int)start, of, pieces[piece], of + end);
                const struct kept whole = kept_of(made);
                CHECK(memcmp(&kept, &whole, sizeof kept) == 0);
            }
        }
    }
}

static void check_again(void) {
    check_edits("{ a = [ 1 (b) ]; }");
    check_edits("\"x${y}\" + ''z''");
    check_edits("[ a ; ]");
    static const char umlaut[] = "\"\xc3\xa4\"";
    const struct kept old = kept_of(umlaut);
    struct kept kept, blank;
    memset(&kept, 0x5a, sizeof kept);
    memset(&blank, 0x5a, sizeof blank);
    CHECK(again(umlaut, &old, 2, 3, "", &kept) == RNIX_NONE_SUCH);
    CHECK(again(umlaut, &old, 0, 2, "", &kept) == RNIX_NONE_SUCH);
    CHECK(again(umlaut, &old, 1, 0, "", &kept) == RNIX_NONE_SUCH);
    CHECK(again(umlaut, &old, 4, 5, "", &kept) == RNIX_NONE_SUCH);
    CHECK(again(umlaut, &old, 0, UINT64_MAX, "", &kept) == RNIX_NONE_SUCH);
    CHECK(again(umlaut, &old, 1, 3, "\xc3", &kept) == RNIX_NOT_UTF8);
    CHECK(memcmp(&kept, &blank, sizeof kept) == 0);
    CHECK(again(umlaut, &old, 1, 3, "", &kept) == 4 && kept.ranges[1].end == 2);
}

static void check_other_rooms(void) {
    struct rnix_token tokens[32];
    int64_t count = rnix_tokens(text, len, tokens, 32);
    CHECK(count > 0 && tokens[0].start == 0 && tokens[count - 1].end == len);
    CHECK(rnix_tokens(text, len, NULL, 0) == count);
    struct rnix_error error;
    CHECK(rnix_errors(text, len, &error, 1) == 1 && rnix_errors(text, len, NULL, 0) == 1);
    CHECK(error.variant == RNIX_UNEXPECTED_WANTED && error.found == RNIX_TOKEN_SEMICOLON && error.start == 11 && error.end == 12);
    CHECK(RNIX_WANTS(&error, RNIX_TOKEN_IDENT) && !RNIX_WANTS(&error, RNIX_NODE_WITH));
    const uint8_t wanted[] = {RNIX_TOKEN_L_PAREN, RNIX_TOKEN_REC, RNIX_TOKEN_L_BRACE, RNIX_TOKEN_L_BRACK, RNIX_TOKEN_STRING_START, RNIX_TOKEN_IDENT, RNIX_NOT_WANTED};
    CHECK(memcmp(error.wanted, wanted, sizeof wanted) == 0);
    uint64_t errors = 0;
    CHECK(rnix_parse(text, len, NULL, 0, NULL, 0, &errors) == rnix_elements(text, len, NULL, 0) && errors == 1);
    uint8_t said[256] = {0}, start[256] = {0};
    int64_t bytes = rnix_error_text(text, len, 0, said, sizeof said);
    CHECK(bytes > 10 && bytes < 256 && rnix_error_text(text, len, 0, start, 10) == bytes);
    CHECK(memcmp(said, start, 10) == 0 && start[10] == 0);
    CHECK(rnix_error_texts(text, len, NULL, 0) == bytes + 1);
    CHECK(rnix_error_text(text, len, 1, said, sizeof said) == RNIX_NONE_SUCH);
}

/* The number of the first element of a kind. */
static size_t first_of(uint32_t kind) {
    struct rnix_element elements[64];
    int64_t count = rnix_elements(text, len, elements, 64);
    for (int64_t number = 0; number < count; number++) {
        if (elements[number].kind == kind) {
            return (size_t)number;
        }
    }
    return SIZE_MAX;
}

static void check_strings(void) {
    size_t string = first_of(RNIX_NODE_STRING);
    uint8_t joined[8] = {0};
    CHECK(rnix_string_text(text, len, string, joined, sizeof joined) == 2 && memcmp(joined, "xz", 3) == 0);
    struct rnix_part parts[3];
    CHECK(rnix_string_parts(text, len, string, parts, 3) == 3 && rnix_string_parts(text, len, string, NULL, 0) == 3);
    CHECK(!parts[0].is_interpolation && parts[0].start == 0 && parts[0].end == 1);
    CHECK(parts[1].is_interpolation && parts[1].start == 4 && parts[1].end == 8);
    CHECK(!parts[2].is_interpolation && parts[2].start == 1 && parts[2].end == 2);
    CHECK(rnix_string_text(text, len, 0, joined, sizeof joined) == RNIX_NONE_SUCH);
    CHECK(rnix_string_parts(text, len, SIZE_MAX, parts, 3) == RNIX_NONE_SUCH);
}

/* The parts of all strings are those of each string, and their text is what the strings' texts are, joined. */
static void check_all_strings(void) {
    static const char two[] = "[ \"a\\n${\"b\"}c\" \"\" ''\n  d\n'' ]";
    const uint8_t *const strings = (const uint8_t *)two;
    const size_t strings_len = sizeof two - 1;
    struct rnix_string_part parts[16], blank[16];
    struct rnix_part own[16];
    uint8_t joined[64] = {0}, own_text[64];
    uint64_t joined_len = 0;
    memset(parts, 0x5a, sizeof parts);
    memset(blank, 0x5a, sizeof blank);
    int64_t count = rnix_strings(strings, strings_len, parts, 16, joined, sizeof joined, &joined_len);
    CHECK(count == 5 && joined_len == 6 && memcmp(joined, "a\ncbd\n", 7) == 0);
    CHECK(memcmp(parts + count, blank + count, (16 - (size_t)count) * sizeof *parts) == 0);
    for (int64_t at = 0, base = 0; at < count && count <= 16;) {
        int64_t own_count = rnix_string_parts(strings, strings_len, parts[at].string, own, 16);
        int64_t own_len = rnix_string_text(strings, strings_len, parts[at].string, own_text, sizeof own_text);
        CHECK(own_count > 0 && memcmp(own_text, joined + base, (size_t)own_len) == 0);
        for (int64_t index = 0; index < own_count; index++, at++) {
            uint64_t from = own[index].is_interpolation ? 0 : (uint64_t)base;
            CHECK(parts[at].start == own[index].start + from && parts[at].end == own[index].end + from);
            CHECK(parts[at].is_interpolation == own[index].is_interpolation);
        }
        base += own_len;
    }
    struct rnix_string_part one = {0};
    CHECK(rnix_strings(strings, strings_len, &one, 1, NULL, 0, &joined_len) == 5 && memcmp(&one, parts, sizeof one) == 0);
}

static void check_positions(void) {
    static const char lines[] = "a\n\xc3\xa4\xf0\x9f\x98\x80 b";
    const uint64_t offsets[] = {0, 1, 2, 3, 4, 8, 10, 11, UINT64_MAX};
    const uint64_t columns[3][6] = {{0, 1, 0, 2, 6, 8}, {0, 1, 0, 1, 2, 4}, {0, 1, 0, 1, 3, 5}};
    for (uint32_t unit = RNIX_BYTES; unit <= RNIX_UTF16; unit++) {
        struct rnix_position at[9];
        CHECK(rnix_positions((const uint8_t *)lines, 10, unit, offsets, 9, at, 9) == 9);
        for (size_t number = 0, place = 0; number < 9; number++) {
            int is_place = offsets[number] <= 10 && offsets[number] != 3;
            CHECK(is_place ? at[number].line == (number > 1) && at[number].column == columns[unit][place] : at[number].line == RNIX_NO_NUMBER);
            place += is_place ? 1 : 0;
        }
        CHECK(rnix_positions((const uint8_t *)lines, 10, unit, NULL, 0, NULL, 0) == 0);
        CHECK(rnix_positions((const uint8_t *)lines, 10, unit, offsets, 9, NULL, 0) == 9);
    }
    CHECK(rnix_positions(text, len, 3, offsets, 9, NULL, 0) == RNIX_NONE_SUCH);
    CHECK(rnix_positions(text, len, UINT32_MAX, NULL, 0, NULL, 0) == RNIX_NONE_SUCH);
}

/* What rnix_diagnostics writes of a text. */
struct described {
    struct rnix_diagnostic diagnostics[8];
    struct rnix_note notes[8];
    uint64_t note_count;
    uint8_t texts[512];
    uint64_t texts_len;
    int64_t count;
};

/* Describes a text into arrays of which so many items may be written, and so many bytes of the texts for each. */
static struct described described_in(const char *of, size_t room, size_t note_room, size_t buffer_room) {
    struct described found;
    memset(&found, 0x5a, sizeof found);
    found.count = rnix_diagnostics((const uint8_t *)of, strlen(of), found.diagnostics, room, found.notes, note_room, &found.note_count, found.texts,
                                   buffer_room, &found.texts_len);
    return found;
}

static struct described described(const char *of) {
    const struct described found = described_in(of, 8, 8, sizeof found.texts);
    CHECK(found.count >= 0 && found.count <= 8 && found.note_count <= 8 && found.texts_len <= sizeof found.texts);
    CHECK(found.note_count == (found.count > 0 ? found.diagnostics[found.count - 1].note_end : 0));
    return found;
}

/* Whether a range of the joined texts is a text. */
static int is_text(const struct described *found, uint64_t start, uint64_t end, const char *wanted) {
    return start <= end && end <= found->texts_len && end - start == strlen(wanted) && memcmp(found->texts + start, wanted, strlen(wanted)) == 0;
}

/* Whether a diagnostic has a code and a message. */
static int says(const struct described *found, size_t number, const char *code, const char *message) {
    const struct rnix_diagnostic *one = &found->diagnostics[number];
    uint8_t name[32];
    int64_t count = rnix_code_name(one->code, name, sizeof name);
    return count == (int64_t)strlen(code) && memcmp(name, code, strlen(code)) == 0 &&
           is_text(found, one->message_start, one->message_end, message);
}

/* Whether a note has no proposal. */
static int proposes_nothing(const struct rnix_note *note) {
    return note->replaced_start == RNIX_NO_NUMBER && note->replaced_end == RNIX_NO_NUMBER && note->text_start == note->text_end;
}

static void check_codes(void) {
    static const char *const codes[] = {
        "syntax-error",  "nested-too-deep", "repeated-attribute", "foreign-space",        "unbound-name",   "dynamic-name",
        "large-integer", "called-data",     "bare-path",          "needless-parentheses", "manual-inherit", "unused-name",
        "needless-with", "repeated-argument", "empty-let",
    };
    const uint32_t count = sizeof codes / sizeof *codes;
    uint8_t name[32];
    for (uint32_t code = 0; code < count; code++) {
        CHECK(rnix_code_name(code, name, sizeof name) == (int64_t)strlen(codes[code]) && memcmp(name, codes[code], strlen(codes[code])) == 0);
    }
    memset(name, 0x5a, sizeof name);
    CHECK(rnix_code_name(0, name, 3) == 12 && memcmp(name, "syn\x5a", 4) == 0);
    CHECK(rnix_code_name(0, NULL, 0) == 12);
    CHECK(rnix_code_name(UINT32_MAX, name, sizeof name) == RNIX_NONE_SUCH && memcmp(name, "syn\x5a", 4) == 0);
}

static void check_syntax_errors(void) {
    const struct described found = described("{ a = 1 }");
    const struct rnix_note *note = &found.notes[0];
    CHECK(found.count == 1 && says(&found, 0, "syntax-error", "expected \";\" after the value of \"a\", found \"}\""));
    CHECK(found.diagnostics[0].start == 8 && found.diagnostics[0].end == 9 && found.diagnostics[0].severity == RNIX_ERROR);
    CHECK(found.note_count == 1 && is_text(&found, note->message_start, note->message_end, "\";\" is missing here"));
    CHECK(note->start == 7 && note->end == 7 && note->replaced_start == 7 && note->replaced_end == 7);
    CHECK(is_text(&found, note->text_start, note->text_end, ";"));
    const struct described list = described("[ 1, 2 ]");
    note = &list.notes[0];
    CHECK(list.note_count == 1 && is_text(&list, note->message_start, note->message_end, "list items are separated by white space alone"));
    CHECK(note->start == RNIX_NO_NUMBER && note->end == RNIX_NO_NUMBER);
    CHECK(note->replaced_start == 3 && note->replaced_end == 4 && note->text_start == note->text_end);
}

static void check_lints(void) {
    const struct described repeated = described("{ a = 1; a = 2; }");
    CHECK(repeated.count == 1 && says(&repeated, 0, "repeated-attribute", "this attribute is already defined"));
    CHECK(repeated.diagnostics[0].start == 9 && repeated.diagnostics[0].end == 10 && repeated.diagnostics[0].severity == RNIX_ERROR);
    const struct rnix_note *note = &repeated.notes[0];
    CHECK(repeated.note_count == 1 && is_text(&repeated, note->message_start, note->message_end, "first defined here"));
    CHECK(note->start == 2 && note->end == 3 && proposes_nothing(note));
    const struct described warned = described("{ a = (1); }");
    CHECK(warned.count == 1 && says(&warned, 0, "needless-parentheses", "these parentheses change nothing"));
    CHECK(warned.diagnostics[0].start == 6 && warned.diagnostics[0].end == 9 && warned.diagnostics[0].severity == RNIX_WARNING);
    note = &warned.notes[0];
    CHECK(warned.note_count == 1 && note->start == RNIX_NO_NUMBER && note->replaced_start == 6 && note->replaced_end == 9);
    CHECK(is_text(&warned, note->text_start, note->text_end, "1"));
    const struct described unused = described("let a = 1; in 2");
    CHECK(unused.count == 1 && says(&unused, 0, "unused-name", "nothing uses this name"));
    CHECK(unused.diagnostics[0].start == 4 && unused.diagnostics[0].end == 5 && unused.diagnostics[0].severity == RNIX_WARNING);
    const struct described clean = described("1");
    CHECK(clean.count == 0 && clean.note_count == 0 && clean.texts_len == 0);
    const struct described ignored = described("{ a = 1;\n# nix-check: ignore repeated-attribute\na = 2; }");
    CHECK(ignored.count == 0);
}

/* With less room, the first items are those of full arrays, what is behind them stays, and the numbers are the same. */
static void check_rooms_of_diagnostics(const char *of) {
    const struct described full = described(of);
    CHECK(full.count == 3 && full.note_count == 3);
    for (size_t room = 0; room <= 3; room++) {
        for (size_t note_room = 0; note_room <= 3; note_room++) {
            const struct described some = described_in(of, room, note_room, 16 * room);
            struct described wanted;
            memset(&wanted, 0x5a, sizeof wanted);
            memcpy(wanted.diagnostics, full.diagnostics, room * sizeof *full.diagnostics);
            memcpy(wanted.notes, full.notes, note_room * sizeof *full.notes);
            memcpy(wanted.texts, full.texts, 16 * room);
            wanted.note_count = full.note_count;
            wanted.texts_len = full.texts_len;
            wanted.count = full.count;
            CHECK(memcmp(&some, &wanted, sizeof some) == 0);
        }
    }
}

static void check_diagnostics(void) {
    check_codes();
    check_syntax_errors();
    check_lints();
    check_rooms_of_diagnostics("{ a = 1; b = 1; a = 2; c = (1); b = 3; }");
    check_rooms_of_diagnostics("{ a = [ 1, 2 ]; b = '1'; c = 1 }");
}

/* Whether the fix of the first diagnostic of a text replaces a range by a new text. */
static int is_fix(const char *wrong, uint64_t start, uint64_t end, const char *new_text) {
    struct rnix_fix fix = {0};
    uint8_t written[16] = {0};
    int64_t answer = rnix_fix((const uint8_t *)wrong, strlen(wrong), 0, &fix, written, sizeof written);
    return answer == 1 && fix.start == start && fix.end == end && fix.text_len == strlen(new_text) && strcmp((char *)written, new_text) == 0;
}

static void check_fixes(void) {
    CHECK(is_fix("{ a = 1 }", 7, 7, ";"));
    CHECK(is_fix("[ 1, 2 ]", 3, 4, ""));
    CHECK(is_fix("{ a = '1.0'; }", 6, 11, "\"1.0\""));
    CHECK(is_fix("# \xc3\xa4\n{ a = 1 }", 12, 12, ";"));
    struct rnix_fix fix, blank;
    uint8_t some[4] = {0};
    memset(&blank, 0x5a, sizeof blank);
    fix = blank;
    CHECK(rnix_fix((const uint8_t *)"{ a = '1.0'; }", 14, 0, &fix, some, 2) == 1 && fix.text_len == 5 && memcmp(some, "\"1\0", 4) == 0);
    CHECK(rnix_fix((const uint8_t *)"{ a = '1.0'; }", 14, 0, &fix, NULL, 0) == 1 && fix.text_len == 5);
    fix = blank;
    CHECK(rnix_fix((const uint8_t *)"{ a = ; }", 9, 0, &fix, some, sizeof some) == 0 && memcmp(&fix, &blank, sizeof fix) == 0);
    CHECK(rnix_fix((const uint8_t *)"{ a = ; }", 9, 1, &fix, some, sizeof some) == RNIX_NONE_SUCH && memcmp(&fix, &blank, sizeof fix) == 0);
    CHECK(rnix_fix((const uint8_t *)"a", 1, 0, &fix, NULL, 0) == RNIX_NONE_SUCH);
    CHECK(rnix_fix((const uint8_t *)"a", 1, SIZE_MAX, &fix, NULL, 0) == RNIX_NONE_SUCH);
}

static void check_names(void) {
    static const char let[] = "let a = 1; in with b; { inherit a; c = d; \"e\" = x: x; }";
    struct rnix_binding bindings[4];
    struct rnix_reference references[8];
    uint64_t reference_count = 0;
    CHECK(rnix_names((const uint8_t *)let, sizeof let - 1, bindings, 4, references, 8, &reference_count) == 2 && reference_count == 4);
    CHECK(bindings[0].start == 4 && bindings[0].end == 5 && bindings[0].scope_start == 0 && bindings[0].scope_end == sizeof let - 1);
    CHECK(bindings[0].kind == RNIX_NODE_IDENT && bindings[0].scope_kind == RNIX_NODE_LET_IN && bindings[0].first == 0);
    CHECK(bindings[1].scope_kind == RNIX_NODE_LAMBDA && bindings[1].first == 1);
    CHECK(references[0].binding == RNIX_NO_NUMBER && !references[0].is_open && !references[0].is_inherited);
    CHECK(references[1].binding == 0 && references[1].is_inherited == 1 && references[1].is_open == 0);
    CHECK(references[2].binding == RNIX_NO_NUMBER && references[2].is_open == 1);
    CHECK(references[3].binding == 1 && references[3].kind == RNIX_NODE_IDENT);
}

/* From what is kept of a text, what rnix_names writes is written, for each of a few rooms. */
static void check_names_again(void) {
    static const char *const texts[] = {"let a = 1; in x: [ a x ]", "let a = [ (x: a x"};
    struct written {
        struct rnix_binding bindings[4];
        struct rnix_reference references[4];
        uint64_t count;
    } again, whole;
    for (size_t number = 0; number < 2; number++) {
        const uint8_t *of = (const uint8_t *)texts[number];
        const size_t of_len = strlen(texts[number]);
        const struct kept kept = kept_of(texts[number]);
        CHECK((kept.error_count > 0) == (number > 0));
        for (size_t room = 0; room <= 4; room++) {
            memset(&again, 0x5a, sizeof again);
            memset(&whole, 0x5a, sizeof whole);
            int64_t answer = rnix_names_again(of, of_len, kept.ranges, (size_t)kept.count, kept.links, (size_t)kept.count, kept.error_count,
                                              again.bindings, room, again.references, room, &again.count);
            CHECK(answer == 2 && answer == rnix_names(of, of_len, whole.bindings, room, whole.references, room, &whole.count));
            CHECK(memcmp(&again, &whole, sizeof again) == 0);
        }
    }
}

/* What rnix_analysis writes. */
struct analysis {
    struct rnix_binding bindings[4];
    struct rnix_reference references[4];
    struct rnix_diagnostic diagnostics[4];
    struct rnix_note notes[4];
    uint8_t texts[256];
    uint64_t counts[4];
    int64_t count;
};

/* Writes all of it with one call, from what is kept of the text. */
static struct analysis analysis_of(const char *of, size_t room) {
    const struct kept kept = kept_of(of);
    struct analysis all;
    memset(&all, 0x5a, sizeof all);
    all.count = rnix_analysis((const uint8_t *)of, strlen(of), kept.ranges, (size_t)kept.count, kept.links, (size_t)kept.count, kept.error_count,
                              all.bindings, room, all.references, room, &all.counts[0], all.diagnostics, room, &all.counts[1], all.notes, room,
                              &all.counts[2], all.texts, 64 * room, &all.counts[3]);
    return all;
}

/* Writes all of it with two calls. */
static struct analysis names_and_diagnostics(const char *of, size_t room) {
    struct analysis all;
    memset(&all, 0x5a, sizeof all);
    all.count = rnix_names((const uint8_t *)of, strlen(of), all.bindings, room, all.references, room, &all.counts[0]);
    all.counts[1] = (uint64_t)rnix_diagnostics((const uint8_t *)of, strlen(of), all.diagnostics, room, all.notes, room, &all.counts[2], all.texts,
                                               64 * room, &all.counts[3]);
    return all;
}

/* One call writes what rnix_names and rnix_diagnostics write, for each of a few rooms: in a text with errors, with lints, and with neither. */
static void check_analysis(void) {
    static const char *const texts[] = {"let a = 1; in [ (x: a x", "let a = 1; in x: [ (a) x (y: a) ]", "let a = 1; in a"};
    static const uint64_t diagnostics[] = {1, 2, 0};
    static const int64_t bindings[] = {2, 3, 1};
    for (size_t number = 0; number < 3; number++) {
        for (size_t room = 0; room <= 4; room++) {
            const struct analysis together = analysis_of(texts[number], room), apart = names_and_diagnostics(texts[number], room);
            CHECK(memcmp(&together, &apart, sizeof together) == 0);
            CHECK(together.count == bindings[number] && together.counts[1] == diagnostics[number]);
            CHECK((together.counts[3] > 10) == (diagnostics[number] > 0));
        }
    }
}

static void check_format(void) {
    const uint8_t old[] = "{a=1;}", new[] = "{ a = 1; }\n";
    uint8_t made[16] = {0};
    CHECK(rnix_format(old, 6, made, sizeof made) == 11 && memcmp(made, new, 12) == 0);
    CHECK(rnix_format(old, 6, NULL, 0) == 11);
    CHECK(rnix_format(old, 5, made, sizeof made) == RNIX_HAS_ERRORS && memcmp(made, new, 12) == 0);
}

static void check_refusals(void) {
    const uint8_t bytes[] = {'a', ' ', 0xff};
    uint64_t errors = 7;
    CHECK(rnix_tokens(bytes, sizeof bytes, NULL, 0) == RNIX_NOT_UTF8);
    CHECK(rnix_elements(bytes, sizeof bytes, NULL, 0) == RNIX_NOT_UTF8);
    CHECK(rnix_errors(bytes, sizeof bytes, NULL, 0) == RNIX_NOT_UTF8);
    CHECK(rnix_parse(bytes, sizeof bytes, NULL, 0, NULL, 0, &errors) == RNIX_NOT_UTF8 && errors == 7);
    CHECK(rnix_parse_compact(bytes, sizeof bytes, NULL, 0, NULL, 0, NULL, 0, &errors) == RNIX_NOT_UTF8 && errors == 7);
    CHECK(rnix_error_text(bytes, sizeof bytes, 0, NULL, 0) == RNIX_NOT_UTF8);
    CHECK(rnix_error_texts(bytes, sizeof bytes, NULL, 0) == RNIX_NOT_UTF8);
    CHECK(rnix_string_text(bytes, sizeof bytes, 0, NULL, 0) == RNIX_NOT_UTF8);
    CHECK(rnix_string_parts(bytes, sizeof bytes, 0, NULL, 0) == RNIX_NOT_UTF8);
    CHECK(rnix_strings(bytes, sizeof bytes, NULL, 0, NULL, 0, &errors) == RNIX_NOT_UTF8 && errors == 7);
    CHECK(rnix_diagnostics(bytes, sizeof bytes, NULL, 0, NULL, 0, &errors, NULL, 0, &errors) == RNIX_NOT_UTF8 && errors == 7);
    CHECK(rnix_names(bytes, sizeof bytes, NULL, 0, NULL, 0, &errors) == RNIX_NOT_UTF8 && errors == 7);
    CHECK(rnix_analysis(bytes, sizeof bytes, NULL, 0, NULL, 0, 1, NULL, 0, NULL, 0, &errors, NULL, 0, &errors, NULL, 0, &errors, NULL, 0, &errors) ==
              RNIX_NOT_UTF8 &&
          errors == 7);
    struct rnix_fix fix = {7, 7, 7};
    CHECK(rnix_fix(bytes, sizeof bytes, 0, &fix, NULL, 0) == RNIX_NOT_UTF8 && fix.start == 7 && fix.end == 7 && fix.text_len == 7);
    CHECK(rnix_positions(bytes, sizeof bytes, 0, NULL, 0, NULL, 0) == RNIX_NOT_UTF8);
    CHECK(rnix_positions(bytes, sizeof bytes, 9, NULL, 0, NULL, 0) == RNIX_NOT_UTF8);
    CHECK(rnix_kind_of_name(bytes, sizeof bytes) == RNIX_NONE_SUCH);
    CHECK(rnix_format(bytes, sizeof bytes, NULL, 0) == RNIX_NOT_UTF8);
    for (int64_t answer = RNIX_DIFFERENT; answer < 1; answer++) {
        CHECK(strlen(RNIX_REFUSAL_TEXT(answer)) > 5);
    }
}

/* A text of 2^32 bytes is refused. */
static void check_too_long(void) {
    size_t long_len = (size_t)1 << 32;
    uint8_t *long_text = mmap(NULL, long_len, PROT_READ, MAP_PRIVATE | MAP_ANONYMOUS | MAP_NORESERVE, -1, 0);
    CHECK(long_text != MAP_FAILED);
    if (long_text == MAP_FAILED) {
        return;
    }
    struct rnix_element element;
    uint64_t errors = 7;
    CHECK(rnix_parse(long_text, long_len, &element, 1, NULL, 0, &errors) == RNIX_TOO_LONG && errors == 7);
    CHECK(rnix_parse_compact(long_text, long_len, NULL, 0, NULL, 0, NULL, 0, &errors) == RNIX_TOO_LONG && errors == 7);
    CHECK(rnix_strings(long_text, long_len, NULL, 0, NULL, 0, &errors) == RNIX_TOO_LONG && errors == 7);
    munmap(long_text, long_len);
}

/* How many more blocks are given out; below 0 there is no limit. */
static long blocks = -1;

void *__real_malloc(size_t size);
void *__real_realloc(void *block, size_t size);
void *__wrap_malloc(size_t size);
void *__wrap_realloc(void *block, size_t size);

static int is_refused(void) {
    if (blocks > 0) {
        blocks--;
    }
    return blocks == 0;
}

void *__wrap_malloc(size_t size) {
    return is_refused() ? NULL : __real_malloc(size);
}

void *__wrap_realloc(void *block, size_t size) {
    return is_refused() ? NULL : __real_realloc(block, size);
}

/* What calls write into, in one block, so that it can be compared with what it was. */
static struct rooms {
    struct rnix_token tokens[64];
    struct rnix_element elements[64];
    struct rnix_range ranges[64];
    struct rnix_link links[64];
    struct rnix_error errors[4];
    struct rnix_part parts[8];
    struct rnix_string_part string_parts[8];
    struct rnix_position positions[2];
    struct rnix_diagnostic diagnostics[4];
    struct rnix_note notes[4];
    struct rnix_fix fix;
    struct rnix_binding bindings[4];
    struct rnix_reference references[4];
    uint8_t bytes[512];
    uint64_t count;
    uint64_t others[3];
} rooms, untouched;

enum { CALLS = 17 };

/* A text without errors, what is kept of it, and what an edit of it writes. */
static const char clean[] = "x: [ 1 x ]";
static const uint8_t clean_new[] = {'(', '3', ')'};
static struct kept clean_kept;

/* Another one, in which the lints find something. */
static const char linted[] = "{ a = 1; a = (x: 2); }";
static struct kept linted_kept, sample_kept;

/* Calls rnix_analysis for a text, with what is kept of it. */
static int64_t analyse(const char *of, const struct kept *kept) {
    return rnix_analysis((const uint8_t *)of, strlen(of), kept->ranges, (size_t)kept->count, kept->links, (size_t)kept->count, kept->error_count,
                         rooms.bindings, 4, rooms.references, 4, &rooms.count, rooms.diagnostics, 4, &rooms.others[0], rooms.notes, 4,
                         &rooms.others[1], rooms.bytes, sizeof rooms.bytes, &rooms.others[2]);
}

/* Calls rnix_diagnostics for a text. */
static int64_t describe(const char *of) {
    return rnix_diagnostics((const uint8_t *)of, strlen(of), rooms.diagnostics, 4, rooms.notes, 4, &rooms.count, rooms.bytes, sizeof rooms.bytes,
                            &rooms.others[0]);
}

/* A call of each function that allocates; its arrays are those of `rooms`. */
static int64_t call(int number, size_t string) {
    const uint64_t offsets[2] = {0, 1};
    switch (number) {
    case 0: return rnix_parse(text, len, rooms.elements, 64, rooms.errors, 4, &rooms.count);
    case 1: return rnix_elements(text, len, rooms.elements, 64);
    case 2: return rnix_errors(text, len, rooms.errors, 4);
    case 3: return rnix_error_text(text, len, 0, rooms.bytes, sizeof rooms.bytes);
    case 4: return rnix_error_texts(text, len, rooms.bytes, sizeof rooms.bytes);
    case 5: return rnix_string_text(text, len, string, rooms.bytes, sizeof rooms.bytes);
    case 6: return rnix_string_parts(text, len, string, rooms.parts, 8);
    case 7: return rnix_strings(text, len, rooms.string_parts, 8, rooms.bytes, sizeof rooms.bytes, &rooms.count);
    case 8: return describe(sample);
    case 9: return rnix_names(text, len, rooms.bindings, 4, rooms.references, 4, &rooms.count);
    case 10: return rnix_parse_compact(text, len, rooms.ranges, 64, rooms.links, 64, rooms.errors, 4, &rooms.count);
    case 11: return rnix_fix(text, len, 0, &rooms.fix, rooms.bytes, sizeof rooms.bytes);
    case 12: return analyse(sample, &sample_kept);
    case 13:
        return rnix_parse_again((const uint8_t *)clean, sizeof clean - 1, clean_kept.ranges, (size_t)clean_kept.count, clean_kept.links,
                                (size_t)clean_kept.count, 0, 5, 6, clean_new, sizeof clean_new, rooms.ranges, 64, rooms.links, 64, rooms.errors, 4,
                                &rooms.count);
    case 14:
        return rnix_names_again((const uint8_t *)clean, sizeof clean - 1, clean_kept.ranges, (size_t)clean_kept.count, clean_kept.links,
                                (size_t)clean_kept.count, 0, rooms.bindings, 4, rooms.references, 4, &rooms.count);
    case 15: return describe(linted);
    case 16: return analyse(linted, &linted_kept);
    default: return rnix_positions(text, len, RNIX_UTF16, offsets, 2, rooms.positions, 2);
    }
}

/* Refuses each block that a call asks for in turn, until none is refused. A refused call leaves all as it was, but for some tokens. */
static void check_memory(void) {
    size_t string = first_of(RNIX_NODE_STRING);
    memset(&untouched, 0x5a, sizeof untouched);
    clean_kept = kept_of(clean);
    linted_kept = kept_of(linted);
    sample_kept = kept_of(sample);
    for (int number = 0; number <= CALLS; number++) {
        int64_t answer = RNIX_NO_MEMORY;
        long given = 1;
        for (; answer == RNIX_NO_MEMORY; given++) {
            memcpy(&rooms, &untouched, sizeof rooms);
            blocks = given;
            answer = call(number, string);
            blocks = -1;
            CHECK((answer == RNIX_NO_MEMORY) == (memcmp(&rooms, &untouched, sizeof rooms) == 0));
        }
        CHECK(answer >= 0 && given > (number < CALLS ? 5 : 2));
    }
    int64_t answer = RNIX_NO_MEMORY;
    for (long given = 1; answer == RNIX_NO_MEMORY; given++) {
        blocks = given;
        answer = rnix_tokens(text, len, rooms.tokens, 64);
        blocks = -1;
    }
    CHECK(answer > 5);
    blocks = 1;
    CHECK(rnix_kind_name(0, NULL, 0) > 0 && rnix_kind_of_name(NULL, 0) == RNIX_NONE_SUCH);
    blocks = -1;
}

static void check_empty(void) {
    struct rnix_element root;
    CHECK(rnix_tokens(NULL, 0, NULL, 0) == 0);
    CHECK(rnix_elements(NULL, 0, &root, 1) == 1 && root.kind == RNIX_NODE_ROOT && root.end == 0 && root.inside == 0);
    CHECK(rnix_errors(NULL, 0, NULL, 0) == 1);
    uint64_t count = 7;
    CHECK(rnix_parse(NULL, 0, NULL, 0, NULL, 0, &count) == 1 && count == 1);
    struct rnix_link link;
    CHECK(rnix_parse_compact(NULL, 0, NULL, 0, &link, 1, NULL, 0, &count) == 1 && link.kind == RNIX_NODE_ROOT && link.parent == RNIX_NO_PARENT);
    CHECK(rnix_error_text(NULL, 0, 0, NULL, 0) > 0 && rnix_error_texts(NULL, 0, NULL, 0) > 0);
    CHECK(rnix_error_text(NULL, 0, SIZE_MAX, NULL, 0) == RNIX_NONE_SUCH);
    CHECK(rnix_string_text(NULL, 0, 0, NULL, 0) == RNIX_NONE_SUCH && rnix_string_parts(NULL, 0, SIZE_MAX, NULL, 0) == RNIX_NONE_SUCH);
    CHECK(rnix_strings(NULL, 0, NULL, 0, NULL, 0, &count) == 0 && count == 0);
    uint64_t note_count = 7;
    CHECK(rnix_diagnostics(NULL, 0, NULL, 0, NULL, 0, &note_count, NULL, 0, &count) == 1 && note_count == 0 && count > 0);
    CHECK(rnix_names(NULL, 0, NULL, 0, NULL, 0, &count) == 0 && count == 0);
    struct rnix_fix fix;
    CHECK(rnix_fix(NULL, 0, 0, &fix, NULL, 0) == 0 && rnix_fix(NULL, 0, 1, &fix, NULL, 0) == RNIX_NONE_SUCH);
    const struct analysis empty = analysis_of("", 0);
    CHECK(empty.count == 0 && empty.counts[0] == 0 && empty.counts[1] == 1 && empty.counts[2] == 0 && empty.counts[3] > 0);
    CHECK(rnix_positions(NULL, 0, RNIX_BYTES, NULL, 0, NULL, 0) == 0);
    CHECK(rnix_format(NULL, 0, NULL, 0) == RNIX_HAS_ERRORS);
}

static void check_deep(void) {
    size_t megabyte = (size_t)1 << 20;
    uint8_t *deep = malloc(megabyte);
    memset(deep, '(', megabyte);
    CHECK(rnix_tokens(deep, megabyte, NULL, 0) == (int64_t)megabyte);
    CHECK(rnix_elements(deep, megabyte, NULL, 0) > (int64_t)megabyte);
    CHECK(rnix_errors(deep, megabyte, NULL, 0) > 0);
    free(deep);
}

static void *read_often(void *wanted) {
    struct rnix_element elements[64];
    for (int turn = 0; turn < 200; turn++) {
        memset(elements, 0, sizeof elements);
        rnix_elements(text, len, elements, 64);
        if (memcmp(elements, wanted, sizeof elements) != 0) {
            return wanted;
        }
    }
    return NULL;
}

static void check_threads(void) {
    struct rnix_element wanted[64] = {{0}};
    rnix_elements(text, len, wanted, 64);
    pthread_t threads[4];
    for (int number = 0; number < 4; number++) {
        CHECK(pthread_create(&threads[number], NULL, read_often, wanted) == 0);
    }
    for (int number = 0; number < 4; number++) {
        void *different = wanted;
        CHECK(pthread_join(threads[number], &different) == 0 && different == NULL);
    }
}

int main(int argc, char **argv) {
    (void)argv;
    check_structs();
    check_kinds();
    check_rooms_of_elements();
    check_compact_elements();
    check_again();
    check_other_rooms();
    check_strings();
    check_all_strings();
    check_positions();
    check_diagnostics();
    check_fixes();
    check_names();
    check_names_again();
    check_longer_arrays();
    check_analysis();
    check_format();
    check_refusals();
    if (argc < 2) {
        check_too_long();
    }
    check_memory();
    check_empty();
    check_deep();
    check_threads();
    return failures > 0;
}
