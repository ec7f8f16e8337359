/*
 * rnix: a lossless parser for the Nix language, for C, C++ and languages that call C.
 *
 * Texts are UTF-8, given as a pointer and a length; they need no terminating zero. Offsets are in bytes from the start of the text, and ranges
 * are half-open: the byte at `end` is not part of the range.
 *
 * The library keeps no state. A call parses the text, writes into the caller's arrays, and frees all its memory before it returns. A function
 * that returns a list takes an array and its capacity (`room`). It writes as many items as fit, from the first on, and returns how many there
 * are, even if that is more than the capacity: to count, pass NULL and 0, which writes nothing. The rest of the array is left unchanged. NULL is
 * allowed for a text of 0 bytes and for an array of capacity 0, and nowhere else. Arrays must not overlap each other or the text.
 *
 * A negative result is a refusal (enum rnix_refusal). The caller's arrays are then unchanged, except those of rnix_tokens. A text that is not
 * UTF-8 is always refused with RNIX_NOT_UTF8.
 *
 * docs/theorems.md, "Calls from C", says what is proved of the result of each call and of what it writes. This header, and callers in other
 * languages, are tested. Only rnix_parse_again, rnix_names_again and rnix_analysis take arrays that an earlier call has filled. They trust these
 * arrays.
 *
 * Any number of threads may call at the same time: calls share only the C library's malloc, realloc and free, which must be thread-safe. Do not
 * call from a signal handler. No text makes a call need a deep stack. The code needs a processor of the level x86-64-v2 (since about 2009).
 */
#ifndef RNIX_H
#define RNIX_H

#include <stddef.h>
#include <stdint.h>

#ifdef __cplusplus
extern "C" {
#endif

/* The version of the interface that this header describes. */
#define RNIX_VERSION 7u

/* Returns the version of the library's interface, which must be RNIX_VERSION. It changes with a function, a struct or a number of this header. */
uint32_t rnix_version(void);

/* Why a call was refused. */
enum rnix_refusal {
    RNIX_NOT_UTF8 = -1,   /* the text is not UTF-8 */
    RNIX_NO_MEMORY = -2,  /* malloc or realloc returned NULL, or the tree has 2^32 elements or more */
    RNIX_NONE_SUCH = -3,  /* there is no such kind, code, name, error, diagnostic, string, range or unit of columns; no other refusal applies then */
    RNIX_TOO_LONG = -4,   /* the text has 2^32 bytes or more; rnix_tokens has no such limit */
    RNIX_HAS_ERRORS = -5, /* the text has errors (rnix_format) */
    RNIX_DIFFERENT = -6   /* a bug of the formatter: its text would differ in more than its layout, or change if formatted again (rnix_format) */
};

/* A text for a refusal: a string literal. */
#define RNIX_REFUSAL_TEXT(answer)                                                                          \
    ((answer) == RNIX_NOT_UTF8     ? "the text is not UTF-8"                                               \
     : (answer) == RNIX_NO_MEMORY  ? "out of memory"                                                       \
     : (answer) == RNIX_NONE_SUCH  ? "there is no such item"                                               \
     : (answer) == RNIX_TOO_LONG   ? "the text has 2^32 bytes or more"                                     \
     : (answer) == RNIX_HAS_ERRORS ? "the text has errors"                                                 \
     : (answer) == RNIX_DIFFERENT  ? "the new text would differ in more than its layout, or change again" \
                                   : "not refused")

/* An absent offset or number. */
#define RNIX_NO_NUMBER UINT64_MAX

/* An absent kind. */
#define RNIX_NO_KIND UINT32_MAX

/* What a token or a node is. The kinds of tokens come before those of nodes. */
enum rnix_kind {
    RNIX_TOKEN_ADD = 0,
    RNIX_TOKEN_AND_AND = 1,
    RNIX_TOKEN_ASSIGN = 2,
    RNIX_TOKEN_ASSERT = 3,
    RNIX_TOKEN_AT = 4,
    RNIX_TOKEN_COLON = 5,
    RNIX_TOKEN_COMMA = 6,
    RNIX_TOKEN_COMMENT = 7,
    RNIX_TOKEN_CONCAT = 8,
    RNIX_TOKEN_CUR_POS = 9,
    RNIX_TOKEN_DIV = 10,
    RNIX_TOKEN_DOT = 11,
    RNIX_TOKEN_ELLIPSIS = 12,
    RNIX_TOKEN_ELSE = 13,
    RNIX_TOKEN_EQUAL = 14,
    RNIX_TOKEN_ERROR = 15,
    RNIX_TOKEN_FLOAT = 16,
    RNIX_TOKEN_IDENT = 17,
    RNIX_TOKEN_IF = 18,
    RNIX_TOKEN_IMPLICATION = 19,
    RNIX_TOKEN_IN = 20,
    RNIX_TOKEN_INHERIT = 21,
    RNIX_TOKEN_INTEGER = 22,
    RNIX_TOKEN_INTERPOL_END = 23,
    RNIX_TOKEN_INTERPOL_START = 24,
    RNIX_TOKEN_INVERT = 25,
    RNIX_TOKEN_L_BRACE = 26,
    RNIX_TOKEN_L_BRACK = 27,
    RNIX_TOKEN_L_PAREN = 28,
    RNIX_TOKEN_LESS = 29,
    RNIX_TOKEN_LESS_OR_EQ = 30,
    RNIX_TOKEN_LET = 31,
    RNIX_TOKEN_MORE = 32,
    RNIX_TOKEN_MORE_OR_EQ = 33,
    RNIX_TOKEN_MUL = 34,
    RNIX_TOKEN_NOT_EQUAL = 35,
    RNIX_TOKEN_OR = 36,
    RNIX_TOKEN_OR_OR = 37,
    RNIX_TOKEN_PATH_ABS = 38,
    RNIX_TOKEN_PATH_HOME = 39,
    RNIX_TOKEN_PATH_REL = 40,
    RNIX_TOKEN_PATH_SEARCH = 41,
    RNIX_TOKEN_PIPE_LEFT = 42,
    RNIX_TOKEN_PIPE_RIGHT = 43,
    RNIX_TOKEN_QUESTION = 44,
    RNIX_TOKEN_R_BRACE = 45,
    RNIX_TOKEN_R_BRACK = 46,
    RNIX_TOKEN_R_PAREN = 47,
    RNIX_TOKEN_REC = 48,
    RNIX_TOKEN_SEMICOLON = 49,
    RNIX_TOKEN_STRING_CONTENT = 50,
    RNIX_TOKEN_STRING_END = 51,
    RNIX_TOKEN_STRING_START = 52,
    RNIX_TOKEN_SUB = 53,
    RNIX_TOKEN_THEN = 54,
    RNIX_TOKEN_UPDATE = 55,
    RNIX_TOKEN_URI = 56,
    RNIX_TOKEN_WHITESPACE = 57,
    RNIX_TOKEN_WITH = 58,
    RNIX_NODE_APPLY = 59,
    RNIX_NODE_ASSERT = 60,
    RNIX_NODE_ATTR_SET = 61,
    RNIX_NODE_ATTRPATH = 62,
    RNIX_NODE_ATTRPATH_VALUE = 63,
    RNIX_NODE_BIN_OP = 64,
    RNIX_NODE_CUR_POS = 65,
    RNIX_NODE_DYNAMIC = 66,
    RNIX_NODE_ERROR = 67,
    RNIX_NODE_HAS_ATTR = 68,
    RNIX_NODE_IDENT = 69,
    RNIX_NODE_IDENT_PARAM = 70,
    RNIX_NODE_IF_ELSE = 71,
    RNIX_NODE_INHERIT = 72,
    RNIX_NODE_INHERIT_FROM = 73,
    RNIX_NODE_INTERPOL = 74,
    RNIX_NODE_LAMBDA = 75,
    RNIX_NODE_LEGACY_LET = 76,
    RNIX_NODE_LET_IN = 77,
    RNIX_NODE_LIST = 78,
    RNIX_NODE_LITERAL = 79,
    RNIX_NODE_PAREN = 80,
    RNIX_NODE_PAT_BIND = 81,
    RNIX_NODE_PAT_ENTRY = 82,
    RNIX_NODE_PATTERN = 83,
    RNIX_NODE_PATH_ABS = 84,
    RNIX_NODE_PATH_HOME = 85,
    RNIX_NODE_PATH_REL = 86,
    RNIX_NODE_PATH_SEARCH = 87,
    RNIX_NODE_ROOT = 88,
    RNIX_NODE_SELECT = 89,
    RNIX_NODE_STRING = 90,
    RNIX_NODE_UNARY_OP = 91,
    RNIX_NODE_WITH = 92
};

/* The number of kinds. */
#define RNIX_KINDS (RNIX_NODE_WITH + 1u)

/* The names of the kinds, by number, with terminating zeros: static const char *const names[] = RNIX_KIND_NAMES; */
#define RNIX_KIND_NAMES \
    { \
        "TOKEN_ADD", "TOKEN_AND_AND", "TOKEN_ASSIGN", "TOKEN_ASSERT", "TOKEN_AT", "TOKEN_COLON", "TOKEN_COMMA", "TOKEN_COMMENT", \
        "TOKEN_CONCAT", "TOKEN_CUR_POS", "TOKEN_DIV", "TOKEN_DOT", "TOKEN_ELLIPSIS", "TOKEN_ELSE", "TOKEN_EQUAL", "TOKEN_ERROR", \
        "TOKEN_FLOAT", "TOKEN_IDENT", "TOKEN_IF", "TOKEN_IMPLICATION", "TOKEN_IN", "TOKEN_INHERIT", "TOKEN_INTEGER", \
        "TOKEN_INTERPOL_END", "TOKEN_INTERPOL_START", "TOKEN_INVERT", "TOKEN_L_BRACE", "TOKEN_L_BRACK", "TOKEN_L_PAREN", \
        "TOKEN_LESS", "TOKEN_LESS_OR_EQ", "TOKEN_LET", "TOKEN_MORE", "TOKEN_MORE_OR_EQ", "TOKEN_MUL", "TOKEN_NOT_EQUAL", \
        "TOKEN_OR", "TOKEN_OR_OR", "TOKEN_PATH_ABS", "TOKEN_PATH_HOME", "TOKEN_PATH_REL", "TOKEN_PATH_SEARCH", "TOKEN_PIPE_LEFT", \
        "TOKEN_PIPE_RIGHT", "TOKEN_QUESTION", "TOKEN_R_BRACE", "TOKEN_R_BRACK", "TOKEN_R_PAREN", "TOKEN_REC", "TOKEN_SEMICOLON", \
        "TOKEN_STRING_CONTENT", "TOKEN_STRING_END", "TOKEN_STRING_START", "TOKEN_SUB", "TOKEN_THEN", "TOKEN_UPDATE", "TOKEN_URI", \
        "TOKEN_WHITESPACE", "TOKEN_WITH", "NODE_APPLY", "NODE_ASSERT", "NODE_ATTR_SET", "NODE_ATTRPATH", "NODE_ATTRPATH_VALUE", \
        "NODE_BIN_OP", "NODE_CUR_POS", "NODE_DYNAMIC", "NODE_ERROR", "NODE_HAS_ATTR", "NODE_IDENT", "NODE_IDENT_PARAM", \
        "NODE_IF_ELSE", "NODE_INHERIT", "NODE_INHERIT_FROM", "NODE_INTERPOL", "NODE_LAMBDA", "NODE_LEGACY_LET", "NODE_LET_IN", \
        "NODE_LIST", "NODE_LITERAL", "NODE_PAREN", "NODE_PAT_BIND", "NODE_PAT_ENTRY", "NODE_PATTERN", "NODE_PATH_ABS", \
        "NODE_PATH_HOME", "NODE_PATH_REL", "NODE_PATH_SEARCH", "NODE_ROOT", "NODE_SELECT", "NODE_STRING", "NODE_UNARY_OP", \
        "NODE_WITH" \
    }

/* A token: 24 bytes, the last 4 unused. */
struct rnix_token {
    uint64_t start;
    uint64_t end;
    uint32_t kind; /* enum rnix_kind */
};

/*
 * An element of a tree, a node or a token: 40 bytes. Elements are numbered in preorder: the root is 0, and a node comes before its descendants.
 * The descendants of element n are n + 1 to n + inside. Its first child is n + 1 (if inside > 0), and its next sibling is n + 1 + inside (if
 * that is a descendant of the parent).
 */
struct rnix_element {
    uint64_t start;
    uint64_t end;
    uint64_t parent;   /* the number of the parent; RNIX_NO_NUMBER for the root */
    uint64_t inside;   /* the number of descendants; 0 for a token */
    uint32_t kind;     /* enum rnix_kind */
    uint32_t is_token; /* 1 for a token, 0 for a node */
};

/* The range of an element, in 32 bits: 8 bytes. */
struct rnix_range {
    uint32_t start;
    uint32_t end;
};

/* The parent of the root, in 32 bits. */
#define RNIX_NO_PARENT UINT32_MAX

/* The rest of an element, with numbers of 32 bits: 12 bytes. The fields mean what they mean in struct rnix_element. */
struct rnix_link {
    uint32_t parent;   /* the number of the parent; RNIX_NO_PARENT for the root */
    uint32_t inside;   /* the number of descendants; 0 for a token */
    uint16_t kind;     /* enum rnix_kind */
    uint16_t is_token; /* 1 for a token, 0 for a node */
};

/* What an error is. The range is that of an error node of the tree or, for RNIX_DUPLICATED_ARGS, of the repeated name. */
enum rnix_error_variant {
    RNIX_UNEXPECTED = 0,               /* an error without a cause, which the parser never produces; it has a range */
    RNIX_UNEXPECTED_EXTRA = 1,         /* extra tokens after the expression; it has a range */
    RNIX_UNEXPECTED_WANTED = 2,        /* a token where another kind was expected; it has a range, `found` and `wanted` */
    RNIX_UNEXPECTED_DOUBLE_BIND = 3,   /* a pattern that is bound to a name twice; it has a range */
    RNIX_UNEXPECTED_EOF = 4,           /* the text ends where more was expected */
    RNIX_UNEXPECTED_EOF_WANTED = 5,    /* the text ends where a token was expected; it has `wanted` */
    RNIX_DUPLICATED_ARGS = 6,          /* two entries of a pattern with the same name; it has a range */
    RNIX_RECURSION_LIMIT_EXCEEDED = 7  /* expressions are nested too deeply */
};

/* How many kinds `wanted` has room for. No error wants more than 6. */
#define RNIX_WANTED_ROOM 16

/* A place of `wanted` that no kind has. */
#define RNIX_NOT_WANTED 255

/* An error: 40 bytes. */
struct rnix_error {
    uint64_t start;                   /* RNIX_NO_NUMBER if the error has no range */
    uint64_t end;                     /* RNIX_NO_NUMBER if the error has no range */
    uint8_t wanted[RNIX_WANTED_ROOM]; /* the kinds that were expected, in rnix's order, followed by RNIX_NOT_WANTED */
    uint32_t variant;                 /* enum rnix_error_variant */
    uint32_t found;                   /* the kind of the token at the range, or RNIX_NO_KIND */
};

/* Whether an error (a pointer to it) wants a kind. It uses memchr, of <string.h>. */
#define RNIX_WANTS(error, kind) (memchr((error)->wanted, (kind), RNIX_WANTED_ROOM) != NULL)

/* A part of a string: 24 bytes, the last 4 unused. */
struct rnix_part {
    uint64_t start; /* for an interpolation, its range in the text; otherwise a range of what rnix_string_text writes */
    uint64_t end;
    uint32_t is_interpolation; /* 1 for `${..}`, 0 for text */
};

/* A part of one of the strings of a text: 32 bytes, the last 4 unused. */
struct rnix_string_part {
    uint64_t string; /* the number of the string among the elements */
    uint64_t start;  /* for an interpolation, its range in the text; otherwise a range of the joined text */
    uint64_t end;
    uint32_t is_interpolation; /* 1 for `${..}`, 0 for text */
};

/* A line and a column, both counted from 0: 16 bytes. */
struct rnix_position {
    uint64_t line;   /* RNIX_NO_NUMBER if the offset has no position */
    uint64_t column; /* RNIX_NO_NUMBER if the offset has no position */
};

/* What columns count. */
enum rnix_unit {
    RNIX_BYTES = 0, /* bytes of UTF-8 */
    RNIX_CHARS = 1, /* characters */
    RNIX_UTF16 = 2  /* UTF-16 code units, as the Language Server Protocol counts */
};

/* How serious a diagnostic is. The numbers are those of the Language Server Protocol. */
enum rnix_severity {
    RNIX_ERROR = 1,  /* Nix refuses the text, or this library does not parse all of it */
    RNIX_WARNING = 2 /* Nix accepts the text, but it is probably a mistake, or could be said in fewer words */
};

/* A diagnostic, which says in words for people what is wrong: 48 bytes. */
struct rnix_diagnostic {
    uint64_t start; /* the range of the text to mark; empty if something is missing at the end */
    uint64_t end;
    uint64_t message_start; /* the range of the message in the joined texts */
    uint64_t message_end;
    uint64_t note_end; /* its notes are those from the note_end of the diagnostic before it (0 for the first) up to this number */
    uint32_t code;     /* the number of its code; rnix_code_name writes the name, such as syntax-error, which is the same in every version */
    uint32_t severity; /* enum rnix_severity */
};

/* A note on a diagnostic, which may propose a replacement for a range of the text: 64 bytes. */
struct rnix_note {
    uint64_t start; /* the range of the text that it is about; both RNIX_NO_NUMBER if that is the range of its diagnostic */
    uint64_t end;
    uint64_t message_start; /* the range of its message in the joined texts */
    uint64_t message_end;
    uint64_t replaced_start; /* the range of the text to replace, empty where something is inserted; both RNIX_NO_NUMBER if it proposes nothing */
    uint64_t replaced_end;
    uint64_t text_start; /* the range of the proposed text in the joined texts; empty if it removes bytes, or proposes nothing */
    uint64_t text_end;
};

/* A fix of a text: 24 bytes. */
struct rnix_fix {
    uint64_t start; /* the range of the text to replace; empty where something is inserted */
    uint64_t end;
    uint64_t text_len; /* the number of bytes of the new text, which may be more than the buffer has room for */
};

/* A name that a `let`, a `rec` set or a function binds: 48 bytes. */
struct rnix_binding {
    uint64_t start; /* the range of the name, with its quotes or its `${` and `}` */
    uint64_t end;
    uint64_t scope_start; /* the range of the scope in which the name is visible */
    uint64_t scope_end;
    uint64_t first;      /* the number of the first binding of this name in this scope: its own, unless a set is written in parts */
    uint32_t kind;       /* the kind of the name: RNIX_NODE_IDENT, RNIX_NODE_STRING or RNIX_NODE_DYNAMIC */
    uint32_t scope_kind; /* the kind of the scope: RNIX_NODE_LET_IN, RNIX_NODE_LEGACY_LET, RNIX_NODE_ATTR_SET or RNIX_NODE_LAMBDA */
};

/* A name that refers to a binding: 40 bytes, the last 4 unused. */
struct rnix_reference {
    uint64_t start; /* the range of the name, with its quotes or its `${` and `}` */
    uint64_t end;
    uint64_t binding;      /* the number of the binding, in the innermost scope that binds the name; RNIX_NO_NUMBER if no scope does */
    uint32_t kind;         /* the kind of the name: RNIX_NODE_IDENT, RNIX_NODE_STRING or RNIX_NODE_DYNAMIC */
    uint32_t is_inherited; /* 1 for a name of an `inherit` without a source */
    uint32_t is_open;      /* 1 if it has no binding, is in the body of a `with`, and Nix itself does not bind it */
};

/*
 * Writes the tokens of a text. They are contiguous: the first starts at 0, each starts where the previous one ends, and the last ends at the end
 * of the text. Returns their number. Refusals: RNIX_NOT_UTF8; RNIX_NO_MEMORY, where some tokens may have been written.
 */
int64_t rnix_tokens(const uint8_t *text, size_t len, struct rnix_token *tokens, size_t room);

/* The most elements that the tree of a text of so many bytes has. With room for so many, one call writes them all. */
#define RNIX_ELEMENTS_MOST(len) (3 * (size_t)(len) + 3)

/*
 * Writes the elements of a text's tree, in preorder. Every text has a tree, even one with errors; its tokens are those of the text.
 * Returns the number of elements, at least 1. Refusals: RNIX_NOT_UTF8, RNIX_TOO_LONG, RNIX_NO_MEMORY.
 */
int64_t rnix_elements(const uint8_t *text, size_t len, struct rnix_element *elements, size_t room);

/*
 * Writes the errors of a text, in the order in which they were found.
 * Returns their number. Refusals: RNIX_NOT_UTF8, RNIX_TOO_LONG, RNIX_NO_MEMORY.
 */
int64_t rnix_errors(const uint8_t *text, size_t len, struct rnix_error *errors, size_t room);

/*
 * Parses a text once, and writes its elements and its errors, and the number of errors to *error_count (not NULL).
 * Returns the number of elements. Refusals: RNIX_NOT_UTF8, RNIX_TOO_LONG, RNIX_NO_MEMORY.
 */
int64_t rnix_parse(const uint8_t *text, size_t len, struct rnix_element *elements, size_t element_room, struct rnix_error *errors,
                   size_t error_room, uint64_t *error_count);

/*
 * Does what rnix_parse does, with half the memory: writes the range of each element to `ranges`, and the rest of the element, under the same number,
 * to `links`. Returns the number of elements, which is below 2^32. Refusals: RNIX_NOT_UTF8, RNIX_TOO_LONG, RNIX_NO_MEMORY.
 */
int64_t rnix_parse_compact(const uint8_t *text, size_t len, struct rnix_range *ranges, size_t range_room, struct rnix_link *links,
                           size_t link_room, struct rnix_error *errors, size_t error_room, uint64_t *error_count);

/*
 * Parses a text after an edit that replaces its bytes from `start` to `end`, and writes what rnix_parse_compact would write for the new text. If the
 * text has no errors before the edit, and the edit is between brackets, it often parses only these and copies the rest of the tree, which takes a
 * fraction of the time of a parse.
 * `text` is the text before the edit. `ranges`, `links` and `error_count` are what rnix_parse_compact, or this call, has written for that text:
 * all of its elements. The arrays may be longer: the first link says how many elements there are, and what follows them is not read. Nothing else is
 * checked: with other or shorter arrays, or another number of errors, the behavior is undefined.
 * Returns the number of elements of the new tree. Refusals: RNIX_NOT_UTF8 (either text), RNIX_TOO_LONG (either text, or the new one),
 * RNIX_NO_MEMORY; RNIX_NONE_SUCH if `start` is after `end`, or one of them is after the end of the text or inside a character.
 */
int64_t rnix_parse_again(const uint8_t *text, size_t len, const struct rnix_range *ranges, size_t range_count, const struct rnix_link *links,
                         size_t link_count, uint64_t error_count, uint64_t start, uint64_t end, const uint8_t *replacement, size_t replacement_len,
                         struct rnix_range *new_ranges, size_t range_room, struct rnix_link *new_links, size_t link_room,
                         struct rnix_error *errors, size_t error_room, uint64_t *new_error_count);

/*
 * Writes the message of one error of a text (its number in rnix_errors, from 0) in UTF-8, without a terminating zero. This parses the text again.
 * Returns the number of bytes. Refusals: RNIX_NOT_UTF8, RNIX_TOO_LONG, RNIX_NO_MEMORY; RNIX_NONE_SUCH if no error has the number.
 */
int64_t rnix_error_text(const uint8_t *text, size_t len, size_t error, uint8_t *buffer, size_t room);

/*
 * Writes the messages of all errors of a text, in the order of rnix_errors, each followed by a line feed; no message contains one.
 * Returns the number of bytes. Refusals: RNIX_NOT_UTF8, RNIX_TOO_LONG, RNIX_NO_MEMORY.
 */
int64_t rnix_error_texts(const uint8_t *text, size_t len, uint8_t *buffer, size_t room);

/*
 * Writes the diagnostics of a text: its syntax errors in plain words or, if it has none, what the lints find (docs/lints.md), unused names included,
 * but for what a comment in the text leaves out. Writes their notes, and the number of notes to *note_count (not NULL), and the joined messages and
 * proposed texts in UTF-8, and the length of these to *buffer_len (not NULL). A diagnostic may stand for several errors in a row, which follow from
 * the first of them. The replacement that a note on a syntax error proposes is a guess; rnix_fix tries the guesses.
 * Returns the number of diagnostics. Refusals: RNIX_NOT_UTF8, RNIX_TOO_LONG, RNIX_NO_MEMORY.
 */
int64_t rnix_diagnostics(const uint8_t *text, size_t len, struct rnix_diagnostic *diagnostics, size_t room, struct rnix_note *notes,
                         size_t note_room, uint64_t *note_count, uint8_t *buffer, size_t buffer_room, uint64_t *buffer_len);

/*
 * Writes the name of a code in ASCII, such as syntax-error, without a terminating zero. The codes have the numbers from 0 on.
 * Returns the number of bytes. Refusal: RNIX_NONE_SUCH if no code has the number.
 */
int64_t rnix_code_name(uint32_t code, uint8_t *buffer, size_t room);

/*
 * Writes a fix of one diagnostic of a text with syntax errors (its number in rnix_diagnostics, from 0) to *fix (not NULL), and the new text for its
 * range in UTF-8 to `buffer`, without a terminating zero. With the fix, the text is UTF-8 and has fewer errors. The text is parsed, and then parsed
 * again with each of the guesses at what was meant, up to the first that is a fix; there are at most three guesses.
 * Returns 1, or 0 if no guess is a fix; then nothing is written. Refusals: RNIX_NOT_UTF8, RNIX_TOO_LONG, RNIX_NO_MEMORY; RNIX_NONE_SUCH if no
 * diagnostic has the number, or the text has no syntax errors.
 */
int64_t rnix_fix(const uint8_t *text, size_t len, size_t diagnostic, struct rnix_fix *fix, uint8_t *buffer, size_t room);

/*
 * Writes the name of a kind in ASCII, such as TOKEN_ADD, without a terminating zero (RNIX_KIND_NAMES has one).
 * Returns the number of bytes. Refusal: RNIX_NONE_SUCH if no kind has the number.
 */
int64_t rnix_kind_name(uint32_t kind, uint8_t *buffer, size_t room);

/* Returns the number of the kind that has a name. Refusal: RNIX_NONE_SUCH if no kind has it. */
int64_t rnix_kind_of_name(const uint8_t *name, size_t len);

/*
 * Writes the parts of all strings of a text, in preorder of the strings, and their joined text in UTF-8, and its length to *buffer_len (not
 * NULL). The text of a part has its escapes replaced and, in a '' string, the indentation removed, as in rnix: Nix may make another value of a
 * string that has an escaped line feed or a carriage return. A string without text has no parts.
 * Returns the number of parts. Refusals: RNIX_NOT_UTF8, RNIX_TOO_LONG, RNIX_NO_MEMORY.
 */
int64_t rnix_strings(const uint8_t *text, size_t len, struct rnix_string_part *parts, size_t room, uint8_t *buffer, size_t buffer_room,
                     uint64_t *buffer_len);

/*
 * Writes the text of one string without its interpolations, as in rnix_strings, in UTF-8, without a terminating zero. The string is given by its
 * number among the elements; its kind is RNIX_NODE_STRING. This parses the text again: for many strings, use rnix_strings.
 * Returns the number of bytes.
 * Refusals: RNIX_NOT_UTF8, RNIX_TOO_LONG, RNIX_NO_MEMORY; RNIX_NONE_SUCH if the number is not that of a string.
 */
int64_t rnix_string_text(const uint8_t *text, size_t len, size_t element, uint8_t *buffer, size_t room);

/*
 * Writes the parts of one string: ranges of what rnix_string_text writes, and the interpolations between them.
 * Returns the number of parts. Refusals: those of rnix_string_text.
 */
int64_t rnix_string_parts(const uint8_t *text, size_t len, size_t element, struct rnix_part *parts, size_t room);

/*
 * Writes the lines and columns of offsets. `unit` is what columns count (enum rnix_unit). An offset after the end of the text, or inside a
 * character, has no position. Lines end with a line feed.
 * Returns `count`. Refusals: RNIX_NOT_UTF8, RNIX_TOO_LONG, RNIX_NO_MEMORY; RNIX_NONE_SUCH if no unit has the number.
 */
int64_t rnix_positions(const uint8_t *text, size_t len, uint32_t unit, const uint64_t *offsets, size_t count, struct rnix_position *positions,
                       size_t room);

/*
 * Writes the names that a text binds, in the order of their scopes, and the names that refer to bindings, in the order of the text, and the
 * number of these to *reference_count (not NULL). The names inside parts of the text with errors are included as far as they are recognized.
 * Returns the number of bindings. Refusals: RNIX_NOT_UTF8, RNIX_TOO_LONG, RNIX_NO_MEMORY.
 */
int64_t rnix_names(const uint8_t *text, size_t len, struct rnix_binding *bindings, size_t binding_room, struct rnix_reference *references,
                   size_t reference_room, uint64_t *reference_count);

/*
 * Writes what rnix_names writes. If the text has no errors, it is not parsed: `ranges`, `links` and `error_count` are what rnix_parse_compact or
 * rnix_parse_again has written for the text: all of its elements. The arrays may be longer: what follows the elements is not read. Nothing else is
 * checked: with other or shorter arrays, or another number of errors, the behavior is undefined.
 * Returns the number of bindings. Refusals: RNIX_NOT_UTF8, RNIX_TOO_LONG, RNIX_NO_MEMORY.
 */
int64_t rnix_names_again(const uint8_t *text, size_t len, const struct rnix_range *ranges, size_t range_count, const struct rnix_link *links,
                         size_t link_count, uint64_t error_count, struct rnix_binding *bindings, size_t binding_room,
                         struct rnix_reference *references, size_t reference_room, uint64_t *reference_count);

/*
 * Writes what rnix_names and rnix_diagnostics write, and the number of diagnostics to *diagnostic_count (not NULL). A text with errors is parsed
 * once. A text without errors is not parsed: `ranges`, `links` and `error_count` are what rnix_parse_compact or rnix_parse_again has written for the
 * text: all of its elements. The arrays may be longer: what follows the elements is not read. Nothing else is checked: with other or shorter arrays,
 * or another number of errors, the behavior is undefined.
 * Returns the number of bindings. Refusals: RNIX_NOT_UTF8, RNIX_TOO_LONG, RNIX_NO_MEMORY.
 */
int64_t rnix_analysis(const uint8_t *text, size_t len, const struct rnix_range *ranges, size_t range_count, const struct rnix_link *links,
                      size_t link_count, uint64_t error_count, struct rnix_binding *bindings, size_t binding_room,
                      struct rnix_reference *references, size_t reference_room, uint64_t *reference_count, struct rnix_diagnostic *diagnostics,
                      size_t room, uint64_t *diagnostic_count, struct rnix_note *notes, size_t note_room, uint64_t *note_count, uint8_t *buffer,
                      size_t buffer_room, uint64_t *buffer_len);

/*
 * Writes a text without errors in the style of Nixpkgs, in UTF-8, without a terminating zero: the same tokens, comments included, with other white
 * space between them, other indentation of strings in '', whose values stay the same, other commas in patterns, and other marks of comments (# in
 * place of / *). The new text is read as the same tree but for these.
 * Returns the number of bytes. Refusals: RNIX_NOT_UTF8, RNIX_TOO_LONG, RNIX_NO_MEMORY; RNIX_HAS_ERRORS, RNIX_DIFFERENT.
 */
int64_t rnix_format(const uint8_t *text, size_t len, uint8_t *buffer, size_t room);

#ifdef __cplusplus
}
#endif

#endif
