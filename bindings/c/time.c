/* Times calls on a file: time FILE [TURNS]. Prints the least milliseconds of the turns to parse the file, to walk its tree, and to read its strings,
 * and the most memory that the process had after it parsed the file once, in bytes for each byte of the file. */
#define _DEFAULT_SOURCE

#include <stdio.h>
#include <stdlib.h>
#include <sys/resource.h>
#include <time.h>

#include "rnix.h"

static double now(void) {
    struct timespec at;
    clock_gettime(CLOCK_MONOTONIC, &at);
    return (double)at.tv_sec * 1e3 + (double)at.tv_nsec / 1e6;
}

static void *grabbed(size_t bytes) {
    void *room = malloc(bytes + 1);
    if (room == NULL) {
        perror("time");
        exit(2);
    }
    return room;
}

static uint8_t *read_file(const char *name, size_t *len) {
    FILE *file = fopen(name, "rb");
    if (file == NULL || fseek(file, 0, SEEK_END) != 0) {
        perror(name);
        exit(2);
    }
    *len = (size_t)ftell(file);
    rewind(file);
    uint8_t *text = grabbed(*len);
    *len = fread(text, 1, *len, file);
    fclose(file);
    return text;
}

/* The most memory that the process had, in bytes. */
static double most_memory(void) {
    struct rusage usage;
    getrusage(RUSAGE_SELF, &usage);
    return (double)usage.ru_maxrss * 1024;
}

/* Parses a text into an array that the caller frees. */
static struct rnix_element *parse(const uint8_t *text, size_t len, size_t *count) {
    size_t room = RNIX_ELEMENTS_MOST(len);
    struct rnix_element *elements = grabbed(room * sizeof *elements);
    int64_t answer = rnix_elements(text, len, elements, room);
    if (answer < 0 || (size_t)answer > room) {
        fprintf(stderr, "time: %s\n", RNIX_REFUSAL_TEXT(answer));
        exit(2);
    }
    *count = (size_t)answer;
    return elements;
}

/* The sum of the lengths of all elements. */
static uint64_t walk(const struct rnix_element *elements, size_t count) {
    uint64_t sum = 0;
    for (size_t number = 0; number < count; number++) {
        sum += elements[number].end - elements[number].start;
    }
    return sum;
}

static void read_strings(const uint8_t *text, size_t len) {
    struct rnix_string_part *parts = grabbed(len * sizeof *parts);
    uint8_t *buffer = grabbed(len);
    uint64_t buffer_len;
    if (rnix_strings(text, len, parts, len, buffer, len, &buffer_len) < 0) {
        exit(2);
    }
    free(parts);
    free(buffer);
}

static double least(double a, double b) {
    return a < b ? a : b;
}

int main(int argc, char **argv) {
    if (argc < 2) {
        fputs("usage: time FILE [TURNS]\n", stderr);
        return 2;
    }
    size_t len, count;
    uint8_t *text = read_file(argv[1], &len);
    double before = most_memory(), parsing = 1e12, walking = 1e12, reading = 1e12, memory = 0;
    uint64_t sum = 0;
    for (int turn = 0, turns = argc > 2 ? atoi(argv[2]) : 5; turn < turns; turn++) {
        double start = now();
        struct rnix_element *elements = parse(text, len, &count);
        double parsed = now();
        memory = turn == 0 ? most_memory() - before : memory;
        double again = now();
        sum += walk(elements, count);
        double walked = now();
        read_strings(text, len);
        reading = least(reading, now() - walked);
        parsing = least(parsing, parsed - start);
        walking = least(walking, walked - again);
        free(elements);
    }
    printf("parse %.1f walk %.1f strings %.1f memory %.1f\n", parsing, walking, reading, memory / (double)(len > 0 ? len : 1));
    free(text);
    return sum == 1;
}
