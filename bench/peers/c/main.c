/*
 * Reads and writes the encodings of a job with a library that is in C.
 *
 *     PEER FILE                  prints lines `LIBRARY JOB write|read NUMBER ps`, the least time of the rounds
 *     PEER FILE JOB WAY ROUNDS   reads or writes each encoding as often, for valgrind
 *
 * FILE has a line `KIND HEX` for each encoding.
 */
#include "peer.h"
#include <stdio.h>
#include <stdlib.h>
#include <string.h>
#include <time.h>

enum { ROUNDS = 9, CALLS = 50, MOST = 1000 };

struct encoding {
    unsigned char *bytes;
    size_t length;
    void *value;
};

static struct encoding encodings[MOST];
static size_t count;

void must(int is_so, const char *sentence) {
    if (!is_so) {
        fprintf(stderr, "%s: %s\n", library, sentence);
        exit(1);
    }
}

/* Reads a line's digits, and writes their value again as the same bytes. */
static void add(const char *digits) {
    must(count < MOST, "too many encodings");
    size_t length = strspn(digits, "0123456789abcdef") / 2;
    unsigned char *bytes = malloc(length);
    must(bytes != NULL, "no memory");
    for (size_t place = 0; place < length; place++) {
        must(sscanf(digits + 2 * place, "%2hhx", &bytes[place]) == 1, "a line isn't hexadecimal");
    }
    void *value = read_value(bytes, length);
    size_t again;
    unsigned char *written = write_value(value, &again);
    must(again == length && memcmp(written, bytes, length) == 0, "a value is written as other bytes");
    drop_bytes(written);
    encodings[count++] = (struct encoding){bytes, length, value};
}

static void add_all(const char *path) {
    FILE *file = fopen(path, "r");
    must(file != NULL, "the file can't be opened");
    char *line = NULL;
    size_t room = 0, word = strlen(kind);
    while (getline(&line, &room, file) > 0) {
        if (strncmp(line, kind, word) == 0 && line[word] == ' ') {
            add(line + word + 1);
        }
    }
    free(line);
    fclose(file);
    must(count > 0, "the file has no encoding");
}

static void write_all(void) {
    for (size_t place = 0; place < count; place++) {
        size_t length;
        drop_bytes(write_value(encodings[place].value, &length));
    }
}

static void read_all(void) {
    for (size_t place = 0; place < count; place++) {
        drop_value(read_value(encodings[place].bytes, encodings[place].length));
    }
}

static unsigned long long now(void) {
    struct timespec it;
    clock_gettime(CLOCK_MONOTONIC, &it);
    return it.tv_sec * 1000000000ull + it.tv_nsec;
}

static void print_time(const char *way, void (*all)(void)) {
    unsigned long long least = ~0ull;
    for (int round = 0; round < ROUNDS; round++) {
        unsigned long long start = now();
        for (int call = 0; call < CALLS; call++) {
            all();
        }
        unsigned long long time = now() - start;
        least = time < least ? time : least;
    }
    printf("%s %s %s %llu ps\n", library, job, way, least * 1000 / CALLS / count);
}

int main(int argc, char **argv) {
    must(argc == 2 || argc == 5, "usage: PEER FILE [JOB WAY ROUNDS]");
    add_all(argv[1]);
    if (argc == 2) {
        print_time("write", write_all);
        print_time("read", read_all);
        return 0;
    }
    must(strcmp(argv[2], job) == 0, "no such job");
    for (int rounds = atoi(argv[4]); rounds > 0; rounds--) {
        strcmp(argv[3], "write") == 0 ? write_all() : read_all();
    }
    return 0;
}
