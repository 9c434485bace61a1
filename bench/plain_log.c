/* Reads a log and parses its records into a list, plainly: plain_log FILE. It prints how many there are. */
#include <stdint.h>
#include <stdio.h>
#include <stdlib.h>
#include <string.h>

struct content { uint64_t size; unsigned char digest[32]; };
struct record {
    uint8_t kind, tag;
    uint32_t rule, number, retries, count;
    uint64_t moment, attempt, size;
    unsigned char plan[32];
    struct content *contents;
};

static unsigned char *at, *end;

static uint64_t number(int bytes) {
    uint64_t n = 0;
    if (end - at < bytes) exit(3);
    while (bytes--) n = n << 8 | *at++;
    return n;
}

static void copy(unsigned char *to, int bytes) {
    if (end - at < bytes) exit(3);
    memcpy(to, at, bytes);
    at += bytes;
}

static void contents(struct record *r) {
    if ((r->count = number(4)) > 65536) exit(3);
    r->contents = malloc(r->count * sizeof *r->contents);
    for (uint32_t i = 0; i < r->count; i++) {
        r->contents[i].size = number(8);
        copy(r->contents[i].digest, 32);
    }
}

static void record(struct record *r) {
    r->kind = number(1), r->moment = number(8);
    if (r->kind < 3) {
        r->attempt = number(8), r->retries = number(4);
        if ((r->tag = number(1))) r->size = number(8);
        if (r->kind == 1) copy(r->plan, 32), contents(r);
    } else if (r->kind < 7) {
        r->rule = number(4), r->attempt = number(8);
        if (r->kind == 3) r->number = number(4);
        if (r->kind == 4) contents(r);
        if (r->kind == 5 && (r->tag = number(1))) r->number = number(4);
        if (r->kind == 5 && r->tag == 3) r->size = number(8);
    } else {
        r->number = number(r->kind == 7 ? 4 : 1);
    }
}

int main(int words, char **word) {
    FILE *file = words == 2 ? fopen(word[1], "rb") : NULL;
    if (!file || fseek(file, 0, SEEK_END)) return 2;
    long size = ftell(file), count = 0, room = 0;
    unsigned char *bytes = malloc(size);
    struct record *records = NULL;
    rewind(file);
    if (fread(bytes, 1, size, file) != (size_t)size || size < 9 || memcmp(bytes, "MFLOG01\n", 8)) return 2;
    for (at = bytes + 8, end = bytes + size; number(1) == 1; count++) {
        unsigned char *behind = at + 4 + number(4);
        if (count == room) records = realloc(records, (room = room ? 2 * room : 64) * sizeof *records);
        memset(&records[count], 0, sizeof *records);
        record(&records[count]);
        if (at != behind) return 3;
    }
    printf("%ld\n", count);
    return 0;
}
