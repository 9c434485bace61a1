/* Takes frames out of a stream that comes in pieces, plainly: plain_wire PIECE < STREAM, and a piece of 0 takes none.
 * It prints how many messages came and the bytes of their contents, each of which was copied once. */
#include <stdint.h>
#include <stdio.h>
#include <stdlib.h>
#include <string.h>

static unsigned char *held;
static size_t from, to, room;
static uint64_t count, bytes;

static uint64_t number(const unsigned char *at, int size) {
    uint64_t n = 0;
    while (size--) n = n << 8 | *at++;
    return n;
}

static void content(const unsigned char *at, size_t len) {
    unsigned char *copy = malloc(len ? len : 1);
    memcpy(copy, at, len);
    bytes += len + (len ? copy[len - 1] & 0 : 0);
    free(copy);
}

static void message(const unsigned char *body, size_t len) {
    static const size_t lens[] = {0, 35, 0, 0, 0, 0, 9, 13, 33, 1};
    if (!len || !body[0] || body[0] > 9) exit(3);
    if (lens[body[0]] ? len != lens[body[0]] : len < 13) exit(3);
    if (body[0] == 1 && number(body + 1, 2) != 1) exit(3);
    if (body[0] == 2) {
        if (len < 17 || number(body + 13, 4) != len - 17) exit(3);
        content(body + 17, len - 17);
    }
    count++;
}

static void feed(const unsigned char *piece, size_t len) {
    if (room - to < len) {
        memmove(held, held + from, to - from);
        to -= from, from = 0;
        if (room - to < len) held = realloc(held, room = 2 * (to + len));
    }
    memcpy(held + to, piece, len);
    to += len;
    while (to - from >= 4) {
        size_t body = number(held + from, 4);
        if (body > 71303168) exit(3);
        if (to - from - 4 < body) return;
        message(held + from + 4, body);
        from += 4 + body;
    }
}

int main(int words, char **word) {
    size_t piece = words > 1 ? strtoul(word[1], 0, 10) : 0, len = 0, got, size = 1 << 20;
    unsigned char *all = malloc(size);
    while ((got = fread(all + len, 1, size - len, stdin)) > 0)
        if ((len += got) == size) all = realloc(all, size *= 2);
    for (size_t at = 0; piece && at < len; at += piece) feed(all + at, len - at < piece ? len - at : piece);
    printf("%llu %llu\n", (unsigned long long)count, (unsigned long long)bytes);
    return 0;
}
