/* Passes bytes over the loopback, plainly: plain_link hear PORT SIZE takes so many, and plain_link send PORT MADE SENT
 * makes MADE bytes in memory and writes SENT of them. Each prints how many bytes passed. */
#include <arpa/inet.h>
#include <stdio.h>
#include <stdlib.h>
#include <string.h>
#include <sys/socket.h>
#include <unistd.h>

#define PIECE 65536

static int taken(int hall, char *block, size_t size, size_t *passed) {
    int link = accept(hall, NULL, NULL);
    if (link < 0) return 0;
    while (*passed < size) {
        size_t left = size - *passed;
        ssize_t got = read(link, block + *passed, left < PIECE ? left : PIECE);
        if (got <= 0) return 0;
        *passed += got;
    }
    return 1;
}

static int sent(int link, const char *block, size_t size, size_t *passed) {
    while (*passed < size) {
        ssize_t gone = write(link, block + *passed, size - *passed);
        if (gone <= 0) return 0;
        *passed += gone;
    }
    return 1;
}

int main(int count, char **words) {
    if (count < 4) return 2;
    int hears = !strcmp(words[1], "hear"), one = 1, end = socket(AF_INET, SOCK_STREAM, 0);
    struct sockaddr_in place = {.sin_family = AF_INET, .sin_port = htons(atoi(words[2]))};
    place.sin_addr.s_addr = htonl(INADDR_LOOPBACK);
    size_t size = strtoul(words[3], NULL, 10), passed = 0;
    char *block = malloc(size);
    if (end < 0 || !block) return 1;
    if (hears) {
        setsockopt(end, SOL_SOCKET, SO_REUSEADDR, &one, sizeof one);
        if (bind(end, (struct sockaddr *)&place, sizeof place) || listen(end, 1)) return 1;
        if (!taken(end, block, size, &passed)) return 1;
    } else {
        memset(block, 7, size);
        if (connect(end, (struct sockaddr *)&place, sizeof place)) return 1;
        if (!sent(end, block, count > 4 ? strtoul(words[4], NULL, 10) : size, &passed)) return 1;
    }
    printf("%zu\n", passed);
    return 0;
}
