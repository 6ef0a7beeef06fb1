#include "pipe.h"

#include <stdio.h>
#include <stdlib.h>
#include <string.h>

static struct bytes request, answer;

void stop(const char *why) {
    fprintf(stderr, "driver: %s\n", why);
    exit(2);
}

// At least one byte, so that an empty slice has an address too.
void *room_for(void *old, size_t size) {
    void *new = realloc(old, size ? size : 1);
    if (!new)
        stop("no memory");
    return new;
}

void resize(struct bytes *b, size_t length) {
    if (!b->at || length > b->room) {
        b->room = 2 * length + 64;
        b->at = room_for(b->at, b->room);
    }
    b->length = length;
}

void put(uint64_t number, size_t width) {
    size_t at = answer.length;
    resize(&answer, at + width);
    for (size_t i = 0; i < width; i++)
        answer.at[at + i] = (uint8_t)(number >> (8 * i));
}

void put_bytes(const uint8_t *bytes, size_t n) {
    size_t at = answer.length;
    resize(&answer, at + n);
    memcpy(answer.at + at, bytes, n);
}

uint16_t word_at(const uint8_t *at) {
    return (uint16_t)(at[0] | at[1] << 8);
}

const uint8_t *next_bytes(struct reader *from, size_t n) {
    const uint8_t *at = from->at;
    if (n > from->left)
        stop("a request that is cut");
    from->at += n;
    from->left -= n;
    return at;
}

uint64_t next_number(struct reader *from, size_t width) {
    const uint8_t *at = next_bytes(from, width);
    uint64_t number = 0;
    for (size_t i = 0; i < width; i++)
        number |= (uint64_t)at[i] << (8 * i);
    return number;
}

int all_are(uint8_t byte, const uint8_t *at, size_t n) {
    uint8_t other = 0;
    for (size_t i = 0; i < n; i++)
        other |= at[i] ^ byte;
    return !other;
}

static void read_all(void *to, size_t n) {
    if (n && fread(to, 1, n, stdin) != n)
        stop("the input ends within a request");
}

static void write_answer(void) {
    uint8_t length[4];
    for (int i = 0; i < 4; i++)
        length[i] = (uint8_t)(answer.length >> (8 * i));
    if (fwrite(length, 1, 4, stdout) != 4 || fwrite(answer.at, 1, answer.length, stdout) != answer.length)
        stop("an answer could not be written");
}

int main(void) {
    int kind;
    resize(&answer, 0);
    while ((kind = getchar()) != EOF) {
        uint8_t head[4];
        read_all(head, 4);
        size_t n = word_at(head) | (size_t)word_at(head + 2) << 16;
        if (n > LONGEST)
            stop("a request that is too long");
        resize(&request, n);
        read_all(request.at, n);
        answer.length = 0;
        answer_request(kind, request.at, n);
        write_answer();
    }
    if (ferror(stdin) || fflush(stdout))
        stop("standard input or output failed");
    return 0;
}
