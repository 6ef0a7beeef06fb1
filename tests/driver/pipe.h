// The pipe to the comparison (PROTOCOL.md): reads requests on standard input and writes the answers. A driver says what to answer.

#ifndef PIPE_H
#define PIPE_H

#include <stddef.h>
#include <stdint.h>

// No request is longer; a longer one is an asker that has lost its place.
#define LONGEST (1u << 24)

struct bytes {
    uint8_t *at;
    size_t length;
    size_t room;
};

// A request's bytes, read from the front.
struct reader {
    const uint8_t *at;
    size_t left;
};

// The driver's part: what it puts is the answer.
void answer_request(int kind, const uint8_t *bytes, size_t n);

void put(uint64_t number, size_t width);
void put_bytes(const uint8_t *bytes, size_t n);

void stop(const char *why);
void *room_for(void *old, size_t size);
void resize(struct bytes *b, size_t length);
uint16_t word_at(const uint8_t *at);
const uint8_t *next_bytes(struct reader *from, size_t n);
uint64_t next_number(struct reader *from, size_t width);
int all_are(uint8_t byte, const uint8_t *at, size_t n);

#endif
