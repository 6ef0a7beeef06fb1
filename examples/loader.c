// A small loader: reads a bench file, asks the desk, says in words whether the program may be loaded. Its status is 0 only if it may.
//
//   (cd crates/coppernudge && rt lib)
//   cc -Wall -Wextra -Werror -Iinclude examples/loader.c crates/coppernudge/out/libcoppernudge.a -o loader
//   ./loader examples/heights-second-list.bench
#include <stdio.h>
#include <stdlib.h>

#include "coppernudge.h"

// A bench file has at most 65,536 bytes; one more tells that it is too long.
enum { LIMIT = 65537 };

static const char *refusal(uint32_t number) {
    switch (number) {
    case 31: return "a table has too many rows";
    case 32: return "a function id is repeated";
    case 33: return "a body lies outside of the code";
    case 34: return "the code list is not in order";
    case 35: return "the declared pool is 65535";
    case 40: return "a number is badly written";
    case 41: return "the file ends too early";
    case 42: return "the file goes on after its end";
    case 43: return "the file is too long";
    default: return "the input is refused";
    }
}

static const char *fault(uint32_t number) {
    switch (number) {
    case 1: return "a byte that is no instruction";
    case 2: return "a cut instruction";
    case 3: return "a built-in that is not on the code list";
    case 4: return "a call of a function that is not there";
    case 5: return "an instruction takes more values than there are";
    case 6: return "the stack passes the declared maximum";
    case 7: return "a branch to no instruction";
    case 8: return "two paths meet with different depths";
    case 9: return "a function is left with the wrong number of values";
    case 20: return "more buffers are needed than the pool has";
    case 21: return "functions call each other in a circle";
    case 22: return "a function cannot be decoded";
    case 23: return "the queue is full";
    default: return "an unknown answer";
    }
}

// Field i of an answer, low byte first.
static uint32_t field(const uint8_t *answer, size_t i) {
    const uint8_t *at = answer + 4 * i;
    return at[0] | (uint32_t)at[1] << 8 | (uint32_t)at[2] << 16 | (uint32_t)at[3] << 24;
}

// Says what a check found, from its first field on.
static int accepted(const char *check, const uint8_t *answer, size_t first) {
    uint32_t number = field(answer, first);
    if (number == 0) {
        printf("%s: accepted\n", check);
        return 1;
    }
    printf("%s: %s (answer %u, function %u, offset %u)\n", check, fault(number), (unsigned)number, (unsigned)field(answer, first + 1),
           (unsigned)field(answer, first + 2));
    return 0;
}

int main(int count, char **words) {
    static uint8_t file[LIMIT];
    uint8_t answer[COPPERNUDGE_ANSWER_BYTES];
    if (count != 2) {
        fprintf(stderr, "usage: loader FILE\n");
        return 2;
    }
    FILE *in = fopen(words[1], "rb");
    if (in == NULL) {
        perror(words[1]);
        return 2;
    }
    size_t length = fread(file, 1, LIMIT, in);
    if (ferror(in)) {
        perror(words[1]);
        return 2;
    }
    fclose(in);
    uint32_t refused = coppernudge_check(file, length, answer, sizeof answer);
    if (refused != 0) {
        printf("not loaded: %s (refusal %u)\n", refusal(refused), (unsigned)refused);
        return 1;
    }
    int stack = accepted("stack", answer, 0);
    int pool = accepted("pool", answer, 6);
    puts(stack && pool ? "loaded" : "not loaded");
    return stack && pool ? 0 : 1;
}
