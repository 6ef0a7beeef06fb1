// The C entry, from C: 01's bench examples, every refusal, answer buffers that are short, fit or have bytes to spare. The file and the buffer each stand
// against a page that may not be touched, once behind them and once before them, so that a byte read or written outside ends the test. The file's pages
// can only be read.
//
// Last, the deepest visit, a chain of 128 functions, on a stack of 1 MiB that stands against such a page as well: what it took is printed.
//
//   cc -Iinclude tests/entry/entry.c crates/coppernudge/out/libcoppernudge.a -lpthread -o entry && ./entry
#define _GNU_SOURCE
#include <pthread.h>
#include <stdio.h>
#include <stdlib.h>
#include <string.h>
#include <sys/mman.h>
#include <unistd.h>

#include "coppernudge.h"

enum { ROOM = 128 * 1024, FIELDS = 12, SPARE = 16, JUNK = 0xA5, STACK = 1 << 20 };

static int wrong = 0;
static int asked = 0;

// A room between two pages that may not be touched.
static uint8_t *guarded(size_t room) {
    size_t page = (size_t)sysconf(_SC_PAGESIZE);
    uint8_t *all = mmap(NULL, room + 2 * page, PROT_NONE, MAP_PRIVATE | MAP_ANONYMOUS, -1, 0);
    if (all == MAP_FAILED || mprotect(all + page, room, PROT_READ | PROT_WRITE) != 0) {
        perror("guard pages");
        exit(2);
    }
    return all + page;
}

static uint8_t *file_room, *answer_room;

// One call: the file at one edge of its room, the buffer at one edge of its own.
static void ask_at(const char *name, const uint8_t *file, size_t file_len, size_t answer_len, int low, uint32_t returned, const uint32_t *fields) {
    uint8_t *at = low ? file_room : file_room + ROOM - file_len;
    uint8_t *answer = low ? answer_room : answer_room + ROOM - answer_len;
    uint8_t expected[FIELDS * 4 + SPARE];
    if (file_len != 0) memcpy(at, file, file_len);
    mprotect(file_room, ROOM, PROT_READ);
    memset(answer_room, JUNK, ROOM);
    memset(expected, JUNK, sizeof expected);
    for (size_t i = 0; returned == 0 && i < FIELDS; i++)
        for (size_t b = 0; b < 4; b++) expected[4 * i + b] = (uint8_t)(fields[i] >> (8 * b));
    uint32_t r = coppernudge_check(at, file_len, answer, answer_len);
    asked++;
    if (r != returned || memcmp(answer, expected, answer_len) != 0) {
        printf("%s: returned %u\n", name, (unsigned)r);
        wrong++;
    }
    for (size_t i = 0; i < ROOM; i++)
        if ((answer_room + i < answer || answer_room + i >= answer + answer_len) && answer_room[i] != JUNK) {
            printf("%s: a byte outside of the buffer was written\n", name);
            wrong++;
            break;
        }
    mprotect(file_room, ROOM, PROT_READ | PROT_WRITE);
}

// With a buffer of 48 bytes, with one that has bytes to spare, and with short ones.
static void ask(const char *name, const uint8_t *file, size_t file_len, uint32_t returned, const uint32_t *fields) {
    for (int low = 0; low < 2; low++) {
        ask_at(name, file, file_len, 48, low, returned, fields);
        ask_at(name, file, file_len, 48 + SPARE, low, returned, fields);
        ask_at(name, file, file_len, 47, low, 30, NULL);
        ask_at(name, file, file_len, 0, low, 30, NULL);
    }
}

// A file of one function 1 without parameters, or of functions 1 and 2, each called for by an entry 1 or by none.
static size_t bench(uint8_t *out, const char *one, size_t one_len, const char *two, size_t two_len, int functions, uint8_t maximum, uint8_t pool,
                    int entries) {
    size_t n = 0;
    out[n++] = pool;
    out[n++] = 0;
    out[n++] = (uint8_t)functions;
    for (int f = 0; f < functions; f++) {
        uint8_t row[5] = {(uint8_t)(f + 1), 0, maximum, (uint8_t)(f == 0 ? 0 : one_len), (uint8_t)(f == 0 ? one_len : two_len)};
        memcpy(out + n, row, 5);
        n += 5;
    }
    out[n++] = 0;
    out[n++] = (uint8_t)entries;
    if (entries == 1) out[n++] = 1;
    out[n++] = (uint8_t)(one_len + two_len);
    memcpy(out + n, one, one_len);
    memcpy(out + n + one_len, two, two_len);
    return n + one_len + two_len;
}

struct stack_example {
    const char *body;
    size_t length;
    uint8_t maximum;
    uint32_t fields[6];
    uint32_t pool;
};

// 01's table; where the stack answer is 1 or 7 the pool check answers 22.
static const struct stack_example stack_examples[] = {
    {"", 0, 0, {0, 0, 0, 0, 0, 0}, 0},
    {"\x05\x88", 2, 1, {0, 0, 0, 0, 0, 0}, 0},
    {"\x05\x88", 2, 0, {6, 1, 0, 1, 0, 0}, 0},
    {"\x05", 1, 1, {9, 1, 1, 0, 1, 0}, 0},
    {"\x7C\x00\x00", 3, 0, {0, 0, 0, 0, 0, 0}, 0},
    {"\x7C\xFD\xFF", 3, 0, {0, 0, 0, 0, 0, 0}, 0},
    {"\x7C\x01\x00", 3, 0, {7, 1, 0, 4, 0, 0}, 22},
    {"\x7C\xFC\xFF", 3, 0, {7, 1, 0, 0xFFFFFFFF, 0, 0}, 22},
    {"\x91\x90", 2, 1, {0, 0, 0, 0, 0, 0}, 0},
    {"\x90", 1, 0, {5, 1, 0, 144, 1, 0}, 0},
    {"\x8C\x93", 2, 0, {1, 1, 1, 147, 0, 0}, 22},
    {"\x05\x80\x01\x00\x05\x8C", 6, 1, {8, 1, 5, 0, 1, 0}, 0},
};

static void stack_table(void) {
    uint8_t file[256];
    for (size_t i = 0; i < sizeof stack_examples / sizeof *stack_examples; i++) {
        const struct stack_example *e = &stack_examples[i];
        uint32_t fields[FIELDS] = {0};
        memcpy(fields, e->fields, sizeof e->fields);
        fields[6] = e->pool;
        fields[7] = e->pool == 0 ? 0 : 1;
        size_t n = bench(file, e->body, e->length, "", 0, 1, e->maximum, 0, 1);
        ask("01's stack example", file, n, 0, fields);
    }
}

// The pool answers of 01's pool examples; what the stack check says of these bodies is set beside them.
static void pool_table(void) {
    static const char grows[] = "\xBC\0\0\0\0\x7C\xF8\xFF", gives[] = "\xC0\0\0\0\0", calls[] = "\x84\x02\0\0\0\xBC\0\0\0\0", called[] = "\xBC\0\0\0\0";
    static const char first[] = "\x84\x02\0\0\0", second[] = "\x84\x01\0\0\0";
    uint8_t file[256];
    uint32_t over[FIELDS] = {8, 1, 0, 0, 1, 0, 20, 1, 0, 4, 3, 0};
    ask("a growing loop", file, bench(file, grows, 8, "", 0, 1, 9, 3, 1), 0, over);
    memset(over + 6, 0, 24);
    ask("a growing loop without entries", file, bench(file, grows, 8, "", 0, 1, 9, 3, 0), 0, over);
    uint32_t given[FIELDS] = {5, 1, 0, 0xC0, 1, 0};
    ask("given back", file, bench(file, gives, 5, "", 0, 1, 9, 0, 1), 0, given);
    uint32_t two[FIELDS] = {9, 1, 10, 0, 2, 0};
    ask("1 calls 2, pool 2", file, bench(file, calls, 10, called, 5, 2, 9, 2, 1), 0, two);
    uint32_t one[FIELDS] = {9, 1, 10, 0, 2, 0, 20, 1, 5, 2, 1, 0};
    ask("1 calls 2, pool 1", file, bench(file, calls, 10, called, 5, 2, 9, 1, 1), 0, one);
    uint32_t circle[FIELDS] = {9, 1, 5, 0, 1, 0, 21, 1, 0, 0, 0, 0};
    ask("each other", file, bench(file, first, 5, second, 5, 2, 9, 9, 1), 0, circle);
}

// Every refusal of a file and of its program.
static void refusals(void) {
    static const uint8_t good[] = {0, 0, 1, 1, 0, 1, 0, 2, 0, 1, 1, 2, 5, 0x88};
    static const uint8_t longer[] = {0x80, 0}, third[] = {0xFF, 0xFF, 4}, many[] = {0, 0, 129, 1}, left[] = {0, 0, 0, 0, 0, 0, 7};
    static const uint8_t falls[] = {0, 2, 5, 0, 0, 5, 0, 0, 0, 0, 0, 0}, flag[] = {0, 1, 5, 0, 2, 0, 0, 0, 0};
    static const uint8_t again[] = {0, 0, 2, 1, 0, 0, 0, 0, 1, 0, 0, 0, 0, 0, 0, 0}, beyond[] = {0, 0, 1, 1, 0, 0, 0, 1, 0, 0, 0};
    static const uint8_t pool[] = {0xFF, 0xFF, 3, 0, 0, 0, 0, 0};
    static uint8_t huge[65537];
    for (size_t n = 0; n < sizeof good; n++) ask("an early end", good, n, 41, NULL);
    ask("a longer form", longer, sizeof longer, 40, NULL);
    ask("a third byte of 4", third, sizeof third, 40, NULL);
    ask("129 functions", many, sizeof many, 31, NULL);
    ask("a byte left over", left, sizeof left, 42, NULL);
    ask("ids that do not rise", falls, sizeof falls, 34, NULL);
    ask("a flag of 2", flag, sizeof flag, 34, NULL);
    ask("a repeated id", again, sizeof again, 32, NULL);
    ask("a body outside", beyond, sizeof beyond, 33, NULL);
    ask("pool 65535", pool, sizeof pool, 35, NULL);
    ask("65537 bytes", huge, sizeof huge, 43, NULL);
    ask("65536 bytes", huge, 65536, 42, NULL);
}

// Functions 0 to 127, each of which calls the next: the file, its length, and the answer.
static uint8_t chain[4096], chain_answer[48];
static size_t chain_length;
static uint32_t chain_returned;

static void number(size_t n) {
    if (n < 128) {
        chain[chain_length++] = (uint8_t)n;
    } else {
        chain[chain_length++] = (uint8_t)(n % 128 + 128);
        chain[chain_length++] = (uint8_t)(n / 128);
    }
}

static void *check_chain(void *nothing) {
    chain_returned = coppernudge_check(chain, chain_length, chain_answer, sizeof chain_answer);
    return nothing;
}

static void deepest(void) {
    uint8_t *stack = guarded(STACK);
    pthread_attr_t attributes;
    pthread_t thread;
    number(0);
    number(0);
    number(128);
    for (size_t f = 0; f < 128; f++) {
        number(f);
        number(0);
        number(9);
        number(6 * f);
        number(6);
    }
    number(0);
    number(1);
    number(0);
    number(128 * 6);
    for (size_t f = 0; f < 128; f++) {
        // CALL the next function and RET its value; the last one makes a value of its own
        uint8_t body[6] = {0x84, (uint8_t)(f + 1), 0, 0, 0, 0x88}, last[6] = {0x05, 0x91, 0x90, 0x91, 0x90, 0x88};
        memcpy(chain + chain_length, f + 1 < 128 ? body : last, 6);
        chain_length += 6;
    }
    memset(stack, JUNK, STACK);
    pthread_attr_init(&attributes);
    pthread_attr_setstack(&attributes, stack, STACK);
    if (pthread_create(&thread, &attributes, check_chain, NULL) != 0 || pthread_join(thread, NULL) != 0) exit(2);
    size_t left = 0;
    while (left < STACK && stack[left] == JUNK) left++;
    printf("a chain of 128 functions: %zu bytes of stack\n", (size_t)STACK - left);
    for (size_t i = 0; i < sizeof chain_answer; i++)
        if (chain_returned != 0 || chain_answer[i] != 0) {
            printf("a chain of 128 functions: returned %u, byte %zu is %u\n", (unsigned)chain_returned, i, chain_answer[i]);
            wrong++;
            break;
        }
    asked++;
}

int main(void) {
    file_room = guarded(ROOM);
    answer_room = guarded(ROOM);
    stack_table();
    pool_table();
    refusals();
    deepest();
    uint8_t answer[48];
    if (coppernudge_check(NULL, 0, answer, sizeof answer) != 41 || coppernudge_check(NULL, 0, NULL, 0) != 30) {
        puts("NULL with length 0");
        wrong++;
    }
    printf("%d calls, %d wrong\n", asked + 2, wrong);
    return wrong != 0;
}
