// The driver of the comparison: asks the probes what each request wants to know (PROTOCOL.md).

#include "pipe.h"
#include "probe.h"

#include <string.h>

enum { SIZES = 1, BODY = 2, LIST = 3, LOOKUP = 4, COLUMNS = 5, PROGRAMS = 6, POOL_COLUMNS = 9, POOL_PROGRAMS = 10 };

static struct bytes marks;
static uint16_t *ids, *counts, *flags;
static size_t rows;

static void answer_sizes(void) {
    for (unsigned op = 0; op < 256; op++)
        put(probe_size((uint8_t)op), 4);
}

// The way on of the instruction at `at`, whose operands end where its mark says, or with the body if the mark is wrong.
static void answer_way(const uint8_t *body, size_t n, size_t at) {
    size_t next = at + marks.at[at];
    size_t end = next < n ? next : n;
    uint32_t flow = probe_flow(body[at], body + at + 1, end - at - 1);
    uint64_t target = 0;
    if (flow % 4 == 1 || flow % 4 == 2)
        target = probe_target(next, (uint16_t)(flow / 4), marks.at, n, n);
    put(flow, 4);
    put(target, 8);
}

static void answer_body(const uint8_t *body, size_t n) {
    resize(&marks, n);
    memset(marks.at, 0, n);
    put(probe_starts(body, n, marks.at, n), 4);
    put(probe_has_ret(body, n), 4);
    for (size_t at = 0; at < n; at++)
        put(marks.at[at], 1);
    for (size_t at = 0; at < n; at++)
        if (marks.at[at])
            answer_way(body, n, at);
}

static void answer_list(const uint8_t *bytes, size_t n) {
    if (n % 6)
        stop("a list whose last row is cut");
    rows = n / 6;
    ids = room_for(ids, rows * sizeof *ids);
    counts = room_for(counts, rows * sizeof *counts);
    flags = room_for(flags, rows * sizeof *flags);
    for (size_t row = 0; row < rows; row++) {
        ids[row] = word_at(bytes + 6 * row);
        counts[row] = word_at(bytes + 6 * row + 2);
        flags[row] = word_at(bytes + 6 * row + 4);
    }
    put(rows, 4);
}

static void answer_lookup(const uint8_t *bytes, size_t n) {
    if (n % 2)
        stop("an id of one byte");
    if (!ids)
        stop("a lookup before the first list");
    for (size_t at = 0; at < n; at += 2)
        put(probe_lookup(ids, rows, counts, rows, flags, rows, word_at(bytes + at)), 4);
}

// A column of a program, in cells as wide as its numbers.
struct words {
    uint16_t *at;
    size_t n;
};

struct sizes {
    size_t *at;
    size_t n;
};

static void resize_words(struct words *column, size_t n) {
    column->at = room_for(column->at, n * sizeof *column->at);
    column->n = n;
}

static void resize_sizes(struct sizes *column, size_t n) {
    column->at = room_for(column->at, n * sizeof *column->at);
    column->n = n;
}

static void read_words(struct words *column, size_t n, struct reader *from) {
    resize_words(column, n);
    for (size_t i = 0; i < n; i++)
        column->at[i] = (uint16_t)next_number(from, 2);
}

static void read_sizes(struct sizes *column, size_t n, struct reader *from) {
    resize_sizes(column, n);
    for (size_t i = 0; i < n; i++)
        column->at[i] = (size_t)next_number(from, 8);
}

// Scratch is filled with this, and behind each column lie more bytes of it, which are not lent.
#define FILL 0xAA
#define BEHIND 64

enum { MARKS, DEPTHS, QUEUE, QUEUE_DEPTHS, CELLS, SCRATCH };
static const size_t width[SCRATCH] = {sizeof(uint8_t), sizeof(uint32_t), sizeof(uint16_t), sizeof(uint16_t), sizeof(uint8_t)};
static struct bytes scratch[SCRATCH];
static size_t lent[SCRATCH];

static void lend(int column, size_t cells) {
    lent[column] = cells;
    resize(&scratch[column], cells * width[column] + BEHIND);
    memset(scratch[column].at, FILL, scratch[column].length);
}

enum { UNTOUCHED, ZERO, NEITHER, TWO_NUMBERS };

static int scratch_state(void) {
    int untouched = 1, zero = 1;
    for (int column = 0; column < SCRATCH; column++) {
        size_t n = lent[column] * width[column];
        untouched &= all_are(FILL, scratch[column].at, n);
        zero &= all_are(0, scratch[column].at, n);
        if (!all_are(FILL, scratch[column].at + n, BEHIND))
            return NEITHER;
    }
    return untouched ? UNTOUCHED : zero ? ZERO : NEITHER;
}

static struct words function_ids, parameters, maxima, sent_ids, sent_counts, sent_flags;
static struct sizes offsets, lengths;

// The stack check of the functions read last, with scratch lent and filled: its six numbers and what became of the scratch.
static void answer_stack(struct words list_ids, struct words list_counts, struct words list_flags, const uint8_t *code,
                         size_t code_n) {
    uint32_t numbers[7];
    memset(numbers, FILL, sizeof numbers);
    uint32_t behind = numbers[6];
    uint32_t number = probe_stack(
        numbers, 6, scratch[MARKS].at, lent[MARKS], (uint32_t *)(void *)scratch[DEPTHS].at, lent[DEPTHS],
        (uint16_t *)(void *)scratch[QUEUE].at, lent[QUEUE], (uint16_t *)(void *)scratch[QUEUE_DEPTHS].at,
        lent[QUEUE_DEPTHS], function_ids.at, function_ids.n, parameters.at, parameters.n, maxima.at, maxima.n, offsets.at,
        offsets.n, lengths.at, lengths.n, list_ids.at, list_ids.n, list_counts.at, list_counts.n, list_flags.at,
        list_flags.n, code, code_n);
    for (int i = 0; i < 6; i++)
        put(numbers[i], 4);
    put(number == numbers[0] && numbers[6] == behind ? (uint64_t)scratch_state() : TWO_NUMBERS, 1);
}

static void read_lengths(size_t *n, size_t columns, struct reader *from) {
    for (size_t i = 0; i < columns; i++) {
        n[i] = (size_t)next_number(from, 4);
        if (n[i] > LONGEST)
            stop("a column that is too long");
    }
}

// The columns of the functions and of a list; the code, whose length is the ninth, comes behind them.
static void read_columns(const size_t *n, struct reader *from) {
    read_words(&function_ids, n[0], from);
    read_words(&parameters, n[1], from);
    read_words(&maxima, n[2], from);
    read_sizes(&offsets, n[3], from);
    read_sizes(&lengths, n[4], from);
    read_words(&sent_ids, n[5], from);
    read_words(&sent_counts, n[6], from);
    read_words(&sent_flags, n[7], from);
}

static void answer_columns(struct reader from) {
    size_t n[CELLS + 9];
    read_lengths(n, CELLS + 9, &from);
    for (int column = 0; column < CELLS; column++)
        lend(column, n[column]);
    lend(CELLS, 0);
    read_columns(n + CELLS, &from);
    answer_stack(sent_ids, sent_counts, sent_flags, next_bytes(&from, n[CELLS + 8]), n[CELLS + 8]);
    if (from.left)
        stop("bytes behind the last column");
}

// The functions of one program, and scratch as long as its code needs it and so many spare cells. The code's length.
static size_t read_program(struct reader *from, size_t spare) {
    size_t n = (size_t)next_number(from, 1);
    resize_words(&function_ids, n);
    resize_words(&parameters, n);
    resize_words(&maxima, n);
    resize_sizes(&offsets, n);
    resize_sizes(&lengths, n);
    for (size_t row = 0; row < n; row++) {
        function_ids.at[row] = (uint16_t)next_number(from, 2);
        parameters.at[row] = (uint16_t)next_number(from, 2);
        maxima.at[row] = (uint16_t)next_number(from, 2);
        offsets.at[row] = (size_t)next_number(from, 2);
        lengths.at[row] = (size_t)next_number(from, 2);
    }
    size_t code_n = (size_t)next_number(from, 2);
    lend(MARKS, code_n + spare);
    lend(DEPTHS, code_n + 1 + spare);
    lend(QUEUE, 2 * code_n + 2 + spare);
    lend(QUEUE_DEPTHS, 2 * code_n + 2 + spare);
    return code_n;
}

// One program in the list last sent.
static void answer_program(struct reader *from, size_t spare) {
    size_t code_n = read_program(from, spare);
    lend(CELLS, 0);
    struct words list_ids = {ids, rows}, list_counts = {counts, rows}, list_flags = {flags, rows};
    answer_stack(list_ids, list_counts, list_flags, next_bytes(from, code_n), code_n);
}

static void answer_programs(struct reader from) {
    if (!ids)
        stop("a program before the first list");
    for (size_t number = 0; from.left; number++)
        answer_program(&from, number % 4);
}

static struct words types, callees, entries;

// The pool check of the functions, descriptors and entries read last, as `answer_stack`.
static void answer_pool(struct words list_ids, struct words list_counts, struct words list_flags, const uint8_t *code,
                        size_t code_n, uint16_t pool) {
    uint32_t numbers[7];
    memset(numbers, FILL, sizeof numbers);
    uint32_t behind = numbers[6];
    uint32_t number = probe_pool(
        numbers, 6, scratch[MARKS].at, lent[MARKS], (uint32_t *)(void *)scratch[DEPTHS].at, lent[DEPTHS],
        (uint16_t *)(void *)scratch[QUEUE].at, lent[QUEUE], (uint16_t *)(void *)scratch[QUEUE_DEPTHS].at,
        lent[QUEUE_DEPTHS], scratch[CELLS].at, lent[CELLS], function_ids.at, function_ids.n, parameters.at, parameters.n,
        maxima.at, maxima.n, offsets.at, offsets.n, lengths.at, lengths.n, list_ids.at, list_ids.n, list_counts.at,
        list_counts.n, list_flags.at, list_flags.n, code, code_n, types.at, types.n, callees.at, callees.n, entries.at,
        entries.n, pool);
    for (int i = 0; i < 6; i++)
        put(numbers[i], 4);
    put(number == numbers[0] && numbers[6] == behind ? (uint64_t)scratch_state() : TWO_NUMBERS, 1);
}

static void answer_pool_columns(struct reader from) {
    size_t n[SCRATCH + 12];
    read_lengths(n, SCRATCH + 12, &from);
    for (int column = 0; column < SCRATCH; column++)
        lend(column, n[column]);
    read_columns(n + SCRATCH, &from);
    size_t code_n = n[SCRATCH + 8];
    const uint8_t *code = next_bytes(&from, code_n);
    read_words(&types, n[SCRATCH + 9], &from);
    read_words(&callees, n[SCRATCH + 10], &from);
    read_words(&entries, n[SCRATCH + 11], &from);
    uint16_t pool = (uint16_t)next_number(&from, 2);
    answer_pool(sent_ids, sent_counts, sent_flags, code, code_n, pool);
    if (from.left)
        stop("bytes behind the pool");
}

// What 01 asks for: 128 cells for each of 128 functions.
#define CALLEE_CELLS 16384

static void answer_pool_program(struct reader *from, size_t spare) {
    size_t code_n = read_program(from, spare);
    lend(CELLS, CALLEE_CELLS + spare);
    const uint8_t *code = next_bytes(from, code_n);
    size_t n = (size_t)next_number(from, 2);
    resize_words(&types, n);
    resize_words(&callees, n);
    for (size_t row = 0; row < n; row++) {
        types.at[row] = (uint16_t)next_number(from, 2);
        callees.at[row] = (uint16_t)next_number(from, 2);
    }
    read_words(&entries, (size_t)next_number(from, 1), from);
    uint16_t pool = (uint16_t)next_number(from, 2);
    struct words list_ids = {ids, rows}, list_counts = {counts, rows}, list_flags = {flags, rows};
    answer_pool(list_ids, list_counts, list_flags, code, code_n, pool);
}

static void answer_pool_programs(struct reader from) {
    if (!ids)
        stop("a program before the first list");
    for (size_t number = 0; from.left; number++)
        answer_pool_program(&from, number % 4);
}

void answer_request(int kind, const uint8_t *bytes, size_t n) {
    switch (kind) {
    case SIZES: answer_sizes(); break;
    case BODY: answer_body(bytes, n); break;
    case LIST: answer_list(bytes, n); break;
    case LOOKUP: answer_lookup(bytes, n); break;
    case COLUMNS: answer_columns((struct reader){bytes, n}); break;
    case PROGRAMS: answer_programs((struct reader){bytes, n}); break;
    case POOL_COLUMNS: answer_pool_columns((struct reader){bytes, n}); break;
    case POOL_PROGRAMS: answer_pool_programs((struct reader){bytes, n}); break;
    default: stop("a request of no known kind");
    }
}
