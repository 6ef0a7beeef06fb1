// A second reading of 01 in C, behind the same functions as the static library: the comparison is tried on it, and with WRONG
// set to a number it has one planted error, which the comparison must notice.

#include "probe.h"

#include <string.h>

#ifndef WRONG
#define WRONG 0
#endif

enum {
    BOOL_NOT = 0x7B,
    JMP = 0x7C,
    JMP_IF_NOT = 0x80,
    CALL = 0x84,
    RET = 0x88,
    RET_VOID = 0x8C,
    DUP = 0x91,
    SWAP = 0x92,
    BUILTIN = 0x94,
    COPY_REGION = 0xAD,
    COPY_REGION_DEREF = 0xAE,
    CMP_BR_I32 = 0xF4,
    CMP_BR_I64 = 0xF5,
    METHOD_CALL = 0xF8,
    // These matter to the pool check alone.
    LOAD_CONST_STR = 0x08,
    FB_CALL = 0xA4,
    STR_LOAD_VAR = 0xBC,
    STR_STORE_VAR = 0xC0,
    REPLACE_STR = 0xCC,
    INSERT_STR = 0xD0,
    DELETE_STR = 0xD4,
    LEFT_STR = 0xD8,
    RIGHT_STR = 0xDC,
    MID_STR = 0xE0,
    CONCAT_STR = 0xE4,
    STR_LOAD_ARRAY_ELEM = 0xEC,
    STR_LOAD_ARRAY_DEREF = 0xED,
    STR_STORE_ARRAY_ELEM = 0xF0,
    STR_STORE_ARRAY_DEREF = 0xF1
};

// An opcode is class x 4 + tag. For each class: how many tags from 0 up are assigned, the bytes that operands take, and what an
// instruction takes from the stack and leaves there. (LOAD_FALSE, LOAD_TRUE; JMP; CALL; .. in the order of the classes.)
static const struct {
    uint8_t tags, operands, takes, leaves;
} classes[64] = {
    {4, 2, 0, 1}, {2, 0, 0, 1}, {1, 2, 0, 1}, {4, 2, 0, 1}, // constants, variables
    {4, 2, 1, 0}, {1, 0, 1, 1}, {1, 0, 2, 0}, {4, 0, 1, 1}, // storing, references, truncation
    {4, 0, 2, 1}, {4, 0, 2, 1}, {4, 0, 2, 1}, {4, 0, 1, 1}, // ADD, SUB, MUL, NEG
    {4, 0, 2, 1}, {2, 0, 2, 1}, {2, 0, 2, 1}, {2, 0, 2, 1}, // DIV, MOD; no float below unsigned and remainder
    {4, 0, 2, 1}, {4, 0, 2, 1}, {4, 0, 2, 1}, {4, 0, 2, 1}, // comparison
    {4, 0, 2, 1}, {4, 0, 2, 1}, {2, 0, 2, 1}, {2, 0, 2, 1}, // comparison, then unsigned
    {2, 0, 2, 1}, {2, 0, 2, 1}, {2, 0, 2, 1}, {2, 0, 2, 1}, // unsigned comparison, bits
    {2, 0, 2, 1}, {2, 0, 1, 1}, {4, 0, 2, 1}, {1, 2, 0, 0}, // bits, BIT_NOT, booleans, JMP
    {1, 2, 1, 0}, {1, 4, 0, 1}, {1, 0, 0, 0}, {1, 0, 0, 0}, // JMP_IF_NOT, CALL, returns
    {3, 0, 1, 0}, {1, 2, 0, 1}, {1, 2, 0, 1}, {1, 1, 1, 0}, // POP, BUILTIN, FB_LOAD_INSTANCE, FB_STORE_PARAM
    {1, 1, 0, 1}, {1, 2, 0, 0}, {1, 4, 1, 1}, {3, 4, 2, 0}, // FB_LOAD_PARAM, FB_CALL, arrays and regions
    {1, 4, 1, 1}, {1, 4, 2, 0}, {1, 7, 0, 0}, {1, 4, 0, 1}, // arrays by reference, STR_INIT, STR_LOAD_VAR
    {1, 4, 1, 0}, {1, 4, 0, 1}, {1, 8, 0, 1}, {1, 8, 2, 1}, // STR_STORE_VAR, LEN, FIND, REPLACE
    {1, 8, 1, 1}, {1, 4, 2, 1}, {1, 4, 1, 1}, {1, 4, 1, 1}, // INSERT, DELETE, LEFT, RIGHT
    {1, 4, 2, 1}, {1, 8, 0, 1}, {1, 4, 0, 0}, {2, 4, 1, 1}, // MID, CONCAT, STR_INIT_ARRAY, loading from string arrays
    {2, 4, 2, 0}, {2, 7, 0, 0}, {1, 7, 0, 0}, {0, 0, 0, 0}, // storing there, CMP_BR, METHOD_CALL
};

uint32_t probe_size(uint8_t op) {
    if (op % 4 >= classes[op / 4].tags)
        return 0;
    // Copying a region names a second descriptor, which storing one element does not.
    if (op / 4 == 0x2B && op % 4 > 0)
        return WRONG == 1 ? 5 : 7;
    return 1u + classes[op / 4].operands;
}

uint32_t probe_starts(const uint8_t *body, size_t n, uint8_t *marks, size_t marks_n) {
    size_t at = 0;
    while (at < n) {
        uint32_t size = probe_size(body[at]);
        if (size == 0)
            return 1 + 4 * (uint32_t)at;
        int cut = size > n - at && WRONG != 2;
        if (at < marks_n && (!cut || WRONG == 8))
            marks[at] = (uint8_t)size;
        if (cut)
            return 2 + 4 * (uint32_t)at;
        at += size;
    }
    return 0;
}

uint32_t probe_has_ret(const uint8_t *body, size_t n) {
    size_t at = 0;
    while (at < n) {
        uint32_t size = probe_size(body[at]);
        if (WRONG == 3 && size == 0)
            size = 1;
        if (size == 0 || size > n - at)
            return 0;
        if (body[at] == RET)
            return 1;
        at += size;
    }
    return 0;
}

uint32_t probe_flow(uint8_t op, const uint8_t *operands, size_t n) {
    size_t at = op == CMP_BR_I32 || op == CMP_BR_I64 ? (WRONG == 4 ? 3 : 5) : 0;
    uint32_t word = at + 1 < n ? operands[at] | (uint32_t)operands[at + 1] << 8 : 0;
    switch (op) {
    case JMP: return 1 + 4 * word;
    case JMP_IF_NOT:
    case CMP_BR_I32:
    case CMP_BR_I64: return 2 + 4 * word;
    case RET:
    case RET_VOID: return 3;
    default: return 0;
    }
}

uint64_t probe_target(size_t next, uint16_t word, const uint8_t *marks, size_t marks_n, size_t len) {
    int64_t offset = word < 0x8000 || WRONG == 5 ? word : (int64_t)word - 0x10000;
    int64_t target = (int64_t)next + offset;
    int inside = target >= 0 && target < (int64_t)len && target < (int64_t)marks_n;
    int legal = (inside && marks[target]) || (target == (int64_t)len && WRONG != 6);
    return (uint64_t)(legal ? 1 : 0) + 2 * (uint64_t)(uint32_t)target;
}

uint32_t probe_lookup(const uint16_t *ids, size_t n, const uint16_t *counts, size_t cn, const uint16_t *flags, size_t fn,
                      uint16_t id) {
    for (size_t row = 0; row < n && row < cn && row < fn; row++)
        if (ids[row] == id && !(WRONG == 7 && row + 1 == n))
            return 1 + 2u * flags[row] + 4u * counts[row];
    return 0;
}

// A program and the scratch lent with it.
struct program {
    const uint16_t *ids, *parameters, *maxima, *list_ids, *counts, *flags;
    const size_t *offsets, *lengths;
    const uint8_t *code;
    size_t functions, rows, code_n;
    uint8_t *marks;
    uint32_t *depths;
    uint16_t *queue, *queue_depths;
};

// One body that is checked, and the answer that it may give.
struct body {
    const struct program *in;
    size_t row;
    const uint8_t *at;
    size_t n;
    size_t first, behind; // the queue's first entry and the place behind its last
    uint32_t *answer;
};

static uint32_t say(uint32_t *answer, uint32_t number, uint32_t function, size_t offset, uint32_t a, uint32_t b, uint32_t c) {
    const uint32_t numbers[6] = {number, function, (uint32_t)offset, a, b, c};
    memcpy(answer, numbers, sizeof numbers);
    return number;
}

static uint32_t violation(const struct body *body, uint32_t number, size_t offset, uint32_t a, uint32_t b, uint32_t c) {
    return say(body->answer, number, body->in->ids[body->row], offset, a, b, c);
}

static uint32_t word_at(const uint8_t *at) {
    return at[0] | (uint32_t)at[1] << 8;
}

struct effect {
    uint32_t takes, leaves;
};

static struct effect fixed_effect(uint8_t op) {
    switch (op) {
    case BOOL_NOT: return (struct effect){1, 1};
    case DUP: return (struct effect){0, 1};
    case SWAP: return (struct effect){2, 2};
    case COPY_REGION:
    case COPY_REGION_DEREF: return (struct effect){1, 0};
    default: return (struct effect){classes[op / 4].takes, classes[op / 4].leaves};
    }
}

// The effect of the instruction at `at`, or 3 or 4.
static uint32_t effect_at(const struct body *body, size_t at, struct effect *effect) {
    const struct program *in = body->in;
    uint8_t op = body->at[at];
    *effect = fixed_effect(op);
    if (op == BUILTIN) {
        uint32_t id = word_at(body->at + at + 1);
        uint32_t found = probe_lookup(in->list_ids, in->rows, in->counts, in->rows, in->flags, in->rows, (uint16_t)id);
        effect->takes = found / 4;
        return found ? 0 : violation(body, 3, at, id, 0, 0);
    }
    if (op == CALL || op == METHOD_CALL) {
        uint32_t id = word_at(body->at + at + 1);
        size_t row = 0;
        while (row < in->functions && in->ids[row] != id)
            row++;
        if (WRONG == 26)
            row = id;
        if (row >= in->functions)
            return violation(body, 4, at, id, 0, 0);
        effect->takes = in->parameters[WRONG == 14 ? body->row : row];
        if (op == METHOD_CALL && WRONG != 24)
            effect->leaves = probe_has_ret(in->code + in->offsets[row], in->lengths[row]);
        else
            effect->leaves = 1;
    }
    return 0;
}

// A successor: it gets the depth and joins the queue, or has it already, or 8.
static uint32_t go_to(struct body *body, size_t to, uint32_t depth) {
    const struct program *in = body->in;
    uint32_t known = in->depths[to];
    if (known == 0) {
        in->depths[to] = depth + 1;
        in->queue[body->behind] = (uint16_t)to;
        in->queue_depths[body->behind] = (uint16_t)depth;
        body->behind++;
    } else if (known != depth + 1 && WRONG != 12) {
        return violation(body, 8, to, known - 1, depth, 0);
    }
    return 0;
}

static uint32_t leave(const struct body *body, size_t at, uint32_t expected, uint32_t actual) {
    return actual == expected ? 0 : violation(body, 9, at, expected, actual, 0);
}

// 01's rules at one place.
static uint32_t look(struct body *body, size_t at, uint32_t depth) {
    const struct program *in = body->in;
    if (at == body->n)
        return WRONG == 25 && depth == 1 ? 0 : leave(body, at, 0, depth);
    uint8_t op = body->at[at];
    struct effect effect;
    uint32_t unknown = effect_at(body, at, &effect);
    if (WRONG == 9 && unknown == 3 && depth == 0)
        return violation(body, 5, at, op, 1, 0);
    if (unknown)
        return unknown;
    if (depth < effect.takes)
        return violation(body, 5, at, op, effect.takes, depth);
    uint32_t after = depth - effect.takes + effect.leaves;
    uint32_t peak = after > depth && WRONG != 10 ? after : depth;
    if (peak > in->maxima[body->row])
        return violation(body, 6, at, peak, in->maxima[body->row], 0);
    size_t next = at + probe_size(op);
    uint32_t flow = probe_flow(op, body->at + at + 1, next - at - 1);
    if (flow % 4 == 0)
        return go_to(body, next, after);
    if (flow % 4 == 3)
        return leave(body, at, op == RET, after);
    uint64_t target = probe_target(next, (uint16_t)(flow / 4), in->marks, body->n, body->n);
    if (target % 2 == 0 || (WRONG == 16 && target / 2 == body->n))
        return violation(body, 7, at, (uint32_t)(target / 2), 0, 0);
    size_t to = (size_t)(target / 2);
    if (WRONG == 11 && flow % 4 == 2 && go_to(body, next, after))
        return 8;
    if (go_to(body, to, after))
        return 8;
    return flow % 4 == 2 ? go_to(body, next, after) : 0;
}

// Where decoding stops, 1 or 2; then the walk.
static uint32_t check_body(struct body *body) {
    const struct program *in = body->in;
    uint32_t number = probe_starts(body->at, body->n, in->marks, body->n);
    size_t stop = number / 4;
    if (number && (WRONG != 17 || stop == 0))
        return violation(body, number % 4, stop, body->at[stop], 0, 0);
    if (number)
        body->n = stop;
    body->first = body->behind = 0;
    number = go_to(body, 0, 0);
    while (number == 0 && body->first < body->behind) {
        size_t turn = WRONG == 23 ? --body->behind : body->first++;
        number = look(body, in->queue[turn], in->queue_depths[turn]);
    }
    return number;
}

static uint32_t check_bodies(const struct program *in, uint32_t *answer) {
    size_t last = WRONG == 13 && in->functions > 1 ? in->functions - 1 : in->functions;
    for (size_t row = 0; row < last; row++) {
        struct body body = {in, row, in->code + in->offsets[row], in->lengths[row], 0, 0, answer};
        if (WRONG != 27 || row == 0)
            memset(in->marks, 0, in->code_n);
        memset(in->depths, 0, (in->code_n + 1) * sizeof *in->depths);
        if (check_body(&body))
            return answer[0];
    }
    return say(answer, 0, 0, 0, 0, 0, 0);
}

// 34, 32 and 33, in this order.
static uint32_t refused(const struct program *in, uint32_t *answer) {
    for (size_t row = 0; row < in->rows; row++)
        if ((row && in->list_ids[row] <= in->list_ids[row - 1]) || in->flags[row] > (WRONG == 28 ? 255 : 1))
            return say(answer, 34, 0, row, 0, 0, 0);
    for (size_t row = 0; row < in->functions; row++)
        for (size_t earlier = 0; earlier < row; earlier++)
            if (in->ids[earlier] == in->ids[row])
                return say(answer, 32, 0, WRONG == 19 ? earlier : row, 0, 0, 0);
    for (size_t row = 0; row < in->functions; row++) {
        size_t offset = in->offsets[row], length = in->lengths[row];
        int outside = offset > in->code_n || length > in->code_n - offset;
        if (WRONG == 20 ? offset + length > in->code_n : outside)
            return say(answer, 33, 0, row, 0, 0, 0);
    }
    return 0;
}

uint32_t probe_stack(uint32_t *answer, size_t answer_n, uint8_t *marks, size_t marks_n, uint32_t *depths, size_t depths_n,
                     uint16_t *queue, size_t queue_n, uint16_t *queue_depths, size_t queue_depths_n, const uint16_t *ids,
                     size_t ids_n, const uint16_t *parameters, size_t parameters_n, const uint16_t *maxima, size_t maxima_n,
                     const size_t *offsets, size_t offsets_n, const size_t *lengths, size_t lengths_n,
                     const uint16_t *list_ids, size_t list_ids_n, const uint16_t *counts, size_t counts_n,
                     const uint16_t *flags, size_t flags_n, const uint8_t *code, size_t code_n) {
    const struct program in = {ids,     parameters, maxima, list_ids,   counts, flags,  offsets, lengths,
                               code,    ids_n,      list_ids_n, code_n, marks,  depths, queue,   queue_depths};
    if (answer_n != 6)
        return 30;
    if (ids_n > 128 || parameters_n != ids_n || maxima_n != ids_n || offsets_n != ids_n || lengths_n != ids_n ||
        list_ids_n > 6144 || counts_n != list_ids_n || flags_n != list_ids_n || code_n > (WRONG == 29 ? 12287 : 12288))
        return say(answer, 31, 0, 0, 0, 0, 0);
    if (WRONG == 21 && refused(&in, answer))
        return answer[0];
    if (marks_n < code_n || depths_n < code_n + (WRONG != 18) || queue_n < 2 * code_n + 2 || queue_depths_n < 2 * code_n + 2)
        return say(answer, 30, 0, 0, 0, 0, 0);
    if (refused(&in, answer))
        return answer[0];
    check_bodies(&in, answer);
    memset(marks, 0, WRONG == 22 ? code_n : marks_n);
    memset(depths, 0, depths_n * sizeof *depths);
    memset(queue, 0, queue_n * sizeof *queue);
    if (WRONG != 15)
        memset(queue_depths, 0, queue_depths_n * sizeof *queue_depths);
    return answer[0];
}

// What a program has besides for the pool check, and what its bodies turn out to use.
struct pooled {
    const struct program *in;
    const uint16_t *types, *callees, *entries;
    size_t descriptors, entries_n;
    uint32_t pool;
    uint8_t *cells; // for each function the rows of its callees and 1, as they were met, then 0
    uint32_t weights[128];
    size_t peaks[128];
    uint32_t *live; // what a function holds at most where it calls: only an error looks at this
};

// The walk of one body: a ring of 2 n + 2 places, of which `waiting` are taken from `first` on.
struct walk {
    struct pooled *of;
    size_t row;
    const uint8_t *at;
    size_t n, first, waiting;
    uint32_t sum; // before the instruction that is walked
};

static int temp_effect(uint8_t op) {
    switch (op) {
    case LOAD_CONST_STR:
    case STR_LOAD_VAR:
    case STR_LOAD_ARRAY_ELEM:
    case STR_LOAD_ARRAY_DEREF:
    case CONCAT_STR:
    case LEFT_STR:
    case RIGHT_STR:
    case MID_STR:
    case INSERT_STR:
    case DELETE_STR:
    case REPLACE_STR: return 1;
    case STR_STORE_VAR:
    case STR_STORE_ARRAY_ELEM:
    case STR_STORE_ARRAY_DEREF: return -1;
    default: return 0;
    }
}

static size_t row_of(const struct program *in, uint32_t id) {
    size_t row = 0;
    while (row < in->functions && in->ids[row] != id)
        row++;
    return row;
}

// A callee that is in the directory gets a cell when it is first met.
static void meet(struct walk *walk, uint32_t id) {
    size_t callee = row_of(walk->of->in, WRONG == 30 ? id % 128 : id);
    uint8_t *cell = walk->of->cells + 128 * walk->row;
    if (callee == walk->of->in->functions)
        return;
    while (*cell && *cell != callee + 1)
        cell++;
    *cell = (uint8_t)(callee + 1);
    uint32_t *live = walk->of->live + (cell - walk->of->cells);
    if (walk->sum > *live)
        *live = walk->sum;
}

static void meet_callee(struct walk *walk, const uint8_t *instruction) {
    const struct pooled *of = walk->of;
    if (*instruction == CALL || (*instruction == METHOD_CALL && WRONG != 31))
        meet(walk, word_at(instruction + 1));
    if (*instruction != FB_CALL)
        return;
    uint32_t id = word_at(instruction + 1);
    size_t found = of->descriptors;
    for (size_t row = 0; row < of->descriptors; row++)
        if (of->types[row] == id && (found == of->descriptors || WRONG == 32))
            found = row;
    if (found < of->descriptors)
        meet(walk, of->callees[found]);
    else if (WRONG == 33)
        meet(walk, id);
}

// The larger number stays, and an offset that gets it waits for its turn; 23 if there is no place.
static uint32_t raise_at(struct walk *walk, size_t to, uint32_t sum) {
    const struct program *in = walk->of->in;
    size_t room = 2 * walk->n + 2;
    if (in->depths[to] > (WRONG == 34 ? 0 : sum))
        return 0;
    if (walk->waiting == room)
        return 23;
    in->depths[to] = sum + 1;
    size_t place = (walk->first + walk->waiting++) % room;
    in->queue[place] = (uint16_t)to;
    in->queue_depths[place] = (uint16_t)sum;
    return 0;
}

static int borrows(const struct program *in, const uint8_t *instruction) {
    if (*instruction != BUILTIN || WRONG == 35)
        return 0;
    uint16_t id = (uint16_t)word_at(instruction + 1);
    return probe_lookup(in->list_ids, in->rows, in->counts, in->rows, in->flags, in->rows, id) / 2 % 2;
}

// One instruction with so many buffers before it: 0, 22 or 23.
static uint32_t tread(struct walk *walk, size_t at, uint32_t sum) {
    struct pooled *of = walk->of;
    const uint8_t *instruction = walk->at + at;
    int effect = temp_effect(*instruction);
    walk->sum = sum;
    if (WRONG != 36)
        meet_callee(walk, instruction);
    if (effect > 0 || borrows(of->in, instruction)) {
        sum++;
        if (WRONG == 37 && sum > of->pool)
            return 0;
        if (sum > of->weights[walk->row] || (WRONG == 38 && sum == of->weights[walk->row])) {
            of->weights[walk->row] = sum;
            of->peaks[walk->row] = at;
        }
        if (sum > of->pool || (WRONG == 39 && sum == of->pool))
            return 0;
    } else if (effect < 0) {
        if (sum == 0 && WRONG == 40)
            return 0;
        sum -= sum > 0 && WRONG != 41;
    }
    size_t next = at + probe_size(*instruction);
    uint32_t flow = probe_flow(*instruction, instruction + 1, next - at - 1);
    if (flow % 4 == 0)
        return raise_at(walk, next, sum);
    if (flow % 4 == 3)
        return 0;
    uint64_t target = probe_target(next, (uint16_t)(flow / 4), of->in->marks, walk->n, walk->n);
    if (target % 2 == 0 || (WRONG == 42 && target / 2 == walk->n))
        return WRONG == 43 ? 0 : 22;
    uint32_t number = 0;
    if (WRONG == 44 && flow % 4 == 2)
        number = raise_at(walk, next, sum);
    if (number == 0)
        number = raise_at(walk, (size_t)(target / 2), sum);
    if (number == 0 && flow % 4 == 2)
        number = raise_at(walk, next, sum);
    return number;
}

// Every branch and every call, reached or not: what a walk must not look at.
static uint32_t look_everywhere(struct walk *walk) {
    const struct program *in = walk->of->in;
    for (size_t at = 0; at < walk->n; at += in->marks[at]) {
        size_t next = at + in->marks[at];
        uint32_t flow = probe_flow(walk->at[at], walk->at + at + 1, next - at - 1);
        if (WRONG == 36)
            meet_callee(walk, walk->at + at);
        if (WRONG == 45 && flow % 4 % 3 != 0 &&
            probe_target(next, (uint16_t)(flow / 4), in->marks, walk->n, walk->n) % 2 == 0)
            return 22;
    }
    return 0;
}

static uint32_t walk_body(struct walk *walk) {
    const struct program *in = walk->of->in;
    uint32_t stop = probe_starts(walk->at, walk->n, in->marks, walk->n);
    if (stop && WRONG != 46)
        return 22;
    uint32_t number = WRONG == 36 || WRONG == 45 ? look_everywhere(walk) : 0;
    if (number == 0)
        number = raise_at(walk, 0, 0);
    while (number == 0 && walk->waiting > 0) {
        size_t room = 2 * walk->n + 2;
        size_t turn = (WRONG == 47 ? walk->first + walk->waiting - 1 : walk->first) % room;
        walk->first = (WRONG == 47 ? walk->first : walk->first + 1) % room;
        walk->waiting--;
        size_t at = in->queue[turn];
        uint32_t sum = in->queue_depths[turn];
        if (WRONG == 46 && stop && at == stop / 4)
            return 22;
        if (at < walk->n && (in->depths[at] == sum + 1 || WRONG == 48))
            number = tread(walk, at, sum);
    }
    return number;
}

enum { UNSEEN, OPEN, CLOSED };

// The depth-first visit from one entry.
struct visit {
    const struct pooled *of;
    uint8_t colours[128];
    uint32_t totals[128];
    uint32_t *answer;
};

// 0 if the function closes within the pool, else 20 or 21.
static uint32_t visit(struct visit *v, size_t row, size_t caller) {
    const struct pooled *of = v->of;
    const uint16_t *ids = of->in->ids;
    uint32_t largest = 0;
    v->colours[row] = OPEN;
    for (size_t i = 0; i < 128; i++) {
        uint8_t cell = of->cells[128 * row + (WRONG == 49 ? 127 - i : i)];
        if (cell == 0 && WRONG != 49)
            break;
        if (cell == 0)
            continue;
        size_t callee = cell - 1u;
        if (v->colours[callee] == OPEN)
            return say(v->answer, 21, ids[WRONG == 50 ? row : callee], 0, 0, 0, 0);
        if (v->colours[callee] == UNSEEN && visit(v, callee, row))
            return v->answer[0];
        uint32_t above = v->totals[callee] + (WRONG == 68 ? of->live[128 * row + i] : 0);
        if (above > largest)
            largest = above;
    }
    uint32_t weight = of->weights[row];
    uint32_t total = weight + largest;
    if (WRONG == 51 || WRONG == 68)
        total = weight > largest ? weight : largest;
    if (WRONG == 52)
        total %= 65536;
    if (total > 65535)
        total = 65535;
    if (total > of->pool && !(WRONG == 53 && caller < 128))
        return say(v->answer, 20, ids[row], WRONG == 54 ? 0 : of->peaks[row], total, of->pool, 0);
    v->totals[row] = total;
    v->colours[row] = WRONG == 55 ? OPEN : CLOSED;
    return 0;
}

static uint32_t visit_entries(const struct pooled *of, uint32_t *answer) {
    size_t last = WRONG == 56 && of->entries_n > 1 ? 1 : of->entries_n;
    for (size_t i = 0; i < last; i++) {
        size_t row = row_of(of->in, of->entries[i]);
        struct visit from = {of, {UNSEEN}, {0}, answer};
        if (row == of->in->functions && WRONG == 57)
            break;
        if (row < of->in->functions && visit(&from, row, 128))
            return answer[0];
    }
    return say(answer, 0, 0, 0, 0, 0, 0);
}

static uint32_t check_pool(struct pooled *of, uint32_t *answer) {
    const struct program *in = of->in;
    memset(of->cells, 0, 128 * 128);
    for (size_t i = 0; i < in->functions; i++) {
        size_t row = WRONG == 58 ? in->functions - 1 - i : i;
        struct walk walk = {of, row, in->code + in->offsets[row], in->lengths[row], 0, 0, 0};
        memset(in->marks, 0, in->code_n);
        memset(in->depths, 0, (in->code_n + 1) * sizeof *in->depths);
        uint32_t number = walk_body(&walk);
        if (number)
            return say(answer, number, in->ids[row], 0, 0, 0, 0);
        if (WRONG == 59 && of->weights[row] > of->pool)
            return say(answer, 20, in->ids[row], of->peaks[row], of->weights[row], of->pool, 0);
    }
    return visit_entries(of, answer);
}

uint32_t probe_pool(uint32_t *answer, size_t answer_n, uint8_t *marks, size_t marks_n, uint32_t *depths, size_t depths_n,
                    uint16_t *queue, size_t queue_n, uint16_t *queue_depths, size_t queue_depths_n, uint8_t *cells,
                    size_t cells_n, const uint16_t *ids, size_t ids_n, const uint16_t *parameters, size_t parameters_n,
                    const uint16_t *maxima, size_t maxima_n, const size_t *offsets, size_t offsets_n, const size_t *lengths,
                    size_t lengths_n, const uint16_t *list_ids, size_t list_ids_n, const uint16_t *counts, size_t counts_n,
                    const uint16_t *flags, size_t flags_n, const uint8_t *code, size_t code_n, const uint16_t *types,
                    size_t types_n, const uint16_t *callees, size_t callees_n, const uint16_t *entries, size_t entries_n,
                    uint16_t pool) {
    const struct program in = {ids,     parameters, maxima, list_ids,   counts, flags,  offsets, lengths,
                               code,    ids_n,      list_ids_n, code_n, marks,  depths, queue,   queue_depths};
    size_t descriptors = types_n < callees_n ? types_n : callees_n;
    static uint32_t live[128 * 128];
    if (WRONG == 68)
        memset(live, 0, sizeof live);
    struct pooled of = {&in, types, callees, entries, descriptors, entries_n, pool, cells, {0}, {0}, live};
    if (answer_n != 6)
        return 30;
    if (ids_n > 128 || parameters_n != ids_n || maxima_n != ids_n || offsets_n != ids_n || lengths_n != ids_n ||
        list_ids_n > 6144 || counts_n != list_ids_n || flags_n != list_ids_n || code_n > 12288 ||
        types_n > (WRONG == 60 ? 255 : 256) || (callees_n != types_n && WRONG != 61) || entries_n > (WRONG == 62 ? 31 : 32))
        return say(answer, 31, 0, 0, 0, 0, 0);
    if (marks_n < code_n || depths_n < code_n + 1 || queue_n < 2 * code_n + 2 || queue_depths_n < 2 * code_n + 2 ||
        cells_n < (WRONG == 63 ? 16383 : 16384))
        return say(answer, 30, 0, 0, 0, 0, 0);
    if (WRONG == 64 && pool == 65535)
        return say(answer, 35, 0, 0, 0, 0, 0);
    if (refused(&in, answer))
        return answer[0];
    if (pool == 65535 && WRONG != 65)
        return say(answer, 35, 0, 0, 0, 0, 0);
    check_pool(&of, answer);
    memset(marks, 0, marks_n);
    memset(depths, 0, depths_n * sizeof *depths);
    memset(queue, 0, queue_n * sizeof *queue);
    memset(queue_depths, 0, queue_depths_n * sizeof *queue_depths);
    if (WRONG != 66)
        memset(cells, 0, WRONG == 67 ? 16384 : cells_n);
    return answer[0];
}
