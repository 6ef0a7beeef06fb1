// The driver of the bench file's comparison: lends columns to the probes and shows what became of every cell (PROTOCOL.md).

#include "file_probe.h"
#include "pipe.h"

#include <string.h>

enum { READ = 7, WRITE = 8 };

enum {
    LIST_IDS,
    LIST_COUNTS,
    LIST_FLAGS,
    FUNCTION_IDS,
    PARAMETERS,
    MAXIMA,
    OFFSETS,
    LENGTHS,
    TYPE_IDS,
    DESCRIPTOR_FUNCTIONS,
    ENTRIES,
    CODE,
    COLUMNS
};

static const size_t width[COLUMNS] = {2, 2, 2, 2, 2, 2, sizeof(size_t), sizeof(size_t), 2, 2, 2, 1};

// Which of the six sizes of a read file counts a column's cells: the third number of the answer is the pool.
static const int size_of[COLUMNS] = {3, 3, 3, 4, 4, 4, 4, 4, 5, 5, 6, 7};

// Behind what is lent lie more bytes of the fill, which are not.
#define BEHIND 64

static struct bytes column[COLUMNS], out;
static size_t lent[COLUMNS], used[COLUMNS];

static uint16_t *words(int c) {
    return (uint16_t *)(void *)column[c].at;
}

static size_t *sizes(int c) {
    return (size_t *)(void *)column[c].at;
}

static void fill(struct bytes *b, size_t length, uint8_t byte) {
    resize(b, length + BEHIND);
    memset(b->at, byte, length + BEHIND);
}

static void next_lengths(size_t n[COLUMNS], struct reader *from) {
    for (int c = 0; c < COLUMNS; c++) {
        n[c] = (size_t)next_number(from, 4);
        if (n[c] > LONGEST)
            stop("a column that is too long");
    }
}

// Writes the columns' used cells into so many bytes: the number, whether the rest stayed as it was, and the file.
static void answer_wrote(size_t room, uint16_t pool, uint8_t byte) {
    fill(&out, room, byte);
    uint32_t wrote = file_probe_write(
        out.at, room, pool, words(LIST_IDS), used[LIST_IDS], words(LIST_COUNTS), used[LIST_COUNTS], words(LIST_FLAGS),
        used[LIST_FLAGS], words(FUNCTION_IDS), used[FUNCTION_IDS], words(PARAMETERS), used[PARAMETERS], words(MAXIMA),
        used[MAXIMA], sizes(OFFSETS), used[OFFSETS], sizes(LENGTHS), used[LENGTHS], words(TYPE_IDS), used[TYPE_IDS],
        words(DESCRIPTOR_FUNCTIONS), used[DESCRIPTOR_FUNCTIONS], words(ENTRIES), used[ENTRIES], column[CODE].at, used[CODE]);
    size_t length = wrote % 4 ? 0 : wrote / 4;
    if (length > room)
        stop("a file that is longer than its buffer");
    put(wrote, 4);
    put(!all_are(byte, out.at + length, room - length + BEHIND), 1);
    put(length, 4);
    put_bytes(out.at, length);
}

static uint32_t numbers[8];

static uint32_t read_into_columns(const uint8_t *file, size_t n) {
    return file_probe_read(
        numbers, 8, words(LIST_IDS), lent[LIST_IDS], words(LIST_COUNTS), lent[LIST_COUNTS], words(LIST_FLAGS),
        lent[LIST_FLAGS], words(FUNCTION_IDS), lent[FUNCTION_IDS], words(PARAMETERS), lent[PARAMETERS], words(MAXIMA),
        lent[MAXIMA], sizes(OFFSETS), lent[OFFSETS], sizes(LENGTHS), lent[LENGTHS], words(TYPE_IDS), lent[TYPE_IDS],
        words(DESCRIPTOR_FUNCTIONS), lent[DESCRIPTOR_FUNCTIONS], words(ENTRIES), lent[ENTRIES], column[CODE].at, lent[CODE],
        file, n);
}

// Of each column the cells that the sizes count, which are none for a refused file; all others must be as they were.
static int spare_changed(uint8_t byte) {
    int changed = 0;
    for (int c = 0; c < COLUMNS; c++) {
        used[c] = numbers[0] ? 0 : numbers[size_of[c]];
        if (used[c] > lent[c])
            stop("more cells than were lent");
        size_t front = used[c] * width[c];
        changed |= !all_are(byte, column[c].at + front, lent[c] * width[c] - front + BEHIND);
    }
    return changed;
}

static void answer_read(struct reader from) {
    uint8_t byte = (uint8_t)next_number(&from, 1);
    next_lengths(lent, &from);
    for (int c = 0; c < COLUMNS; c++)
        fill(&column[c], lent[c] * width[c], byte);
    memset(numbers, 0, sizeof numbers);
    size_t n = from.left;
    uint32_t number = read_into_columns(next_bytes(&from, n), n);
    int changed = spare_changed(byte) || number != numbers[0];
    for (int i = 0; i < 8; i++)
        put(numbers[i], 4);
    put((uint64_t)changed, 1);
    if (number)
        return;
    for (int c = 0; c < COLUMNS; c++)
        put_bytes(column[c].at, used[c] * width[c]);
    answer_wrote(n, (uint16_t)numbers[2], byte);
    answer_wrote(n - 1, (uint16_t)numbers[2], byte);
}

static void answer_write(struct reader from) {
    uint8_t byte = (uint8_t)next_number(&from, 1);
    size_t room = (size_t)next_number(&from, 4);
    uint16_t pool = (uint16_t)next_number(&from, 2);
    if (room > LONGEST)
        stop("a buffer that is too long");
    next_lengths(used, &from);
    for (int c = 0; c < COLUMNS; c++) {
        resize(&column[c], used[c] * width[c]);
        memcpy(column[c].at, next_bytes(&from, used[c] * width[c]), used[c] * width[c]);
    }
    if (from.left)
        stop("bytes behind the last column");
    answer_wrote(room, pool, byte);
}

void answer_request(int kind, const uint8_t *bytes, size_t n) {
    switch (kind) {
    case READ: answer_read((struct reader){bytes, n}); break;
    case WRITE: answer_write((struct reader){bytes, n}); break;
    default: stop("a request of no known kind");
    }
}
