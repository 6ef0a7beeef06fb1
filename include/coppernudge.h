// Coppernudge: checks a crane program before it is loaded. For C, over the static library libcoppernudge.a (x86-64), which `rt lib`
// in crates/coppernudge writes to crates/coppernudge/out/.
#ifndef COPPERNUDGE_H
#define COPPERNUDGE_H

#include <stddef.h>
#include <stdint.h>

#ifdef __cplusplus
extern "C" {
#endif

// The bytes of an answer: twelve fields of 32 bits.
#define COPPERNUDGE_ANSWER_BYTES 48

// Checks the bench file at `file` and writes what was found to `answer`.
//
// Returns 0 if both checks were made. Then the first 48 bytes of `answer` hold twelve fields of 32 bits each, low byte first, whatever the machine's own
// order: number, function, offset, a, b, c of the stack check, and the same six of the pool check. Bytes behind the 48 keep their values. A program is fit
// to be loaded only if both numbers are 0.
//
//   number  stack check                     a, b, c                    number  pool check                 a, b
//   0       accepted                        0                          0       accepted                   0
//   1       unknown byte                    the byte                   20      more buffers than the pool  needed, declared
//   2       cut instruction                 its opcode                 21      functions call in a circle  0
//   3       unknown built-in                its id                     22      cannot be decoded           0
//   4       unknown callee                  its id                     23      the queue is full           0
//   5       takes more than there is        opcode, needs, has
//   6       above the declared maximum      depth, declared
//   7       branch to an illegal target     the target, signed
//   8       paths meet at different depths  existing, incoming
//   9       leaves at a wrong depth         expected, actual
//
// Fields that are not used are 0. Field a of answer 7 is a signed number in two's complement. docs/HELP.md says in plain words what each answer means.
//
// Returns another number if the input is refused; then `answer` is untouched:
//
//   30  answer_len is below 48; the file was not looked at
//   31  a count above its limit              40  a number that is not written as it must be
//   32  a function id repeated               41  the file ends too early
//   33  a body outside of the code           42  bytes left over
//   34  the code list is not in order        43  more than 65,536 bytes
//   35  declared pool 65,535
//
// `file` has to be readable for file_len bytes and `answer` writable for answer_len; they must not overlap. A pointer may be NULL where its length is 0.
// The library has no state and calls nothing: any number of threads may be in it at once. It takes its working room from the caller's stack, up to
// 1 MiB (docs/SPEED.md has what was measured). It always returns; how long that can take is in README.md.
uint32_t coppernudge_check(const uint8_t *file, size_t file_len, uint8_t *answer, size_t answer_len);

#ifdef __cplusplus
}
#endif

#endif
