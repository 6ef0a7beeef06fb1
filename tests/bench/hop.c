// The least that any decoding must do: hop over a body by a table of sizes. The yardstick of the timings.

#include <stddef.h>
#include <stdint.h>

size_t hop(const uint8_t *size, const uint8_t *body, size_t n);

size_t hop(const uint8_t *size, const uint8_t *body, size_t n) {
    size_t at = 0;
    while (at < n)
        at += size[body[at]];
    return at;
}
