// The permanent modulo 3 of the matrix that the program `large` takes: the same sum over the
// positions of the Gray code, in plain C, with two bit planes to a row.
#include <stdint.h>
#include <stdio.h>

enum { SIZE = 26 };

// A place has 0 where both bits are set, 1 where the first is clear, and 2 where the second is clear.
typedef struct {
    uint64_t first;
    uint64_t second;
} planes;

static planes sum(planes v, planes w) {
    uint64_t t1 = v.first ^ w.first;
    uint64_t t2 = v.second ^ w.second;
    return (planes){t2 | (t1 ^ v.second), t1 | (t2 ^ v.first)};
}

static planes negation(planes v) {
    return (planes){v.second, v.first};
}

static unsigned product(planes v) {
    uint64_t low = ((uint64_t)1 << SIZE) - 1;
    if (v.first & v.second & low) {
        return 0;
    }
    return 1 + (unsigned)__builtin_popcountll(~v.second & low) % 2;
}

static uint32_t draw(planes *row, uint32_t seed) {
    *row = (planes){UINT64_MAX, UINT64_MAX};
    for (int place = 0; place < SIZE; place++) {
        seed = seed * 1103515245u + 12345u;
        uint32_t digit = seed / 65536 % 3;
        row->first &= ~((uint64_t)(digit == 1) << place);
        row->second &= ~((uint64_t)(digit == 2) << place);
    }
    return seed;
}

static unsigned permanent(const planes *rows) {
    planes running = {UINT64_MAX, UINT64_MAX};
    unsigned total = 0;
    for (uint64_t position = 1; position < (uint64_t)1 << SIZE; position++) {
        int row = __builtin_ctzll(position);
        uint64_t code = position ^ position >> 1;
        planes toggled = rows[row];
        running = sum(running, code >> row & 1 ? toggled : negation(toggled));
        unsigned term = product(running);
        total = (total + ((SIZE + position) % 2 ? 2 * term : term)) % 3;
    }
    return total;
}

int main(void) {
    planes rows[SIZE];
    uint32_t seed = 2;
    for (int row = 0; row < SIZE; row++) {
        seed = draw(&rows[row], seed);
    }
    printf("size %d: permanent %u\n", SIZE, permanent(rows));
    return 0;
}
