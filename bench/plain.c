// The loops of simulate and run in plain C, on the data of crates/bench: with the library's checks
// before each call, or (second argument "bare") without them.
#include <stdbool.h>
#include <stddef.h>
#include <stdint.h>
#include <stdio.h>
#include <stdlib.h>
#include <string.h>
#include <time.h>

enum { INPUTS = 64, GATES = 25000, COLUMNS = 64, JOINS = 1024 };

typedef struct {
    uint8_t arity;
    size_t a, b;
    uint8_t table;
} Gate;

typedef struct {
    bool generate, propagate;
} Carry;

static bool checked = true;
static Gate gates[GATES];
static uint8_t inputs[INPUTS], values[INPUTS + GATES];
static size_t lows[JOINS], highs[JOINS];
static Carry elements[COLUMNS], carries[COLUMNS + JOINS];

static uint64_t next(uint64_t *x) {
    *x = *x * 6364136223846793005u + 1442695040888963407u;
    return *x >> 33;
}

static uint64_t mixed(uint64_t sum, uint8_t value) { return sum * 31 + value; }

static uint64_t now(void) {
    struct timespec t;
    clock_gettime(CLOCK_MONOTONIC, &t);
    return (uint64_t)t.tv_sec * 1000000000u + (uint64_t)t.tv_nsec;
}

static bool good(const Gate *g, size_t signal) {
    switch (g->arity) {
    case 0: return g->table < 2 && g->a == 0 && g->b == 0;
    case 1: return g->table < 4 && g->a < signal && g->b == 0;
    case 2: return g->table < 16 && g->a < signal && g->b < signal;
    default: return false;
    }
}

__attribute__((noinline)) static bool simulate(const uint8_t *in, size_t m, const Gate *gs, size_t n, uint8_t *out, size_t slots) {
    if (checked) {
        if (m > 1024 || n > 1048576 || slots != m + n) return false;
        for (size_t i = 0; i < m; i++)
            if (in[i] > 1) return false;
        for (size_t k = 0; k < n; k++)
            if (!good(&gs[k], m + k)) return false;
    }
    memcpy(out, in, m);
    for (size_t k = 0; k < n; k++) {
        const Gate *g = &gs[k];
        unsigned row = g->arity == 0 ? 0 : g->arity == 1 ? out[g->a] : 2u * out[g->a] + out[g->b];
        out[m + k] = (uint8_t)((g->table >> row) & 1);
    }
    return true;
}

__attribute__((noinline)) static bool run(const Carry *in, size_t n, Carry *out, size_t slots) {
    if (checked && (n != COLUMNS || slots != n + JOINS)) return false;
    memcpy(out, in, n * sizeof *in);
    for (size_t r = 0; r < JOINS; r++) {
        Carry l = out[lows[r]], h = out[highs[r]];
        out[n + r] = (Carry){h.generate | (h.propagate & l.generate), h.propagate & l.propagate};
    }
    return true;
}

int main(int argc, char **argv) {
    uint64_t rounds = argc > 1 ? strtoull(argv[1], NULL, 10) : 0, turns = rounds ? rounds : 1;
    checked = !(argc > 2 && strcmp(argv[2], "bare") == 0);
    uint64_t x = 1;
    for (size_t k = 0; k < GATES; k++) {
        uint64_t n = INPUTS + k;
        size_t a = next(&x) % n, b = next(&x) % n;
        uint8_t table = next(&x) % 16;
        gates[k] = table % 5 == 0 ? (Gate){1, a, 0, table % 4} : (Gate){2, a, b, table};
    }
    uint64_t sum = 0, start = now();
    for (uint64_t round = 0; round < turns; round++) {
        inputs[round % 64] ^= 1;
        if (!simulate(inputs, INPUTS, gates, GATES, values, sizeof values)) return 1;
        sum = mixed(sum, values[INPUTS + GATES - 1]);
    }
    uint64_t taken = now() - start;
    for (size_t i = 0; i < sizeof values; i++) sum = mixed(sum, values[i]);
    printf("simulate %llu\n", (unsigned long long)sum);

    size_t joins = 0, low = 0;
    for (size_t high = 1; high < COLUMNS; high++) {
        lows[joins] = low, highs[joins] = high;
        low = COLUMNS + joins++;
    }
    for (size_t k = 0; k < 961; k++) lows[joins] = k % 63, highs[joins] = k % 63 + 1, joins++;
    for (size_t i = 0; i < COLUMNS; i++) elements[i] = (Carry){false, true};
    turns = rounds ? 100 * rounds : 1;
    sum = 0, start = now();
    for (uint64_t round = 0; round < turns; round++) {
        elements[round % 64].generate ^= 1;
        if (!run(elements, COLUMNS, carries, COLUMNS + JOINS)) return 1;
        sum = mixed(sum, carries[COLUMNS + JOINS - 1].generate);
    }
    uint64_t run_taken = now() - start;
    for (size_t i = 0; i < COLUMNS + JOINS; i++) sum = mixed(sum, 2 * carries[i].generate + carries[i].propagate);
    printf("run %llu\n", (unsigned long long)sum);
    if (rounds) printf("nanoseconds %llu %llu\n", (unsigned long long)taken, (unsigned long long)run_taken);
    return 0;
}
