/* Plain bodies of the hot loops of lop_fix, lop_leaf and lop_value, to compare with. It proves nothing.

   Usage: kernels N     (2 to 512 objects; entries below 100,000, drawn by xorshift from a fixed seed)

   Prints the processor time of each loop in microseconds (the best of several runs) and what it computed: the packing
   of 3-dicycles, the Lagrangian value with no term, with 1,000 dicycles and with all that were packed, the closure of a
   path of all objects, and the weight of the order 1 to n, read from a list. */
#include <stdint.h>
#include <stdio.h>
#include <stdlib.h>
#include <string.h>
#include <time.h>

enum { MAX_TERMS = 4096, RUNS = 20 };

typedef __int128 wide;

struct term {
    uint16_t a, b, c;
    int64_t multiplier;
};

static int n, words;
static int64_t *entries, *margins;
static wide *charges;
static uint64_t *fixed;
static uint16_t *order;
static struct term terms[MAX_TERMS];
static int term_count;

static void draw(void) {
    uint64_t x = 88172645463325252u;
    for (int k = 0; k < n * n; k++) {
        x ^= x << 13;
        x ^= x >> 7;
        x ^= x << 17;
        entries[k] = (int64_t)(x % 100000);
    }
}

static int is_fixed(int a, int b) { return fixed[a * words + b / 64] >> (b % 64) & 1; }

/* What is left of the margins of the pairs i < j: no limit where the pair is fixed. Gives the pair bound. */
static int64_t load_margins(void) {
    int64_t bound = 0;
    for (int i = 0; i < n; i++)
        for (int j = i + 1; j < n; j++) {
            int64_t forth = entries[i * n + j], back = entries[j * n + i];
            if (is_fixed(i, j))
                margins[i * n + j] = INT64_MAX, bound += forth;
            else if (is_fixed(j, i))
                margins[i * n + j] = -INT64_MAX, bound += back;
            else
                margins[i * n + j] = forth - back, bound += forth > back ? forth : back;
        }
    return bound;
}

static int64_t least(int64_t a, int64_t b) { return a < b ? a : b; }

static int64_t lowered(int64_t margin, int64_t by) {
    return margin == INT64_MAX || margin == -INT64_MAX ? margin : margin - by;
}

static int64_t packing(void) {
    int64_t bound = load_margins();
    term_count = 0;
    for (int i = 0; i < n; i++)
        for (int j = i + 1; j < n; j++) {
            int64_t *row_i = margins + i * n, *row_j = margins + j * n;
            for (int k = j + 1; k < n && row_i[j] != 0 && term_count < MAX_TERMS; k++) {
                int64_t sign = row_i[j] > 0 ? 1 : -1;
                int64_t m = least(sign * row_i[j], least(sign * row_j[k], -sign * row_i[k]));
                if (m <= 0) continue;
                row_i[j] = lowered(row_i[j], sign * m);
                row_j[k] = lowered(row_j[k], sign * m);
                row_i[k] = lowered(row_i[k], -sign * m);
                terms[term_count].a = i;
                terms[term_count].b = sign > 0 ? j : k;
                terms[term_count].c = sign > 0 ? k : j;
                terms[term_count++].multiplier = m;
                bound -= m;
            }
        }
    return bound;
}

static wide greatest(wide a, wide b) { return a > b ? a : b; }

static wide upper(int count) {
    wide sum = 0;
    for (int t = 0; t < count; t++) {
        struct term *u = terms + t;
        charges[u->a * n + u->b] = charges[u->b * n + u->c] = charges[u->c * n + u->a] = 0;
    }
    for (int t = 0; t < count; t++) {
        struct term *u = terms + t;
        charges[u->a * n + u->b] += u->multiplier;
        charges[u->b * n + u->c] += u->multiplier;
        charges[u->c * n + u->a] += u->multiplier;
        sum += 2 * (wide)u->multiplier;
    }
    for (int i = 0; i < n; i++)
        for (int j = i + 1; j < n; j++) {
            wide forth = entries[i * n + j] - charges[i * n + j], back = entries[j * n + i] - charges[j * n + i];
            sum += is_fixed(i, j) ? forth : is_fixed(j, i) ? back : greatest(forth, back);
        }
    for (int t = 0; t < count; t++) {
        struct term *u = terms + t;
        charges[u->a * n + u->b] = charges[u->b * n + u->c] = charges[u->c * n + u->a] = 0;
    }
    return sum;
}

/* Relates each object at a or before it to b and to each object after b. */
static void relate(int a, int b) {
    for (int x = 0; x < n; x++)
        if (x == a || is_fixed(x, a)) {
            fixed[x * words + b / 64] |= (uint64_t)1 << (b % 64);
            for (int k = 0; k < words; k++) fixed[x * words + k] |= fixed[b * words + k];
        }
}

static int closure(void) {
    memset(fixed, 0, (size_t)n * words * sizeof *fixed);
    for (int a = 0; a + 1 < n; a++) relate(a, a + 1);
    return is_fixed(0, n - 1);
}

static int64_t value(void) {
    int64_t sum = 0;
    for (int p = 0; p < n; p++)
        for (int q = p + 1; q < n; q++) sum += entries[order[p] * n + order[q]];
    return sum;
}

static double now(void) {
    struct timespec t;
    clock_gettime(CLOCK_PROCESS_CPUTIME_ID, &t);
    return t.tv_sec * 1e6 + t.tv_nsec * 1e-3;
}

static int64_t upper_plain(void) { return (int64_t)upper(0); }

static int64_t upper_thousand(void) { return (int64_t)upper(term_count < 1000 ? term_count : 1000); }

static int64_t upper_packed(void) { return (int64_t)upper(term_count); }

static int64_t closed(void) { return closure(); }

static void measure(const char *name, int64_t (*body)(void)) {
    double best = 1e18;
    int64_t result = 0;
    for (int run = 0; run < RUNS; run++) {
        double from = now();
        result = body();
        double took = now() - from;
        if (took < best) best = took;
    }
    printf("%-28s %10.1f us   %lld\n", name, best, (long long)result);
}

int main(int count, char **words_given) {
    n = count > 1 ? atoi(words_given[1]) : 0;
    if (n < 2 || n > 512) return 2;
    words = (n + 63) / 64;
    entries = calloc((size_t)n * n, sizeof *entries);
    margins = calloc((size_t)n * n, sizeof *margins);
    charges = calloc((size_t)n * n, sizeof *charges);
    fixed = calloc((size_t)n * words, sizeof *fixed);
    order = calloc((size_t)n, sizeof *order);
    if (!entries || !margins || !charges || !fixed || !order) return 4;
    draw();
    for (int p = 0; p < n; p++) order[p] = p;
    measure("packing", packing);
    measure("upper, no term", upper_plain);
    measure("upper, 1,000 terms", upper_thousand);
    measure("upper, terms of packing", upper_packed);
    measure("value", value);
    measure("closure of a path", closed);
    return 0;
}
