/* The joiner against plain C doing the same work, in one run: two lists of 1,024 sets.
   The worst case that has a result: 1,024 sets of which none is inside another, from the last in the order to the first, in both
   lists. Each set of the left list is compared with all before it, twice, and each of the right meets its equal.
   Two more have more sets kept on the way than there is room: 2,048 sets of which none is inside another, which is refused, and the
   same where smaller sets at the end drop most of them. */
#include "../include/wizogbare.h"
#include "kept.h"

#include <stdint.h>
#include <stdio.h>
#include <stdlib.h>
#include <string.h>
#include <time.h>

static uint64_t c_join(const uint64_t *left, size_t n, const uint64_t *right, size_t m, uint64_t *out, size_t room) {
    uint64_t kept[2048 + ENDS];
    size_t count = 0;
    if (n > 1024 || m > 1024 || room > 1024) return 20ull << 32;
    for (size_t i = 0; i < n; i++) count = keep(kept, count, left[i]);
    for (size_t i = 0; i < m; i++) count = keep(kept, count, right[i]);
    if (count > room) {
        memset(out, 0, room * sizeof *out);
        return 31ull << 32;
    }
    send_out(kept, count, out);
    memset(out + count, 0, (room - count) * sizeof *out);
    return count;
}

static double seconds(void) {
    struct timespec t;
    clock_gettime(CLOCK_MONOTONIC, &t);
    return t.tv_sec + 1e-9 * t.tv_nsec;
}

typedef uint64_t joiner(const uint64_t *, size_t, const uint64_t *, size_t, uint64_t *, size_t);

static double best(joiner *join, const uint64_t *left, const uint64_t *right, uint64_t *out, uint64_t *answer) {
    double least = 1e9;
    for (int run = 0; run < 20; run++) {
        double start = seconds();
        *answer = join(left, 1024, right, 1024, out, 1024);
        double took = seconds() - start;
        if (took < least) least = took;
    }
    return least;
}

static void report(const char *name, const uint64_t *left, const uint64_t *right) {
    static uint64_t ours[1024], theirs[1024];
    uint64_t a, b;
    double engine = best(wizogbare_join, left, right, ours, &a);
    double c = best(c_join, left, right, theirs, &b);
    if (a != b || memcmp(ours, theirs, sizeof ours)) {
        printf("%s: the answers differ\n", name);
        exit(1);
    }
    printf("| %s | %.0f | %.0f | %.2f |\n", name, 1e6 * engine, 1e6 * c, engine / c);
}

int main(void) {
    static uint64_t all[2048], random_sets[1024], other[1024], dropping[1024];
    const uint64_t *more = all, *apart = all + 1024;
    size_t n = 0;
    /* sets of three members: none is inside another */
    for (int i = 0; n < 2048; i++)
        for (int j = 0; j < i; j++)
            for (int k = 0; k < j && n < 2048; k++) all[2047 - n++] = 1ull << i | 1ull << j | 1ull << k;
    memcpy(dropping, more, sizeof dropping);
    for (int i = 0; i < 20; i++) dropping[1023 - i] = 1ull << i;
    uint64_t x = 88172645463325252ull;
    for (int i = 0; i < 2048; i++) {
        x ^= x << 13, x ^= x >> 7, x ^= x << 17;
        (i < 1024 ? random_sets : other)[i % 1024] = x & (x >> 11) & 0xffffff;
    }
    printf("| two lists of 1,024 sets | engine, us | C, us | ratio |\n|---|---|---|---|\n");
    report("worst case: none inside another, both lists the same, last first", apart, apart);
    report("2,048 sets, none inside another: no room", apart, more);
    report("the same, with 20 small sets at the end", apart, dropping);
    report("random sets of some six of 24", random_sets, other);
    return 0;
}
