/* The soundness check in C: one walk along the stack, one along the unused list, one over the buckets, no memory of its own and
 * no test of an address that is known to be there. A mark that the library's check is timed against; never linked into it. */
#include <stdbool.h>
#include <stddef.h>
#include <stdint.h>

enum { VALUE = (1 << 28) - 1, NUMBER = 1, LINK = 2, MAX_CHAIN = 64 };
enum { N, NEW, OLD, CMAX, AMAX, B, M, RESIDENTS, SUM, HEAD, TAIL, AT_NEW, AT_OLD, UNUSED, ZERO_A, ZERO_B };
enum { READS = 16, WRITES = 18, INS = 20, OUTS = 22, CHAINS = 24 };
enum { BLOCK, COUNT, SECTION, MODIFIED, TO_HEAD, TO_TAIL, CHAIN_TO_HEAD, CHAIN_TO_TAIL, SYNONYM, WORDS };

struct check {
    const uint32_t *dir, *entries; /* entry e has the nine words from entries + 9 * e on */
    uint32_t n, new, first_old, cmax, amax, m, buckets;
};

static uint32_t at(const uint32_t *words, size_t i) { return words[i] & VALUE; }
static const uint32_t *entry(const struct check *c, uint32_t e) { return c->entries + (size_t)WORDS * e; }
static bool outside(uint32_t value, uint32_t max) { return value < 1 || value > max; }
static uint64_t total(const uint32_t *dir, size_t low) { return at(dir, low) + ((uint64_t)at(dir, low + 1) << 28); }

static bool all_of(const uint32_t *words, size_t length, uint32_t kind) {
    for (size_t i = 0; i < length; i++)
        if (words[i] >> 28 != kind) return false;
    return true;
}

static bool kinds(const struct check *c) {
    const uint32_t *d = c->dir;
    if (!all_of(d, HEAD, NUMBER) || !all_of(d + HEAD, 5, LINK) || !all_of(d + ZERO_A, 10, NUMBER)) return false;
    if (!all_of(d + CHAINS, 2 * c->cmax + c->buckets, LINK)) return false;
    for (uint32_t e = 1; e <= c->n; e++)
        if (!all_of(entry(c, e), TO_HEAD, NUMBER) || !all_of(entry(c, e) + TO_HEAD, WORDS - TO_HEAD, LINK)) return false;
    return true;
}

/* The link behind the last resident seen of a count. */
static uint32_t behind(const struct check *c, uint32_t count, uint32_t last) {
    return last ? at(entry(c, last), CHAIN_TO_TAIL) : at(c->dir, CHAINS + 2 * (count - 1));
}

static bool chained(const struct check *c, uint32_t e, const uint32_t *x, uint32_t *last) {
    uint32_t count = at(x, COUNT);
    if (count > c->cmax) return at(x, CHAIN_TO_HEAD) == 0 && at(x, CHAIN_TO_TAIL) == 0;
    uint32_t before = last[count];
    last[count] = e;
    return at(x, CHAIN_TO_HEAD) == before && behind(c, count, before) == e;
}

static bool chains_end(const struct check *c, const uint32_t *last) {
    for (uint32_t i = 1; i <= c->cmax; i++)
        if (behind(c, i, last[i]) != 0 || at(c->dir, CHAINS + 2 * i - 1) != last[i]) return false;
    return true;
}

/* A number, whose kind was tested: a pin apart, 0 alone of the even ones, 1 and 3 of the odd ones. */
static bool wrong_marks(uint32_t word) { return (word & ~4u) > ((uint32_t)NUMBER << 28) + 3 * (word & 1); }

static bool stack(const struct check *c) {
    const uint32_t *d = c->dir;
    uint32_t last[MAX_CHAIN + 1] = {0};
    uint32_t r = at(d, RESIDENTS), e = at(d, HEAD), before = 0, at_new = 0, at_old = 0;
    uint64_t sum = 0, modified = 0;
    if (r > c->n) return false;
    for (uint32_t p = 0; p < r; p++) {
        if (e == 0 || e > c->n) return false;
        const uint32_t *x = entry(c, e);
        uint32_t section = p < c->new ? 0 : p < c->first_old ? 1 : 2;
        if (at(x, TO_HEAD) != before || at(x, BLOCK) >= c->m || outside(at(x, COUNT), 65535)) return false;
        if (at(x, SECTION) != section || wrong_marks(x[MODIFIED]) || !chained(c, e, x, last)) return false;
        if (p == c->new) at_new = e;
        if (p == c->first_old) at_old = e;
        sum += at(x, COUNT);
        modified += x[MODIFIED] & 1;
        before = e;
        e = at(x, TO_TAIL);
    }
    return e == 0 && before == at(d, TAIL) && sum == at(d, SUM) && sum <= (uint64_t)c->amax * c->n && at_new == at(d, AT_NEW) &&
           at_old == at(d, AT_OLD) && at(d, ZERO_A) == 0 && at(d, ZERO_B) == 0 && chains_end(c, last) &&
           total(d, INS) <= total(d, READS) && total(d, OUTS) + modified <= total(d, WRITES);
}

static bool unused(const struct check *c) {
    uint32_t e = at(c->dir, UNUSED);
    for (uint32_t k = at(c->dir, RESIDENTS); k < c->n; k++) {
        if (e == 0 || e > c->n) return false;
        const uint32_t *x = entry(c, e);
        uint32_t any = x[BLOCK] | x[COUNT] | x[SECTION] | x[MODIFIED] | x[TO_HEAD] | x[CHAIN_TO_HEAD] | x[CHAIN_TO_TAIL] | x[SYNONYM];
        if ((any & VALUE) != 0) return false;
        e = at(x, TO_TAIL);
    }
    return e == 0;
}

static uint32_t fnv(uint32_t block) {
    uint32_t h = 2166136261u;
    for (int i = 0; i < 4; i++) h = (h ^ (block >> (8 * i) & 255)) * 16777619u;
    return h;
}

/* Whether a bucket lists a block before entry end; the entries before it were tested. */
static bool listed(const struct check *c, uint32_t first, uint32_t end, uint32_t block) {
    for (uint32_t e = first; e != end; e = at(entry(c, e), SYNONYM))
        if (at(entry(c, e), BLOCK) == block) return true;
    return false;
}

static bool in_buckets(const struct check *c) {
    uint32_t left = at(c->dir, RESIDENTS);
    for (uint32_t b = 0; b < c->buckets; b++) {
        uint32_t first = at(c->dir, CHAINS + 2 * c->cmax + b);
        for (uint32_t e = first; e != 0; e = at(entry(c, e), SYNONYM)) {
            if (left-- == 0 || e > c->n || at(entry(c, e), COUNT) == 0) return false;
            uint32_t block = at(entry(c, e), BLOCK);
            if ((fnv(block) & (c->buckets - 1)) != b || listed(c, first, e, block)) return false;
        }
    }
    return left == 0;
}

uint32_t c_sound(const uint32_t *dir, size_t length) {
    if (length < CHAINS) return 0;
    struct check c = {.dir = dir, .n = at(dir, N), .new = at(dir, NEW), .cmax = at(dir, CMAX), .amax = at(dir, AMAX), .m = at(dir, M)};
    uint32_t old = at(dir, OLD);
    if (outside(c.n, 4096) || old == 0 || c.new + old > c.n || outside(c.cmax, MAX_CHAIN) || outside(c.amax, 1000)) return 0;
    if (outside(at(dir, B), 4096) || outside(c.m, 262144)) return 0;
    c.first_old = c.n - old;
    for (c.buckets = 1; c.buckets < c.n;) c.buckets *= 2;
    size_t base = CHAINS + 2 * c.cmax + c.buckets;
    if (length < base + (size_t)WORDS * c.n) return 0;
    c.entries = dir + base - WORDS;
    return kinds(&c) && stack(&c) && unused(&c) && in_buckets(&c);
}
