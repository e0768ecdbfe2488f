/* The check of document 01, with Items 4 and 6 of document 02, in plain C, written for speed: what the proved check is measured against. Same rules, same order, same answer word.
 * The counts of page 0 are worked out in the pass over the pages, and compared last.
 * Built once for each page size (-DPAGE, -DDEEPEST); which is asked is the caller's to say, by the number at 20.
 * A page's slots are read once, then its records in the order in which they lie; the directory is counted once, and what the rows of a prefix need is a
 * difference of two sums. */
#include <emmintrin.h>
#include <stddef.h>
#include <stdint.h>
#include <string.h>

enum { CAPACITY = PAGE - 8, ENTRIES = 1 << DEEPEST, MOST = ENTRIES + 2, NUMBER = PAGE == 1024 ? 0 : PAGE, KIND = 1 << 14 };

#define REFUSED(number, page) ((uint64_t)1 << 63 | (uint64_t)(page) << 8 | (number))
#define APART static __attribute__((noinline)) /* inlined, these would share too few registers */

static inline uint32_t get16(const uint8_t *p) {
    uint16_t v;
    memcpy(&v, p, 2);
    return v;
}

static inline uint32_t get32(const uint8_t *p) {
    uint32_t v;
    memcpy(&v, p, 4);
    return v;
}

static inline uint64_t get64(const uint8_t *p) {
    uint64_t v;
    memcpy(&v, p, 8);
    return v;
}

static inline uint32_t top(uint32_t h, uint32_t k) { return (uint32_t)((uint64_t)h << k >> 32); }

static inline uint32_t step(uint32_t h, uint8_t byte) { return (h ^ byte) * 16777619u; }

/* FNV-1a: the odd bytes first, then eight a turn. */
static inline uint32_t hash(const uint8_t *code, uint32_t len) {
    uint32_t h = 2166136261u, odd = len % 8;
    const uint8_t *end = code + len, *c = code + odd;
    switch (odd) {
    case 7: h = step(h, c[-7]); /* fall through */
    case 6: h = step(h, c[-6]); /* fall through */
    case 5: h = step(h, c[-5]); /* fall through */
    case 4: h = step(h, c[-4]); /* fall through */
    case 3: h = step(h, c[-3]); /* fall through */
    case 2: h = step(h, c[-2]); /* fall through */
    case 1: h = step(h, c[-1]);
    }
    for (; c != end; c += 8) {
        h = step(step(step(step(h, c[0]), c[1]), c[2]), c[3]);
        h = step(step(step(step(h, c[4]), c[5]), c[6]), c[7]);
    }
    return h;
}

typedef uint64_t pair __attribute__((vector_size(16)));

static inline pair get128(const uint8_t *p) {
    pair v;
    memcpy(&v, p, 16);
    return v;
}

static inline int zero(const uint8_t *p, uint32_t len) {
    pair all = {0, 0};
    uint64_t rest = 0;
    for (uint32_t n = len / 64; n > 0; n--, p += 64) all |= get128(p) | get128(p + 16) | get128(p + 32) | get128(p + 48);
    for (uint32_t n = len % 64 / 8; n > 0; n--, p += 8) rest |= get64(p);
    for (uint32_t n = len % 8; n > 0; n--, p++) rest |= *p;
    return (all[0] | all[1] | rest) == 0;
}

/* Whether the code of the slot before comes before that of this slot, where their first eight bytes do not tell. Slot 0 has none before it. */
APART int rises(const uint8_t *g, const uint8_t *slot) {
    if (slot == g + PAGE - 4) return 1;
    uint32_t v = get32(slot + 4), w = get32(slot), v_len = v >> 14, w_len = w >> 14;
    int c = memcmp(g + v % KIND + 8, g + w % KIND + 8, (v_len < w_len ? v_len : w_len) - KIND - 8);
    return c < 0 || (c == 0 && v_len < w_len);
}

/* Of sixteen bytes, those that are capitals: 0x41 to 0x5A become the 26 least signed numbers. */
static inline __m128i capitals(const uint8_t *p) {
    return _mm_cmplt_epi8(_mm_add_epi8(_mm_loadu_si128((const __m128i *)p), _mm_set1_epi8(0x80 - 0x41)), _mm_set1_epi8(-128 + 26));
}

/* Whether a code has no capital. Before a code lie sixteen bytes of its page at least, those of its place the last. */
static inline int folded(const uint8_t *code, uint32_t len) {
    __m128i any = capitals(code + len - 16);
    if (len < 16) return _mm_movemask_epi8(any) >> (16 - len) == 0;
    for (uint32_t i = 0; i + 16 < len; i += 16) any = _mm_or_si128(any, capitals(code + i));
    return _mm_movemask_epi8(any) == 0;
}

/* The n slots: words, ranges, the order of the codes, no capital in them, k shared bits. Each record's length goes into starts, where it begins; *shared gets the shared
 * bits. All lengths together; 0 where a rule fails. */
APART uint32_t slots(const uint8_t *g, uint32_t n, uint32_t frontier, uint32_t k, uint8_t *starts, uint32_t *shared) {
    const uint8_t *slot = g + PAGE - 4, *end = slot - 4 * n;
    uint32_t sum = 0, in_one = 0, in_all = UINT32_MAX; /* bits that a hash has, that all have */
    uint64_t last = UINT64_MAX;                        /* the first eight bytes of the code before, as one number, where it has so many */
    do {
        uint32_t w = get32(slot), o = w % KIND, l = (w >> 14) - KIND;
        if (l - 9 > 63 || o + l > frontier) return 0;
        uint64_t eight = l < 16 ? 0 : __builtin_bswap64(get64(g + o + 8));
        if (last >= eight && !rises(g, slot)) return 0;
        last = l < 16 ? UINT64_MAX : eight;
        if (!folded(g + o + 8, l - 8)) return 0;
        starts[o] = l;
        uint32_t h = hash(g + o + 8, l - 8);
        in_one |= h;
        in_all &= h;
        sum += l;
        slot -= 4;
    } while (slot != end);
    *shared = in_all;
    return top(in_one ^ in_all, k) == 0 ? sum : 0;
}

/* From 8 to the frontier: n records are met, each where it begins; bytes between them are zero; the last ends at the frontier; no place is negative. */
APART int records(const uint8_t *g, uint32_t n, uint32_t frontier, uint8_t *starts) {
    uint32_t at = 8, end = 8;
    uint64_t signs = 0;
    do {
        uint32_t l = starts[at];
        if (l != 0) {
            starts[at] = 0;
            signs |= get64(g + at);
            at += l;
            end = at;
            n--;
        } else {
            if (g[at] != 0) return 0;
            at++;
            while (at + 8 <= frontier && (get64(starts + at) | get64(g + at)) == 0) at += 8;
        }
    } while (at < frontier);
    return n == 0 && end == frontier && (signs & 0x8000800080000000u) == 0;
}

/* Whether the page is a bucket of a directory of depth d; *shared begins with its prefix. */
static int bucket(const uint8_t *g, uint32_t d, uint8_t *starts, uint32_t *shared) {
    uint32_t n = get16(g + 2), frontier = get16(g + 4);
    if (g[0] != 1 || g[1] > d || n == 0 || frontier < 17 || frontier + 4 * n > PAGE) return 0;
    uint32_t sum = slots(g, n, frontier, g[1], starts, shared);
    return sum != 0 && sum + 4 * n + get16(g + 6) == CAPACITY && records(g, n, frontier, starts) && zero(g + frontier, PAGE - 4 * n - frontier);
}

static int page0(const uint8_t *s, uint32_t n) {
    return get32(s) == n && get32(s + 4) == PAGE && get32(s + 8) == ENTRIES && get32(s + 12) == 2 * PAGE && get32(s + 16) <= DEEPEST && get32(s + 20) == NUMBER &&
           zero(s + 80, PAGE - 80);
}

/* Page 1 of a store of n pages, `entries` of them in use: how many name each page. */
static int page1(const uint8_t *dir, uint32_t entries, uint32_t n, uint16_t *named) {
    for (uint32_t i = 0; i < entries; i++) {
        uint32_t p = get32(dir + 4 * i);
        if (p == 1 || p >= n) return 0;
        named[p]++;
    }
    return zero(dir + 4 * entries, 4 * (ENTRIES - entries));
}

/* Whether the entries from `from` on, `many` of them, all name page p. */
static int run(const uint8_t *dir, uint32_t from, uint32_t many, uint32_t p) {
    uint32_t differ = 0;
    for (uint32_t i = from; i < from + many; i++) differ |= get32(dir + 4 * i) ^ p;
    return differ == 0;
}

uint64_t plain_check(const uint8_t *s, size_t size) {
    uint8_t starts[PAGE];
    uint16_t named[MOST] = {0};
    uint32_t shared[MOST], sums[ENTRIES + 1] = {0}, deepest = 0; /* sums[i]: what the rows before entry i need */
    uint32_t counts[14] = {0};                                   /* of rows, then of buckets by local depth */
    if (size % PAGE != 0 || size / PAGE < 3 || size / PAGE > MOST) return REFUSED(1, 0);
    uint32_t n = size / PAGE;
    if (!page0(s, n)) return REFUSED(2, 0);
    const uint8_t *dir = s + PAGE;
    uint32_t d = get32(s + 16), entries = 1u << d;
    if (!page1(dir, entries, n, named)) return REFUSED(2, 1);
    memset(starts, 0, sizeof starts);
    for (uint32_t p = 2; p < n; p++) {
        const uint8_t *g = s + (size_t)p * PAGE;
        if (g[0] == 0) {
            if (named[p] != 0 || !zero(g, PAGE)) return REFUSED(2, p);
            continue;
        }
        if (!bucket(g, d, starts, shared + p)) return REFUSED(2, p);
        uint32_t k = g[1], many = 1u << (d - k);
        if (named[p] != many || !run(dir, top(shared[p], k) << (d - k), many, p)) return REFUSED(2, p);
        if (k > deepest) deepest = k;
        counts[0] += get16(g + 2);
        counts[1 + k]++;
        sums[top(shared[p], d) + 1] += CAPACITY - get16(g + 6);
    }
    for (uint32_t i = 0; i < entries; i++) sums[i + 1] += sums[i];
    for (uint32_t p = 2; p < n; p++) {
        uint32_t k = s[(size_t)p * PAGE + 1]; /* 0 on a free page */
        if (k == 0) continue;
        uint32_t v = top(shared[p], k - 1), up = d - k + 1;
        if (sums[(v + 1) << up] - sums[v << up] <= CAPACITY) return REFUSED(2, p);
    }
    return d == deepest && memcmp(s + 24, counts, sizeof counts) == 0 ? 0 : REFUSED(2, 0);
}
