/* Drives the proved calls (include/lots.h) beside the reference at the three page sizes: seeded histories, damaged stores, random bytes, lengths around
 * every limit, and many codes in one call. Every answer and every byte of store and output is compared. Each buffer ends where an unreadable page begins,
 * and begins where one ends or at any offset after it. What a call may not write, all of it where the reference refuses, is lent in memory that cannot be
 * written. */
#include "../include/lots.h"
#include "reference.h"
#include <signal.h>
#include <stdio.h>
#include <stdlib.h>
#include <string.h>
#include <sys/mman.h>
#include <unistd.h>

/* a longest store, and what an inspection may be lent after it */
enum { LONGEST_LENT = 1 << 16, LONGEST = 4098 << 14, MOST = LONGEST + LONGEST_LENT, POOL = 12000 };

static const struct {
    size_t page, entries;
    int deepest;
} sizes[3] = {{1024, 256, 8}, {4096, 1024, 10}, {16384, 4096, 12}};

static int by; /* the size of the history, of the three above */
static size_t page_size;

static void go_by(int size) {
    by = size;
    page_size = sizes[by].page;
}

/* page sizes that there are not, and numbers at 20 that are none */
static const uint64_t no_sizes[] = {0, 1, 1016, 1023, 1025, 2048, 4095, 4097, 8192, 16383, 16385, 32768, ((uint64_t)1 << 32) + 1024, (uint64_t)1 << 63, UINT64_MAX};
enum { NO_SIZES = sizeof no_sizes / sizeof *no_sizes };

static uint64_t state;
static uint64_t steps, refused[16], inspected[16], in_batch[16], reached[3][13], full[3], joins, splits, respelled, capitals, miscounts, unfilled[2];
static const int numbers[] = {1, 2, 3, 4, 5, 6, 7, 8, 9, 12, 13, 14};
enum { NUMBERS = sizeof numbers / sizeof *numbers };

static uint32_t draw(void) {
    state ^= state << 13;
    state ^= state >> 7;
    state ^= state << 17;
    return (uint32_t)(state >> 16);
}

static uint32_t below(uint32_t n) { return draw() % n; }

/* Bytes between two unreadable pages, up against the second. */
struct lent {
    uint8_t *end;
    size_t whole;
};

static void writable(const struct lent *m, int yes) {
    if (mprotect(m->end - m->whole, m->whole, yes ? PROT_READ | PROT_WRITE : PROT_READ)) {
        fprintf(stderr, "compare: memory cannot be protected\n");
        exit(1);
    }
}

static struct lent guarded(size_t size) {
    size_t whole = (size + 4095) / 4096 * 4096;
    uint8_t *m = mmap(NULL, whole + 8192, PROT_NONE, MAP_PRIVATE | MAP_ANONYMOUS, -1, 0);
    if (m == MAP_FAILED) {
        fprintf(stderr, "compare: no guarded memory\n");
        exit(1);
    }
    struct lent r = {m + 4096 + whole, whole};
    writable(&r, 1);
    return r;
}

/* The same for other sizes, in the place of what there was. */
static void lend(struct lent *m, size_t size) {
    if (m->end) munmap(m->end - m->whole - 4096, m->whole + 8192);
    *m = guarded(size);
}

static void touched(int signal) {
    static const char said[] = "compare: a call read or wrote where it may not\n";
    (void)signal;
    _exit(write(1, said, sizeof said - 1) > 0 ? 1 : 2);
}

static struct lent store_mem, code_mem, out_mem, page_mem, len_mem;
static uint8_t ours[MOST], theirs[MOST], our_out[256], their_out[256], given[LONGEST_LENT];

static void fail(const char *what, uint64_t a, uint64_t b) {
    printf("compare: %s differs after %llu steps: proved %llx, reference %llx\n", what, (unsigned long long)steps, (unsigned long long)a, (unsigned long long)b);
    exit(1);
}

static void note(int inspection, uint64_t answer) {
    steps++;
    refused[lots_refusal(answer) & 15]++;
    if (inspection) inspected[lots_refusal(answer) & 15]++;
}

struct call {
    int kind;
    uint64_t size; /* format */
    uint8_t code[96];
    size_t code_len;
    int32_t page;
    int16_t slot, volume;
    uint64_t mode;
    uint64_t n;
    size_t out_len;
    size_t at, page_len; /* inspection: from this page of the store on, so many bytes */
};

enum { FORMAT, CHECK, LOOKUP, REMOVE, PUT, COUNT, ROW, INSPECT, FILL, KINDS };

/* Only format, put, remove and the filling of counts write the store, only row and inspection the output; a refusal writes nothing. */
static void protect(int kind, int refusal) {
    int changes = !refusal && (kind == FORMAT || kind == PUT || kind == REMOVE || kind == FILL), gives = !refusal && (kind == ROW || kind == INSPECT);
    writable(&store_mem, changes);
    writable(&out_mem, gives);
    writable(&len_mem, gives);
    writable(&code_mem, 0);
    writable(&page_mem, 0);
}

static void unprotect(void) {
    writable(&store_mem, 1);
    writable(&out_mem, 1);
    writable(&len_mem, 1);
    writable(&code_mem, 1);
    writable(&page_mem, 1);
}

/* The call on `ours`, lent up against the guard and, but for what it may write, read-only; what it leaves goes back to `ours`. */
static uint64_t proved(const struct call *c, size_t len, int refusal, uint32_t *code_len) {
    uint8_t *s = store_mem.end - len, *key = code_mem.end - c->code_len, *out = out_mem.end - c->out_len, *g = page_mem.end - c->page_len;
    uint32_t *l = (uint32_t *)(len_mem.end - sizeof *l);
    uint64_t r = 0;
    unprotect();
    memcpy(s, ours, len);
    memcpy(key, c->code, c->code_len);
    memcpy(out, our_out, c->out_len);
    memcpy(g, given, c->page_len);
    *l = *code_len;
    protect(c->kind, refusal);
    switch (c->kind) {
    case FORMAT: r = lots_format(s, len, c->size); break;
    case CHECK: r = lots_check(s, len); break;
    case LOOKUP: r = lots_lookup(s, len, key, c->code_len); break;
    case REMOVE: r = lots_remove(s, len, key, c->code_len); break;
    case PUT: r = lots_put(s, len, key, c->code_len, c->page, c->slot, c->volume, c->mode); break;
    case COUNT: r = lots_count(s, len); break;
    case FILL: r = lots_fill_counts(s, len); break;
    case ROW: r = lots_row(s, len, c->n, out, c->out_len, l); break;
    case INSPECT: r = lots_inspect(g, c->page_len, c->n, out, c->out_len, l); break;
    }
    memcpy(ours, s, len);
    memcpy(our_out, out, c->out_len);
    *code_len = *l;
    return r;
}

static uint64_t reference(const struct call *c, size_t len, uint32_t *code_len) {
    switch (c->kind) {
    case FORMAT: return ref_format(theirs, len, c->size);
    case CHECK: return ref_check(theirs, len);
    case LOOKUP: return ref_lookup(theirs, len, c->code, c->code_len);
    case REMOVE: return ref_remove(theirs, len, c->code, c->code_len);
    case PUT: return ref_put(theirs, len, c->code, c->code_len, c->page, c->slot, c->volume, c->mode);
    case COUNT: return ref_count(theirs, len);
    case FILL: return ref_fill_counts(theirs, len);
    case ROW: return ref_row(theirs, len, c->n, their_out, c->out_len, code_len);
    default: return ref_inspect(given, c->page_len, c->n, their_out, c->out_len, code_len);
    }
}

static uint64_t both(const struct call *c, size_t len) {
    uint32_t a_len = 0xABCDEF01, b_len = 0xABCDEF01;
    for (size_t i = 0; i < c->out_len; i++) our_out[i] = their_out[i] = draw();
    memcpy(given, ours + (len < page_size ? 0 : c->at % (len / page_size) * page_size), c->page_len);
    uint64_t b = reference(c, len, &b_len), a = proved(c, len, lots_refusal(b) != 0, &a_len);
    if (a != b) fail("an answer", a, b);
    if (a_len != b_len) fail("a code's length", a_len, b_len);
    if (memcmp(ours, theirs, len) != 0) fail("the store", 0, 0);
    if (memcmp(our_out, their_out, c->out_len) != 0) fail("the output", 0, 0);
    note(c->kind == INSPECT, a);
    return a;
}

/* ---- codes: a pool, from which a history draws those of one kind */

static struct {
    uint8_t code[64];
    size_t len;
} pool[POOL];

static int capital(uint8_t b) { return b >= 'A' && b <= 'Z'; }
static int letter(uint8_t b) { return b >= 'a' && b <= 'z'; }

/* A byte of a code as it is stored: no capital, and a letter more often than not. */
static uint8_t stored_byte(uint8_t b) { return capital(b) ? b + 32 : b; }
static uint8_t draw_byte(void) { return below(3) ? stored_byte(draw()) : 'a' + below(26); }

static int begins(const uint8_t *code, size_t len, int bits, uint32_t value) { return bits == 0 || ref_hash(code, len) >> (32 - bits) == value; }

/* A code of these lengths, without capitals, whose hash begins with the `bits` bits of `value`: any, then others that begin the same. */
static size_t draw_code(uint8_t *code, size_t least, size_t most, int bits, uint32_t value) {
    for (;;) {
        size_t len = least + below(most - least + 1), fixed = len < 4 ? 0 : len - 3;
        uint32_t h = 2166136261u;
        for (size_t i = 0; i < len; i++) code[i] = draw_byte();
        if (bits == 0) return len;
        for (size_t i = 0; i < fixed; i++) h = (h ^ code[i]) * 16777619u;
        for (int turn = 0; turn < 1 << bits; turn++) {
            uint32_t g = h, d = draw();
            for (size_t i = fixed; i < len; i++, d >>= 8) g = (g ^ (code[i] = stored_byte(d))) * 16777619u;
            if (g >> (32 - bits) == value && begins(code, len, bits, value)) return len;
        }
    }
}

/* Codes of one kind, after the first `from` of the pool; how many there are then. */
static size_t more_codes(size_t from, size_t many, size_t least, size_t most, int bits, uint32_t value) {
    for (size_t n = from; n < from + many; n++) pool[n].len = draw_code(pool[n].code, least, most, bits, value);
    return from + many;
}

static size_t fill_pool(size_t many, size_t least, size_t most, int bits, uint32_t value) { return more_codes(0, many, least, most, bits, value); }

/* One of the pool, in one of its spellings. */
static void pick(struct call *c, size_t many) {
    size_t i = below(many);
    memcpy(c->code, pool[i].code, pool[i].len);
    c->code_len = pool[i].len;
    if (below(2)) return;
    for (size_t b = 0; b < c->code_len; b++)
        if (letter(c->code[b]) && below(2)) c->code[b] -= 32, respelled++;
}

static void random_place(struct call *c) {
    c->page = draw() & 0x7FFFFFFF;
    c->slot = draw() & 0x7FFF;
    c->volume = draw() & 0x7FFF;
    if (below(40) == 0) c->page = -c->page - 1;
    if (below(40) == 0) c->slot = -c->slot - 1;
    if (below(40) == 0) c->volume = -c->volume - 1;
}

/* modes that there are not */
static const uint64_t no_modes[] = {3, 4, 255, 256, 258, (uint64_t)1 << 32, (uint64_t)1 << 63, UINT64_MAX};

static const size_t page_lengths[] = {0, 1, 8, 1016, 1023, 1024, 1025, 2047, 2048, 3072, 4088, 4095, 4096, 4097, 8192, 12288, 16376, 16383, 16384, 16385, 32768, LONGEST_LENT};
enum { PAGE_LENGTHS = sizeof page_lengths / sizeof *page_lengths };

static struct call random_call(size_t many, uint32_t puts) {
    static const int kinds[8] = {CHECK, LOOKUP, LOOKUP, COUNT, ROW, ROW, INSPECT, INSPECT};
    struct call c = {0};
    uint32_t d = below(100);
    c.kind = d < puts ? PUT : d < 85 ? REMOVE : kinds[below(8)];
    pick(&c, many);
    if (below(200) == 0) c.code_len = below(2) ? 0 : 65 + below(8);
    random_place(&c);
    c.mode = below(4) ? LOTS_EITHER : below(3);
    if (below(60) == 0) c.mode = no_modes[below(8)];
    c.n = below(8) ? below(200) : (uint64_t)draw() << below(33);
    c.out_len = below(30) ? 64 + below(20) : below(64);
    c.at = draw();
    c.page_len = below(20) ? page_size : page_lengths[below(PAGE_LENGTHS)];
    c.size = below(2) ? page_size : below(2) ? sizes[below(3)].page : no_sizes[below(NO_SIZES)];
    return c;
}

/* A legal store with its records scattered: those of one page moved where bytes are free. */
static void scatter(size_t len) {
    static uint8_t fresh[1 << 14];
    int p = 2 + below(len / page_size - 2);
    uint8_t *g = ours + (size_t)p * page_size;
    int count = g[2] | g[3] << 8, end = page_size - 4 * count, at = 8, top = 8, free_bytes = g[6] | g[7] << 8;
    if (g[0] != 1) return;
    memset(fresh, 0, page_size);
    memcpy(fresh, g, 8);
    for (int k = 0; k < count; k++) {
        int i = count % 7 == 0 ? count - 1 - k : k * 7 % count; /* each slot once, in another order */
        uint8_t *slot = g + page_size - 4 * (i + 1), *to = fresh + page_size - 4 * (i + 1);
        uint32_t w = slot[0] | slot[1] << 8 | slot[2] << 16 | (uint32_t)slot[3] << 24;
        int from = w & 0x3FFF, size = w >> 14 & 0x3FFF, gap = below(free_bytes / count + 1);
        at += gap;
        memcpy(fresh + at, g + from, size);
        w = (w & ~0x3FFFu) | at;
        for (int b = 0; b < 4; b++) to[b] = w >> 8 * b;
        at += size;
        if (at > top) top = at;
    }
    if (top > end) return;
    fresh[4] = top & 255;
    fresh[5] = top >> 8;
    memcpy(g, fresh, page_size);
    memcpy(theirs, ours, len);
}

static int depth_now(void) { return ours[16]; }

/* The store's memory, with any bytes in it, formatted. */
static void format(size_t len) {
    struct call c = {.kind = FORMAT, .size = page_size};
    lend(&store_mem, len);
    for (size_t i = 0; i < len; i++) ours[i] = theirs[i] = draw();
    if (lots_refusal(both(&c, len)) != 0) fail("a format of the history", 1, 0);
}

static uint32_t number(const uint8_t *at) { return at[0] | at[1] << 8 | at[2] << 16 | (uint32_t)at[3] << 24; }

static void set_number(uint8_t *at, uint32_t n) {
    for (int i = 0; i < 4; i++) at[i] = n >> 8 * i;
}

/* Rows of every page, at 1,024 all, the last and the one after it; and each page at other lengths. */
static void inspect_all(size_t len) {
    struct call c = {.kind = INSPECT, .out_len = 64};
    for (c.at = 0; c.at < len / page_size; c.at++) {
        uint64_t rows = ours[c.at * page_size + 2] | ours[c.at * page_size + 3] << 8;
        c.page_len = page_size;
        for (c.n = 0; lots_refusal(both(&c, len)) == 0;) c.n += 1 + below(page_size / 512 - 1);
        for (c.n = rows == 0 ? 0 : rows - 1; c.n <= rows; c.n++) both(&c, len);
        for (c.n = 0; c.n < 6; c.n++) {
            c.page_len = page_lengths[(c.at * 6 + c.n) % PAGE_LENGTHS];
            both(&c, len);
        }
    }
}

/* Whether the directory is as deep as can be and has no entry that names nothing. */
static int directory_full(void) {
    for (size_t i = 0; i < sizes[by].entries; i++)
        if (number(ours + page_size + 4 * i) == 0) return 0;
    return depth_now() == sizes[by].deepest;
}

/* One call of a history, and what it came to. */
static void step(const struct call *c, size_t len) {
    int was = depth_now();
    both(c, len);
    if (ref_check(theirs, len) != 0) fail("what the check says of a store in use", 0, ref_check(theirs, len));
    if (depth_now() > was) splits++;
    if (depth_now() < was) joins++;
    reached[by][depth_now()]++;
    if (below(50) == 0) scatter(len);
}

/* Steps through a store; half of the time mostly puts, half mostly removes, so that it fills and empties. */
static void go_on(size_t len, size_t many, int rounds, int each, int first) {
    for (int r = first; r < first + rounds; r++)
        for (int i = 0; i < each; i++) {
            struct call c = random_call(many, r % 2 == 0 ? 70 : 15);
            step(&c, len);
            if (i == each / 2) inspect_all(len);
            if (i % 16 == 0) full[by] += directory_full();
        }
}

static void history(size_t pages, size_t many, int rounds, int each) {
    format(pages * page_size);
    go_on(pages * page_size, many, rounds, each, 0);
}

/* A history with formats to other sizes in it, and to none of the three. */
static void changing(size_t len, size_t many, int formats, int each) {
    go_by(0);
    format(len);
    for (int f = 0; f < formats; f++) {
        struct call c = random_call(many, 70);
        c.kind = FORMAT;
        if (lots_refusal(both(&c, len)) == 0)
            for (int i = 0; i < 3; i++)
                if (sizes[i].page == c.size) go_by(i);
        for (int i = 0; i < each; i++) {
            c = random_call(many, 70);
            step(&c, len);
        }
    }
}

/* A number to stand at 20: a page size, none, or any. */
static uint32_t any_number(void) { return below(3) == 0 ? sizes[below(3)].page : below(3) ? (uint32_t)no_sizes[below(NO_SIZES)] : draw(); }

static void hurt_once(size_t len, size_t *at) {
    *at = below(3) == 0 ? below(64) : below(3) == 0 ? page_size + below(page_size) : below(len);
    if (below(2)) *at = 2 * page_size + below(len - 2 * page_size) / page_size * page_size + (below(2) ? below(24) : page_size - 1 - below(40));
    ours[*at] = below(3) ? draw() : ours[*at] ^ 1u << below(8);
    if (below(20) == 0) set_number(ours + 20, any_number());
}

/* A letter of a stored code becomes a capital: its page breaks a rule, for the check and for inspection. */
static void stored_capitals(size_t len, int times) {
    for (int t = 0; t < times; t++) {
        size_t p = 2 + below(len / page_size - 2);
        uint8_t *g = ours + p * page_size;
        if (g[0] != 1) continue;
        const uint8_t *slot = g + page_size - 4 * (1 + below(g[2] | g[3] << 8));
        uint32_t w = slot[0] | slot[1] << 8 | slot[2] << 16 | (uint32_t)slot[3] << 24;
        size_t at = p * page_size + (w & 0x3FFF) + 8 + below((w >> 14 & 0x3FFF) - 8);
        if (!letter(ours[at])) continue;
        struct call check = {.kind = CHECK}, inspect = {.kind = INSPECT, .at = p, .page_len = page_size, .out_len = 64};
        ours[at] = theirs[at] -= 32;
        if (lots_refusal_page(both(&check, len)) != p) fail("the page of a stored capital", lots_refusal_page(lots_check(ours, len)), p);
        if (both(&inspect, len) != (LOTS_REFUSED | 2)) fail("the inspection of a stored capital", 0, 2);
        ours[at] = theirs[at] += 32;
        capitals++;
    }
}

static void expect(const char *what, uint64_t word, unsigned number) {
    if (lots_refusal(word) != number) fail(what, word, LOTS_REFUSED | number);
    steps++;
}

/* Code i of the pool, by a mode. */
static uint64_t put_as(size_t i, uint64_t mode, size_t len) {
    struct call c = {.kind = PUT, .code_len = pool[i].len, .page = (int32_t)i, .slot = 2, .volume = 3, .mode = mode};
    memcpy(c.code, pool[i].code, pool[i].len);
    return both(&c, len);
}

/* The counts of a store are filled in; the answer is a refusal by this number, or none. */
static void fill_counts(size_t len, unsigned want) {
    struct call c = {.kind = FILL};
    expect("the filling of counts", both(&c, len), want);
    unfilled[want != 0]++;
}

/* A store by the old rules: without counts it is refused unless it has no rows, and comes back as it was; with any of them it is refused. */
static void old_form(size_t len, int times) {
    static uint8_t sound[MOST];
    struct call check = {.kind = CHECK}, fill = {.kind = FILL};
    unsigned want = number(ours + 24) == 0 ? 0 : LOTS_BAD_PAGE;
    memcpy(sound, ours, len);
    fill_counts(len, want);
    for (int t = 0; t < times; t++) {
        size_t at = 24 + t % 56;
        memset(ours + 24, 0, 56);
        memset(theirs + 24, 0, 56);
        if (both(&check, len) != (want ? LOTS_REFUSED | LOTS_BAD_PAGE : 0)) fail("the check of a store without counts", 0, want);
        if (t % 2) ours[at] = theirs[at] = 1 + below(255), fill_counts(len, LOTS_BAD_PAGE), ours[at] = theirs[at] = 0;
        if (t % 3 == 2) {
            hurt_once(len, &at);
            memcpy(theirs, ours, len);
            unfilled[lots_refusal(both(&fill, len)) != 0]++;
            memcpy(ours, sound, len);
            memcpy(theirs, sound, len);
            continue;
        }
        fill_counts(len, 0);
        if (memcmp(ours, sound, len) != 0) fail("a store whose counts are filled in", 0, 0);
    }
}

/* Stores with no rows, with one, and with none again. */
static void filled_counts(void) {
    size_t len = 5 * page_size;
    struct call c = {.kind = REMOVE};
    fill_pool(1, 1, 64, 0, 0);
    format(len);
    old_form(len, 60);
    expect("a put", put_as(0, LOTS_EITHER, len), 0);
    old_form(len, 60);
    memcpy(c.code, pool[0].code, pool[0].len);
    c.code_len = pool[0].len;
    expect("a remove", both(&c, len), 0);
    old_form(len, 60);
}

/* A check by both of a sound store with another count at this place, which is a fault of page 0; and with a fault of a later page besides, which is named before it. */
static void wrong_count(size_t len, size_t at, uint32_t count) {
    struct call check = {.kind = CHECK};
    uint32_t true_count = number(ours + at);
    size_t p = 2 + below(len / page_size - 2);
    set_number(ours + at, count), set_number(theirs + at, count);
    if (both(&check, len) != (LOTS_REFUSED | LOTS_BAD_PAGE)) fail("the check of a wrong count", at, count);
    ours[p * page_size] = theirs[p * page_size] ^= 2; /* no kind of page */
    if (lots_refusal_page(both(&check, len)) != p) fail("a page named before a wrong count", lots_refusal_page(lots_check(ours, len)), p);
    ours[p * page_size] = theirs[p * page_size] ^= 2;
    set_number(ours + at, true_count), set_number(theirs + at, true_count);
    miscounts++;
}

/* Each byte of the counts in page 0 another, and each count one more and one less. */
static void wrong_counts(size_t len) {
    for (size_t at = 24; at < 80; at++) wrong_count(len, at & ~(size_t)3, number(ours + (at & ~(size_t)3)) ^ (1 + below(255)) << 8 * (at & 3));
    for (size_t at = 24; at < 80; at += 4) wrong_count(len, at, number(ours + at) + 1), wrong_count(len, at, number(ours + at) - 1);
}

/* Every call on a store with some bytes changed. */
static void damage(size_t len, int times, size_t many) {
    static uint8_t sound[MOST];
    memcpy(sound, ours, len);
    stored_capitals(len, times);
    wrong_counts(len);
    old_form(len, times / 8);
    for (int t = 0; t < times; t++) {
        size_t at = 0;
        for (int flips = 1 + below(3); flips > 0; flips--) hurt_once(len, &at);
        memcpy(theirs, ours, len);
        struct call c = random_call(many, 40);
        if (below(2)) c.at = at / page_size;
        both(&c, len);
        memcpy(ours, sound, len);
        memcpy(theirs, sound, len);
    }
}

static void random_bytes(int times, size_t many) {
    lend(&store_mem, 262 * 1024);
    for (int t = 0; t < times; t++) {
        size_t len = below(3) ? below(6 * page_size) : (size_t)below(7) * page_size;
        if (below(60) == 0) len = 258 * 1024 + below(2048);
        for (size_t i = 0; i < len; i++) ours[i] = theirs[i] = below(4) ? 0 : draw();
        if (below(2) && len >= 24) set_number(ours + 20, any_number()), set_number(theirs + 20, number(ours + 20));
        struct call c = random_call(many, 30);
        c.kind = below(KINDS);
        both(&c, len);
    }
}

/* In 3 pages as many rows of 64-byte codes as fit into one (13, 53 or 215): one of them, and one more, which is refused by this number, by each mode;
 * then the same on a broken store. */
static void modes(int bits, uint32_t value, unsigned number) {
    size_t len = 3 * page_size, fit = (page_size - 8) / 76;
    fill_pool(fit + 1, 64, 64, bits, value);
    format(len);
    for (size_t i = 0; i < fit; i++) expect("a new code", put_as(i, i % 2 ? LOTS_ONLY_NEW : LOTS_EITHER, len), 0);
    expect("a known code, either", put_as(5, LOTS_EITHER, len), 0);
    expect("a known code, only new", put_as(5, LOTS_ONLY_NEW, len), LOTS_KNOWN_CODE);
    expect("a known code, only known", put_as(5, LOTS_ONLY_KNOWN, len), 0);
    expect("one too many, either", put_as(fit, LOTS_EITHER, len), number);
    expect("one too many, only new", put_as(fit, LOTS_ONLY_NEW, len), number);
    expect("one too many, only known", put_as(fit, LOTS_ONLY_KNOWN, len), LOTS_NO_CODE);
    for (size_t k = 0; k < 8; k++) expect("no mode", put_as(k % 2 ? 5 : fit, no_modes[k], len), LOTS_BAD_MODE);
    ours[page_size + 4] = theirs[page_size + 4] = 1;
    for (uint64_t m = LOTS_EITHER; m <= LOTS_ONLY_KNOWN; m++) {
        expect("a known code, a broken store", put_as(5, m, len), LOTS_BAD_PAGE);
        expect("a new code, a broken store", put_as(fit, m, len), LOTS_BAD_PAGE);
    }
    expect("no mode, a broken store", put_as(5, UINT64_MAX, len), LOTS_BAD_MODE);
}

/* Every byte value in a code: put, looked up in both spellings, listed folded, known under the other spelling, and removed by it. */
static void spellings(void) {
    size_t len = 20 * page_size;
    format(len);
    for (int v = 0; v < 256; v++) {
        struct call c = {.kind = PUT, .code = {'7', v, 'k', 'K'}, .code_len = 4, .page = v, .slot = 2, .volume = 3, .mode = LOTS_EITHER}, d = c;
        d.code[1] = letter(v) ? v - 32 : capital(v) ? v + 32 : v;
        d.code[2] = 'K', d.code[3] = 'k';
        uint64_t r = both(&c, len);
        if (lots_refusal(r) || (r != LOTS_NEW) != letter(v)) fail("whether a spelling is new", r, letter(v));
        d.mode = LOTS_ONLY_NEW;
        expect("the other spelling, only new", both(&d, len), LOTS_KNOWN_CODE);
        c.kind = d.kind = LOOKUP;
        if (lots_place_page(both(&c, len)) != v || lots_place_page(both(&d, len)) != v) fail("a lookup in both spellings", v, v);
    }
    if (lots_count(ours, len) != 256 - 26) fail("the number of lots", lots_count(ours, len), 256 - 26);
    struct call row = {.kind = ROW, .out_len = 64};
    for (; row.n < 256 - 26; row.n++) {
        expect("a listed row", both(&row, len), 0);
        for (int b = 0; b < 4; b++)
            if (capital(our_out[b])) fail("a listed code", our_out[b], our_out[b] + 32);
    }
    for (int v = 0; v < 256; v++) {
        struct call c = {.kind = REMOVE, .code = {'7', v, 'K', 'k'}, .code_len = 4};
        expect("a remove by another spelling", both(&c, len), letter(v) ? LOTS_NO_CODE : 0);
    }
}

/* ---- batches */

enum { PUTS = 48, BYTES = 80 * PUTS };

static struct lent codes_mem, lengths_mem, places_mem, answers_mem;

struct batch {
    uint8_t codes[BYTES];
    uint32_t lengths[PUTS + 1];
    uint64_t places[PUTS + 1];
    size_t codes_len, lengths_len, places_len, answers_len;
    uint64_t mode;
};

static uint64_t place_word(const struct call *c) { return (uint32_t)c->page | (uint64_t)(uint16_t)c->slot << 32 | (uint64_t)(uint16_t)c->volume << 48; }

/* The batch on `ours`; the runs are lent read-only, and store and answers too where it is refused. */
static uint64_t proved_batch(const struct batch *b, size_t len, int refusal, uint32_t *answers) {
    uint8_t *s = store_mem.end - len, *codes = codes_mem.end - b->codes_len;
    uint32_t *lengths = (uint32_t *)lengths_mem.end - b->lengths_len, *filled = (uint32_t *)answers_mem.end - b->answers_len;
    uint64_t *places = (uint64_t *)places_mem.end - b->places_len;
    const struct lent *const lent[] = {&store_mem, &answers_mem, &codes_mem, &lengths_mem, &places_mem};
    for (int i = 0; i < 5; i++) writable(lent[i], 1);
    memcpy(s, ours, len);
    memcpy(codes, b->codes, b->codes_len);
    memcpy(lengths, b->lengths, b->lengths_len * sizeof *lengths);
    memcpy(places, b->places, b->places_len * sizeof *places);
    memcpy(filled, answers, b->answers_len * sizeof *filled);
    for (int i = refusal ? 0 : 2; i < 5; i++) writable(lent[i], 0);
    uint64_t r = lots_put_all(s, len, codes, b->codes_len, lengths, b->lengths_len, places, b->places_len, filled, b->answers_len, b->mode);
    memcpy(ours, s, len);
    memcpy(answers, filled, b->answers_len * sizeof *answers);
    for (int i = 0; i < 5; i++) writable(lent[i], 1);
    return r;
}

/* The same puts, one by one, by the proved call: what the batch left, and its answers. */
static void one_by_one(const struct batch *b, uint8_t *s, size_t len, const uint32_t *answers) {
    for (size_t i = 0, at = 0; i < b->lengths_len; at += b->lengths[i++]) {
        uint64_t w = b->places[i], r = lots_put(s, len, b->codes + at, b->lengths[i], lots_place_page(w), lots_place_slot(w), lots_place_volume(w), b->mode);
        if (lots_refusal(r) != answers[i]) fail("a put of a batch, made by itself", answers[i], r);
        in_batch[lots_refusal(r) & 15]++;
    }
    if (memcmp(s, ours, len) != 0) fail("the store after the same puts", 0, 0);
}

static uint64_t both_batch(const struct batch *b, size_t len) {
    static uint8_t before[MOST];
    uint32_t our_answers[PUTS + 1], their_answers[PUTS + 1];
    for (size_t i = 0; i <= PUTS; i++) our_answers[i] = their_answers[i] = draw();
    memcpy(before, ours, len);
    uint64_t y = ref_put_all(theirs, len, b->codes, b->codes_len, b->lengths, b->lengths_len, b->places, b->places_len, their_answers, b->answers_len, b->mode);
    uint64_t x = proved_batch(b, len, lots_refusal(y) != 0, our_answers);
    if (x != y) fail("a batch's answer", x, y);
    if (memcmp(ours, theirs, len) != 0) fail("the store after a batch", 0, 0);
    if (memcmp(our_answers, their_answers, sizeof our_answers) != 0) fail("the answers of a batch", 0, 0);
    if (lots_refusal(x) == 0) one_by_one(b, before, len, our_answers);
    note(0, x);
    return x;
}

/* Puts of codes of the pool, some of them twice, some of no or too many bytes, some at negative places. */
static struct batch random_batch(size_t many, size_t puts) {
    struct batch b = {.lengths_len = puts, .places_len = puts, .answers_len = puts, .mode = below(2) ? LOTS_EITHER : below(3)};
    struct call c = {0};
    for (size_t i = 0; i < puts; i++) {
        if (i == 0 || below(4)) pick(&c, many); /* else the code before it once more */
        if (below(30) == 0) c.code_len = below(2) ? 0 : 65 + below(8);
        random_place(&c);
        memcpy(b.codes + b.codes_len, c.code, c.code_len);
        b.codes_len += b.lengths[i] = c.code_len;
        b.places[i] = place_word(&c);
    }
    return b;
}

/* One of the shapes of refusal 12. */
static void misfit(struct batch *b) {
    size_t i = below(b->lengths_len), j = (i + 1) % b->lengths_len;
    switch (below(9)) {
    case 0: b->lengths_len--; break;
    case 1: b->places_len--; break;
    case 2: b->answers_len--; break;
    case 3: b->places_len++; break;
    case 4: b->answers_len++; break;
    case 5: b->lengths[i]++; break;
    case 6: b->codes_len++; break;
    case 7: b->lengths[i] = UINT32_MAX; break;
    default: /* a sum in 32 bits would come round to the same number */
        b->lengths[i] += (uint32_t)1 << 31;
        b->lengths[j] += (uint32_t)1 << 31;
    }
}

static void batches(size_t pages, size_t many, int times) {
    size_t len = pages * page_size;
    struct batch b;
    for (int t = 0; t < times; t++) {
        if (t % 16 == 0) format(len);
        b = random_batch(many, below(8) ? 1 + below(PUTS) : below(3));
        expect("a batch", both_batch(&b, len), 0);
        b = random_batch(many, 2 + below(PUTS - 1));
        misfit(&b);
        if (below(2)) b.mode = no_modes[below(8)];
        int hurt = below(2);
        if (hurt) ours[page_size - 1] ^= 1, theirs[page_size - 1] ^= 1; /* on a store that breaks a rule it is 12 too */
        expect("runs that do not fit", both_batch(&b, len), LOTS_BAD_RUNS);
        expect("runs that do not fit, and no store", both_batch(&b, len - 1), LOTS_BAD_LENGTH);
        b = random_batch(many, below(PUTS));
        b.mode = no_modes[below(8)];
        expect("a batch of no mode", both_batch(&b, len), LOTS_BAD_MODE);
        b.mode = below(3);
        if (hurt) expect("a batch on a broken store", both_batch(&b, len), LOTS_BAD_PAGE);
        if (hurt) ours[page_size - 1] ^= 1, theirs[page_size - 1] ^= 1;
    }
}

/* The fields of a word, at the ends of their ranges. */
static void fields(uint8_t *s, size_t len, const uint8_t *key) {
    expect("a format", lots_format(s, len, page_size), 0);
    expect("a put", lots_put(s, len, key, 1, INT32_MAX, INT16_MAX - 1, INT16_MAX, LOTS_ONLY_NEW), 0);
    uint64_t word = lots_lookup(s, len, key, 1);
    expect("a lookup", word, 0);
    if (lots_place_page(word) != INT32_MAX || lots_place_slot(word) != INT16_MAX - 1 || lots_place_volume(word) != INT16_MAX) fail("a place", word, 0);
    s[3 * page_size + 7] ^= 1;
    word = lots_check(s, len);
    expect("a check", word, LOTS_BAD_PAGE);
    if (lots_refusal_page(word) != 3) fail("a page number", lots_refusal_page(word), 3);
    s[3 * page_size + 7] ^= 1;
}

/* A range of length 0 has no pointer. */
static void nothing_lent(void) {
    static uint8_t s[4 << 14], was[sizeof s], out[64];
    const uint8_t key[] = {200};
    const size_t len = 4 * page_size;
    uint32_t l = 77;
    fields(s, len, key);
    memcpy(was, s, len);
    expect("format of nothing", lots_format(NULL, 0, page_size), LOTS_BAD_LENGTH);
    for (int i = 0; i < NO_SIZES; i++) expect("format to no size", lots_format(s, len, no_sizes[i]), LOTS_BAD_LENGTH);
    expect("check of nothing", lots_check(NULL, 0), LOTS_BAD_LENGTH);
    expect("count of nothing", lots_count(NULL, 0), LOTS_BAD_LENGTH);
    expect("counts of nothing", lots_fill_counts(NULL, 0), LOTS_BAD_LENGTH);
    expect("lookup in nothing", lots_lookup(NULL, 0, NULL, 0), LOTS_BAD_LENGTH);
    expect("lookup of nothing", lots_lookup(s, len, NULL, 0), LOTS_BAD_CODE);
    expect("put in nothing", lots_put(NULL, 0, NULL, 0, 1, 2, 3, LOTS_EITHER), LOTS_BAD_LENGTH);
    expect("no puts", lots_put_all(s, len, NULL, 0, NULL, 0, NULL, 0, NULL, 0, LOTS_ONLY_KNOWN), 0);
    expect("no puts in nothing", lots_put_all(NULL, 0, NULL, 0, NULL, 0, NULL, 0, NULL, 0, LOTS_EITHER), LOTS_BAD_LENGTH);
    expect("no puts of no mode", lots_put_all(s, len, NULL, 0, NULL, 0, NULL, 0, NULL, 0, 3), LOTS_BAD_MODE);
    expect("one code, no puts", lots_put_all(s, len, key, 1, NULL, 0, NULL, 0, NULL, 0, LOTS_EITHER), LOTS_BAD_RUNS);
    expect("put of nothing", lots_put(s, len, NULL, 0, 1, 2, 3, UINT64_MAX), LOTS_BAD_CODE);
    expect("remove in nothing", lots_remove(NULL, 0, NULL, 0), LOTS_BAD_LENGTH);
    expect("remove of nothing", lots_remove(s, len, NULL, 0), LOTS_BAD_CODE);
    expect("row of nothing", lots_row(NULL, 0, 0, out, sizeof out, &l), LOTS_BAD_LENGTH);
    expect("row to nothing", lots_row(s, len, 0, NULL, 0, &l), LOTS_SHORT_OUTPUT);
    expect("inspection of nothing", lots_inspect(NULL, 0, 0, out, sizeof out, &l), LOTS_BAD_LENGTH);
    expect("inspection to nothing", lots_inspect(s + 2 * page_size, page_size, 0, NULL, 0, &l), LOTS_SHORT_OUTPUT);
    if (memcmp(s, was, len) != 0 || l != 77) fail("what was lent", l, 77);
}

/* One row on a page of each size, its local depth any byte: the depth of the page's length decides. */
static void inspected_depths(void) {
    struct call c = {.kind = INSPECT, .out_len = 64, .at = 2, .page_len = page_size};
    size_t len = 3 * page_size;
    fill_pool(1, 1, 64, 0, 0);
    format(len);
    expect("a put", put_as(0, LOTS_EITHER, len), 0);
    for (int depth = 0; depth < 256; depth++) {
        ours[2 * page_size + 1] = theirs[2 * page_size + 1] = depth;
        expect("a local depth in inspection", both(&c, len), depth <= sizes[by].deepest ? 0 : LOTS_BAD_PAGE);
    }
}

/* A store of 48 KiB, which can be of any of the three sizes, with every kind of number at 20. */
static void numbers_at_20(void) {
    size_t len = 48 * 1024;
    size_t many = fill_pool(40, 1, 64, 0, 0);
    format(len);
    for (size_t i = 0; i < many; i += 2) put_as(i, LOTS_EITHER, len);
    uint32_t own = number(ours + 20);
    if (own != (by == 0 ? 0 : page_size)) fail("the number at 20", own, page_size);
    for (int i = 0; i < 400; i++) {
        uint32_t n = any_number();
        if (i < 3) n = sizes[i].page;
        struct call c = random_call(many, 40);
        if (c.kind == INSPECT || n == own) continue;
        set_number(ours + 20, n);
        set_number(theirs + 20, n);
        uint64_t r = both(&c, len);
        if (r == (LOTS_REFUSED | LOTS_BAD_PAGE)) steps++;
        else if (lots_refusal(r) == LOTS_BAD_PAGE || lots_refusal(r) == 0) fail("an answer to a wrong number at 20", r, LOTS_REFUSED | LOTS_BAD_PAGE);
        set_number(ours + 20, own);
        set_number(theirs + 20, own);
    }
}

/* The number at 20 of a store of this length, if it is so long, in memory that cannot be written before and after. */
static void set_at_20(size_t len, uint32_t n) {
    uint8_t *s = store_mem.end - len, *first = s - (uintptr_t)s % 4096;
    if (len < 24) return;
    size_t whole = s + 24 > first + 4096 ? 8192 : 4096;
    const struct lent head = {first + whole, whole};
    writable(&head, 1);
    set_number(s + 20, n);
    writable(&head, 0);
}

/* Every call on a store of this length, which has no more than a number at 20: it is refused, and nothing of it can be written. */
static void refused_at(size_t len, uint32_t n) {
    uint8_t *s = store_mem.end - len, key[1] = {7}, out[64];
    uint32_t l;
    set_at_20(len, n);
    uint64_t want = ref_check(s, len), got;
    if ((got = lots_check(s, len)) != want) fail("a check by the length", got, want);
    if ((got = lots_count(s, len)) != want) fail("a count by the length", got, want);
    if ((got = lots_fill_counts(s, len)) != want) fail("a filling of counts by the length", got, want);
    if ((got = lots_lookup(s, len, key, 1)) != want) fail("a lookup by the length", got, want);
    if ((got = lots_put(s, len, key, 1, 1, 1, 1, LOTS_EITHER)) != want) fail("a put by the length", got, want);
    if ((got = lots_remove(s, len, key, 1)) != want) fail("a remove by the length", got, want);
    if ((got = lots_row(s, len, 0, out, sizeof out, &l)) != want) fail("a row by the length", got, want);
    if ((got = lots_put_all(s, len, NULL, 0, NULL, 0, NULL, 0, NULL, 0, LOTS_EITHER)) != want) fail("a batch by the length", got, want);
    if ((got = lots_report(s, len, NULL, 0).answer) != want) fail("a report by the length", got, want);
    for (int i = 0; i < 3; i++)
        if (len % sizes[i].page != 0 || len < 3 * sizes[i].page || len > (sizes[i].entries + 2) * sizes[i].page) expect("a format by the length", lots_format(s, len, sizes[i].page), LOTS_BAD_LENGTH);
    note(0, want);
    set_at_20(len, 0);
}

/* Lengths from 0 on, around every limit of every size. */
static void limits(void) {
    lend(&store_mem, LONGEST + 2 * 16384);
    writable(&store_mem, 0);
    for (size_t len = 0; len < 40; len++)
        for (int i = 0; i < 3; i++) refused_at(len, i == 0 ? 0 : sizes[i].page);
    for (int i = 0; i < 3; i++) {
        const size_t of[] = {1, 2, 3, 4, sizes[i].entries, sizes[i].entries + 1, sizes[i].entries + 2, sizes[i].entries + 3};
        const size_t off[] = {0, 1, sizes[i].page - 1, sizes[i].page / 4};
        for (int k = 0; k < 8; k++)
            for (int j = 0; j < 4; j++) {
                size_t len = of[k] * sizes[i].page - off[j];
                refused_at(len, 0), refused_at(len, 1024), refused_at(len, 4096), refused_at(len, 16384), refused_at(len, any_number());
            }
    }
}

/* ---- many new codes in one call into a fresh store: what it leaves, worked out from their order alone */

enum { CROWD = 520000, MOST_HERE = 1260 };

static struct {
    uint8_t *codes;
    size_t bytes, many, kept;
    uint32_t at[CROWD], lengths[CROWD], hashes[CROWD], answers[CROWD], wanted[CROWD]; /* wanted: 0, or 6 */
    uint64_t places[CROWD];
} crowd;

static struct heap {
    int bits, page, count;
    size_t needs;
    uint32_t of[MOST_HERE]; /* as their records lie */
} heaps[4096], *of_leaf[4096];

static int heap_count;
static size_t leaf_needs[4096];

static uint32_t top(uint32_t hash, int bits) { return bits == 0 ? 0 : hash >> (32 - bits); }

static void start_crowd(void) {
    if (!crowd.codes) crowd.codes = malloc((size_t)CROWD * 64);
    if (!crowd.codes) exit(1);
    crowd.bytes = crowd.many = 0;
}

static void join_crowd(const uint8_t *code, size_t len) {
    size_t i = crowd.many++;
    memcpy(crowd.codes + crowd.bytes, code, len);
    crowd.at[i] = crowd.bytes;
    crowd.lengths[i] = len;
    crowd.hashes[i] = ref_hash(code, len);
    crowd.places[i] = i | (uint64_t)(i % 32768) << 32 | (uint64_t)(i % 5) << 48;
    crowd.bytes += len;
}

static int crowd_order(const void *a, const void *b) {
    uint32_t i = *(const uint32_t *)a, j = *(const uint32_t *)b, li = crowd.lengths[i], lj = crowd.lengths[j];
    int c = memcmp(crowd.codes + crowd.at[i], crowd.codes + crowd.at[j], li < lj ? li : lj);
    return c != 0 ? c : (int)li - (int)lj;
}

/* A bucket of these, for the deepest prefixes from `leaf` on. */
static struct heap *new_heap(int bits, uint32_t leaf) {
    struct heap *h = heaps + heap_count++;
    *h = (struct heap){.bits = bits, .page = heap_count + 1};
    for (uint32_t i = 0; i < 1u << (sizes[by].deepest - bits); i++) of_leaf[leaf + i] = h;
    return h;
}

/* Rows that are too many for one page parted, each part packed, the first onto the old page. */
static void part(struct heap **old, const uint32_t *of, int count, int bits, uint32_t leaf) {
    uint32_t halves[2][MOST_HERE];
    int counts[2] = {0, 0};
    size_t needs = 0;
    for (int i = 0; i < count; i++) needs += 12 + crowd.lengths[of[i]];
    if (count == 0) return;
    if (needs <= page_size - 8) {
        struct heap *h = *old ? *old : new_heap(bits, leaf);
        for (uint32_t i = 0; *old && i < 1u << (sizes[by].deepest - bits); i++) of_leaf[leaf + i] = h;
        *old = NULL;
        h->bits = bits, h->count = count, h->needs = needs;
        memcpy(h->of, of, count * sizeof *of);
        qsort(h->of, count, sizeof *of, crowd_order);
        return;
    }
    for (int i = 0; i < count; i++) {
        int half = top(crowd.hashes[of[i]], bits + 1) & 1;
        halves[half][counts[half]++] = of[i];
    }
    part(old, halves[0], counts[0], bits + 1, leaf);
    part(old, halves[1], counts[1], bits + 1, leaf + (1u << (sizes[by].deepest - bits - 1)));
}

/* How short a prefix of this one has no row. */
static int empty_bits(uint32_t leaf) {
    for (int bits = 0;; bits++) {
        uint32_t width = 1u << (sizes[by].deepest - bits), from = leaf / width * width, i = 0;
        while (i < width && !of_leaf[from + i]) i++;
        if (i == width) return bits;
    }
}

static void put_heap(uint32_t i) {
    uint32_t leaf = top(crowd.hashes[i], sizes[by].deepest), more[MOST_HERE];
    struct heap *h = of_leaf[leaf];
    crowd.wanted[i] = leaf_needs[leaf] + 12 + crowd.lengths[i] > page_size - 8 ? LOTS_PREFIX_FULL : 0;
    if (crowd.wanted[i]) return;
    leaf_needs[leaf] += 12 + crowd.lengths[i];
    crowd.kept++;
    if (!h) {
        int bits = empty_bits(leaf), width = sizes[by].deepest - bits;
        h = new_heap(bits, leaf >> width << width);
    }
    if (h->needs + 12 + crowd.lengths[i] <= page_size - 8) {
        h->of[h->count++] = i;
        h->needs += 12 + crowd.lengths[i];
        return;
    }
    int count = h->count, bits = h->bits, width = sizes[by].deepest - bits;
    memcpy(more, h->of, count * sizeof *more);
    more[count++] = i;
    for (uint32_t k = 0; k < 1u << width; k++) of_leaf[(leaf >> width << width) + k] = NULL;
    part(&h, more, count, bits, leaf >> width << width);
}

static void write_heap(const struct heap *h) {
    uint8_t *g = theirs + (size_t)h->page * page_size;
    static uint32_t start_of[CROWD];
    uint32_t sorted[MOST_HERE], at = 8;
    for (int k = 0; k < h->count; k++) {
        uint32_t i = h->of[k];
        start_of[i] = at;
        set_number(g + at, crowd.places[i]);
        set_number(g + at + 4, crowd.places[i] >> 32);
        memcpy(g + at + 8, crowd.codes + crowd.at[i], crowd.lengths[i]);
        at += 8 + crowd.lengths[i];
    }
    memcpy(sorted, h->of, h->count * sizeof *sorted);
    qsort(sorted, h->count, sizeof *sorted, crowd_order);
    for (int k = 0; k < h->count; k++) set_number(g + page_size - 4 * (k + 1), start_of[sorted[k]] | (8 + crowd.lengths[sorted[k]]) << 14 | 1u << 28);
    set_number(g, 1 | (uint32_t)h->bits << 8 | (uint32_t)h->count << 16);
    set_number(g + 4, at | (uint32_t)(page_size - 8 - h->needs) << 16);
}

/* What the puts of the crowd leave, into `theirs`; how deep. */
static int crowd_store(size_t pages) {
    int depth = 0;
    heap_count = 0;
    crowd.kept = 0;
    memset(of_leaf, 0, sizeof of_leaf);
    memset(leaf_needs, 0, sizeof leaf_needs);
    for (size_t i = 0; i < crowd.many; i++) put_heap(i);
    if (heap_count > (int)pages - 2) fail("a crowd", heap_count, pages);
    memset(theirs, 0, pages * page_size);
    for (int h = 0; h < heap_count; h++) {
        if (heaps[h].bits > depth) depth = heaps[h].bits;
        write_heap(heaps + h);
    }
    uint32_t head[20] = {pages, page_size, sizes[by].entries, 2 * page_size, depth, by == 0 ? 0 : page_size};
    for (int h = 0; h < heap_count; h++) head[6] += heaps[h].count, head[7 + heaps[h].bits]++;
    for (int k = 0; k < 20; k++) set_number(theirs + 4 * k, head[k]);
    for (uint32_t i = 0; i < 1u << depth; i++) {
        struct heap *h = of_leaf[i << (sizes[by].deepest - depth)];
        set_number(theirs + page_size + 4 * i, h ? h->page : 0);
    }
    return depth;
}

/* The crowd in one call: the answer to each that is there then, and to each that found no room. */
static void crowd_put(size_t len, uint64_t mode, uint32_t kept, uint32_t full_prefix) {
    for (size_t i = 0; i < crowd.many; i++) crowd.answers[i] = 77;
    uint64_t r = lots_put_all(store_mem.end - len, len, crowd.codes, crowd.bytes, crowd.lengths, crowd.many, crowd.places, crowd.many, crowd.answers, crowd.many, mode);
    expect("a crowd in one call", r, 0);
    for (size_t i = 0; i < crowd.many; i++) {
        uint32_t answer = crowd.wanted[i] == 0 ? kept : full_prefix;
        if (crowd.answers[i] != answer) fail("the answer to one of a crowd", crowd.answers[i], answer);
    }
    if (memcmp(store_mem.end - len, theirs, len) != 0) fail("the store of a crowd", 0, 0);
    steps += crowd.many;
}

/* The crowd in one call: every byte; then each of them is found, by puts of its own place as a known code, and as a new one. A few by the other calls. */
static void crowd_in(size_t pages, int calls) {
    size_t len = pages * page_size;
    uint8_t *s;
    uint32_t l = 0;
    lend(&store_mem, len);
    s = store_mem.end - len;
    expect("a format", lots_format(s, len, page_size), 0);
    reached[by][crowd_store(pages)]++;
    crowd_put(len, LOTS_ONLY_NEW, 0, LOTS_PREFIX_FULL);
    crowd_put(len, LOTS_ONLY_KNOWN, 0, LOTS_NO_CODE);
    if (lots_count(s, len) != crowd.kept) fail("a count of a crowd", lots_count(s, len), crowd.kept);
    for (int k = 0; k < calls; k++) {
        uint32_t i = below(crowd.many);
        uint8_t a[64] = {0}, b[64] = {0};
        uint64_t r = lots_lookup(s, len, crowd.codes + crowd.at[i], crowd.lengths[i]), n = below(crowd.kept);
        if (r != crowd.places[i]) fail("a lookup in a crowd", r, crowd.places[i]);
        uint64_t x = lots_row(s, len, n, a, 64, &l), y = ref_row(theirs, len, n, b, 64, &l);
        if (x != y || memcmp(a, b, 64) != 0) fail("a row of a crowd", x, y);
    }
    if (calls > 0) crowd_put(len, LOTS_ONLY_NEW, LOTS_KNOWN_CODE, LOTS_PREFIX_FULL);
    memcpy(ours, s, len);
    full[by] += directory_full();
}

/* The pool in one call. */
static void crowded(size_t pages, size_t many) {
    start_crowd();
    for (size_t i = 0; i < many; i++) join_crowd(pool[i].code, pool[i].len);
    crowd_in(pages, 0);
}

/* 200,000 codes of 8 to 20 bytes at 16,384. */
static void national(void) {
    uint8_t code[64];
    go_by(2);
    start_crowd();
    for (int i = 0; i < 200000; i++) {
        size_t n = draw_code(code, 8, 20, 0, 0);
        join_crowd(code, n);
    }
    crowd_in(4098, 3);
    if (crowd.kept != 200000) fail("200,000 codes", crowd.kept, 200000);
}

/* A bucket for every entry there can be: `each` codes of 64 bytes for each deepest prefix. */
static void every_entry(int size, int each) {
    static int have[4096];
    uint8_t code[64];
    go_by(size);
    start_crowd();
    memset(have, 0, sizeof have);
    while (crowd.many < sizes[by].entries * each) {
        draw_code(code, 64, 64, 0, 0);
        for (int turn = 0; turn < 40; turn++) {
            uint32_t leaf = top(ref_hash(code, 64), sizes[by].deepest);
            if (have[leaf] < each) {
                have[leaf]++;
                join_crowd(code, 64);
                break;
            }
            code[63] = draw_byte(), code[62] = draw_byte();
        }
    }
    crowd_in(sizes[by].entries + 2, 0);
}

/* The histories at 1,024. */
static void small_pages(void) {
    size_t many;
    go_by(0);
    many = fill_pool(60, 1, 3, 0, 0), history(3, many, 4, 400), damage(3 * page_size, 400, many);
    many = fill_pool(40, 60, 64, 0, 0), history(3 + below(4), many, 4, 300);
    many = fill_pool(300, 1, 64, 0, 0), history(12, many, 6, 400), damage(12 * page_size, 400, many);
    many = fill_pool(400, 1, 64, 5, below(32)), history(20, many, 6, 500), damage(20 * page_size, 300, many);
    many = fill_pool(120, 20, 64, 8, below(256)), history(10, many, 4, 300);
    many = fill_pool(80, 60, 64, 7, below(128)), history(6, many, 6, 300);
    many = fill_pool(1500, 1, 64, 0, 0), history(70, many, 4, 1000), damage(70 * page_size, 200, many);
    many = fill_pool(3000, 50, 64, 0, 0), crowded(258, many), go_on(258 * page_size, many, 4, 500, 1), damage(258 * page_size, 60, many);
    random_bytes(3000, many);
    many = fill_pool(120, 1, 64, 0, 0), batches(3, many, 80), batches(12, many, 80);
    many = fill_pool(60, 50, 64, 8, below(256)), batches(6, many, 80);
    many = fill_pool(3000, 8, 20, 0, 0), batches(258, many, 40);
}

/* Codes that share all but the last bits of a deepest prefix, and a few beside each prefix on the way there: a deep and full directory in few pages. */
static size_t deep_pool(int last, size_t many) {
    int bits = sizes[by].deepest - last;
    uint32_t value = below(1u << bits);
    size_t n = fill_pool(many, 40, 64, bits, value);
    for (int k = 1; k <= bits; k++) n = more_codes(n, 2, 4, 20, k, value >> (bits - k) ^ 1);
    return n;
}

/* Those at 4,096 and 16,384. A page takes some page_size / 64 of the deep codes: a few more than one page takes, so that it is parted and joined again and
 * again, then any codes for some four pages, then three pages of deep ones. */
static void big_pages(int size, int each) {
    size_t many, pages;
    go_by(size);
    pages = sizes[by].deepest + 5;
    many = fill_pool(page_size / 80, 1, 2, 0, 0), history(3, many, 2, each), damage(3 * page_size, each, many);
    many = deep_pool(1, page_size / 64 + 8), crowded(pages, many), go_on(pages * page_size, many, 4, each, 1);
    batches(pages, many, 10), batches(4, many, 10);
    many = fill_pool(4 * page_size / 46, 4, 64, 0, 0), crowded(pages, many), go_on(pages * page_size, many, 3, each, 1), damage(pages * page_size, each, many);
    many = deep_pool(2, 3 * page_size / 64), crowded(pages, many), go_on(pages * page_size, many, 2, each, 1), damage(pages * page_size, each, many);
    random_bytes(300, many);
}

static int sum_up(uint64_t seed) {
    int bad = 0;
    printf("compare: seed %llu, %llu calls, no difference; refusals", (unsigned long long)seed, (unsigned long long)steps);
    for (int i = 0; i < NUMBERS; i++) printf(" %d:%llu", numbers[i], (unsigned long long)refused[numbers[i]]);
    for (int k = 0; k < 3; k++) {
        printf("; depths at %zu", sizes[k].page);
        for (int i = 0; i <= sizes[k].deepest; i++) printf(" %d:%llu", i, (unsigned long long)reached[k][i]);
        printf(", full %llu", (unsigned long long)full[k]);
    }
    printf("; deeper %llu, shallower %llu times\n", (unsigned long long)splits, (unsigned long long)joins);
    for (int i = 0; i < NUMBERS; i++)
        if (refused[numbers[i]] == 0) bad = 1, printf("compare: refusal %d was never reached\n", numbers[i]);
    if (!inspected[0] || !inspected[1] || !inspected[2] || !inspected[8] || !inspected[9]) bad = 1, printf("compare: an answer of inspection was never reached\n");
    for (int i = 3; i <= 13; i++)
        if (in_batch[i] == 0 && (i < 8 || i == 13)) bad = 1, printf("compare: no put of a batch was refused with %d\n", i);
    if (unfilled[0] == 0 || unfilled[1] == 0) bad = 1, printf("compare: counts were never filled in, or never refused\n");
    if (respelled == 0 || capitals == 0) bad = 1, printf("compare: no code was spelled anew, or no capital stored\n");
    if (miscounts == 0) bad = 1, printf("compare: no count was wrong\n");
    for (int k = 0; k < 3; k++)
        if (reached[k][sizes[k].deepest] == 0 || (k > 0 && full[k] == 0)) bad = 1, printf("compare: the deepest depth or a full directory of %zu was never reached\n", sizes[k].page);
    return bad;
}

int main(int argc, char **argv) {
    uint64_t seed = argc > 1 ? strtoull(argv[1], NULL, 10) : 1;
    int scale = argc > 2 ? atoi(argv[2]) : 1;
    size_t many;
    state = seed * 0x9E3779B97F4A7C15u + 1;
    signal(SIGSEGV, touched);
    signal(SIGBUS, touched);
    code_mem = guarded(96);
    out_mem = guarded(256);
    page_mem = guarded(LONGEST_LENT);
    len_mem = guarded(sizeof(uint32_t));
    codes_mem = guarded(BYTES + 1);
    lengths_mem = guarded(sizeof(uint32_t) * (PUTS + 1));
    places_mem = guarded(sizeof(uint64_t) * (PUTS + 1));
    answers_mem = guarded(sizeof(uint32_t) * (PUTS + 1));
    limits();
    for (int size = 0; size < 3; size++) {
        go_by(size);
        nothing_lent();
        inspected_depths();
        numbers_at_20();
        modes(0, 0, LOTS_PAGES_FULL);
        modes(sizes[size].deepest, below(sizes[size].entries), LOTS_PREFIX_FULL);
        spellings();
        filled_counts();
    }
    for (int k = 0; k < scale; k++) {
        small_pages();
        big_pages(1, 400);
        big_pages(2, 200);
        many = fill_pool(400, 1, 64, 0, 0), changing(12 * 1024, many, 40, 25), changing(48 * 1024, many, 60, 25), changing(256 * 1024, many, 20, 25);
    }
    every_entry(0, 10);
    /* the longest ones, one each: they take their time */
    if (seed % 3 == 1) national();
    if (seed % 3 == 2) every_entry(1, 40);
    if (seed % 3 == 0) every_entry(2, 120);
    return sum_up(seed);
}
