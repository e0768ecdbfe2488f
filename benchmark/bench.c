/* The benchmark's program; the script `bench` counts the instructions of its calls. A store FILE has beside it FILE.codes (its codes, in the order in
 * which they were put) and FILE.before (the store without the last of them, those that are removed and put again).
 *   bench build DIR             makes the stores
 *   bench CALL FILE [checks]    makes calls that are counted, and says how many: check, plain2, plain3 once; lookup, put, remove for several codes, and
 *                               with `checks` a check of the same store before each, which is then what the marks enclose
 *   bench put_all FILE [checks] the same for one call of many puts, from FILE.before to FILE; says how many puts
 *   bench report FILE [checks]  the same for one report over a sheet of SHEET rows, the codes' places among them
 *   bench damage FILE TIMES     the three checks on damaged copies, which must all say the same; says how many were accepted
 *   bench time FILE TURNS       the least nanoseconds of a check, a plain check at -O2, one at -O3, of so many each
 *   bench bytes FILE            how many codes there are, and their bytes together
 *   bench national [checks]     counted: one call of 200,000 puts into an empty store of 4,098 pages of 16,384 bytes; says how many puts
 * An answer that is not the one meant ends it with status 1. The full stores of bigger pages are written without the calls, and have no codes beside them. */
#define _GNU_SOURCE
#include "../include/lots.h"
#include <stdio.h>
#include <stdlib.h>
#include <string.h>
#include <time.h>
#include <unistd.h>

enum { MOST = 4098 << 14, CODES = 200000, LOOKUPS = 100, SHEET = 200000 };

/* benchmark/plain.c, built for each page size at -O2 and at -O3 */
uint64_t plain2_1024(const uint8_t *store, size_t store_len), plain2_4096(const uint8_t *store, size_t store_len), plain2_16384(const uint8_t *store, size_t store_len);
uint64_t plain3_1024(const uint8_t *store, size_t store_len), plain3_4096(const uint8_t *store, size_t store_len), plain3_16384(const uint8_t *store, size_t store_len);

static uint8_t store[MOST];
static size_t size, page = 1024;

static struct {
    uint8_t len, bytes[64];
} codes[CODES];
static size_t many;

static void expect(int holds, const char *what) {
    if (holds) return;
    fprintf(stderr, "bench: %s\n", what);
    exit(1);
}

static uint32_t draw(void) {
    static uint64_t state = 88172645463325252u;
    state ^= state << 13;
    state ^= state >> 7;
    state ^= state << 17;
    return (uint32_t)(state >> 16);
}

static uint32_t below(uint32_t n) { return draw() % n; }

static uint32_t get32(const uint8_t *p) { return p[0] | p[1] << 8 | p[2] << 16 | (uint32_t)p[3] << 24; }

static uint32_t get16(const uint8_t *p) { return p[0] | p[1] << 8; }

static void set32(uint8_t *p, uint32_t v) {
    for (int b = 0; b < 4; b++) p[b] = v >> 8 * b;
}

/* The plain check of the size that the number at 20 says. */
__attribute__((noinline)) uint64_t plain2(const uint8_t *s, size_t len) {
    if (len < 24) return LOTS_REFUSED | 1;
    uint32_t n = get32(s + 20);
    return n == 4096 ? plain2_4096(s, len) : n == 16384 ? plain2_16384(s, len) : plain2_1024(s, len);
}

__attribute__((noinline)) uint64_t plain3(const uint8_t *s, size_t len) {
    if (len < 24) return LOTS_REFUSED | 1;
    uint32_t n = get32(s + 20);
    return n == 4096 ? plain3_4096(s, len) : n == 16384 ? plain3_16384(s, len) : plain3_1024(s, len);
}

/* ---- files */

static void save(const char *path, const char *end, const void *bytes, size_t len) {
    char name[4096];
    snprintf(name, sizeof name, "%s%s", path, end);
    FILE *f = fopen(name, "wb");
    expect(f && fwrite(bytes, 1, len, f) == len && fclose(f) == 0, "a file cannot be written");
}

/* A file's bytes; none where there is no such file. */
static size_t load(const char *path, const char *end, void *bytes, size_t most) {
    char name[4096];
    snprintf(name, sizeof name, "%s%s", path, end);
    FILE *f = fopen(name, "rb");
    if (!f) return 0;
    size_t len = fread(bytes, 1, most, f);
    fclose(f);
    return len;
}

/* ---- calls, each with the answer meant: code i has a place made of i */

static uint64_t place_word(size_t i) { return i | (uint64_t)(i & 0x7FFF) << 32 | (uint64_t)(i & 7) << 48; }

static uint64_t put(size_t i) { return lots_put(store, size, codes[i].bytes, codes[i].len, i, i & 0x7FFF, i & 7, LOTS_EITHER); }

static uint64_t take_out(size_t i) { return lots_remove(store, size, codes[i].bytes, codes[i].len); }

static uint64_t look_up(size_t i) { return lots_lookup(store, size, codes[i].bytes, codes[i].len); }

/* ---- the stores */

static void next_code(size_t least, size_t most) {
    codes[many].len = least + below(most - least + 1);
    for (size_t i = 0; i < codes[many].len; i++) codes[many].bytes[i] = 0x21 + below(94);
}

/* Rows until there are `rows`, or 200 codes in a row find no room. */
static void fill(size_t rows, size_t least, size_t most) {
    for (int refused = 0; many < rows && refused < 200;) {
        next_code(least, most);
        uint64_t r = put(many);
        expect(r == LOTS_NEW || r == (LOTS_REFUSED | 6) || r == (LOTS_REFUSED | 7), "a put");
        if (r == LOTS_NEW) many++, refused = 0;
        else refused++;
    }
}

/* The store, its codes, and the store without the last `tail` codes. */
static void save_all(const char *dir, const char *name, size_t tail) {
    static uint8_t whole[MOST];
    char path[4096];
    snprintf(path, sizeof path, "%s/%s", dir, name);
    expect(lots_check(store, size) == 0 && lots_count(store, size) == many, "a store that is not accepted");
    save(path, "", store, size);
    save(path, ".codes", codes, many * sizeof codes[0]);
    memcpy(whole, store, size);
    for (size_t i = many - tail; i < many; i++) expect(take_out(i) == place_word(i), "a remove");
    save(path, ".before", store, size);
    memcpy(store, whole, size);
}

static void start(size_t pages, size_t page_size) {
    page = page_size;
    size = pages * page;
    many = 0;
    expect(lots_format(store, size, page) == 0, "a format");
}

/* Codes of one byte, from 0x5B on: no capitals. */
static void one_byte(size_t rows) {
    for (; many < rows; many++) {
        codes[many].len = 1;
        codes[many].bytes[0] = 0x5B + many;
        expect(put(many) == LOTS_NEW, "a put");
    }
}

/* ---- full stores of bigger pages: a bucket for every deepest prefix, each with the codes that came until it had no room, as many as the rows asked for */

static uint32_t hash(const uint8_t *code, size_t len) {
    uint32_t h = 2166136261u;
    for (size_t i = 0; i < len; i++) h = (h ^ code[i]) * 16777619u;
    return h;
}

static const uint8_t *sorted; /* the page whose slots are sorted */

static int slot_order(const void *a, const void *b) {
    uint32_t v = get32(a), w = get32(b), v_len = (v >> 14) % 128 - 8, w_len = (w >> 14) % 128 - 8;
    int c = memcmp(sorted + v % 16384 + 8, sorted + w % 16384 + 8, v_len < w_len ? v_len : w_len);
    return c != 0 ? -c : (int)w_len - (int)v_len; /* the first code has the last slot */
}

/* A code onto a page at its frontier, its slot the last; not if there is no room. */
static int lay(uint8_t *g, const uint8_t *code, size_t len) {
    uint32_t n = get16(g + 2), frontier = n == 0 ? 8 : get16(g + 4);
    if (frontier + 12 + len + 4 * n > page) return 0;
    set32(g + frontier, n);
    memcpy(g + frontier + 8, code, len);
    set32(g + page - 4 * (n + 1), frontier | (8 + len) << 14 | 1u << 28);
    set32(g, 1 | (page == 4096 ? 10 : 12) << 8 | (n + 1) << 16);
    set32(g + 4, (frontier + 8 + len) | (page - 4 * (n + 1) - (frontier + 8 + len)) << 16);
    return 1;
}

static void full_store(const char *dir, const char *name, size_t page_size, size_t rows) {
    char path[4096];
    size_t entries = page_size / 4, depth = page_size == 4096 ? 10 : 12;
    start(entries + 2, page_size);
    set32(store + 24, rows);
    set32(store + 28 + 4 * depth, entries);
    while (rows > 0) {
        next_code(8, 20);
        for (size_t i = 0; i < codes[0].len; i++) codes[0].bytes[i] += codes[0].bytes[i] >= 'A' && codes[0].bytes[i] <= 'Z' ? 32 : 0; /* as they are stored */
        rows -= lay(store + page * (2 + (hash(codes[0].bytes, codes[0].len) >> (32 - depth))), codes[0].bytes, codes[0].len);
    }
    set32(store + 16, depth);
    for (size_t i = 0; i < entries; i++) {
        set32(store + page + 4 * i, 2 + i);
        sorted = store + page * (2 + i);
        uint32_t n = get16(sorted + 2);
        qsort(store + page * (3 + i) - 4 * n, n, 4, slot_order);
    }
    expect(lots_check(store, size) == 0, "a full store that is not accepted");
    snprintf(path, sizeof path, "%s/%s", dir, name);
    save(path, "", store, size);
}

static void build(const char *dir) {
    start(258, 1024);
    save_all(dir, "empty", 0);
    fill(3000, 8, 20);
    save_all(dir, "short", many);
    fill(9787, 8, 20);
    save_all(dir, "full", 300);
    start(258, 1024);
    fill(1200, 64, 64);
    save_all(dir, "long", many);
    start(3, 1024);
    one_byte(1);
    save_all(dir, "page-1", 1);
    one_byte(78);
    save_all(dir, "page-78", 78);
    start(66, 4096);
    fill(3000, 8, 20);
    save_all(dir, "short-4k", 300);
    start(18, 16384);
    fill(3000, 8, 20);
    save_all(dir, "short-16k", 300);
    start(1026, 4096);
    save_all(dir, "empty-4k", 0);
    start(4098, 16384);
    save_all(dir, "empty-16k", 0);
    /* as full as the full store of 1,024: rows for its 9,787, by the capacity */
    full_store(dir, "full-4k", 4096, 9787ul * 1024 * 4088 / (256 * 1016));
    full_store(dir, "full-16k", 16384, 9787ul * 4096 * 16376 / (256 * 1016));
}

/* ---- calls that are counted */

static void mark(int end) { syscall(9999, end); } /* for benchmark/count.c; any other system answers that there is no such call */

/* Calls are made at four places of the stack in turn: the C library's memset takes other steps at another one, and a check's tables do not lie at the same
 * place in lots_check and in a call that begins with a check. */
static uint64_t counted(uint64_t (*call)(size_t), size_t i, int checks) {
    static size_t turn;
    volatile char *shift = __builtin_alloca(1 + 16 * (turn++ & 3));
    *shift = 0;
    if (checks) {
        mark(0);
        uint64_t r = lots_check(store, size);
        mark(1);
        expect(r == 0, "a store that is not accepted");
        return call(i);
    }
    mark(0);
    uint64_t r = call(i);
    mark(1);
    return r;
}

static size_t look_up_some(int checks) {
    size_t n = many < LOOKUPS ? many : LOOKUPS;
    for (size_t k = 0; k < n; k++) {
        size_t i = k * many / n;
        expect(counted(look_up, i, checks) == place_word(i), "a lookup");
    }
    return n;
}

static size_t remove_all(size_t from, int checks) {
    for (size_t i = from; i < many; i++) expect(counted(take_out, i, checks) == place_word(i), "a remove");
    expect(lots_count(store, size) == from, "rows left");
    return many - from;
}

/* The rows of the store without the codes that are put again. */
static size_t rows_before(const char *path) {
    static uint8_t before[MOST];
    return lots_count(before, load(path, ".before", before, MOST));
}

static size_t put_all(size_t from, int checks) {
    for (size_t i = from; i < many; i++) expect(counted(put, i, checks) == LOTS_NEW, "a put");
    expect(lots_count(store, size) == many, "rows lost");
    return many - from;
}

static size_t check_once(uint64_t (*check)(const uint8_t *, size_t)) {
    mark(0);
    uint64_t r = check(store, size);
    mark(1);
    expect(r == 0, "a store that is not accepted");
    return 1;
}

/* All of the codes in one call; it must leave the store that they left one by one, where there is one. */
static size_t put_at_once(const char *path, int checks) {
    static uint8_t bytes[CODES * 64], after[MOST];
    static uint32_t lengths[CODES], answers[CODES];
    static uint64_t places[CODES];
    size_t len = 0;
    for (size_t i = 0; i < many; i++) {
        memcpy(bytes + len, codes[i].bytes, codes[i].len);
        len += lengths[i] = codes[i].len;
        places[i] = place_word(i);
        answers[i] = 77;
    }
    if (checks) check_once(lots_check);
    else mark(0);
    uint64_t r = lots_put_all(store, size, bytes, len, lengths, many, places, many, answers, many, LOTS_ONLY_NEW);
    if (!checks) mark(1);
    expect(r == 0 && lots_count(store, size) == many, "a batch");
    expect(path == NULL || (load(path, "", after, MOST) == size && memcmp(after, store, size) == 0), "what a batch left");
    for (size_t i = 0; i < many; i++) expect(answers[i] == 0, "a put of a batch");
    return many;
}

/* 200,000 codes of 8 to 20 bytes in one call. */
static size_t national(int checks) {
    start(4098, 16384);
    for (; many < CODES; many++) next_code(8, 20);
    return put_at_once(NULL, checks);
}

/* A sheet whose row i has the place of code i: more rows than any store here has codes. */
static size_t report_once(int checks) {
    static lots_sheet_row sheet[SHEET];
    int64_t total = 0, hidden = 0;
    for (size_t i = 0; i < SHEET; i++) {
        sheet[i] = (lots_sheet_row){i, i & 0x7FFF, i & 7, (int64_t)i - 5000};
        *(i < many ? &total : &hidden) += sheet[i].cents;
    }
    if (checks) return check_once(lots_check);
    mark(0);
    lots_report_answer r = lots_report(store, size, sheet, SHEET);
    mark(1);
    expect(r.answer == 0 && r.total == total && r.hidden == SHEET - many && r.hidden_cents == hidden && r.doubled == 0, "a report");
    return 1;
}

/* ---- damage */

static uint8_t *some_page(void) { return store + page * (2 + below(size / page - 2)); }

/* One damage: to any byte, a header, a slot, the directory, a whole page. */
static void hurt(void) {
    uint8_t *g = some_page(), *other = some_page(), one = 1 << below(8);
    uint32_t most = (page - 8) / 13, n = get16(g + 2) < most ? get16(g + 2) : most, pages = size / page;
    uint8_t *slot = g + page - 4 * (1 + below(n + 1)), *second = g + page - 4 * (1 + below(n + 1));
    uint32_t v = get32(slot), w = get32(second), next = get32(slot - 4), o = v % 16384, l = v >> 14 & 127;
    switch (below(15)) {
    case 0: store[below(size)] = draw(); break;
    case 1: store[below(size)] ^= one; break;
    case 2: store[below(24)] ^= one; break;
    case 3: store[page + below(page)] ^= one; break;
    case 4: set32(store + page + 4 * below(page / 4), below(pages + 1)); break;
    case 5: g[below(8)] ^= one; break;
    case 6: g[below(8)] += below(2) ? 1 : 255; break;
    case 7: slot[below(4)] ^= one; break;
    case 8: /* two slots change places */
        set32(slot, w);
        set32(second, v);
        break;
    case 9: /* a record loses its last byte, and total free says so */
        if (o + l <= page && l > 0) g[o + l - 1] = 0;
        set32(slot, v - 0x4000);
        g[6]++;
        break;
    case 10: /* the next code becomes the same, where it is as long */
        if (v >> 14 == next >> 14 && o + l <= page && next % 16384 + l <= page) memmove(g + next % 16384 + 8, g + o + 8, l > 8 ? l - 8 : 0);
        break;
    case 11: memmove(g, other, page); break;
    case 12: /* the number of a size, or of none */
        if (below(8) == 0) set32(store + 20, 1024u << 2 * below(4));
        break;
    case 13: /* a code gets a capital, or one of the bytes beside these */
        if (o + l <= page && l > 8) g[o + 8 + below(l - 8)] = 0x40 + below(28);
        break;
    default: /* a page and its entries go: what it was parted from may fit without it */
        memset(g, 0, page);
        for (uint8_t *e = store + page; e < store + 2 * page; e += 4)
            if (get32(e) == (g - store) / page) set32(e, 0);
    }
}

static void damage(int times) {
    static uint8_t sound[MOST];
    uint64_t accepted = 0;
    for (size_t i = 3; i < many; i += 7) expect(take_out(i) == place_word(i), "a remove"); /* so that pages have holes */
    memcpy(sound, store, size);
    for (int t = 0; t < times; t++) {
        size_t len = below(50) ? size : below(2) ? below(size) : page * below(size / page);
        for (uint32_t hurts = 1 + below(3); hurts > 0; hurts--) hurt();
        uint64_t r = lots_check(store, len);
        expect(r == plain2(store, len) && r == plain3(store, len), "the checks differ on a damaged store");
        accepted += r == 0;
        memcpy(store, sound, size);
    }
    printf("%llu\n", (unsigned long long)accepted);
}

/* ---- times */

static uint64_t nanoseconds(void) {
    struct timespec t;
    clock_gettime(CLOCK_MONOTONIC, &t);
    return t.tv_sec * 1000000000u + t.tv_nsec;
}

/* In turn, so that all three meet the same machine. */
static void times(int turns) {
    uint64_t (*const checks[3])(const uint8_t *, size_t) = {lots_check, plain2, plain3}, least[3] = {UINT64_MAX, UINT64_MAX, UINT64_MAX};
    for (int t = 0; t < 3 * turns; t++) {
        uint64_t from = nanoseconds(), r = checks[t % 3](store, size), took = nanoseconds() - from;
        expect(r == 0, "a store that is not accepted");
        if (took < least[t % 3]) least[t % 3] = took;
    }
    printf("%llu %llu %llu\n", (unsigned long long)least[0], (unsigned long long)least[1], (unsigned long long)least[2]);
}

/* From the store's own headers, since a full store of bigger pages has no codes beside it. */
static void code_bytes(void) {
    uint64_t rows = 0, sum = 0;
    for (const uint8_t *g = store + 2 * page; g < store + size; g += page) {
        if (g[0] == 0) continue;
        rows += get16(g + 2);
        sum += page - 8 - get16(g + 6) - 12 * get16(g + 2);
    }
    printf("%llu %llu\n", (unsigned long long)rows, (unsigned long long)sum);
}

int main(int argc, char **argv) {
    if (argc < 2) return 2;
    const char *call = argv[1], *path = argc > 2 ? argv[2] : "";
    int checks = strcmp(argv[argc - 1], "checks") == 0;
    if (strcmp(call, "national") == 0) return printf("%zu\n", national(checks)), 0;
    if (strcmp(call, "build") == 0) return build(path), 0;
    many = load(path, ".codes", codes, sizeof codes) / sizeof codes[0];
    size = load(path, strncmp(call, "put", 3) == 0 ? ".before" : "", store, MOST);
    expect(size >= 24, "a store cannot be read");
    if (get32(store + 20) != 0) page = get32(store + 20);
    if (strcmp(call, "damage") == 0 && argc > 3) return damage(atoi(argv[3])), 0;
    if (strcmp(call, "time") == 0 && argc > 3) return times(atoi(argv[3])), 0;
    if (strcmp(call, "bytes") == 0) return code_bytes(), 0;
    size_t calls = 0;
    if (strcmp(call, "check") == 0) calls = check_once(lots_check);
    else if (strcmp(call, "plain2") == 0) calls = check_once(plain2);
    else if (strcmp(call, "plain3") == 0) calls = check_once(plain3);
    else if (strcmp(call, "lookup") == 0) calls = look_up_some(checks);
    else if (strcmp(call, "put") == 0) calls = put_all(lots_count(store, size), checks);
    else if (strcmp(call, "put_all") == 0) calls = put_at_once(path, checks);
    else if (strcmp(call, "report") == 0) calls = report_once(checks);
    else if (strcmp(call, "remove") == 0) calls = remove_all(rows_before(path), checks);
    else return 2;
    printf("%zu\n", calls);
    return 0;
}
