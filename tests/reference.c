/* See reference.h. */
#include "reference.h"
#include <stdlib.h>
#include <string.h>

enum { LONGEST_PAGE = 16384, MOST_ENTRIES = 4096, MOST_PAGES = MOST_ENTRIES + 2, MOST_ON_PAGE = (LONGEST_PAGE - 8) / 13 };

#define REFUSED ((uint64_t)1 << 63)
#define NEW_ROW ((uint64_t)1 << 31)

static uint64_t refusal(unsigned number) { return REFUSED | number; }
static uint64_t broken(unsigned page) { return REFUSED | 2 | (uint64_t)page << 8; }

/* ---- page sizes */

static const struct {
    int size, entries, deepest;
} table[] = {{1024, 256, 8}, {4096, 1024, 10}, {16384, 4096, 12}};

/* those that the call goes by */
static int page_size, capacity, entries, deepest;

/* Whether n is one of the three sizes; the call then goes by it. */
static int go_by(uint64_t n) {
    for (int i = 0; i < 3; i++)
        if ((uint64_t)table[i].size == n) {
            page_size = table[i].size;
            capacity = page_size - 8;
            entries = table[i].entries;
            deepest = table[i].deepest;
            return 1;
        }
    return 0;
}

/* ---- numbers and codes */

static uint32_t number(const uint8_t *at, int bytes) {
    uint32_t value = 0;
    for (int i = bytes; i-- > 0;) value = value << 8 | at[i];
    return value;
}

static void set_number(uint8_t *at, int bytes, uint32_t value) {
    for (int i = 0; i < bytes; i++, value >>= 8) at[i] = value & 255;
}

static uint64_t place_word(const uint8_t *at) { return (uint64_t)number(at + 4, 4) << 32 | number(at, 4); }

uint32_t ref_hash(const uint8_t *code, size_t len) {
    uint32_t h = 2166136261u;
    for (size_t i = 0; i < len; i++) h = (h ^ code[i]) * 16777619u;
    return h;
}

/* One lot, two spellings: bytes 0x41 to 0x5A of a given code become 0x61 to 0x7A. */
static uint8_t fold_byte(uint8_t b) { return b >= 0x41 && b <= 0x5A ? b + 0x20 : b; }

static void fold(uint8_t *folded, const uint8_t *code, size_t len) {
    for (size_t i = 0; i < len; i++) folded[i] = fold_byte(code[i]);
}

static uint32_t prefix(uint32_t hash, int bits) { return bits == 0 ? 0 : hash >> (32 - bits); }

struct row {
    uint8_t code[64];
    int len;
    uint8_t place[8];
    uint32_t hash;
    int page, start; /* where it stands */
};

static int need(const struct row *r) { return 12 + r->len; }

static int code_order(const uint8_t *a, int alen, const uint8_t *b, int blen) {
    int least = alen < blen ? alen : blen;
    int c = memcmp(a, b, least);
    return c != 0 ? c : alen - blen;
}

static int row_order(const struct row *x, const struct row *y) { return code_order(x->code, x->len, y->code, y->len); }

static int sort_order(const void *a, const void *b) { return row_order(*(struct row *const *)a, *(struct row *const *)b); }

/* ---- one page */

static int all_zero(const uint8_t *at, int n) {
    for (int i = 0; i < n; i++)
        if (at[i] != 0) return 0;
    return 1;
}

/* The rows of a bucket page into out; how many, or -1 where a rule of the bucket page fails. */
static int bucket_rows(const uint8_t *g, int page, struct row *out) {
    int count = number(g + 2, 2), frontier = number(g + 4, 2), total_free = number(g + 6, 2);
    static uint8_t owned[LONGEST_PAGE];
    int largest = 0, needs = 0;
    memset(owned, 0, page_size);
    if (g[0] != 1 || count < 1 || count > capacity / 13) return -1;
    for (int i = 0; i < count; i++) {
        uint32_t slot = number(g + page_size - 4 * (i + 1), 4);
        int start = slot & 0x3FFF, len = slot >> 14 & 0x3FFF;
        if (slot >> 28 != 1 || len < 9 || len > 72 || start < 8 || start + len > page_size - 4 * count) return -1;
        for (int b = start; b < start + len; b++) {
            if (owned[b]) return -1;
            owned[b] = 1;
        }
        if (start + len > largest) largest = start + len;
        if (g[start + 3] >= 128 || g[start + 5] >= 128 || g[start + 7] >= 128) return -1;
        struct row *r = out + i;
        memset(r, 0, sizeof *r);
        memcpy(r->place, g + start, 8);
        r->len = len - 8;
        memcpy(r->code, g + start + 8, r->len);
        for (int b = 0; b < r->len; b++)
            if (r->code[b] != fold_byte(r->code[b])) return -1;
        r->hash = ref_hash(r->code, r->len);
        r->page = page;
        r->start = start;
        needs += need(r);
        if (i > 0 && row_order(out + i - 1, r) >= 0) return -1;
    }
    if (frontier != largest || needs > capacity || total_free != capacity - needs) return -1;
    for (int b = 8; b < page_size - 4 * count; b++)
        if (!owned[b] && g[b] != 0) return -1;
    for (int i = 1; i < count; i++)
        if (g[1] > 32 ? out[i].hash != out[0].hash : prefix(out[i].hash, g[1]) != prefix(out[0].hash, g[1])) return -1;
    return count;
}

/* The bytes of a bucket page with these rows, in code order, each where it stands. */
static void write_bucket(uint8_t *g, int depth, struct row *const *of, int count) {
    int frontier = 8, needs = 0;
    memset(g, 0, page_size);
    for (int i = 0; i < count; i++) {
        const struct row *r = of[i];
        memcpy(g + r->start, r->place, 8);
        memcpy(g + r->start + 8, r->code, r->len);
        set_number(g + page_size - 4 * (i + 1), 4, (uint32_t)r->start | (uint32_t)(8 + r->len) << 14 | 1u << 28);
        if (r->start + 8 + r->len > frontier) frontier = r->start + 8 + r->len;
        needs += need(r);
    }
    g[0] = 1;
    g[1] = depth;
    set_number(g + 2, 2, count);
    set_number(g + 4, 2, frontier);
    set_number(g + 6, 2, capacity - needs);
}

/* These rows packed onto a page, as its bytes. */
static void write_packed(uint8_t *s, int p, int depth, struct row **of, int count) {
    int at = 8;
    qsort(of, count, sizeof *of, sort_order);
    for (int i = 0; i < count; i++) {
        of[i]->page = p;
        of[i]->start = at;
        at += 8 + of[i]->len;
    }
    write_bucket(s + (size_t)p * page_size, depth, of, count);
}

/* ---- the partition, worked out afresh */

struct bucket {
    int bits;
    uint32_t value;
};

/* What the rows of the deepest prefixes before each need together; a prefix needs what those below it need. */
static int before_leaf[MOST_ENTRIES + 1];

static void weigh(const struct row *of, int count) {
    memset(before_leaf, 0, sizeof before_leaf);
    for (int i = 0; i < count; i++) before_leaf[prefix(of[i].hash, deepest) + 1] += need(of + i);
    for (int leaf = 0; leaf < entries; leaf++) before_leaf[leaf + 1] += before_leaf[leaf];
}

static int weight(int bits, uint32_t value) { return before_leaf[(value + 1) << (deepest - bits)] - before_leaf[value << (deepest - bits)]; }

/* The bucket of each deepest prefix, -1 for none. */
static int of_leaf[MOST_ENTRIES];

static int bucket_of(uint32_t hash) { return of_leaf[prefix(hash, deepest)]; }

/* Each prefix held to the definition, in prefix order, which is the order of first entries. A row needs something, so no need means no row. */
static int partition(const struct row *of, int count, struct bucket *out) {
    int n = 0;
    weigh(of, count);
    for (int leaf = 0; leaf < entries; leaf++) of_leaf[leaf] = -1;
    for (uint32_t leaf = 0; leaf < (uint32_t)entries; leaf++)
        for (int bits = 0; bits <= deepest; bits++) {
            uint32_t value = leaf >> (deepest - bits);
            if (value << (deepest - bits) != leaf) continue;
            int own = weight(bits, value);
            if (own == 0 || own > capacity || (bits > 0 && weight(bits - 1, value >> 1) <= capacity)) continue;
            for (uint32_t below = leaf; below < (value + 1) << (deepest - bits); below++) of_leaf[below] = n;
            out[n++] = (struct bucket){bits, value};
        }
    return n;
}

/* ---- the store */

static struct row *rows;
static int row_count, row_room;

/* Room for the rows of one page more, and one row. */
static void make_room(void) {
    if (row_room - row_count > MOST_ON_PAGE) return;
    row_room = 2 * row_room + 2 * MOST_ON_PAGE;
    rows = realloc(rows, row_room * sizeof *rows);
    if (!rows) abort();
}

static int in_limits(size_t len) { return len % page_size == 0 && len / page_size >= 3 && len / page_size <= (size_t)entries + 2; }

/* By the number at 20, 0 for 1,024; one that is no size counts as 1,024, so does 1,024 itself, and a store without one is too short. */
static int good_length(const uint8_t *s, size_t len) {
    if (len < 24) return 0;
    if (!go_by(number(s + 20, 4))) go_by(1024);
    return in_limits(len);
}

static int good_page0(const uint8_t *s, int pages) {
    return number(s, 4) == (uint32_t)pages && number(s + 4, 4) == (uint32_t)page_size && number(s + 8, 4) == (uint32_t)entries &&
           number(s + 12, 4) == 2 * (uint32_t)page_size && number(s + 16, 4) <= (uint32_t)deepest && number(s + 20, 4) == (page_size == 1024 ? 0 : (uint32_t)page_size) &&
           all_zero(s + 80, page_size - 80);
}

/* Ranges and zeros of page 1; how many entries name each page. */
static int good_page1(const uint8_t *s, int pages, int depth, int *named) {
    memset(named, 0, pages * sizeof *named);
    for (int i = 0; i < entries; i++) {
        uint32_t e = number(s + page_size + 4 * i, 4);
        if (e != 0 && (e < 2 || e >= (uint32_t)pages || i >= 1 << depth)) return 0;
        named[e]++;
    }
    return 1;
}

/* Whether all entries for a prefix name the page, and `named`, as many as name it, are no more. */
static int called(const uint8_t *s, int p, int depth, int bits, uint32_t value, int named) {
    uint32_t from = value << (depth - bits), to = (value + 1) << (depth - bits);
    for (uint32_t i = from; i < to; i++)
        if (number(s + page_size + 4 * i, 4) != (uint32_t)p) return 0;
    return (uint32_t)named == to - from;
}

/* The buckets by local depth. */
static void count_buckets(const uint8_t *s, int pages, uint32_t *of) {
    memset(of, 0, 13 * sizeof *of);
    for (int p = 2; p < pages; p++)
        if (s[(size_t)p * page_size] == 1) of[s[(size_t)p * page_size + 1]]++;
}

/* At 24 the number of rows that were read, and from 28 the buckets by local depth. */
static int good_counts(const uint8_t *s, int pages) {
    uint32_t of[13];
    count_buckets(s, pages, of);
    for (int k = 0; k < 13; k++)
        if (number(s + 28 + 4 * k, 4) != of[k]) return 0;
    return number(s + 24, 4) == (uint32_t)row_count;
}

/* 0 and the rows of the store, or the refusal, whatever its counts are. */
static uint64_t read_uncounted(const uint8_t *s, size_t len) {
    static uint32_t hashes[MOST_PAGES]; /* of each bucket's first row */
    static int named[MOST_PAGES];
    if (!good_length(s, len)) return refusal(1);
    int pages = len / page_size, depth = number(s + 16, 4), largest = 0;
    row_count = 0;
    make_room();
    if (!good_page0(s, pages)) return broken(0);
    if (!good_page1(s, pages, depth, named)) return broken(1);
    for (int p = 2; p < pages; p++) {
        const uint8_t *g = s + (size_t)p * page_size;
        if (all_zero(g, page_size)) {
            if (named[p] != 0) return broken(p);
            continue;
        }
        int count = bucket_rows(g, p, rows + row_count);
        if (count < 0 || g[1] > depth) return broken(p);
        hashes[p] = rows[row_count].hash;
        if (!called(s, p, depth, g[1], prefix(hashes[p], g[1]), named[p])) return broken(p);
        row_count += count;
        make_room();
    }
    weigh(rows, row_count);
    for (int p = 2; p < pages; p++) {
        int bits = s[(size_t)p * page_size + 1]; /* 0 on a free page */
        if (bits > largest) largest = bits;
        if (bits > 0 && weight(bits - 1, prefix(hashes[p], bits - 1)) <= capacity) return broken(p);
    }
    return depth == largest ? 0 : broken(0);
}

/* The same, its counts judged last of all. */
static uint64_t read_store(const uint8_t *s, size_t len) {
    uint64_t bad = read_uncounted(s, len);
    return bad ? bad : good_counts(s, len / page_size) ? 0 : broken(0);
}

static int find(const uint8_t *code, size_t len) {
    for (int i = 0; i < row_count; i++)
        if (rows[i].len == (int)len && memcmp(rows[i].code, code, len) == 0) return i;
    return -1;
}

/* The rows that stand on page p, in code order. */
static int on_page(int p, struct row **out) {
    int n = 0;
    for (int i = 0; i < row_count; i++)
        if (rows[i].page == p) out[n++] = rows + i;
    qsort(out, n, sizeof *out, sort_order);
    return n;
}

/* Those of some rows whose hash begins so. */
static int of_prefix(struct row *const *some, int count, struct bucket b, struct row **out) {
    int n = 0;
    for (int i = 0; i < count; i++)
        if (prefix(some[i]->hash, b.bits) == b.value) out[n++] = some[i];
    return n;
}

/* Counts, depth and entries from the rows, each bucket on the page where its rows stand. */
static void write_directory(uint8_t *s) {
    static struct bucket buckets[MOST_ENTRIES];
    static int page_of[MOST_ENTRIES];
    int n = partition(rows, row_count, buckets), depth = 0;
    for (int i = 0; i < row_count; i++) page_of[bucket_of(rows[i].hash)] = rows[i].page;
    memset(s + 28, 0, 52);
    for (int b = 0; b < n; b++) {
        uint8_t *count = s + 28 + 4 * buckets[b].bits;
        set_number(count, 4, number(count, 4) + 1);
        if (buckets[b].bits > depth) depth = buckets[b].bits;
    }
    set_number(s + 16, 4, depth);
    set_number(s + 24, 4, row_count);
    memset(s + page_size, 0, page_size);
    for (int i = 0; i < 1 << depth; i++) {
        int b = of_leaf[i << (deepest - depth)];
        if (b >= 0) set_number(s + page_size + 4 * i, 4, page_of[b]);
    }
}

static int lowest_free(const uint8_t *s, int pages) {
    for (int p = 2; p < pages; p++)
        if (s[(size_t)p * page_size] == 0) return p;
    return 0;
}

/* ---- the calls */

uint64_t ref_format(uint8_t *s, size_t len, uint64_t size) {
    if (!go_by(size) || !in_limits(len)) return refusal(1);
    memset(s, 0, len);
    set_number(s, 4, len / page_size);
    set_number(s + 4, 4, page_size);
    set_number(s + 8, 4, entries);
    set_number(s + 12, 4, 2 * page_size);
    set_number(s + 20, 4, page_size == 1024 ? 0 : page_size);
    return 0;
}

uint64_t ref_check(const uint8_t *s, size_t len) { return read_store(s, len); }

uint64_t ref_count(const uint8_t *s, size_t len) {
    uint64_t bad = read_store(s, len);
    return bad ? bad : (uint64_t)row_count;
}

/* The old rules had page 0 zero from 24 on. */
uint64_t ref_fill_counts(uint8_t *s, size_t len) {
    if (!good_length(s, len)) return refusal(1);
    if (!all_zero(s + 24, 56)) return broken(0);
    uint64_t bad = read_uncounted(s, len);
    if (bad) return bad;
    uint32_t of[13];
    count_buckets(s, len / page_size, of);
    set_number(s + 24, 4, row_count);
    for (int k = 0; k < 13; k++) set_number(s + 28 + 4 * k, 4, of[k]);
    return 0;
}

uint64_t ref_lookup(const uint8_t *s, size_t len, const uint8_t *code, size_t code_len) {
    if (!good_length(s, len)) return refusal(1);
    if (code_len == 0 || code_len > 64) return refusal(3);
    uint64_t bad = read_store(s, len);
    if (bad) return bad;
    uint8_t folded[64];
    fold(folded, code, code_len);
    int at = find(folded, code_len);
    return at < 0 ? refusal(5) : place_word(rows[at].place);
}

/* Row n of these, in this order, to the output. */
static uint64_t give(struct row *const *of, int count, uint64_t n, uint8_t *out, uint32_t *code_len) {
    if (n >= (uint64_t)count) return refusal(9);
    memcpy(out, of[n]->code, of[n]->len);
    *code_len = of[n]->len;
    return place_word(of[n]->place);
}

/* Buckets by their first entry, in a bucket codes in order. */
static int list_order(const void *a, const void *b) {
    int p = bucket_of((*(struct row *const *)a)->hash), q = bucket_of((*(struct row *const *)b)->hash);
    return p != q ? p - q : sort_order(a, b);
}

static struct row **listing;

/* The rows that were read, as they are listed. */
static void list_rows(void) {
    static struct bucket buckets[MOST_ENTRIES];
    partition(rows, row_count, buckets);
    listing = realloc(listing, (row_count + 1) * sizeof *listing);
    if (!listing) abort();
    for (int i = 0; i < row_count; i++) listing[i] = rows + i;
    qsort(listing, row_count, sizeof *listing, list_order);
}

uint64_t ref_row(const uint8_t *s, size_t len, uint64_t n, uint8_t *out, size_t out_len, uint32_t *code_len) {
    if (!good_length(s, len)) return refusal(1);
    if (out_len < 64) return refusal(8);
    uint64_t bad = read_store(s, len);
    if (bad) return bad;
    list_rows();
    return give(listing, row_count, n, out, code_len);
}

/* ---- the bid report */

static int order_of(int64_t a, int64_t b) { return (a > b) - (a < b); }

static int place_order(int32_t page, int slot, int volume, const lots_sheet_row *x) {
    int c = order_of(page, x->page);
    if (c == 0) c = order_of(slot, x->slot);
    return c != 0 ? c : order_of(volume, x->volume);
}

static int row_to_sheet(const void *a, const void *x) {
    const uint8_t *place = ((const struct row *)a)->place;
    return place_order(number(place, 4), number(place + 4, 2), number(place + 6, 2), x);
}

static int good_sheet(const lots_sheet_row *x, size_t n) {
    if (n > MOST_SHEET) return 0;
    for (size_t i = 0; i < n; i++) {
        if (x[i].page < 0 || x[i].slot < 0 || x[i].volume < 0) return 0;
        if (x[i].cents < -1000000000000 || x[i].cents > 1000000000000) return 0;
        if (i > 0 && place_order(x[i - 1].page, x[i - 1].slot, x[i - 1].volume, x + i) >= 0) return 0;
    }
    return 1;
}

lots_report_answer ref_report(const uint8_t *s, size_t len, const lots_sheet_row *sheet, size_t n) {
    static int named[MOST_SHEET];
    lots_report_answer r = {0, 0, 0, 0, 0, 0};
    if (!good_length(s, len)) return r.answer = refusal(1), r;
    if (!good_sheet(sheet, n)) return r.answer = refusal(10), r;
    uint64_t bad = read_store(s, len);
    if (bad) return r.answer = bad, r;
    list_rows();
    int64_t total = 0;
    memset(named, 0, sizeof named);
    for (int k = 0; k < row_count; k++) {
        const lots_sheet_row *x = bsearch(listing[k], sheet, n, sizeof *sheet, row_to_sheet);
        if (!x) return r.answer = refusal(11), r.place = place_word(listing[k]->place), r;
        total += x->cents;
        named[x - sheet]++;
    }
    r.total = total;
    for (size_t i = 0; i < n; i++) {
        if (named[i] == 0) r.hidden++, r.hidden_cents += sheet[i].cents;
        if (named[i] > 1) r.doubled++;
    }
    return r;
}

uint64_t ref_inspect(const uint8_t *g, size_t len, uint64_t n, uint8_t *out, size_t out_len, uint32_t *code_len) {
    static struct row on[MOST_ON_PAGE], *of[MOST_ON_PAGE];
    int count = 0;
    if (!go_by(len)) return refusal(1);
    if (out_len < 64) return refusal(8);
    if (!all_zero(g, page_size)) {
        count = g[1] > deepest ? -1 : bucket_rows(g, 0, on);
        if (count < 0) return broken(0);
    }
    for (int i = 0; i < count; i++) of[i] = on + i;
    return give(of, count, n, out, code_len);
}

/* The row `fresh` is one of the page's, and has no place on it yet. */
static void put_at_frontier(uint8_t *g, struct row *fresh, int depth) {
    struct row *of[MOST_ON_PAGE];
    int n = on_page(fresh->page, of), frontier = 8;
    for (int i = 0; i < n; i++)
        if (of[i] != fresh && of[i]->start + 8 + of[i]->len > frontier) frontier = of[i]->start + 8 + of[i]->len;
    if (page_size - 4 * (n - 1) - frontier < need(fresh)) { /* too little room there: packed first, without the new row */
        frontier = 8;
        for (int i = 0; i < n; i++)
            if (of[i] != fresh) {
                of[i]->start = frontier;
                frontier += 8 + of[i]->len;
            }
    }
    fresh->start = frontier;
    write_bucket(g, depth, of, n);
}

/* The rows of the old page and the row `fresh`, which stands nowhere: the new buckets, packed, in prefix order. */
static void split(uint8_t *s, int pages, int old, struct row *fresh, const struct bucket *after, int n) {
    struct row *below[MOST_ON_PAGE + 1], *some[MOST_ON_PAGE + 1];
    int count = on_page(old, below), first = 1;
    memset(s + (size_t)old * page_size, 0, page_size);
    below[count++] = fresh;
    for (int b = 0; b < n; b++) {
        int k = of_prefix(below, count, after[b], some);
        if (k == 0) continue;
        write_packed(s, first ? old : lowest_free(s, pages), after[b].bits, some, k);
        first = 0;
    }
}

static struct row *add_row(const uint8_t *code, size_t code_len, const uint8_t *place) {
    struct row *r = rows + row_count++;
    memset(r, 0, sizeof *r);
    memcpy(r->code, code, code_len);
    r->len = code_len;
    memcpy(r->place, place, 8);
    r->hash = ref_hash(code, code_len);
    return r;
}

uint64_t ref_put(uint8_t *s, size_t len, const uint8_t *code, size_t code_len, int32_t page, int16_t slot, int16_t volume, uint64_t mode) {
    static struct bucket before[MOST_ENTRIES], after[MOST_ENTRIES];
    if (!good_length(s, len)) return refusal(1);
    if (code_len == 0 || code_len > 64) return refusal(3);
    if (page < 0 || slot < 0 || volume < 0) return refusal(4);
    if (mode != 0 && mode != 1 && mode != 2) return refusal(14);
    uint64_t bad = read_store(s, len);
    if (bad) return bad;
    uint8_t folded[64], place[8];
    fold(folded, code, code_len);
    set_number(place, 4, page);
    set_number(place + 4, 2, slot);
    set_number(place + 6, 2, volume);
    int known = find(folded, code_len);
    if (known >= 0 && mode == 1) return refusal(13);
    if (known < 0 && mode == 2) return refusal(5);
    if (known >= 0) {
        uint64_t old = place_word(rows[known].place);
        memcpy(s + (size_t)rows[known].page * page_size + rows[known].start, place, 8);
        return old;
    }
    partition(rows, row_count, before);
    int pages = len / page_size, home = bucket_of(ref_hash(folded, code_len)), old = 0;
    for (int i = 0; i < row_count && home >= 0; i++)
        if (bucket_of(rows[i].hash) == home) old = rows[i].page;
    struct row *r = add_row(folded, code_len, place);
    int are = partition(rows, row_count, after);
    if (weight(deepest, prefix(r->hash, deepest)) > capacity) return refusal(6);
    if (are > pages - 2) return refusal(7);
    if (home >= 0 && weight(before[home].bits, before[home].value) > capacity) {
        split(s, pages, old, r, after, are);
    } else {
        r->page = home >= 0 ? old : lowest_free(s, pages);
        put_at_frontier(s + (size_t)r->page * page_size, r, after[bucket_of(r->hash)].bits);
    }
    write_directory(s);
    return NEW_ROW;
}

/* The runs are far shorter than 2^32, so that the sum fits. */
uint64_t ref_put_all(uint8_t *s, size_t len, const uint8_t *codes, size_t codes_len, const uint32_t *lengths, size_t lengths_len, const uint64_t *places,
                     size_t places_len, uint32_t *answers, size_t answers_len, uint64_t mode) {
    uint64_t sum = 0, bad;
    if (!good_length(s, len)) return refusal(1);
    for (size_t i = 0; i < lengths_len; i++) sum += lengths[i];
    if (places_len != lengths_len || answers_len != lengths_len || sum != codes_len) return refusal(12);
    if (mode > 2) return refusal(14);
    if ((bad = ref_check(s, len))) return bad;
    for (size_t i = 0, at = 0; i < lengths_len; at += lengths[i++]) {
        uint64_t r = ref_put(s, len, codes + at, lengths[i], (int32_t)places[i], (int16_t)(places[i] >> 32), (int16_t)(places[i] >> 48), mode);
        answers[i] = r & REFUSED ? r & 255 : 0;
    }
    return 0;
}

uint64_t ref_remove(uint8_t *s, size_t len, const uint8_t *code, size_t code_len) {
    static struct bucket after[MOST_ENTRIES];
    struct row *some[MOST_ON_PAGE];
    if (!good_length(s, len)) return refusal(1);
    if (code_len == 0 || code_len > 64) return refusal(3);
    uint64_t bad = read_store(s, len);
    if (bad) return bad;
    uint8_t folded[64];
    fold(folded, code, code_len);
    int at = find(folded, code_len);
    if (at < 0) return refusal(5);
    struct row gone = rows[at];
    rows[at] = rows[--row_count];
    partition(rows, row_count, after);
    int home = bucket_of(gone.hash), lowest = gone.page, k = 0;
    uint8_t *g = s + (size_t)gone.page * page_size;
    if (home < 0) {
        memset(g, 0, page_size);
    } else if (after[home].bits == g[1]) {
        k = on_page(gone.page, some);
        write_bucket(g, g[1], some, k);
    } else {
        memset(g, 0, page_size);
        for (int i = 0; i < row_count; i++) {
            if (bucket_of(rows[i].hash) != home) continue;
            some[k++] = rows + i;
            if (rows[i].page < lowest) lowest = rows[i].page;
            memset(s + (size_t)rows[i].page * page_size, 0, page_size);
        }
        write_packed(s, lowest, after[home].bits, some, k);
    }
    write_directory(s);
    return place_word(gone.place);
}
