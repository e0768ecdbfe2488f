/* The bid report beside the reference: every rule of the sheet broken once, amounts at both ends and one beyond, the most rows and one more, empty ones,
 * all rows under one code, sums below zero, and seeded stores and sheets; at each page size, and 200,000 codes. */
#include "../include/lots.h"
#include "reference.h"
#include <stdio.h>
#include <stdlib.h>
#include <string.h>

enum { NATIONAL = 200000, MOST_STORE = 800 << 14 };

static const int64_t HIGHEST = 1000000000000;
static uint8_t store[MOST_STORE], before[MOST_STORE];
static size_t page, size; /* a page's bytes, and the store's */
static lots_sheet_row sheet[NATIONAL + 1];
static uint64_t state = 88172645463325252u, asked, told[16];

static uint32_t draw(void) {
    state ^= state << 13;
    state ^= state >> 7;
    state ^= state << 17;
    return (uint32_t)(state >> 16);
}

static uint32_t below(uint32_t n) { return draw() % n; }

static void fail(const char *what) {
    printf("report: %s, call %llu\n", what, (unsigned long long)asked);
    exit(1);
}

/* Both on the same bytes; the answer, once they agree. */
static lots_report_answer ask(size_t store_len, size_t rows) {
    memcpy(before, store, size);
    lots_report_answer a = lots_report(store, store_len, sheet, rows), b = ref_report(before, store_len, sheet, rows);
    asked++;
    if (a.answer != b.answer) fail("the answer differs");
    if (a.place != b.place) fail("the place differs");
    if (a.total != b.total) fail("the total differs");
    if (a.hidden != b.hidden || a.hidden_cents != b.hidden_cents) fail("what is hidden differs");
    if (a.doubled != b.doubled) fail("what is doubled differs");
    if (memcmp(store, before, size) != 0) fail("the store was written");
    told[lots_refusal(a.answer) & 15]++;
    return a;
}

static void expect(const char *what, size_t rows, unsigned number) {
    if (lots_refusal(ask(size, rows).answer) != number) fail(what);
}

static lots_sheet_row at(int32_t page, int16_t slot, int16_t volume, int64_t cents) {
    lots_sheet_row r = {page, slot, volume, cents};
    return r;
}

static void put(const char *code, int32_t page, int16_t slot, int16_t volume) {
    if (lots_refusal(lots_put(store, size, (const uint8_t *)code, strlen(code), page, slot, volume, LOTS_EITHER))) fail("a put was refused");
}

static void format(void) {
    if (lots_format(store, size, page) != 0) fail("a format was refused");
}

/* A small tender: three rows, one hidden and one under two codes. */
static void small(void) {
    format();
    put("a", 1, 1, 0), put("b", 1, 1, 0), put("c", 2, 0, 5);
    sheet[0] = at(1, 1, 0, -700), sheet[1] = at(1, 2, 0, 40), sheet[2] = at(2, 0, 5, 100);
}

static void by_hand(void) {
    small();
    lots_report_answer r = ask(size, 3);
    if (r.answer || r.total != -1300 || r.hidden != 1 || r.hidden_cents != 40 || r.doubled != 1) fail("the small tender");
    if (lots_refusal(ask(size - 1, 3).answer) != LOTS_BAD_LENGTH) fail("a short store");
    sheet[1].slot = -1, expect("a negative slot", 3, LOTS_BAD_SHEET);
    small(), sheet[0].page = -1, expect("a negative page", 3, LOTS_BAD_SHEET);
    small(), sheet[2].volume = -1, expect("a negative volume", 3, LOTS_BAD_SHEET);
    small(), sheet[1] = sheet[0], expect("twin rows", 3, LOTS_BAD_SHEET);
    small(), sheet[2] = at(0, 9, 9, 0), expect("pages fall", 3, LOTS_BAD_SHEET);
    small(), sheet[1] = at(1, 0, 9, 0), expect("slots fall", 3, LOTS_BAD_SHEET);
    small(), sheet[0] = at(1, 2, 1, 0), expect("volumes fall", 3, LOTS_BAD_SHEET);
    small(), sheet[0].cents = HIGHEST + 1, expect("one cent over", 3, LOTS_BAD_SHEET);
    small(), sheet[0].cents = -HIGHEST - 1, expect("one cent under", 3, LOTS_BAD_SHEET);
    small(), sheet[0].cents = HIGHEST, sheet[1].cents = -HIGHEST, expect("both ends", 3, 0);
    /* the order 1, 10, 2, 11 */
    small(), store[2 * page] = 9, expect("a broken page", 3, LOTS_BAD_PAGE);
    sheet[0].cents = HIGHEST + 1, expect("a broken page and sheet", 3, LOTS_BAD_SHEET);
    small(), expect("the last place is not there", 2, LOTS_NOT_IN_SHEET), expect("an empty sheet", 0, LOTS_NOT_IN_SHEET);
    format(), expect("nothing at all", 0, 0), expect("an empty store", 3, 0);
    put("all", 2, 0, 5), expect("one code", 3, 0);
    for (int i = 0; i <= MOST_SHEET; i++) sheet[i] = at(i / 7, (int16_t)(i % 7), 1, i % 2 ? HIGHEST : -HIGHEST);
    format(), put("x", 0, 0, 1), put("y", 10, 0, 1);
    expect("the most rows", MOST_SHEET, 0), expect("one row too many", MOST_SHEET + 1, LOTS_BAD_SHEET);
}

/* Codes under few places, and a sheet that has most of them. */
static void seeded(int codes, int wide) {
    char code[16];
    size_t rows = 0;
    format();
    for (int i = 0; i < codes; i++) {
        snprintf(code, sizeof code, "%u", draw());
        lots_put(store, size, (const uint8_t *)code, strlen(code), (int32_t)below(wide), (int16_t)below(3), (int16_t)below(2), LOTS_EITHER);
    }
    for (int page = 0; page < wide; page++)
        for (int k = 0; k < 6; k++)
            if (below(400)) sheet[rows++] = at(page, (int16_t)(k / 2), (int16_t)(k % 2), (int64_t)(draw() % 2000001) * 1000000 - HIGHEST);
    if (rows && below(10) == 0) sheet[below((uint32_t)rows)].cents += 2 * HIGHEST;
    if (below(20) == 0) store[below((uint32_t)size)] ^= (uint8_t)(1 + below(255));
    ask(size, rows);
}

/* 200,000 codes, each at a row of its own, but the last two at one: in a sheet of as many rows as they have places, or of the most there may be. */
static void national(void) {
    static uint8_t codes[NATIONAL * 8];
    static uint32_t lengths[NATIONAL], answers[NATIONAL];
    static uint64_t places[NATIONAL];
    size_t rows = (size_t)MOST_SHEET < NATIONAL ? (size_t)MOST_SHEET : NATIONAL;
    page = 16384, size = MOST_STORE;
    format();
    for (uint32_t i = 0; i < NATIONAL; i++) {
        char code[9];
        snprintf(code, sizeof code, "%08u", i * 499u);
        memcpy(codes + 8 * i, code, 8);
        lengths[i] = 8;
        places[i] = (i == NATIONAL - 1 ? i - 1 : i) % rows;
        sheet[i] = at((int32_t)i, 0, 0, i);
    }
    if (lots_put_all(store, size, codes, sizeof codes, lengths, NATIONAL, places, NATIONAL, answers, NATIONAL, LOTS_ONLY_NEW)) fail("200,000 puts");
    for (uint32_t i = 0; i < NATIONAL; i++)
        if (answers[i]) fail("one of 200,000 puts");
    lots_report_answer r = ask(size, rows);
    if (r.answer != 0) fail("the report of 200,000 codes");
    if (rows == NATIONAL && (r.total != (int64_t)(NATIONAL - 1) * NATIONAL / 2 - 1 || r.hidden != 1 || r.hidden_cents != NATIONAL - 1 || r.doubled != 1)) fail("the sums of 200,000 codes");
}

int main(void) {
    for (page = 1024; page <= 16384; page *= 4) {
        size = (page == 1024 ? 40 : 12) * page;
        by_hand();
        for (int i = 0; i < (page == 1024 ? 600 : 30); i++) seeded((int)below(page == 1024 ? 300 : 600), 1 + (int)below(60));
    }
    national();
    printf("report: %llu reports, no difference; refusals 1:%llu 10:%llu 2:%llu 11:%llu\n", (unsigned long long)asked, (unsigned long long)told[1], (unsigned long long)told[10], (unsigned long long)told[2], (unsigned long long)told[11]);
    return !(told[0] && told[1] && told[2] && told[10] && told[11]);
}
