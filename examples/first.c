/* A first store from C: format, put, look up, list. tests/outside builds and runs it. */
#include "../include/lots.h"
#include <stdio.h>
#include <string.h>

static uint8_t store[8 * 1024];

static void put(const char *code, int32_t page, int16_t slot, int16_t volume, uint64_t mode) {
    uint64_t word = lots_put(store, sizeof store, (const uint8_t *)code, strlen(code), page, slot, volume, mode);
    if (lots_refusal(word)) printf("put %s: refused %u\n", code, lots_refusal(word));
    else printf("put %s: %s\n", code, word == LOTS_NEW ? "new" : "replaced");
}

static void print_place(uint64_t word) {
    printf("page %d, slot %d, volume %d\n", lots_place_page(word), lots_place_slot(word), lots_place_volume(word));
}

int main(void) {
    lots_format(store, sizeof store, 1024);
    put("LOT-7A", 7, 2, 0, LOTS_EITHER);
    put("LOT-7B", 7, 3, 0, LOTS_ONLY_NEW);
    put("LOT-7A", 9, 1, 0, LOTS_ONLY_NEW);
    put("LOT-7A", 9, 1, 0, LOTS_ONLY_KNOWN);
    put("", 1, 1, 1, LOTS_EITHER);
    uint64_t found = lots_lookup(store, sizeof store, (const uint8_t *)"Lot-7a", 6);
    printf("Lot-7a: ");
    print_place(found);
    uint64_t rows = lots_count(store, sizeof store);
    for (uint64_t n = 0; n < rows; n++) {
        uint8_t code[64];
        uint32_t len;
        uint64_t place = lots_row(store, sizeof store, n, code, sizeof code, &len);
        printf("%.*s: ", (int)len, (char *)code);
        print_place(place);
    }
    printf("check %llu\n", (unsigned long long)lots_check(store, sizeof store));
    return 0;
}
