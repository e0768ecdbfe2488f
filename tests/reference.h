/* A second implementation of document 01 with the modes, the spellings, the batch, the report, the page sizes and the filling of counts of document 02, written from the documents and from nothing else: slow, plain, and worked out afresh from the rows at every call. */
#ifndef REFERENCE_H
#define REFERENCE_H

#include "../include/lots.h"

/* the most rows of a sheet */
enum { MOST_SHEET = 200000 };

/* The answers are those of include/lots.h. */
uint64_t ref_format(uint8_t *store, size_t store_len, uint64_t page_size);
uint64_t ref_check(const uint8_t *store, size_t store_len);
uint64_t ref_lookup(const uint8_t *store, size_t store_len, const uint8_t *code, size_t code_len);
uint64_t ref_remove(uint8_t *store, size_t store_len, const uint8_t *code, size_t code_len);
uint64_t ref_put(uint8_t *store, size_t store_len, const uint8_t *code, size_t code_len, int32_t page, int16_t slot, int16_t volume,
                 uint64_t mode);
uint64_t ref_put_all(uint8_t *store, size_t store_len, const uint8_t *codes, size_t codes_len, const uint32_t *lengths, size_t lengths_len,
                     const uint64_t *places, size_t places_len, uint32_t *answers, size_t answers_len, uint64_t mode);
uint64_t ref_count(const uint8_t *store, size_t store_len);
uint64_t ref_fill_counts(uint8_t *store, size_t store_len);
uint64_t ref_row(const uint8_t *store, size_t store_len, uint64_t n, uint8_t *out, size_t out_len, uint32_t *code_len);
uint64_t ref_inspect(const uint8_t *page, size_t page_len, uint64_t n, uint8_t *out, size_t out_len, uint32_t *code_len);
lots_report_answer ref_report(const uint8_t *store, size_t store_len, const lots_sheet_row *sheet, size_t sheet_rows);
uint32_t ref_hash(const uint8_t *code, size_t len);

#endif
