/*
 * Calls every function of the entry with images of no length, damaged images, and numbers that are refused. Each answer
 * must be that of the table of refusals, and no byte may change. The expected numbers are written by hand from the rules.
 */
#include <stdio.h>
#include <string.h>

#include "record_store.h"

enum { GET, PUT, RENEW, FUNCTIONS };

static const char *const NAMES[FUNCTIONS] = {"get", "put", "renew"};

struct image {
    const char *name;
    uint8_t bytes[20];
    size_t length;
    uint32_t number;
};

/* the image that the damaged ones are made from: two pages of 12 cells, with wear 0 and 3 */
static const uint8_t GOOD[] = {2, 0, 0, 0, 0, 0, 0, 0, 3, 0, 12, 0xfe, 0xfd, 0xf3, 0xf7};

static const struct image DAMAGED[] = {
    {"no bytes", {0}, 0, RECORD_STORE_SHORT},
    {"no pages", {0, 0, 12}, 3, RECORD_STORE_PAGES},
    {"65 pages", {65, 0, 0, 0, 0}, 5, RECORD_STORE_PAGES},
    {"ends in a wear count", {2, 0, 0, 0, 0, 0, 0, 0}, 8, RECORD_STORE_SHORT},
    {"wear 10,001", {1, 0, 0, 0x27, 0x11, 0, 12, 0xff, 0xff}, 9, RECORD_STORE_WEAR},
    {"ends in the width", {2, 0, 0, 0, 0, 0, 0, 0, 3, 0}, 10, RECORD_STORE_SHORT},
    {"no cells to a page", {1, 0, 0, 0, 0, 0, 0}, 7, RECORD_STORE_WIDTH},
    {"1,025 cells to a page", {1, 0, 0, 0, 0, 4, 1}, 7, RECORD_STORE_WIDTH},
    {"ends in a page", {2, 0, 0, 0, 0, 0, 0, 0, 3, 0, 12, 0xfe, 0xfd, 0xf3}, 14, RECORD_STORE_SHORT},
    {"an unused bit is 0", {2, 0, 0, 0, 0, 0, 0, 0, 3, 0, 12, 0xfe, 0xed, 0xf3, 0xf7}, 15, RECORD_STORE_STRAY},
    {"a stray bit and a missing byte", {2, 0, 0, 0, 0, 0, 0, 0, 3, 0, 12, 0xfe, 0xed, 0xf3}, 14, RECORD_STORE_SHORT},
    {"a byte too many", {2, 0, 0, 0, 0, 0, 0, 0, 3, 0, 12, 0xfe, 0xfd, 0xf3, 0xf7, 0}, 16, RECORD_STORE_TRAILING},
};

struct numbers {
    const char *name;
    uint32_t kind, parameter, n, record, value;
    uint32_t refused[FUNCTIONS]; /* 0 where that function is not tried */
};

static const struct numbers REFUSED[] = {
    {"kind 2", 2, 7, 6, 0, 1, {RECORD_STORE_UNUSABLE, RECORD_STORE_UNUSABLE, RECORD_STORE_UNUSABLE}},
    {"the largest kind", UINT32_MAX, 7, 6, 0, 1, {RECORD_STORE_UNUSABLE, RECORD_STORE_UNUSABLE, RECORD_STORE_UNUSABLE}},
    {"modulo 65", 0, 65, 6, 0, 1, {RECORD_STORE_UNUSABLE, RECORD_STORE_UNUSABLE, RECORD_STORE_UNUSABLE}},
    {"seven bits", 1, 7, 6, 0, 1, {RECORD_STORE_UNUSABLE, RECORD_STORE_UNUSABLE, RECORD_STORE_UNUSABLE}},
    {"n = 0", 0, 7, 0, 0, 1, {RECORD_STORE_CELLS, RECORD_STORE_CELLS, RECORD_STORE_CELLS}},
    {"n = 64", 0, 7, 64, 0, 1, {RECORD_STORE_CELLS, RECORD_STORE_CELLS, RECORD_STORE_CELLS}},
    {"the largest n", 0, 7, UINT32_MAX, 0, 1, {RECORD_STORE_CELLS, RECORD_STORE_CELLS, RECORD_STORE_CELLS}},
    {"n = 13", 0, 7, 13, 0, 1, {RECORD_STORE_NARROW, RECORD_STORE_NARROW, RECORD_STORE_NARROW}},
    {"record 4", 0, 7, 6, 4, 1, {RECORD_STORE_NO_RECORD, RECORD_STORE_NO_RECORD, RECORD_STORE_NO_RECORD}},
    {"the largest record", 0, 7, 6, UINT32_MAX, 9, {RECORD_STORE_NO_RECORD, RECORD_STORE_NO_RECORD, RECORD_STORE_NO_RECORD}},
    {"value 7", 0, 7, 6, 0, 7, {0, RECORD_STORE_NO_VALUE, RECORD_STORE_NO_VALUE}},
    {"the largest value", 0, 7, 6, 0, UINT32_MAX, {0, RECORD_STORE_NO_VALUE, RECORD_STORE_NO_VALUE}},
    {"a renewal that need not be", 0, 7, 6, 0, 1, {0, 0, RECORD_STORE_FITS}},
};

static int failures;

static uint32_t call(int function, const struct numbers *of, uint8_t *bytes, size_t length)
{
    switch (function) {
    case GET:
        return record_store_get(of->kind, of->parameter, of->n, of->record, bytes, length);
    case PUT:
        return record_store_put(of->kind, of->parameter, of->n, of->record, of->value, bytes, length);
    default:
        return record_store_renew(of->kind, of->parameter, of->n, of->record, of->value, bytes, length);
    }
}

static void check(int function, const char *name, const struct numbers *of, const uint8_t *before, size_t length,
                  uint32_t number)
{
    uint8_t bytes[20];
    memcpy(bytes, before, length);
    uint32_t answer = call(function, of, bytes, length);
    if (answer != RECORD_STORE_REFUSED + number) {
        printf("%s, %s: answered %u, and not %u\n", NAMES[function], name, (unsigned)answer,
               (unsigned)(RECORD_STORE_REFUSED + number));
        failures++;
    }
    if (memcmp(bytes, before, length) != 0) {
        printf("%s, %s: a byte was altered\n", NAMES[function], name);
        failures++;
    }
}

int main(void)
{
    static const struct numbers good = {"good", 0, 7, 6, 0, 1, {0}};
    int checks = 0;
    for (int function = 0; function < FUNCTIONS; function++) {
        for (size_t i = 0; i < sizeof DAMAGED / sizeof *DAMAGED; i++, checks++) {
            const struct image *image = &DAMAGED[i];
            check(function, image->name, &good, image->bytes, image->length, image->number);
            /* the image comes before what is refused of the numbers */
            check(function, image->name, &REFUSED[0], image->bytes, image->length, image->number);
        }
        for (size_t i = 0; i < sizeof REFUSED / sizeof *REFUSED; i++) {
            const struct numbers *of = &REFUSED[i];
            if (of->refused[function]) {
                check(function, of->name, of, GOOD, sizeof GOOD, of->refused[function]);
                checks++;
            }
        }
    }
    printf("entry for C: %d cases, %d failures\n", checks, failures);
    return failures != 0;
}
