/*
 * Keeps a session number modulo 7 in a flash image of one page of 12 cells, which has room for two records of six cells,
 * and rolls it forward: a put while one fits, and else a renewal. It prints what each step did, and the image at the end.
 */
#include <stdio.h>

#include "record_store.h"

enum { MODULUS = 7, CELLS = 6, RECORD = 0, STEPS = 8 };

/* one page, never erased, of 12 cells, none of them set; the four bits past the last cell are 1 */
static uint8_t image[] = {1, 0, 0, 0, 0, 0, 12, 0xff, 0xff};

static int refused(uint32_t answer, uint32_t number)
{
    return answer == RECORD_STORE_REFUSED + number;
}

static int roll(uint32_t value)
{
    uint32_t set = record_store_put(RECORD_STORE_INTEGERS, MODULUS, CELLS, RECORD, value, image, sizeof image);
    const char *how = "put";
    if (refused(set, RECORD_STORE_FULL)) {
        set = record_store_renew(RECORD_STORE_INTEGERS, MODULUS, CELLS, RECORD, value, image, sizeof image);
        how = "renewed";
    }
    if (set >= RECORD_STORE_REFUSED) {
        printf("refused by %u\n", (unsigned)(set - RECORD_STORE_REFUSED));
        return 1;
    }
    printf("%s %u: %u cells set\n", how, (unsigned)value, (unsigned)set);
    return 0;
}

int main(void)
{
    uint32_t value = record_store_get(RECORD_STORE_INTEGERS, MODULUS, CELLS, RECORD, image, sizeof image);
    for (int step = 0; step < STEPS; step++) {
        value = (value + 3) % MODULUS;
        if (roll(value)) {
            return 1;
        }
    }
    printf("value %u, image", (unsigned)record_store_get(RECORD_STORE_INTEGERS, MODULUS, CELLS, RECORD, image, sizeof image));
    for (size_t i = 0; i < sizeof image; i++) {
        printf(" %02x", image[i]);
    }
    printf("\n");
    return 0;
}
