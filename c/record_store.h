/*
 * The record store for callers in C: get, put and renew on numbers and on the bytes of a flash image.
 *
 * Each function takes the kind of a group and its parameter, the cells to a record, the number of a record, and an image
 * as a pointer and a length. It first checks the image, then that a store can be made, then the call, and answers
 *   - the value (get) or the number of cells that it set (put, renew), which is at most 1,024; or
 *   - RECORD_STORE_REFUSED plus the number of the refusal, and then every byte of the image is as it was.
 * Any numbers and any bytes may be given. Nothing is remembered between calls but the image, and nothing is allocated.
 * The same call on the same bytes has the same answer and leaves the same bytes.
 * Where the image is good and a store can be made, calls on it, one after the other with the same kind, parameter and
 * cells to a record, and with nothing else writing to the image between them, keep together what docs/DATASHEET.md says
 * of changes per erase and of full and worn-out pages.
 *
 * The image must be `length` bytes of memory that may be read and written, and that nothing else reads or writes during
 * the call. With a length of 0 the pointer must still not be null. Calls on different images may run at the same time.
 */
#ifndef RECORD_STORE_H
#define RECORD_STORE_H

#include <stddef.h>
#include <stdint.h>

#ifdef __cplusplus
extern "C" {
#endif

/* Kinds of groups; any other is refused by RECORD_STORE_UNUSABLE. */
enum {
    RECORD_STORE_INTEGERS = 0, /* the integers modulo the parameter, 2 to 64 */
    RECORD_STORE_VECTORS = 1   /* the vectors of as many bits as the parameter says, 1 to 6 */
};

/* An answer of at least this is a refusal, and what it is more than this is the number of the refusal. */
#define RECORD_STORE_REFUSED UINT32_C(10000)

/* The numbers of the refusals. */
enum {
    /* the check of the image, in reading order */
    RECORD_STORE_SHORT = 10,     /* the image ends too early */
    RECORD_STORE_PAGES = 11,     /* no pages, or more than 64 */
    RECORD_STORE_WIDTH = 12,     /* no cells to a page, or more than 1,024 */
    RECORD_STORE_TRAILING = 13,  /* bytes follow the last page */
    RECORD_STORE_STRAY = 14,     /* a bit that belongs to no cell is 0 */
    RECORD_STORE_WEAR = 15,      /* a wear count above 10,000 */
    /* the making of the store */
    RECORD_STORE_UNUSABLE = 30,  /* the group cannot be used */
    RECORD_STORE_CELLS = 31,     /* no cells to a record, or more than 63 */
    RECORD_STORE_NARROW = 32,    /* a page has fewer cells than a record */
    /* the call */
    RECORD_STORE_NO_RECORD = 40, /* there is no such record */
    RECORD_STORE_NO_VALUE = 41,  /* the value is no element of the group (put, renew) */
    RECORD_STORE_FULL = 42,      /* no set of unset cells takes the record to the value (put) */
    RECORD_STORE_FITS = 43,      /* a put of the value would be accepted (renew) */
    RECORD_STORE_UNREACHED = 44, /* not even a record with no cell set could be taken to the value (renew) */
    RECORD_STORE_WORN = 22       /* the page was erased 10,000 times (renew) */
};

/*
 * The value of a record. It alters no byte.
 */
uint32_t record_store_get(uint32_t kind, uint32_t parameter, uint32_t n, uint32_t record, uint8_t *image, size_t length);

/*
 * Sets the fewest cells that take a record to a value, and answers how many. Of several sets of as few cells it sets
 * the one whose cells, lowest first, come first in dictionary order, so that every byte afterwards is known. Where
 * the record has the value already it sets none and answers 0. Where it answers RECORD_STORE_REFUSED +
 * RECORD_STORE_FULL, a renewal is due.
 */
uint32_t record_store_put(uint32_t kind, uint32_t parameter, uint32_t n, uint32_t record, uint32_t value, uint8_t *image,
                          size_t length);

/*
 * Erases the page of a record in the image and writes all records of the page again: this one with the value, the others
 * with the values that they had, each from empty by the smallest set of its cells that gives its value, chosen among
 * several as a put chooses. It answers how many cells it set.
 */
uint32_t record_store_renew(uint32_t kind, uint32_t parameter, uint32_t n, uint32_t record, uint32_t value, uint8_t *image,
                            size_t length);

#ifdef __cplusplus
}
#endif

#endif
