/* What the tests in C share: allocations that fail in turn, and what is looked at. For programs that are linked with
   -Wl,--wrap=malloc -Wl,--wrap=realloc. */
#ifndef CALLS_H
#define CALLS_H

#include "tulvorn.h"
#include <stdio.h>
#include <stdlib.h>
#include <string.h>

static long left = -1;   /* allocations until one fails; none fails where it is below 0 */
static long asked;       /* allocations so far */

void *__real_malloc(size_t size);
void *__wrap_malloc(size_t size);
void *__real_realloc(void *block, size_t size);
void *__wrap_realloc(void *block, size_t size);

static int fails(void) {
    asked++;
    if (left > 0) left--;
    if (left != 0) return 0;
    left = -1;
    return 1;
}

void *__wrap_malloc(size_t size) { return fails() ? NULL : __real_malloc(size); }

void *__wrap_realloc(void *block, size_t size) { return fails() ? NULL : __real_realloc(block, size); }

#define CHECK(holds)                                      \
    do {                                                  \
        if (!(holds)) {                                   \
            printf("line %d: not so: %s\n", __LINE__, #holds); \
            return 1;                                     \
        }                                                 \
    } while (0)

#define TEXT(text) (const uint8_t *)(text), strlen(text)

/* each call that allocates, with each of its allocations failing in turn: it answers NO_MEMORY, and its handle is as
   it was; or it does what it was asked for */
#define EACH_FAILS(handle, call)                                         \
    do {                                                                 \
        tulvorn_handle handle = TULVORN_NONE;                            \
        asked = 0;                                                       \
        CHECK((call) == TULVORN_DONE);                                   \
        long count = asked;                                              \
        CHECK(count > 0);                                                \
        tulvorn_close(&handle);                                          \
        for (long at = 1; at <= count; at++) {                           \
            left = at;                                                   \
            uint32_t code = (call);                                      \
            CHECK(left == -1);                                           \
            /* (a call may go on where a block that it only hoped for was refused) */ \
            CHECK(code == TULVORN_DONE || (code == TULVORN_NO_MEMORY && handle.at == NULL)); \
            if (code == TULVORN_NO_MEMORY) refused++;                    \
            tulvorn_close(&handle);                                      \
        }                                                                \
        CHECK((call) == TULVORN_DONE);                                   \
        tulvorn_close(&handle);                                          \
    } while (0)

/* the handle holds these octets */
static int holds_text(const tulvorn_handle *octets, const char *wanted) {
    uint8_t into[128];
    size_t size = 0;
    CHECK(tulvorn_copy(octets, into, sizeof into, &size) == TULVORN_DONE);
    if (size != strlen(wanted) || memcmp(into, wanted, size) != 0) {
        printf("%.*s instead of %s\n", (int)size, (const char *)into, wanted);
        return 1;
    }
    return 0;
}

/* a call that fills a handle which holds words, with each of its allocations failing in turn: it answers NO_MEMORY, and
   the handle holds the words; or it does what it was asked for */
#define EACH_KEEPS(handle, call)                                                                      \
    do {                                                                                              \
        const tulvorn_fault of_words = {TULVORN_REFUSED, TULVORN_DEFAULT, 6};                         \
        tulvorn_handle handle = TULVORN_NONE;                                                         \
        for (long at = 1, fell = 1; fell; at++) {                                                     \
            CHECK(tulvorn_words(&of_words, TULVORN_PER, &handle) == TULVORN_DONE);                    \
            const void *before = handle.at;                                                           \
            left = at;                                                                                \
            uint32_t code = (call);                                                                   \
            fell = left == -1;                                                                        \
            left = -1;                                                                                \
            CHECK(code == TULVORN_DONE || (fell && code == TULVORN_NO_MEMORY));                       \
            CHECK(code == TULVORN_DONE || holds_text(&handle, "refused at bit 6: default") == 0);     \
            CHECK(handle.at == before);                                                               \
        }                                                                                             \
        tulvorn_close(&handle);                                                                       \
    } while (0)

static int says(const tulvorn_fault *fault, uint32_t rules, const char *wanted) {
    tulvorn_handle words = TULVORN_NONE;
    CHECK(tulvorn_words(fault, rules, &words) == TULVORN_DONE && holds_text(&words, wanted) == 0);
    tulvorn_close(&words);
    return 0;
}

#endif
