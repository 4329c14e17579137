/* Threads that read one type and one value by one handle each, which no call may write: the handles lie in memory that
   cannot be written. Exits with 0 where all answers are right. */
#define _DEFAULT_SOURCE
#include "tulvorn.h"
#include <pthread.h>
#include <stdio.h>
#include <sys/mman.h>

enum { THREADS = 4, TIMES = 20000 };

struct handles {
    tulvorn_handle type, value;
};

static void *work(void *given) {
    const struct handles *held = given;
    tulvorn_handle own = TULVORN_NONE;
    size_t wrong = 0;
    for (int64_t at = 0; at < TIMES; at++) {
        tulvorn_fault fault;
        uint8_t octet = (uint8_t)(at % 8 << 4);
        int64_t id = -1;
        size_t size = 0;
        wrong += tulvorn_check(&held->type, TULVORN_PER, &octet, 1, &fault) != TULVORN_DONE;
        wrong += tulvorn_integer(&held->value, TULVORN_TEXT("id"), &id) != TULVORN_DONE || id != 5;
        wrong += tulvorn_encoded_len(&held->value, TULVORN_OER, &size, &fault) != TULVORN_DONE || size != 2;
        if (at % 16) continue;
        wrong += tulvorn_decode(&held->type, TULVORN_PER, &octet, 1, &own, &fault) != TULVORN_DONE;
        wrong += tulvorn_integer(&own, TULVORN_TEXT("id"), &id) != TULVORN_DONE || id != at % 8;
        wrong += tulvorn_misfit(&held->type, &held->value, &own) != TULVORN_DONE;
        wrong += tulvorn_share(&held->type, &own) != TULVORN_DONE;
    }
    tulvorn_close(&own);
    return wrong == 0 ? NULL : given;
}

int main(void) {
    tulvorn_handle module = TULVORN_NONE;
    tulvorn_fault fault;
    pthread_t threads[THREADS];
    int status = 0;
    size_t page = 4096;
    struct handles *held = mmap(NULL, page, PROT_READ | PROT_WRITE, MAP_PRIVATE | MAP_ANONYMOUS, -1, 0);
    if (held == MAP_FAILED) return 1;
    *held = (struct handles){TULVORN_NONE, TULVORN_NONE};
    if (tulvorn_module(TULVORN_TEXT("M DEFINITIONS AUTOMATIC TAGS ::= BEGIN\n"
                                    "Msg ::= SEQUENCE { id INTEGER (0..7), ok BOOLEAN DEFAULT TRUE } END"),
                       &module, &fault) != TULVORN_DONE) return 2;
    if (tulvorn_type(&module, TULVORN_TEXT("Msg"), &held->type, &fault) != TULVORN_DONE) return 3;
    if (tulvorn_from_json(&held->type, TULVORN_TEXT("{\"id\":5}"), &held->value, &fault) != TULVORN_DONE) return 4;
    if (mprotect(held, page, PROT_READ) != 0) return 5;
    for (int at = 0; at < THREADS; at++) {
        if (pthread_create(&threads[at], NULL, work, held) != 0) return 6;
    }
    for (int at = 0; at < THREADS; at++) {
        void *wrong;
        if (pthread_join(threads[at], &wrong) != 0 || wrong != NULL) status = 7;
    }
    if (mprotect(held, page, PROT_READ | PROT_WRITE) != 0) return 8;
    tulvorn_close(&held->value);
    tulvorn_close(&held->type);
    tulvorn_close(&module);
    printf("C, %d threads with one handle: %s\n", THREADS, status == 0 ? "passed" : "FAILED");
    return status;
}
