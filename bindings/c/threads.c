/* Threads that share a type, each by a handle of its own. Exits with 0 where all answers are right. */
#include "tulvorn.h"
#include <pthread.h>
#include <stdio.h>
#include <string.h>

enum { THREADS = 4, TIMES = 5000 };

static const char MODULE[] =
    "M DEFINITIONS AUTOMATIC TAGS ::= BEGIN\n"
    "Msg ::= SEQUENCE { id INTEGER (0..7), ok BOOLEAN DEFAULT TRUE, note IA5String (SIZE (0..3)) OPTIONAL }\n"
    "END\n";

static void *work(void *mine) {
    tulvorn_handle *type = mine, copy = TULVORN_NONE, value = TULVORN_NONE;
    size_t wrong = 0;
    for (int64_t at = 0; at < TIMES; at++) {
        tulvorn_fault fault;
        uint8_t octet = (uint8_t)(at % 8 << 3);
        int64_t id = -1;
        if (tulvorn_decode(type, TULVORN_PER, &octet, 1, &value, &fault) != TULVORN_DONE) wrong++;
        if (tulvorn_integer(&value, (const uint8_t *)"id", 2, &id) != TULVORN_DONE || id != at % 8) wrong++;
        if (tulvorn_share(type, &copy) != TULVORN_DONE) wrong++;
        if (at % 3 == 0) tulvorn_close(&copy);
    }
    tulvorn_close(&value);
    tulvorn_close(&copy);
    tulvorn_close(type); /* opened in another thread */
    return wrong == 0 ? NULL : mine;
}

int main(void) {
    tulvorn_handle module = TULVORN_NONE, types[THREADS] = {TULVORN_NONE};
    tulvorn_fault fault;
    pthread_t threads[THREADS];
    int status = 0;
    if (tulvorn_module((const uint8_t *)MODULE, strlen(MODULE), &module, &fault) != TULVORN_DONE) return 1;
    if (tulvorn_type(&module, (const uint8_t *)"Msg", 3, &types[0], &fault) != TULVORN_DONE) return 2;
    for (int at = 1; at < THREADS; at++) {
        if (tulvorn_share(&types[0], &types[at]) != TULVORN_DONE) return 3;
    }
    tulvorn_close(&module);
    for (int at = 0; at < THREADS; at++) {
        if (pthread_create(&threads[at], NULL, work, &types[at]) != 0) return 4;
    }
    for (int at = 0; at < THREADS; at++) {
        void *wrong;
        if (pthread_join(threads[at], &wrong) != 0 || wrong != NULL) status = 5;
    }
    printf("C, %d threads: %s\n", THREADS, status == 0 ? "passed" : "FAILED");
    return status;
}
