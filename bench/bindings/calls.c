/* Prints how long a call takes, over many equal ones. bench/bindings/calls.sh builds and runs it.

   usage: calls MODULE TYPE OCTETS CALL TIMES     OCTETS are a message of PER in hexadecimal; CALL is handle, kind,
                                                  share, check, decode, convert, encode, len or into
   `handle` is a call that takes what a handle holds and puts it back: the part that all calls have. The module is open
   during the calls, as in the program in Rattle. If it were closed, each call would search the memory that it freed. */
#define _POSIX_C_SOURCE 199309L
#include "reading.h"
#include <stdlib.h>
#include <time.h>

enum { ROOM = 1 << 16 };

static tulvorn_handle module, type, value, octets, out;
static uint8_t message[ROOM], into[ROOM];
static size_t size;

/* A loop of a call, as in the program in Rattle. The call has to return what `right` says each time. */
#define LOOP(name, locals, right)             \
    static int many_##name(long times) {      \
        for (; times > 0; times--) {          \
            locals;                           \
            if (!(right)) return 0;           \
        }                                     \
        return 1;                             \
    }

LOOP(handle, size_t needed, tulvorn_copy(&octets, into, 0, &needed) == TULVORN_TOO_SHORT)
LOOP(kind, uint32_t kind, tulvorn_kind(&value, NULL, 0, &kind) == TULVORN_DONE)
LOOP(share, (void)0, tulvorn_share(&type, &out) == TULVORN_DONE)
LOOP(check, tulvorn_fault fault, tulvorn_check(&type, TULVORN_PER, message, size, &fault) == TULVORN_DONE)
LOOP(decode, tulvorn_fault fault, tulvorn_decode(&type, TULVORN_PER, message, size, &out, &fault) == TULVORN_DONE)
LOOP(convert, tulvorn_fault fault, tulvorn_convert(&type, TULVORN_PER, message, size, &out, &fault) == TULVORN_DONE)
LOOP(encode, tulvorn_fault fault, tulvorn_encode(&value, TULVORN_PER, &out, &fault) == TULVORN_DONE)
LOOP(len, tulvorn_fault fault; size_t encoded,
     tulvorn_encoded_len(&value, TULVORN_PER, &encoded, &fault) == TULVORN_DONE)
LOOP(into, tulvorn_fault fault; size_t encoded,
     tulvorn_encode_into(&value, TULVORN_PER, into, size, &encoded, &fault) == TULVORN_DONE)

static const struct call {
    const char *name;
    int (*many)(long times);
} calls[] = {
    {"handle", many_handle},   {"kind", many_kind},     {"share", many_share},
    {"check", many_check},     {"decode", many_decode}, {"convert", many_convert},
    {"encode", many_encode},   {"len", many_len},       {"into", many_into},
};

/* The type, a value and its octets, from the words of the command. */
static int begin(char **words) {
    tulvorn_fault fault;
    return read_octets(words[2], strlen(words[2]), message, ROOM, &size) &&
           read_both(words[0], words[1], &module, &type) &&
           tulvorn_decode(&type, TULVORN_PER, message, size, &value, &fault) == TULVORN_DONE &&
           tulvorn_encode(&value, TULVORN_PER, &octets, &fault) == TULVORN_DONE;
}

/* Makes the call that often, and prints the nanoseconds of a processor that one takes. */
static int measure(int (*many)(long times), long times) {
    struct timespec start, end;
    clock_gettime(CLOCK_PROCESS_CPUTIME_ID, &start);
    if (!many(times)) return 1;
    clock_gettime(CLOCK_PROCESS_CPUTIME_ID, &end);
    double taken = (double)(end.tv_sec - start.tv_sec) * 1e9 + (double)(end.tv_nsec - start.tv_nsec);
    if (times > 0) printf("%.1f\n", taken / (double)times);
    return 0;
}

int main(int count, char **words) {
    int status = 2;
    if (count != 6 || !begin(words + 1)) return 2;
    for (size_t at = 0; at < sizeof calls / sizeof *calls; at++) {
        if (strcmp(calls[at].name, words[4]) == 0) status = measure(calls[at].many, strtol(words[5], NULL, 10));
    }
    tulvorn_close(&type);
    tulvorn_close(&value);
    tulvorn_close(&octets);
    tulvorn_close(&out);
    tulvorn_close(&module);
    return status;
}
