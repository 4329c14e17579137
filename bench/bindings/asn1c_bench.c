/* Decodes and encodes messages by the code that asn1c makes of a module, and by the library, side by side.
   bench/bindings/asn1c.sh builds it for one type: MESSAGE is the name of its structure, HEADER the file that has it.

   usage: asn1c_bench MODULE TYPE same OCTETS..            both take the octets of each message, and write the same
          asn1c_bench MODULE TYPE time TIMES ROUNDS OCTETS a line for each row: its name, and the nanoseconds of a
                                                           processor that one takes, the least of the rounds; in each
                                                           round every row is done TIMES times, one after the other
          asn1c_bench MODULE TYPE ROW TIMES OCTETS         that row alone, to count its instructions
   OCTETS are a message of unaligned PER in hexadecimal. */
#define _DEFAULT_SOURCE /* (asn1c's own files ask for the older name of it) */
#include HEADER
#include "reading.h"
#include <stdlib.h>
#include <time.h>

#define JOINED(left, right) left##right
#define NAMED(left, right) JOINED(left, right)
#define DESCRIPTOR (&NAMED(asn_DEF_, MESSAGE))
typedef NAMED(MESSAGE, _t) message_t;

enum { ROOM = 1 << 16, ROWS = 12 };

static tulvorn_handle type, value, out;
static message_t *held;
static uint8_t message[ROOM], into[ROOM];
static size_t size;

/* Decodes by asn1c, and lets go of what was made; with `checked`, tests the constraints that its decoder does not. */
static int asn1c_decodes(int checked) {
    message_t *made = NULL;
    asn_dec_rval_t result = uper_decode_complete(NULL, DESCRIPTOR, (void **)&made, message, size);
    int well = result.code == RC_OK && result.consumed == size &&
               (!checked || asn_check_constraints(DESCRIPTOR, made, NULL, NULL) == 0);
    ASN_STRUCT_FREE(*DESCRIPTOR, made);
    return well;
}

static int asn1c_decode(void) { return asn1c_decodes(0); }
static int asn1c_decode_checked(void) { return asn1c_decodes(1); }

static int asn1c_encode_into(void) {
    asn_enc_rval_t result = uper_encode_to_buffer(DESCRIPTOR, held, into, sizeof into);
    return result.encoded >= 0 && ((size_t)result.encoded + 7) / 8 == size;
}

static int asn1c_encode_into_checked(void) {
    return asn_check_constraints(DESCRIPTOR, held, NULL, NULL) == 0 && asn1c_encode_into();
}

static int asn1c_encode(void) {
    void *made = NULL;
    ssize_t count = uper_encode_to_new_buffer(DESCRIPTOR, NULL, held, &made);
    free(made);
    return count >= 0 && (size_t)count == size;
}

/* Decodes into a handle that a call before has filled, as a loop does, and lets go of what it held. */
static int tulvorn_decodes_again(void) {
    tulvorn_fault fault;
    return tulvorn_decode(&type, TULVORN_PER, message, size, &out, &fault) == TULVORN_DONE;
}

static int tulvorn_decodes(void) {
    int well = tulvorn_decodes_again();
    tulvorn_close(&out);
    return well;
}

static int tulvorn_checks(void) {
    tulvorn_fault fault;
    return tulvorn_check(&type, TULVORN_PER, message, size, &fault) == TULVORN_DONE;
}

static int tulvorn_encodes_again(void) {
    tulvorn_fault fault;
    return tulvorn_encode(&value, TULVORN_PER, &out, &fault) == TULVORN_DONE;
}

static int tulvorn_encodes(void) {
    int well = tulvorn_encodes_again();
    tulvorn_close(&out);
    return well;
}

static int tulvorn_encodes_into(void) {
    tulvorn_fault fault;
    size_t count;
    return tulvorn_encode_into(&value, TULVORN_PER, into, sizeof into, &count, &fault) == TULVORN_DONE && count == size;
}

static int tulvorn_converts(void) {
    tulvorn_fault fault;
    uint32_t code = tulvorn_convert(&type, TULVORN_PER, message, size, &out, &fault);
    tulvorn_close(&out);
    return code == TULVORN_DONE;
}

static const struct row {
    const char *name;
    int (*call)(void);
} rows[ROWS] = {
    {"decode-asn1c", asn1c_decode},
    {"decode-asn1c-checked", asn1c_decode_checked},
    {"decode-tulvorn", tulvorn_decodes},
    {"decode-again-tulvorn", tulvorn_decodes_again},
    {"check-tulvorn", tulvorn_checks},
    {"encode-asn1c", asn1c_encode},
    {"encode-tulvorn", tulvorn_encodes},
    {"encode-again-tulvorn", tulvorn_encodes_again},
    {"into-asn1c", asn1c_encode_into},
    {"into-asn1c-checked", asn1c_encode_into_checked},
    {"into-tulvorn", tulvorn_encodes_into},
    {"convert-tulvorn", tulvorn_converts},
};

/* Lets go of the message that both hold. */
static void let_go(void) {
    if (held != NULL) ASN_STRUCT_FREE(*DESCRIPTOR, held);
    held = NULL;
    tulvorn_close(&value);
}

/* Both take the octets; 0, with a line that says which does not, where they do not. */
static int taken(const char *digits) {
    tulvorn_fault fault;
    let_go();
    if (!read_octets(digits, strlen(digits), message, sizeof message, &size)) return 0;
    asn_dec_rval_t result = uper_decode_complete(NULL, DESCRIPTOR, (void **)&held, message, size);
    int by_asn1c = result.code == RC_OK && result.consumed == size;
    int by_tulvorn = tulvorn_decode(&type, TULVORN_PER, message, size, &value, &fault) == TULVORN_DONE;
    if (!by_asn1c || !by_tulvorn) printf("not taken by%s%s\n", by_asn1c ? "" : " asn1c", by_tulvorn ? "" : " Tulvorn");
    return by_asn1c && by_tulvorn;
}

/* Both write the octets of the message that they hold. */
static int written_alike(void) {
    memset(into, 0xff, sizeof into);
    int by_asn1c = asn1c_encode_into() && memcmp(into, message, size) == 0;
    memset(into, 0xff, sizeof into);
    int by_tulvorn = tulvorn_encodes_into() && memcmp(into, message, size) == 0;
    if (!by_asn1c || !by_tulvorn)
        printf("written otherwise by%s%s\n", by_asn1c ? "" : " asn1c", by_tulvorn ? "" : " Tulvorn");
    return by_asn1c && by_tulvorn;
}

/* The nanoseconds of a processor that a row takes, or less than none where it does not do what it is to do. */
static double taking(const struct row *row, long times) {
    struct timespec start, end;
    clock_gettime(CLOCK_PROCESS_CPUTIME_ID, &start);
    for (long at = 0; at < times; at++) {
        if (!row->call()) return -1;
    }
    clock_gettime(CLOCK_PROCESS_CPUTIME_ID, &end);
    return ((double)(end.tv_sec - start.tv_sec) * 1e9 + (double)(end.tv_nsec - start.tv_nsec)) / (double)times;
}

static int compare_times(long times, long rounds) {
    double least[ROWS] = {0};
    for (long round = 0; round < rounds; round++) {
        for (int at = 0; at < ROWS; at++) {
            double taken = taking(&rows[at], times);
            if (taken < 0) return 1;
            if (round == 0 || taken < least[at]) least[at] = taken;
        }
    }
    for (int at = 0; at < ROWS; at++) printf("%s %.1f\n", rows[at].name, least[at]);
    return 0;
}

static int run_one(const char *name, long times) {
    for (int at = 0; at < ROWS; at++) {
        if (strcmp(rows[at].name, name) == 0) return times > 0 && taking(&rows[at], times) < 0;
    }
    return 2;
}

int main(int count, char **words) {
    if (count < 5 || !read_type(words[1], words[2], &type)) return 2;
    const char *what = words[3];
    int status = 0, same = strcmp(what, "same") == 0, times = strcmp(what, "time") == 0;
    for (int at = same ? 4 : count - 1; at < count; at++) status |= !taken(words[at]) || !written_alike();
    if (status == 0 && times) status = compare_times(strtol(words[4], NULL, 10), strtol(words[5], NULL, 10));
    if (status == 0 && !same && !times) status = run_one(what, strtol(words[4], NULL, 10));
    if (status == 0 && same) printf("%d messages\n", count - 4);
    let_go();
    tulvorn_close(&out);
    tulvorn_close(&type);
    return status;
}
