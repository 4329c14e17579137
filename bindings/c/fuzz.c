/* Inputs made at random, of which all calls have to say what agrees. bindings/fuzz.sh builds it with libFuzzer.

   The types are those of the file that TULVORN_ROWS names (bindings/tests/rows.py). The first octet of an input chooses the
   type, and the second what the others are: by its lowest bit the rules, and by the two above it octets (0 or 1), JSON
   (2) or the text of a module (3); the rest of it chooses the pieces of a session. */
#define _POSIX_C_SOURCE 200809L
#include "agree.h"
#include <stdlib.h>

enum { TYPES = 256 };

static tulvorn_handle types[TYPES];
static size_t count;

/* Where something does not hold, the input is one that libFuzzer keeps. */
static void insist(int failed) {
    if (failed) abort();
}

/* Octets: all calls agree, and so they do on the part that is told to be an encoding, or to be the beginning of one. */
static int try_octets(tulvorn_handle *type, uint32_t rules, struct octets *octets, uint8_t seed) {
    const uint8_t sizes[4] = {seed >> 6, 1 + (seed >> 4) % 4, (seed >> 2) % 4 * 7, 1 + seed % 4};
    tulvorn_fault told, fault;
    size_t unit = rules == TULVORN_PER ? 8 : 1;
    CHECK(agree(type, rules, octets, &told) == 0 && fed(type, rules, octets, sizes, &told) == 0);
    if (told.code == TULVORN_TRUNCATED) CHECK(told.at == unit * octets->size);
    if (told.code == TULVORN_REST) {
        octets->size = told.at;
        CHECK(agree(type, rules, octets, &fault) == 0 && fault.code == TULVORN_DONE);
    }
    if (told.code == TULVORN_REFUSED) {
        CHECK(told.at > 0 && told.at <= unit * octets->size);
        CHECK(told.why >= TULVORN_SEALED && told.why <= TULVORN_NUMBER);
        octets->size = (told.at - 1) / unit;
        CHECK(agree(type, rules, octets, &fault) == 0 && fault.code == TULVORN_TRUNCATED);
    }
    return 0;
}

/* JSON that shows a value: it has octets, which come back. */
static int try_json(tulvorn_handle *type, uint32_t rules, const uint8_t *json, size_t size) {
    static struct octets made;
    tulvorn_handle value = TULVORN_NONE, out = TULVORN_NONE;
    tulvorn_fault fault, told;
    if (tulvorn_from_json(type, json, size, &value, &fault) != TULVORN_DONE) return value.at != NULL;
    CHECK(tulvorn_encode(&value, rules, &out, &fault) == TULVORN_DONE && copied(&out, &made));
    CHECK(agree(type, rules, &made, &told) == 0 && told.code == TULVORN_DONE && writes(&value, rules, &made) == 0);
    tulvorn_close(&value);
    return 0;
}

/* Whether it is a sign of a name. */
static int in_name(uint8_t sign) {
    return sign == '-' || (sign >= '0' && sign <= '9') || (sign >= 'A' && sign <= 'Z') || (sign >= 'a' && sign <= 'z');
}

/* The text of a module: octets of its own are tried as those of each type that is read, and a fault lies in it. */
static int try_module(uint32_t rules, const uint8_t *text, size_t size) {
    static struct octets octets;
    tulvorn_handle module = TULVORN_NONE, type = TULVORN_NONE;
    tulvorn_fault fault, told;
    uint32_t code = tulvorn_module(text, size, &module, &fault);
    CHECK((module.at != NULL) == (code == TULVORN_DONE) && (code == TULVORN_DONE || fault.at <= size));
    for (size_t at = 0; code == TULVORN_DONE && at + 3 <= size; at++) {
        size_t end = at, begin;
        if (memcmp(text + at, "::=", 3) != 0) continue;
        while (end > 0 && text[end - 1] == ' ') end--;
        for (begin = end; begin > 0 && in_name(text[begin - 1]);) begin--;
        if (tulvorn_type(&module, text + begin, end - begin, &type, &fault) != TULVORN_DONE) continue;
        for (octets.size = 0; octets.size < 40; octets.size += 8) {
            memcpy(octets.at, octets.size < 20 ? text + size - octets.size : (const uint8_t[40]){0}, octets.size);
            CHECK(agree(&type, rules, &octets, &told) == 0);
        }
    }
    tulvorn_close(&type);
    tulvorn_close(&module);
    return 0;
}

int LLVMFuzzerTestOneInput(const uint8_t *input, size_t size) {
    static struct octets octets;
    if (size < 2 || size - 2 > ROOM) return 0;
    tulvorn_handle *type = &types[input[0] % count];
    uint32_t rules = input[1] % 2;
    if (input[1] / 2 % 4 == 2) insist(try_json(type, rules, input + 2, size - 2));
    if (input[1] / 2 % 4 == 3) insist(try_module(rules, input + 2, size - 2));
    if (input[1] / 2 % 4 > 1) return 0;
    octets.size = size - 2;
    memcpy(octets.at, input + 2, size - 2);
    insist(try_octets(type, rules, &octets, input[1]));
    return 0;
}

/* Takes the types of the file of rows. */
int LLVMFuzzerInitialize(int *given, char ***words) {
    static uint8_t text[ROOM];
    const char *name = getenv("TULVORN_ROWS");
    FILE *from = name == NULL ? NULL : fopen(name, "r");
    tulvorn_handle module = TULVORN_NONE;
    tulvorn_fault fault;
    char *line = NULL;
    size_t room = 0, size;
    (void)given, (void)words;
    while (from != NULL && getline(&line, &room, from) > 0) {
        char *word = strchr(line, ' ');
        line[strcspn(line, "\n")] = '\0';
        if (strncmp(line, "module ", 7) == 0) {
            insist(!read_octets(word + 3, strlen(word + 3), text, ROOM, &size));
            insist(tulvorn_module(text, size, &module, &fault) != TULVORN_DONE);
        } else if (strncmp(line, "type ", 5) == 0 && count < TYPES) {
            word++;
            insist(tulvorn_type(&module, (const uint8_t *)word, strlen(word), &types[count++], &fault) != TULVORN_DONE);
        }
    }
    free(line);
    tulvorn_close(&module);
    if (from == NULL || count == 0) exit(2);
    fclose(from);
    return 0;
}
