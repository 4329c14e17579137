/* Calls the library from C on the rows that bindings/tests/rows.py writes. Exits with 0 where each answer is right.

   usage: rows FILE
   The octets of each row are fed to sessions too, whole and in pieces. */
#define _POSIX_C_SOURCE 200809L
#include "agree.h"
#include <stdlib.h>

enum { WORDS = 8 };

static tulvorn_handle module, type;
static struct octets first, second, made;

static int none(const char *word) { return word[0] == '-'; }

/* The octets of a word that is 0x and their hexadecimal, with the signs before `end` or the end of the word. */
static int octets_of(const char *word, struct octets *to) {
    size_t count = strcspn(word, ",");
    return count >= 2 && word[0] == '0' && word[1] == 'x' && read_octets(word + 2, count - 2, to->at, ROOM, &to->size);
}

/* Sessions that are fed the octets in pieces answer as tulvorn_check has. */
static int fed_in_pieces(uint32_t rules, const struct octets *octets, const tulvorn_fault *told) {
    static const uint8_t sizes[][4] = {{1, 1, 1, 1}, {2, 2, 2, 2}, {0, 3, 3, 3}, {5, 5, 5, 5}, {100, 1, 200, 255}};
    for (size_t at = octets->size > 300 ? 4 : 0; at < sizeof sizes / sizeof *sizes && octets->size <= 5000; at++)
        CHECK(fed(&type, rules, octets, sizes[at], told) == 0);
    return 0;
}

/* pieces RULES PIECES TAKEN CODE WHY AT */
static int row_of_pieces(char **words) {
    tulvorn_handle session = TULVORN_NONE, value = TULVORN_NONE;
    tulvorn_fault fault;
    const char *piece = words[2];
    uint32_t code = (uint32_t)atoi(words[4]);
    size_t used = 0;
    CHECK(tulvorn_open(&type, (uint32_t)atoi(words[1]), &session) == TULVORN_DONE);
    for (long at = 0; at <= atol(words[3]); at++) {
        CHECK(octets_of(piece, &first));
        uint32_t told = tulvorn_feed(&session, first.at, first.size, &value, &used, &fault);
        CHECK(told == (at == atol(words[3]) ? code : TULVORN_MORE));
        piece += strcspn(piece, ",");
        piece += *piece == ',';
    }
    CHECK(code == TULVORN_DONE ? used == (size_t)atol(words[6]) : fault.at == (uint64_t)atol(words[6]));
    CHECK(fault.why == (uint32_t)atoi(words[5]));
    tulvorn_close(&value);
    tulvorn_close(&session);
    return 0;
}

/* The octets are the encoding by these rules of the value that the words tell. */
static int is_value(uint32_t rules, const struct octets *octets, const char *json, const char *shown) {
    tulvorn_handle value = TULVORN_NONE, out = TULVORN_NONE;
    tulvorn_fault fault;
    CHECK(agree(&type, rules, octets, &fault) == 0 && fault.code == TULVORN_DONE);
    CHECK(fed_in_pieces(rules, octets, &fault) == 0);
    if (none(json)) return 0;
    CHECK(octets_of(json, &second));
    CHECK(tulvorn_from_json(&type, second.at, second.size, &value, &fault) == TULVORN_DONE);
    CHECK(writes(&value, rules, octets) == 0);
    CHECK(tulvorn_to_json(&value, &out, &fault) == TULVORN_DONE && copied(&out, &made));
    tulvorn_close(&value);
    CHECK(none(shown) || (octets_of(shown, &second) && same(&made, &second)));
    return 0;
}

/* value PER OER JSON SHOWN */
static int row_of_value(char **words) {
    tulvorn_handle other = TULVORN_NONE;
    tulvorn_fault fault;
    for (uint32_t rules = 0; rules < 2; rules++) {
        if (none(words[1 + rules])) continue;
        CHECK(octets_of(words[1 + rules], &first) && is_value(rules, &first, words[3], words[4]) == 0);
        if (none(words[2 - rules])) continue;
        CHECK(tulvorn_convert(&type, rules, first.at, first.size, &other, &fault) == TULVORN_DONE);
        CHECK(copied(&other, &made) && octets_of(words[2 - rules], &second) && same(&made, &second));
    }
    return 0;
}

/* check RULES OCTETS CODE WHY AT */
static int row_of_check(char **words) {
    tulvorn_fault fault, told = {(uint32_t)atoi(words[3]), (uint32_t)atoi(words[4]), (uint64_t)atol(words[5])};
    uint32_t rules = (uint32_t)atoi(words[1]);
    CHECK(octets_of(words[2], &first) && agree(&type, rules, &first, &fault) == 0 && alike(&fault, &told));
    return fed_in_pieces(rules, &first, &told);
}

/* The fields that were skipped are those that the word tells. */
static int skips(tulvorn_handle *fields, const char *word) {
    size_t count = 0, index = 0;
    uint32_t place = 0;
    CHECK(tulvorn_skipped_count(fields, &count) == TULVORN_DONE);
    while (!none(word) && *word != '\0') {
        char *colon;
        unsigned long wanted = strtoul(word, &colon, 10);
        CHECK(*colon == ':' && octets_of(colon + 1, &second));
        CHECK(tulvorn_skipped(fields, index, &place, made.at, ROOM, &made.size) == TULVORN_DONE);
        CHECK(place == wanted && same(&made, &second));
        index++;
        word = colon + strcspn(colon, ",");
        word += *word == ',';
    }
    CHECK(index == count);
    return 0;
}

/* newer RULES OCTETS CODE SHOWN FIELDS */
static int row_of_newer(char **words) {
    tulvorn_handle value = TULVORN_NONE, fields = TULVORN_NONE, json = TULVORN_NONE;
    tulvorn_fault fault;
    uint32_t rules = (uint32_t)atoi(words[1]), code = (uint32_t)atoi(words[3]);
    CHECK(octets_of(words[2], &first));
    CHECK(tulvorn_read_newer(&type, rules, first.at, first.size, &value, &fields, &fault) == code);
    CHECK(fault.code == code);
    if (code == TULVORN_DONE) {
        CHECK(tulvorn_to_json(&value, &json, &fault) == TULVORN_DONE && copied(&json, &made));
        CHECK(octets_of(words[4], &second) && same(&made, &second) && skips(&fields, words[5]) == 0);
    } else {
        CHECK(value.at == NULL && fields.at == NULL);
    }
    tulvorn_close(&value);
    tulvorn_close(&fields);
    return 0;
}

/* A line that is no row: a module or a type, which are kept, or the end. */
static int line_of_type(char **words) {
    tulvorn_fault fault;
    if (strcmp(words[0], "module") == 0) {
        CHECK(octets_of(words[1], &first));
        CHECK(tulvorn_module(first.at, first.size, &module, &fault) == TULVORN_DONE);
    } else {
        CHECK(strcmp(words[0], "type") == 0);
        CHECK(tulvorn_type(&module, (const uint8_t *)words[1], strlen(words[1]), &type, &fault) == TULVORN_DONE);
    }
    return 0;
}

static const struct kind {
    const char *name;
    int count;
    int (*row)(char **words);
} kinds[] = {{"value", 5, row_of_value},
             {"check", 6, row_of_check},
             {"newer", 6, row_of_newer},
             {"pieces", 7, row_of_pieces}};

/* Tries the row of a line, if it is one, and counts it. */
static int try_line(char **words, int count, long *rows) {
    for (size_t at = 0; at < sizeof kinds / sizeof *kinds; at++) {
        if (strcmp(words[0], kinds[at].name) != 0) continue;
        CHECK(count == kinds[at].count);
        *rows += 1;
        return kinds[at].row(words);
    }
    CHECK(count == 2);
    return line_of_type(words);
}

int main(int given, char **arguments) {
    FILE *from = given == 2 ? fopen(arguments[1], "r") : NULL;
    char *line = NULL, *words[WORDS];
    size_t room = 0;
    long rows = 0, wanted = -1;
    int failed = 0;
    if (from == NULL) return 2;
    while (wanted < 0 && getline(&line, &room, from) > 0) {
        int count = 0;
        line_number++;
        for (char *word = strtok(line, " \n"); word != NULL && count < WORDS; word = strtok(NULL, " \n"))
            words[count++] = word;
        if (count == 2 && strcmp(words[0], "end") == 0) wanted = atol(words[1]);
        else failed |= count == 0 || try_line(words, count, &rows);
    }
    fclose(from);
    free(line);
    tulvorn_close(&module);
    tulvorn_close(&type);
    printf("C: %ld rows, %s\n", rows, failed || rows != wanted ? "FAILED" : "passed");
    return failed || rows != wanted;
}
