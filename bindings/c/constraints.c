/* Calls the library on types with a constraint, and ends with 0 where each answer is right. */
#include "calls.h"

static const char MODULE[] =
    "M DEFINITIONS AUTOMATIC TAGS ::= BEGIN\n"
    "P ::= SEQUENCE { n BIT STRING (SIZE (8)) OPTIONAL, b BOOLEAN }\n"
    "--: P (WITH COMPONENTS {..., n (ALL EXCEPT '10000000'B)})\n"
    "G ::= SEQUENCE { a BOOLEAN, ..., g SEQUENCE { b INTEGER (0..255) OPTIONAL, c BOOLEAN OPTIONAL } OPTIONAL }\n"
    "--: G (WITH COMPONENTS {..., g (CONSTRAINED BY {some component} ^ WITH COMPONENTS {..., c (ALL EXCEPT FALSE)})})\n"
    "S ::= INTEGER (2..8)\n"
    "--: S (2..4 | 6..8)\n"
    "L ::= SEQUENCE OF S\n"
    "Other ::= INTEGER (2..8)\n"
    "END\n";

/* messages whose value breaks the constraint of its type: the last unit, the part, and the JSON of the value */
static const struct broken {
    const char *type;
    uint32_t rules;
    uint8_t octets[9];
    size_t size;
    uint64_t at;
    const char *explained, *misfit, *json;
} rows[] = {
    {"P", TULVORN_PER, {0xc0, 0x40}, 2, 16, "refused at bit 16 in $.n: default written out", "$.n: default written out",
     "{\"b\":true,\"n\":\"10000000\"}"},
    {"P", TULVORN_OER, {0x80, 0x80, 0xff}, 3, 3, "refused at octet 3 in $.n: default written out",
     "$.n: default written out", "{\"b\":true,\"n\":\"10000000\"}"},
    {"G", TULVORN_PER, {0xc0, 0x40, 0x40, 0x00}, 4, 32, "refused at bit 32 in $.g: a group without components",
     "$.g: a group without components", "{\"a\":true,\"g\":{}}"},
    {"G", TULVORN_OER, {0x80, 0xff, 0x02, 0x07, 0x80, 0x01, 0x00}, 7, 7,
     "refused at octet 7 in $.g: a group without components", "$.g: a group without components",
     "{\"a\":true,\"g\":{}}"},
    {"S", TULVORN_PER, {0x60}, 1, 8, "refused at bit 8 in $: a number in a gap of the range",
     "$: a number in a gap of the range", "5"},
    {"L", TULVORN_OER, {0x01, 0x02, 0x02, 0x05}, 4, 4, "refused at octet 4 in $[1]: a number in a gap of the range",
     "$[1]: a number in a gap of the range", "[2,5]"},
};

static int is_broken(const tulvorn_fault *fault, uint64_t at) {
    return fault->code == TULVORN_REFUSED && fault->why == TULVORN_CONSTRAINT && fault->at == at;
}

/* each call that reads the octets refuses them */
static int refused(const tulvorn_handle *type, const struct broken *row) {
    tulvorn_handle out = TULVORN_NONE;
    tulvorn_budget most = {100, 100};
    tulvorn_fault fault;
    uint8_t longer[10] = {0};
    char words[64];
    memcpy(longer, row->octets, row->size);
    snprintf(words, sizeof words, "refused at %s %d: constraint", row->rules == TULVORN_PER ? "bit" : "octet",
             (int)row->at);
    for (size_t size = row->size; size <= row->size + 1; size++) {
        CHECK(tulvorn_check(type, row->rules, longer, size, &fault) == TULVORN_REFUSED && is_broken(&fault, row->at));
        CHECK(says(&fault, row->rules, words) == 0);
        CHECK(tulvorn_decode(type, row->rules, longer, size, &out, &fault) == TULVORN_REFUSED);
        CHECK(is_broken(&fault, row->at) && out.at == NULL);
        CHECK(tulvorn_convert(type, row->rules, longer, size, &out, &fault) == TULVORN_REFUSED);
        CHECK(is_broken(&fault, row->at) && out.at == NULL);
        CHECK(tulvorn_explain(type, row->rules, longer, size, &out) == TULVORN_DONE);
        CHECK(holds_text(&out, row->explained) == 0);
        tulvorn_close(&out);
    }
    CHECK(tulvorn_check_within(type, row->rules, longer, row->size, &most, &fault) == TULVORN_REFUSED);
    CHECK(is_broken(&fault, row->at));
    CHECK(tulvorn_decode_within(type, row->rules, longer, row->size, &most, &out, &fault) == TULVORN_REFUSED);
    CHECK(is_broken(&fault, row->at) && out.at == NULL);
    most.entries = 0;
    CHECK(tulvorn_check_within(type, row->rules, longer, row->size, &most, &fault) == TULVORN_OVER_BUDGET);
    return 0;
}

/* a receiver of another version refuses what no version writes, and reads what a newer one may write */
static int received(const tulvorn_handle *type, const struct broken *row) {
    tulvorn_handle value = TULVORN_NONE, fields = TULVORN_NONE, out = TULVORN_NONE;
    tulvorn_fault fault;
    int is_of_spelling = strchr(row->misfit, '.') != NULL;
    uint32_t code = tulvorn_read_newer(type, row->rules, row->octets, row->size, &value, &fields, &fault);
    CHECK(code == (is_of_spelling ? TULVORN_NO_MESSAGE : TULVORN_DONE) && (value.at == NULL) == is_of_spelling);
    if (!is_of_spelling) CHECK(tulvorn_misfit(type, &value, &out) == TULVORN_DONE && holds_text(&out, row->misfit) == 0);
    tulvorn_close(&value);
    tulvorn_close(&fields);
    tulvorn_close(&out);
    return 0;
}

/* a session refuses them at the piece in which they end, and answers the same to each further one */
static int refused_in_pieces(const tulvorn_handle *type, const struct broken *row, size_t size) {
    tulvorn_handle session = TULVORN_NONE, value = TULVORN_NONE;
    tulvorn_fault fault;
    size_t used = 7, taken = 0;
    CHECK(tulvorn_open(type, row->rules, &session) == TULVORN_DONE);
    for (; taken + size < row->size; taken += size)
        CHECK(tulvorn_feed(&session, row->octets + taken, size, &value, &used, &fault) == TULVORN_MORE);
    for (int again = 0; again < 3; again++) {
        /* (the octet after the message is there too) */
        CHECK(tulvorn_feed(&session, row->octets + taken, row->size + 1 - taken, &value, &used, &fault) ==
              TULVORN_REFUSED);
        CHECK(is_broken(&fault, row->at) && value.at == NULL && used == 7);
    }
    CHECK(tulvorn_finish(&session, &fault) == TULVORN_TRUNCATED && fault.at == row->at - 1 && session.at == NULL);
    return 0;
}

/* the value is one of the type, and has no encoding */
static int not_encoded(const tulvorn_handle *type, const struct broken *row) {
    tulvorn_handle value = TULVORN_NONE, out = TULVORN_NONE;
    tulvorn_fault fault;
    uint8_t into[16] = {9};
    size_t size = 7;
    CHECK(tulvorn_from_json(type, TEXT(row->json), &value, &fault) == TULVORN_DONE);
    for (uint32_t rules = TULVORN_PER; rules <= TULVORN_OER; rules++) {
        CHECK(tulvorn_encode(&value, rules, &out, &fault) == TULVORN_NOT_OF_TYPE && out.at == NULL);
        CHECK(tulvorn_encoded_len(&value, rules, &size, &fault) == TULVORN_NOT_OF_TYPE && size == 7);
        CHECK(tulvorn_encode_into(&value, rules, into, sizeof into, &size, &fault) == TULVORN_NOT_OF_TYPE);
        CHECK(size == 7 && into[0] == 9);
    }
    CHECK(tulvorn_misfit(type, &value, &out) == TULVORN_DONE && holds_text(&out, row->misfit) == 0);
    CHECK(tulvorn_to_json(&value, &out, &fault) == TULVORN_DONE && holds_text(&out, row->json) == 0);
    tulvorn_close(&out);
    tulvorn_close(&value);
    return 0;
}

/* a type without a constraint takes what another refuses, and each value has the constraint of its own type */
static int of_own_type(const tulvorn_handle *module, const tulvorn_handle *constrained) {
    tulvorn_handle other = TULVORN_NONE, value = TULVORN_NONE, out = TULVORN_NONE, fields = TULVORN_NONE;
    tulvorn_fault fault;
    const uint8_t five = 5;
    CHECK(tulvorn_type(module, TEXT("Other"), &other, &fault) == TULVORN_DONE);
    CHECK(tulvorn_read_newer(&other, TULVORN_OER, &five, 1, &value, &fields, &fault) == TULVORN_DONE);
    CHECK(tulvorn_encode(&value, TULVORN_PER, &out, &fault) == TULVORN_DONE);
    CHECK(tulvorn_misfit(&other, &value, &out) == TULVORN_DONE && holds_text(&out, "") == 0);
    CHECK(tulvorn_misfit(constrained, &value, &out) == TULVORN_DONE);
    CHECK(holds_text(&out, "$: a number in a gap of the range") == 0);
    tulvorn_close(&fields);
    tulvorn_close(&out);
    tulvorn_close(&value);
    tulvorn_close(&other);
    return 0;
}

/* a line with --: that is no constraint of a type of the module */
static int bad_lines(void) {
    tulvorn_handle module = TULVORN_NONE;
    tulvorn_fault fault;
    static const char head[] = "M DEFINITIONS AUTOMATIC TAGS ::= BEGIN\nS ::= INTEGER (2..8)\n", *const lines[] = {
        "--: S (2..", "--: T (2..3)", "--: S (SIZE (3))", "--: S (3)\n--: S (4)"};
    for (size_t at = 0; at < sizeof lines / sizeof *lines; at++) {
        char text[256];
        uint8_t words[128];
        size_t size = 0;
        snprintf(text, sizeof text, "%s%s\nEND\n", head, lines[at]);
        CHECK(tulvorn_module(TEXT(text), &module, &fault) == TULVORN_NO_MODULE && module.at == NULL);
        CHECK(fault.why == TULVORN_BAD_CONSTRAINT && fault.at == 0);
        CHECK(tulvorn_explain_module(TEXT(text), &module) == TULVORN_DONE);
        CHECK(tulvorn_copy(&module, words, sizeof words, &size) == TULVORN_DONE && size > 8);
        CHECK(memcmp(words, at == 3 ? "line 4: " : "line 3: ", 8) == 0);
        tulvorn_close(&module);
    }
    return 0;
}

/* names that refer one to the next, each with a constraint: 256 are put together and no more */
static int chains(void) {
    tulvorn_handle module = TULVORN_NONE, type = TULVORN_NONE;
    tulvorn_fault fault;
    static char text[1 << 14];
    for (int count = 256; count <= 257; count++) {
        size_t size = (size_t)sprintf(text, "M DEFINITIONS AUTOMATIC TAGS ::= BEGIN\n");
        for (int at = 0; at < count; at++)
            size += (size_t)sprintf(text + size, "A%d ::= A%d\n--: A%d (0..5 | 7)\n", at, at + 1, at);
        sprintf(text + size, "A%d ::= INTEGER (0..7)\nEND\n", count);
        CHECK(tulvorn_module(TEXT(text), &module, &fault) == TULVORN_DONE);
        CHECK(tulvorn_type(&module, TEXT("A1"), &type, &fault) == TULVORN_DONE);
        CHECK(tulvorn_check(&type, TULVORN_PER, (const uint8_t[]){0xc0}, 1, &fault) == TULVORN_REFUSED);
        CHECK(is_broken(&fault, 8));
        uint32_t code = tulvorn_type(&module, TEXT("A0"), &type, &fault);
        CHECK(code == (count == 256 ? TULVORN_DONE : TULVORN_LARGE_CONSTRAINT));
    }
    tulvorn_close(&type);
    tulvorn_close(&module);
    return 0;
}

/* types of at most so many levels */
static int levels(const tulvorn_handle *module) {
    static const struct {
        const char *name;
        uint32_t levels;
    } types[] = {{"S", 1}, {"P", 2}, {"L", 3}, {"G", 3}};
    tulvorn_handle type = TULVORN_NONE;
    tulvorn_fault fault;
    for (size_t at = 0; at < sizeof types / sizeof *types; at++)
        for (uint32_t most = 0; most < 8; most++) {
            uint32_t code = tulvorn_type_levels(module, TEXT(types[at].name), most, &type, &fault);
            CHECK(code == (most < types[at].levels ? TULVORN_TOO_DEEP : TULVORN_DONE) && fault.code == code);
            CHECK((type.at == NULL) == (code == TULVORN_TOO_DEEP));
            tulvorn_close(&type);
        }
    CHECK(tulvorn_type_levels(module, TEXT("None"), 64, &type, &fault) == TULVORN_NO_NAME);
    CHECK(tulvorn_type_levels(module, TEXT("\xff"), 64, &type, &fault) == TULVORN_NOT_TEXT && type.at == NULL);
    return 0;
}

/* how types differ from the published ones, of which the text has lines */
static int differences(void) {
    static const char text[] =
        "M DEFINITIONS AUTOMATIC TAGS ::= BEGIN\n"
        "A ::= SEQUENCE { b SEQUENCE OF B, c C }\n"
        "B ::= OCTET STRING\n"
        "--! B wider: a constraint is not looked at\n"
        "C ::= CHOICE { d D, e E }\n"
        "D ::= BOOLEAN\n"
        "--: E (2 | 4)\n"
        "--! E narrower\n"
        "E ::= INTEGER\n"
        "G ::= OCTET STRING\n"
        "--: G (CONTAINING D)\n"
        "H ::= SEQUENCE { g G }\n"
        "END\n";
    static const struct {
        const char *name, *words;
    } types[] = {
        {"B", "wider: a constraint is not looked at"}, {"C", "narrower"}, {"D", ""}, {"E", "narrower"},
        {"G", "wider: the contents of octets are not looked at"},
        {"H", "wider: the contents of octets are not looked at"}, {NULL, NULL},
    };
    tulvorn_handle module = TULVORN_NONE, words = TULVORN_NONE;
    tulvorn_fault fault;
    size_t size = 0;
    long refused = 0;
    CHECK(tulvorn_module(TEXT(text), &module, &fault) == TULVORN_DONE);
    for (size_t at = 0; types[at].words; at++) {
        CHECK(tulvorn_difference(&module, TEXT(types[at].name), &words) == TULVORN_DONE);
        CHECK(holds_text(&words, types[at].words) == 0);
    }
    /* one of those of the names that it refers to */
    CHECK(tulvorn_difference(&module, TEXT("A"), &words) == TULVORN_DONE);
    CHECK(tulvorn_copy(&words, NULL, 0, &size) == TULVORN_TOO_SHORT && size > 0);
    CHECK(tulvorn_difference(&module, TEXT("F"), &words) == TULVORN_NO_NAME && words.at != NULL);
    CHECK(tulvorn_difference(&module, TEXT("\xff"), &words) == TULVORN_NOT_TEXT && words.at != NULL);
    EACH_FAILS(words, tulvorn_difference(&module, TEXT("A"), &words));
    CHECK(refused > 0);
    EACH_FAILS(words, tulvorn_difference(&module, TEXT("D"), &words));
    EACH_FAILS(words, tulvorn_difference(&module, TEXT("H"), &words));
    tulvorn_close(&words);
    tulvorn_close(&module);
    return 0;
}

static int memory(const tulvorn_handle *module, const tulvorn_handle *type, long *count) {
    const struct broken *row = &rows[0];
    tulvorn_handle value = TULVORN_NONE, session = TULVORN_NONE, out = TULVORN_NONE;
    tulvorn_fault fault;
    uint8_t good[] = {0x40};
    long refused = 0;
    size_t used;
    CHECK(tulvorn_from_json(type, TEXT(row->json), &value, &fault) == TULVORN_DONE);
    EACH_FAILS(it, tulvorn_module(TEXT(MODULE), &it, &fault));
    EACH_FAILS(it, tulvorn_explain_module(TEXT(MODULE), &it));
    EACH_FAILS(it, tulvorn_type(module, TEXT("L"), &it, &fault));
    EACH_FAILS(it, tulvorn_type_levels(module, TEXT("L"), 3, &it, &fault));
    EACH_FAILS(it, tulvorn_share(type, &it));
    EACH_FAILS(it, tulvorn_open(type, TULVORN_PER, &it));
    EACH_FAILS(it, tulvorn_decode(type, TULVORN_PER, good, 1, &it, &fault));
    EACH_FAILS(it, tulvorn_convert(type, TULVORN_PER, good, 1, &it, &fault));
    EACH_FAILS(it, tulvorn_explain(type, TULVORN_PER, row->octets, row->size, &it));
    EACH_FAILS(it, tulvorn_misfit(type, &value, &it));
    for (long at = 1, fell = 1; fell; at++) {
        left = at;
        uint32_t code = tulvorn_decode(type, TULVORN_PER, row->octets, row->size, &out, &fault);
        fell = left == -1;
        left = -1;
        CHECK(out.at == NULL && (code == TULVORN_REFUSED || (fell && code == TULVORN_NO_MEMORY)));
        CHECK(code == TULVORN_NO_MEMORY || is_broken(&fault, row->at));
    }
    /* what a session refuses for a constraint takes no memory again */
    CHECK(tulvorn_open(type, TULVORN_PER, &session) == TULVORN_DONE);
    CHECK(tulvorn_feed(&session, row->octets, row->size, &out, &used, &fault) == TULVORN_REFUSED);
    asked = 0;
    CHECK(tulvorn_feed(&session, good, 1, &out, &used, &fault) == TULVORN_REFUSED && asked == 0);
    tulvorn_close(&session);
    tulvorn_close(&value);
    *count = refused;
    return 0;
}

int main(void) {
    tulvorn_handle module = TULVORN_NONE, type = TULVORN_NONE, other = TULVORN_NONE;
    tulvorn_fault fault;
    long count = 0;
    CHECK(bad_lines() == 0 && chains() == 0 && tulvorn_module(TEXT(MODULE), &module, &fault) == TULVORN_DONE);
    for (size_t at = 0; at < sizeof rows / sizeof *rows; at++) {
        const struct broken *row = &rows[at];
        CHECK(tulvorn_type(&module, TEXT(row->type), &type, &fault) == TULVORN_DONE);
        CHECK(refused(&type, row) == 0 && received(&type, row) == 0 && not_encoded(&type, row) == 0);
        for (size_t size = 1; size <= row->size; size++) CHECK(refused_in_pieces(&type, row, size) == 0);
    }
    CHECK(tulvorn_type(&module, TEXT("S"), &type, &fault) == TULVORN_DONE && of_own_type(&module, &type) == 0);
    CHECK(tulvorn_type(&module, TEXT("P"), &type, &fault) == TULVORN_DONE && memory(&module, &type, &count) == 0);
    CHECK(levels(&module) == 0 && differences() == 0);
    /* another handle of the type has its constraint */
    CHECK(tulvorn_share(&type, &other) == TULVORN_DONE);
    tulvorn_close(&type);
    tulvorn_close(&module);
    CHECK(refused(&other, &rows[0]) == 0);
    tulvorn_close(&other);
    printf("C: constraints passed, with %ld allocations refused\n", count);
    return 0;
}
