/* Prints how much stack each call takes. A thread with a painted stack makes the call, and the deepest byte that has
   changed is looked for. bench/bindings/stack.py builds and runs it.

   usage: stack MODULE TYPE JSON     files with the text of a module and of a JSON value, and the name of its type; the
                                     status is 1 if one of the calls on them fails
          stack MODULE TYPE JSON -   only the calls that read these texts, whether they fail or not; if the text is no
                                     module, only the call that reads it
   It prints a line for each call: its name and the bytes of stack, without those of a thread that makes no call. */
#define _GNU_SOURCE
#include "reading.h"
#include <pthread.h>
#include <stdlib.h>
#include <sys/mman.h>

enum { STACK = 1 << 20, PAINT = 0xa5, TEXT = 1 << 26, ROOM = 1 << 20 };

static tulvorn_handle module, type, value, out, other;
static tulvorn_fault fault;
static uint8_t *text, *json, per[ROOM], oer[ROOM], into[ROOM];
static size_t text_size, json_size, per_size, oer_size, size;
static const char *name;

static int call_none(void) { return tulvorn_interface() > 0; }
static int call_module(void) { return tulvorn_module(text, text_size, &module, &fault) == TULVORN_DONE; }

static int call_type(void) {
    return tulvorn_type(&module, (const uint8_t *)name, strlen(name), &type, &fault) == TULVORN_DONE;
}

static int call_from_json(void) { return tulvorn_from_json(&type, json, json_size, &value, &fault) == TULVORN_DONE; }
static int call_to_json(void) { return tulvorn_to_json(&value, &out, &fault) == TULVORN_DONE; }

static int encoded(uint32_t rules, uint8_t *octets, size_t *count) {
    return tulvorn_encode(&value, rules, &out, &fault) == TULVORN_DONE &&
           tulvorn_copy(&out, octets, ROOM, count) == TULVORN_DONE;
}

static int call_encode_per(void) { return encoded(TULVORN_PER, per, &per_size); }
static int call_encode_oer(void) { return encoded(TULVORN_OER, oer, &oer_size); }

static int call_len(void) {
    return tulvorn_encoded_len(&value, TULVORN_PER, &size, &fault) == TULVORN_DONE && size == per_size &&
           tulvorn_encoded_len(&value, TULVORN_OER, &size, &fault) == TULVORN_DONE && size == oer_size;
}

static int call_into_per(void) {
    return tulvorn_encode_into(&value, TULVORN_PER, into, ROOM, &size, &fault) == TULVORN_DONE && size == per_size;
}

static int call_into_oer(void) {
    return tulvorn_encode_into(&value, TULVORN_OER, into, ROOM, &size, &fault) == TULVORN_DONE && size == oer_size;
}

static int call_check_per(void) { return tulvorn_check(&type, TULVORN_PER, per, per_size, &fault) == TULVORN_DONE; }
static int call_check_oer(void) { return tulvorn_check(&type, TULVORN_OER, oer, oer_size, &fault) == TULVORN_DONE; }

static int call_decode_per(void) {
    return tulvorn_decode(&type, TULVORN_PER, per, per_size, &other, &fault) == TULVORN_DONE;
}

static int call_decode_oer(void) {
    return tulvorn_decode(&type, TULVORN_OER, oer, oer_size, &other, &fault) == TULVORN_DONE;
}

/* octets that are cut short: what was read of them is freed */
static int call_cut_per(void) {
    return tulvorn_decode(&type, TULVORN_PER, per, per_size - 1, &out, &fault) == TULVORN_TRUNCATED;
}

static int call_cut_oer(void) {
    return tulvorn_decode(&type, TULVORN_OER, oer, oer_size - 1, &out, &fault) == TULVORN_TRUNCATED;
}

static int call_convert_per(void) {
    return tulvorn_convert(&type, TULVORN_PER, per, per_size, &out, &fault) == TULVORN_DONE;
}

static int call_convert_oer(void) {
    return tulvorn_convert(&type, TULVORN_OER, oer, oer_size, &out, &fault) == TULVORN_DONE;
}

static int call_explain_per(void) {
    return tulvorn_explain(&type, TULVORN_PER, per, per_size - 1, &out) == TULVORN_DONE;
}

static int call_explain_oer(void) {
    return tulvorn_explain(&type, TULVORN_OER, oer, oer_size - 1, &out) == TULVORN_DONE;
}

static int call_newer_per(void) {
    return tulvorn_read_newer(&type, TULVORN_PER, per, per_size, &out, &other, &fault) == TULVORN_DONE;
}

static int call_newer_oer(void) {
    return tulvorn_read_newer(&type, TULVORN_OER, oer, oer_size, &out, &other, &fault) == TULVORN_DONE;
}

/* a path of as many pieces as there are levels */
static int call_part(void) {
    static const char path[] = "a[0].a[0].a[0].a[0].a[0].a[0].a[0].a[0].a[0].a[0].a[0].a[0].a[0].a[0].a[0].a[0].a";
    uint32_t kind;
    uint32_t code = tulvorn_kind(&value, (const uint8_t *)path, sizeof path - 1, &kind);
    return code == TULVORN_DONE || code == TULVORN_NO_PATH || code == TULVORN_ABSENT || code == TULVORN_OTHER_KIND;
}

static int call_explain_module(void) { return tulvorn_explain_module(text, text_size, &out) == TULVORN_DONE; }
static int call_share(void) { return tulvorn_share(&type, &out) == TULVORN_DONE; }
static int call_words(void) { return tulvorn_words(&fault, TULVORN_PER, &out) == TULVORN_DONE; }

static int fed(uint32_t rules, const uint8_t *octets, size_t count) {
    return tulvorn_open(&type, rules, &out) == TULVORN_DONE &&
           tulvorn_feed(&out, octets, count - 1, &other, &size, &fault) == TULVORN_MORE &&
           tulvorn_feed(&out, octets + count - 1, 1, &other, &size, &fault) == TULVORN_DONE &&
           tulvorn_finish(&out, &fault) == TULVORN_DONE;
}

static int call_session_per(void) { return fed(TULVORN_PER, per, per_size); }
static int call_session_oer(void) { return fed(TULVORN_OER, oer, oer_size); }
static int call_misfit(void) { return tulvorn_misfit(&type, &value, &out) == TULVORN_DONE; }
static int call_explain_json(void) { return tulvorn_explain_json(&type, json, json_size, &out) == TULVORN_DONE; }

/* Lets go of all that is held: a value and a type of so many levels, and a module. */
static int call_close(void) {
    tulvorn_close(&value);
    tulvorn_close(&out);
    tulvorn_close(&other);
    tulvorn_close(&type);
    tulvorn_close(&module);
    return 1;
}

/* in an order in which each has what it needs from those before */
static const struct call {
    const char *name;
    int (*call)(void);
} calls[] = {
    {"module", call_module},
    {"type", call_type},
    {"from_json", call_from_json},
    {"to_json", call_to_json},
    {"encode PER", call_encode_per},
    {"encode OER", call_encode_oer},
    {"encoded_len", call_len},
    {"encode_into PER", call_into_per},
    {"encode_into OER", call_into_oer},
    {"check PER", call_check_per},
    {"check OER", call_check_oer},
    {"decode PER", call_decode_per},
    {"decode OER", call_decode_oer},
    {"decode PER, cut short", call_cut_per},
    {"decode OER, cut short", call_cut_oer},
    {"convert PER to OER", call_convert_per},
    {"convert OER to PER", call_convert_oer},
    {"explain PER", call_explain_per},
    {"explain OER", call_explain_oer},
    {"read_newer PER", call_newer_per},
    {"read_newer OER", call_newer_oer},
    {"kind", call_part},
    {"explain_module", call_explain_module},
    {"share", call_share},
    {"words", call_words},
    {"open, feed, finish PER", call_session_per},
    {"open, feed, finish OER", call_session_oer},
    {"misfit", call_misfit},
    {"explain_json", call_explain_json},
    {"close", call_close},
};

static void *run(void *given) {
    const struct call *it = given;
    return it->call() ? NULL : given;
}

/* The octets of stack of a thread that makes the call, or none where it did not answer as it should. */
static size_t stack_of(const struct call *it, uint8_t *stack) {
    pthread_attr_t attributes;
    pthread_t thread;
    void *failed = NULL;
    size_t at = 0;
    memset(stack, PAINT, STACK);
    if (pthread_attr_init(&attributes) != 0 || pthread_attr_setstack(&attributes, stack, STACK) != 0) return 0;
    if (pthread_create(&thread, &attributes, run, (void *)(uintptr_t)it) != 0) return 0;
    pthread_join(thread, &failed);
    pthread_attr_destroy(&attributes);
    while (at < STACK && stack[at] == PAINT) at++;
    return failed == NULL ? STACK - at : 0;
}

/* Reads the texts, whatever is answered. */
static int call_any_module(void) { return call_module() || 1; }
static int call_any_words(void) { return call_explain_module() || 1; }
static int call_any_json(void) { return call_from_json() || 1; }

static int read_texts(size_t alone, uint8_t *stack) {
    static const struct call of_module = {"module", call_any_module}, of_json = {"from_json", call_any_json};
    static const struct call of_words = {"explain_module", call_any_words};
    printf("module: %zu\n", stack_of(&of_module, stack) - alone);
    printf("explain_module: %zu\n", stack_of(&of_words, stack) - alone);
    if (!call_type()) return 0;
    printf("from_json: %zu\n", stack_of(&of_json, stack) - alone);
    return 0;
}

int main(int count, char **words) {
    static const struct call none = {"none", call_none};
    uint8_t *stack = mmap(NULL, STACK, PROT_READ | PROT_WRITE, MAP_PRIVATE | MAP_ANONYMOUS, -1, 0);
    text = malloc(TEXT);
    json = malloc(TEXT);
    if (count < 4 || stack == MAP_FAILED || text == NULL || json == NULL) return 2;
    if (!read_file(words[1], text, TEXT, &text_size) || !read_file(words[3], json, TEXT, &json_size)) return 2;
    name = words[2];
    size_t alone = stack_of(&none, stack);
    if (count > 4) return read_texts(alone, stack);
    for (size_t at = 0; at < sizeof calls / sizeof *calls; at++) {
        size_t taken = stack_of(&calls[at], stack);
        if (taken == 0) {
            printf("%s: code %u, why %u, at %d\n", calls[at].name, fault.code, fault.why, (int)fault.at);
            return 1;
        }
        printf("%s: %zu\n", calls[at].name, taken - alone);
    }
    free(text);
    free(json);
    return 0;
}
