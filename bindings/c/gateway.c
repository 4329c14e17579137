/* A gateway: takes messages of PER that come one after the other, in pieces as a socket gives them, and writes each in
   OER, a line of hexadecimal. It stops at the first bit after which no message can follow, without waiting for more.

   usage: gateway MODULE TYPE [FILE]     the file of a module, a type of it, and a file or a device of messages; without
                                         it they come on standard input
   status: 0 at the end of a message, 1 where octets are no messages, 2 where it could not begin or go on */
#include "tulvorn.h"
#include <fcntl.h>
#include <stdio.h>
#include <string.h>
#include <unistd.h>

enum { PIECE = 4096, ROOM = 65536 };

/* The words of a fault on standard error. */
static int refuse(const tulvorn_fault *fault) {
    tulvorn_handle words = TULVORN_NONE;
    uint8_t text[128];
    size_t size = 0;
    if (tulvorn_words(fault, TULVORN_PER, &words) == TULVORN_DONE) tulvorn_copy(&words, text, sizeof text, &size);
    tulvorn_close(&words);
    fprintf(stderr, "gateway: %.*s\n", (int)size, (const char *)text);
    return fault->code == TULVORN_NO_MEMORY ? 2 : 1;
}

/* The type of that name of the module in a file. */
static int find_type(const char *file, const char *name, tulvorn_handle *type) {
    static uint8_t text[1 << 20];
    tulvorn_handle module = TULVORN_NONE;
    tulvorn_fault fault = {TULVORN_MISUSE, 0, 0};
    FILE *from = fopen(file, "rb");
    if (from == NULL) return 0;
    size_t size = fread(text, 1, sizeof text, from);
    fclose(from);
    if (tulvorn_module(text, size, &module, &fault) == TULVORN_DONE)
        tulvorn_type(&module, (const uint8_t *)name, strlen(name), type, &fault);
    if (fault.code != TULVORN_DONE) refuse(&fault);
    tulvorn_close(&module);
    return fault.code == TULVORN_DONE;
}

/* A message in OER: a line on standard output. */
static int forward(tulvorn_handle *value) {
    static uint8_t octets[ROOM];
    tulvorn_fault fault;
    size_t count = 0;
    if (tulvorn_encode_into(value, TULVORN_OER, octets, ROOM, &count, &fault) != TULVORN_DONE) return refuse(&fault);
    for (size_t at = 0; at < count; at++) printf("%02x", octets[at]);
    printf("\n");
    return fflush(stdout) == 0 ? 0 : 2;
}

/* Feeds a piece: forwards each message that ends in it, and leaves the session with the octets of the last that does
   not, of which `begun` says whether there are any. */
static int take(tulvorn_handle *type, tulvorn_handle *session, const uint8_t *piece, size_t size, int *begun) {
    tulvorn_handle value = TULVORN_NONE;
    int status = 0;
    while (status == 0 && size > 0) {
        tulvorn_fault fault;
        size_t used = 0;
        uint32_t code = tulvorn_feed(session, piece, size, &value, &used, &fault);
        *begun = code == TULVORN_MORE;
        if (code == TULVORN_MORE) break;
        status = code == TULVORN_DONE ? forward(&value) : refuse(&fault);
        if (tulvorn_open(type, TULVORN_PER, session) != TULVORN_DONE) status = 2;
        piece += used;
        size -= used;
    }
    tulvorn_close(&value);
    return status;
}

int main(int count, char **words) {
    tulvorn_handle type = TULVORN_NONE, session = TULVORN_NONE;
    tulvorn_fault fault;
    uint8_t piece[PIECE];
    int status = 0, begun = 0;
    ssize_t came = 1;
    if (count < 3 || !find_type(words[1], words[2], &type)) return 2;
    int from = count > 3 ? open(words[3], O_RDONLY) : STDIN_FILENO;
    if (from < 0 || tulvorn_open(&type, TULVORN_PER, &session) != TULVORN_DONE) status = 2;
    while (status == 0 && came > 0) {
        came = read(from, piece, PIECE);
        if (came > 0) status = take(&type, &session, piece, (size_t)came, &begun);
    }
    if (came < 0) status = 2;
    if (status == 0 && begun && tulvorn_finish(&session, &fault) != TULVORN_DONE) status = refuse(&fault);
    tulvorn_close(&session);
    tulvorn_close(&type);
    return status;
}
