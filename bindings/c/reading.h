/* What the programs of this folder share that measure or try the library: the type of a file, and octets from
   hexadecimal. */
#ifndef READING_H
#define READING_H

#include "tulvorn.h"
#include <stdio.h>
#include <string.h>

/* Reads a file into `octets`, which has `room`; 0 where it cannot be read or is longer. */
static inline int read_file(const char *name, uint8_t *octets, size_t room, size_t *size) {
    FILE *from = fopen(name, "rb");
    if (from == NULL) return 0;
    *size = fread(octets, 1, room, from);
    int well = !ferror(from) && fgetc(from) == EOF;
    fclose(from);
    return well;
}

/* The module in a file, and its type of that name; 0 where there is none. */
static inline int read_both(const char *file, const char *name, tulvorn_handle *module, tulvorn_handle *type) {
    static uint8_t text[1 << 20];
    tulvorn_fault fault;
    size_t size = 0;
    return read_file(file, text, sizeof text, &size) && tulvorn_module(text, size, module, &fault) == TULVORN_DONE &&
           tulvorn_type(module, (const uint8_t *)name, strlen(name), type, &fault) == TULVORN_DONE;
}

/* The type alone. */
static inline int read_type(const char *file, const char *name, tulvorn_handle *type) {
    tulvorn_handle module = TULVORN_NONE;
    int well = read_both(file, name, &module, type);
    tulvorn_close(&module);
    return well;
}

/* The value of a digit of hexadecimal, or 16. */
static inline unsigned digit_of(char sign) {
    static const char digits[] = "0123456789abcdef";
    const char *found = sign == '\0' ? NULL : strchr(digits, sign);
    return found == NULL ? 16 : (unsigned)(found - digits);
}

/* The octets that `count` digits of hexadecimal show; 0 where they show none, or more than `room`. */
static inline int read_octets(const char *digits, size_t count, uint8_t *octets, size_t room, size_t *size) {
    if (count % 2 != 0 || count / 2 > room) return 0;
    for (size_t at = 0; at < count / 2; at++) {
        unsigned high = digit_of(digits[2 * at]), low = digit_of(digits[2 * at + 1]);
        if (high > 15 || low > 15) return 0;
        octets[at] = (uint8_t)(16 * high + low);
    }
    *size = count / 2;
    return 1;
}

#endif
