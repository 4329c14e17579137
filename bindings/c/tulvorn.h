/* Tulvorn for C and C++: values of ASN.1 types by CANONICAL-PER UNALIGNED and Canonical OER.
 *
 * A handle holds one object of the library: a module, a type, a value with its type, a session, octets, or the
 * fields that were skipped in a message. A call that returns an object takes the handle to put it into, and frees what
 * that handle held. Each call except tulvorn_close and tulvorn_interface returns a code, TULVORN_DONE on success. On
 * every other code the handles, and the octets to be written, are unchanged, except a session that takes a piece or is
 * ended. The comment of a function says what else is written. The library has no state of its own between calls.
 *
 * WHAT THE CALLER OWES. Nothing checks it. If it does not hold, the behaviour of a call is undefined.
 *   - A handle begins as TULVORN_NONE, is changed by calls of the library alone, and is never copied. Two copies of the
 *     library in one program are two libraries: a handle stays with one.
 *   - The places that a call writes, handles too, overlap neither one another nor what it reads.
 *   - Until a call returns, nothing else uses what it may write, and nothing writes what it only reads: `const` in its
 *     declaration. So no call closes or fills a handle that another call reads.
 *   - Pointers lead to memory of their type, aligned for it. Only the pointer to data of length 0 may be null. Lengths
 *     are those of the memory, below 2^63. What a call reads, octets or a fault, was written before.
 *   - malloc, realloc and free are those of one allocator, and align a block to each power of two up to 16 that divides
 *     its size. No call is made from a signal handler, or from the child that a program with threads has forked.
 *   - The processor is an x86-64 of level v2 or above, or a 64-bit ARM for a library that was built for it. A call has
 *     enough stack: 512 KiB for a library that LLVM compiled, 1 MiB for one that Rattle's own compiler did, and half
 *     for types of 32 levels (bindings/README.md), as tulvorn_type_levels finds. tulvorn_module and
 *     tulvorn_explain_module of a text with constraints take up to 1 MiB and 3 MiB.
 * THREADS. Calls that take a handle as `const` write neither the handle nor its object: threads may pass one handle to
 * them at once, without a lock. Any other use of a handle is by one thread at a time. It may go to another thread, as
 * by a lock, or by starting or joining that thread. tulvorn_share is for threads that each close a handle of their own.
 * TEXT is UTF-8, by pointer and length, with no NUL at its end.
 * WHO FREES. A handle owns what it holds: tulvorn_close frees it, and so does a call that puts another object there.
 * Whatever else is passed stays the caller's, and the library keeps no pointer to it.
 */
#ifndef TULVORN_H
#define TULVORN_H

#include <stddef.h>
#include <stdint.h>

#ifdef __cplusplus
extern "C" {
#endif

/* The number of this header. It grows with each change after which a program has to be compiled anew. */
#define TULVORN_INTERFACE 2

/* Holds an object, or nothing. It is never copied: the copy would be freed too. */
typedef struct tulvorn_handle {
    void *at; /* not for the caller */
} tulvorn_handle;

#define TULVORN_NONE \
    { NULL }

/* The octets of a string literal without the NUL at its end, as two arguments of a call: pointer and length, as in
   tulvorn_type(&module, TULVORN_TEXT("Msg"), &type, &fault). */
#define TULVORN_TEXT(literal) (const uint8_t *)("" literal), (sizeof(literal) - 1)

/* ---- encoding rules: a call that is given another number answers TULVORN_MISUSE */
enum {
    TULVORN_PER = 0, /* CANONICAL-PER UNALIGNED (X.691); its unit is the bit */
    TULVORN_OER = 1  /* Canonical OER (X.696); its unit is the octet */
};

/* ---- codes */
enum {
    TULVORN_DONE = 0,
    TULVORN_NO_MEMORY = 1,          /* an allocation failed */
    TULVORN_MISUSE = 2,             /* a handle holds nothing, or another kind of object; or the rules are none */
    TULVORN_REFUSED = 3,            /* no encoding begins so: `at` is the first unit after which none can */
    TULVORN_TRUNCATED = 4,          /* an encoding may still follow: `at` units were taken */
    TULVORN_REST = 5,               /* the first `at` octets are an encoding, and more follow */
    TULVORN_TOO_LONG = 6,           /* of octets: the first 268,435,455 are no encoding, and only a longer one may begin
                                       so; of a value: its encoding would have more than these; of tulvorn_read_newer:
                                       the octets are more than these, whatever they are */
    TULVORN_TOO_SHORT = 7,          /* the caller's octets are fewer than those to be written */
    TULVORN_NOT_TEXT = 8,           /* a text is not UTF-8 */
    TULVORN_NO_MODULE = 9,          /* the text is no module, or too large: `why` below, `at` an octet of it, from 0 */
    TULVORN_NO_NAME = 10,           /* the module has no type of that name */
    TULVORN_NOT_OF_TYPE = 11,       /* the value is none of the type, or breaks its constraint */
    TULVORN_NO_JSON = 12,           /* the text is no JSON in UTF-8, or has a number past what is read, as 1e400, half
                                       of a surrogate pair, or more than 127 levels */
    TULVORN_SHAPE = 13,             /* the JSON is not of the shape of the type, or an object has a key twice */
    TULVORN_NO_PATH = 14,           /* no value of the type has a part there, as with a misspelt name */
    TULVORN_OTHER_KIND = 15,        /* the part there is of another kind */
    /* of tulvorn_read_newer alone: */
    TULVORN_NO_MESSAGE = 16,        /* no message of any version begins so, or more octets follow one, or the value breaks
                                       a constraint of its spelling */
    TULVORN_CUT_MESSAGE = 17,       /* the octets end before a message of any version does */
    TULVORN_TOO_MANY_ADDITIONS = 18, /* a count of additions, the index or tag of an alternative, or the index of an
                                        item, past those of the profile */
    /* of tulvorn_feed alone: */
    TULVORN_MORE = 19,              /* the octets so far are no whole encoding, and one may still follow */
    TULVORN_SPENT = 20,             /* the session has returned its value, or answered NO_MEMORY, before */
    /* of the parts of a value alone: */
    TULVORN_ABSENT = 21,            /* the value has no part there, and others of its type have: it is absent without a
                                       DEFAULT, another alternative is chosen, or the list has fewer elements */
    /* of tulvorn_check_within and tulvorn_decode_within alone: */
    TULVORN_OVER_BUDGET = 22,       /* the octets are the encoding of a value that takes more than the budget */
    /* of tulvorn_type and tulvorn_type_levels alone: */
    TULVORN_LARGE_CONSTRAINT = 23,  /* the constraint of the type has more than 1,000,000 parts, or more than 256 names
                                       that refer one to the next have one */
    TULVORN_TOO_DEEP = 24           /* of tulvorn_type_levels: the type has more levels */
};

/* ---- why, where octets are TULVORN_REFUSED: what was being read */
enum {
    TULVORN_SEALED = 1,    /* the last unit of an open type field whose content is no encoding, or of a UTF8String that
                              is no UTF-8 */
    TULVORN_DEFAULT = 2,   /* the value of a component with a DEFAULT */
    TULVORN_LENGTH = 3,    /* a length or a quantity */
    TULVORN_EXTENSION = 4, /* an extension bit, or the count of extension additions, their presence bits or, in OER,
                              what fills these up */
    TULVORN_CHARACTER = 5, /* a character of a string */
    TULVORN_PADDING = 6,   /* the zeros that fill an octet; of a BIT STRING in OER also how many there are */
    TULVORN_NUMBER = 7,    /* anything else */
    TULVORN_CONSTRAINT = 8 /* the last unit of the encoding of a value that breaks the constraint of its type */
};

/* ---- why, where a text is TULVORN_NO_MODULE */
enum {
    TULVORN_BAD_CHARACTER = 1,  /* a character that begins no token, at `at` */
    TULVORN_UNEXPECTED = 2,     /* a token with which no module can go on, or the end of the text, at `at` */
    TULVORN_UNKNOWN = 3,        /* a reference to a name that is not assigned */
    TULVORN_CYCLE = 4,          /* an assignment whose references lead back to itself */
    TULVORN_TWICE = 5,          /* a name that is assigned twice */
    TULVORN_BAD_TYPE = 6,       /* an assignment whose type is none of the profile */
    TULVORN_OUT_OF_PROFILE = 7, /* a word, a number or a constraint that the profile does not have, at `at` */
    TULVORN_TOO_LARGE = 8,      /* its types come to more than 10,000,000, references followed */
    TULVORN_BAD_CONSTRAINT = 9  /* a line with `--:` that is no constraint of a type of the module */
};

/* What a call answered: the code that it returns, of REFUSED and NO_MODULE the reason `why`, and of some codes `at`;
   else they are 0. Units are bits of PER and octets of OER. `at` is
     - of REFUSED a unit, counted from 1;
     - of TRUNCATED a number of units;
     - of REST and TOO_SHORT a number of octets, by both rules;
     - of NO_MODULE, where the reason has a place, an octet of the text, counted from 0. */
typedef struct tulvorn_fault {
    uint32_t code, why;
    uint64_t at;
} tulvorn_fault;

/* ---- modules and types */

/* A CONSTRAINT is a condition on the values of a type that no encoding shows, as a gap in a range. A text has it in a line
   `--: NAME (constraint)` after the assignment of the name; to other readers of X.680 the line is a comment. A type
   includes the constraints of the types that it refers to. Its messages are those whose value meets the constraint.
   A value that breaks it is REFUSED at the last unit of its encoding, for the reason CONSTRAINT, and has no encoding:
   NOT_OF_TYPE. tulvorn_explain and tulvorn_misfit return the part. A value keeps the constraint of its type. JSON shows
   values of the type, whether they meet the constraint or not. */

/* Reads the text of a module (X.680, in the notation of the profile), and puts the module into `module`. Its types are
   as the text says, and their encodings are those of the text. A module that `asn_tool flatten` wrote of published ones
   can have types that differ from the published types: tulvorn_difference returns how, and `flatten --strict` leaves
   them out. Answers NOT_TEXT, NO_MODULE, NO_MEMORY. */
uint32_t tulvorn_module(const uint8_t *text, size_t len, tulvorn_handle *module, tulvorn_fault *fault);

/* Puts into `words`, as octets, why the text is no module, in some lines of text: the line and the column, what is
   expected there, and the line itself with a mark. Control characters of the line are not replaced. Of a bad line of a
   constraint or difference its number and what is expected. No octets if the text is a module. Answers NOT_TEXT, NO_MEMORY. */
uint32_t tulvorn_explain_module(const uint8_t *text, size_t len, tulvorn_handle *words);

/* Puts the type that the module assigns to the name into `type`, with its constraint. It outlives the module, which is as
   it was. Answers MISUSE where `module` holds no module, NOT_TEXT, NO_NAME, LARGE_CONSTRAINT,
   NO_MEMORY. */
uint32_t tulvorn_type(const tulvorn_handle *module, const uint8_t *name, size_t len, tulvorn_handle *type,
                      tulvorn_fault *fault);

/* As tulvorn_type, of a type of at most that many levels: what each call on it takes of the stack grows with them. A
   simple type has one level, a SEQUENCE or CHOICE one more than the deepest type inside it, and a SEQUENCE OF two more than
   its element; no type has more than 64. Answers as tulvorn_type, and TOO_DEEP. */
uint32_t tulvorn_type_levels(const tulvorn_handle *module, const uint8_t *name, size_t len, uint32_t levels,
                             tulvorn_handle *type, tulvorn_fault *fault);

/* Puts into `words`, as octets, how the type that the module assigns to the name differs from the published type. Its
   messages are then others than those of the published type: a caller that wants these alone refuses the type. It is what
   a line `--! NAME WORDS` of the text says of the name, or of one that its type refers to. `asn_tool flatten` writes such a
   line for each type that is not the same: its status, and the first reason, as `wider: a.b: a constraint is not looked
   at`. Octets of a type that a line with `CONTAINING` names are not judged. If the text says nothing else of such a type,
   the words are `wider: the contents of octets are not looked at`. Else no octets. Answers MISUSE where `module` holds no
   module, NOT_TEXT, NO_NAME, NO_MEMORY. */
uint32_t tulvorn_difference(const tulvorn_handle *module, const uint8_t *name, size_t len, tulvorn_handle *words);

/* Puts another handle of the same type into `other`, for another thread, say. Both share one tree and constraint.
   Answers MISUSE where `type` holds no type, NO_MEMORY. */
uint32_t tulvorn_share(const tulvorn_handle *type, tulvorn_handle *other);

/* ---- messages. Each answers MISUSE where its first handle holds no type, or no value, or the rules are none. */

/* Whether the octets are the encoding of a value of the type.
   Answers REFUSED, TRUNCATED, REST, TOO_LONG, NO_MEMORY. */
uint32_t tulvorn_check(const tulvorn_handle *type, uint32_t rules, const uint8_t *octets, size_t len,
                       tulvorn_fault *fault);

/* Puts the value whose encoding the octets are into `value`, with its type. Answers as tulvorn_check does. */
uint32_t tulvorn_decode(const tulvorn_handle *type, uint32_t rules, const uint8_t *octets, size_t len,
                        tulvorn_handle *value, tulvorn_fault *fault);

/* The most that a value may take. An entry is the value itself, and each of its components, absent ones too, of its
   elements and of its alternatives. A string takes an octet for each octet, character or bit (a UTF8String for each
   octet). A few octets can be the encoding of many entries, as of a list of SEQUENCEs of NULLs. Decoded without a
   budget, 1,000 octets from a hostile sender take a gigabyte. */
typedef struct tulvorn_budget {
    uint64_t entries;
    uint64_t octets;
} tulvorn_budget;

/* As tulvorn_check, of a value that takes no more than the budget. No value is built: what it takes is counted, by a
   plan of the type that each call works out. Answers as tulvorn_check does, and OVER_BUDGET. */
uint32_t tulvorn_check_within(const tulvorn_handle *type, uint32_t rules, const uint8_t *octets, size_t len,
                              const tulvorn_budget *budget, tulvorn_fault *fault);

/* As tulvorn_decode, of a value that takes no more than the budget. What it takes is counted first, so no value that
   takes more is built. Answers as tulvorn_check_within does. Both judge a constraint only if the octets are the encoding
   of a value within the budget, and tulvorn_check_within builds the value to judge it. */
uint32_t tulvorn_decode_within(const tulvorn_handle *type, uint32_t rules, const uint8_t *octets, size_t len,
                               const tulvorn_budget *budget, tulvorn_handle *value, tulvorn_fault *fault);

/* Puts the encoding of the value into `octets`. Answers NOT_OF_TYPE, TOO_LONG, NO_MEMORY. */
uint32_t tulvorn_encode(const tulvorn_handle *value, uint32_t rules, tulvorn_handle *octets, tulvorn_fault *fault);

/* Writes to `encoded` how many octets the encoding of the value has. Does not allocate. Answers NOT_OF_TYPE, TOO_LONG;
   then `encoded` is unchanged. */
uint32_t tulvorn_encoded_len(const tulvorn_handle *value, uint32_t rules, size_t *encoded, tulvorn_fault *fault);

/* Writes the encoding of the value to the front of the `len` octets at `into`, and its length to `encoded`. The other
   octets are unchanged. Does not allocate. Answers NOT_OF_TYPE, TOO_LONG, and TOO_SHORT, where `at` of the fault is how
   many octets are needed; then all octets, and `encoded`, are unchanged. */
uint32_t tulvorn_encode_into(const tulvorn_handle *value, uint32_t rules, uint8_t *into, size_t len, size_t *encoded,
                             tulvorn_fault *fault);

/* Reads the octets by `rules`, and puts the octets of the same value by the other rules into `other`.
   Answers as tulvorn_check does; TOO_LONG also if the encoding by the other rules has more than 268,435,455 octets. */
uint32_t tulvorn_convert(const tulvorn_handle *type, uint32_t rules, const uint8_t *octets, size_t len,
                         tulvorn_handle *other, tulvorn_fault *fault);

/* Puts into `words`, as octets, why the octets are no encoding of a value of the type, and in which component:
   `refused at bit 6 in $.ok: default`. Of a value that breaks a constraint the part is that which breaks it, and the unit
   the last of the encoding. Places are counted in the unit of the rules. No octets if they are an encoding.
   Answers NO_MEMORY. */
uint32_t tulvorn_explain(const tulvorn_handle *type, uint32_t rules, const uint8_t *octets, size_t len,
                         tulvorn_handle *words);

/* ---- sessions: a message whose octets come in pieces. What a session answers depends on all octets that it took, and
   not on how they were cut. It goes on where the last piece ended, and keeps only the content so far of the open type
   field or UTF8String in which the octets end: what it costs grows with the octets, however they are cut. */

/* Puts into `session` a session for a value of the type, which has taken no octet. It outlives what `type` holds, which
   is as it was. Answers MISUSE where `type` holds no type or the rules are none, NO_MEMORY. */
uint32_t tulvorn_open(const tulvorn_handle *type, uint32_t rules, tulvorn_handle *session);

/* Takes the next piece of the message. DONE if the octets so far begin with an encoding: its value is put into
   `value`, with its type, and `used` is how many octets of this piece belong to it. MORE if they do not, and an
   encoding may still follow. REFUSED if none can: `at` is the first unit of the message, over all its pieces, after
   which none can follow. A session that answered REFUSED or TOO_LONG answers the same to each further piece, and one
   that answered DONE or NO_MEMORY answers SPENT. `value` and `used` are unchanged on every code except DONE.
   Answers MISUSE where `session` holds no session, MORE, REFUSED, TOO_LONG, SPENT, NO_MEMORY. */
uint32_t tulvorn_feed(tulvorn_handle *session, const uint8_t *piece, size_t len, tulvorn_handle *value, size_t *used,
                      tulvorn_fault *fault);

/* Ends the session and frees it: `session` holds nothing then. DONE if the octets that it took are a whole encoding, as
   after DONE of tulvorn_feed. TRUNCATED if they are none: `at` is how many units were taken while an encoding could
   still follow, also of a session that answered REFUSED or TOO_LONG. A constraint is judged by tulvorn_feed alone.
   DONE does not say that a value was returned: only DONE of tulvorn_feed says that. After NO_MEMORY of tulvorn_feed no
   value comes any more, since each further piece is answered SPENT. This call still answers DONE if the octets taken
   are a whole encoding: those up to the end of the value if only putting it into `value` failed, else those before
   that piece.
   A session that took no octet is DONE if a value has an encoding without octets, as NULL in OER.
   Does not allocate. Answers MISUSE if `session` holds no session; then it is unchanged. */
uint32_t tulvorn_finish(tulvorn_handle *session, tulvorn_fault *fault);

/* ---- messages of newer and older senders, whose version of the type has more or fewer extension additions */

/* Puts into `value` what a receiver of this type reads of the message, and into `skipped` the fields that the type does
   not have. A value with an item or alternative that the type does not have has no encoding, and tulvorn_name answers
   OTHER_KIND there. Its JSON shows the number: of an item `"?2"`, by PER its index among the additions, from 0, by OER
   its number; of an alternative `{"?1":null}`, its index, root before additions, from 0.
   Of a constraint what each version keeps is judged: no DEFAULT is written out, no group is empty, named bits and times
   have no last zeros. A message that breaks it is NO_MESSAGE. tulvorn_misfit shows what else of it the value breaks.
   Answers NO_MESSAGE, CUT_MESSAGE, TOO_MANY_ADDITIONS, TOO_LONG, NO_MEMORY. */
uint32_t tulvorn_read_newer(const tulvorn_handle *type, uint32_t rules, const uint8_t *octets, size_t len,
                            tulvorn_handle *value, tulvorn_handle *skipped, tulvorn_fault *fault);

/* How many fields were skipped, in `count`. Answers MISUSE where `skipped` holds none. */
uint32_t tulvorn_skipped_count(const tulvorn_handle *skipped, size_t *count);

/* The skipped field at `index`, counted from 0 in the order of the message. Writes to `place` its index among the
   extension additions of its type, from 0, and its octets to the front of `into`, which has `room`, as tulvorn_copy
   does. `place` is written with TOO_SHORT too. Answers MISUSE, NO_PATH if there are not so many, TOO_SHORT. */
uint32_t tulvorn_skipped(const tulvorn_handle *skipped, size_t index, uint32_t *place, uint8_t *into, size_t room,
                         size_t *needed);

/* ---- JSON */

/* Puts the text of the JSON of the value into `json`, as octets. Answers MISUSE where `value` holds no value,
   NOT_OF_TYPE, NO_MEMORY. */
uint32_t tulvorn_to_json(const tulvorn_handle *value, tulvorn_handle *json, tulvorn_fault *fault);

/* Puts the value of the type that the JSON shows into `value`. An INTEGER is a number without fraction and exponent,
   from -2^63 to 2^64 - 1; any other number, `-0` too, is not of its SHAPE. An object with a key twice is not of its
   SHAPE. Answers MISUSE where `type` holds no type, NO_JSON, SHAPE, NOT_OF_TYPE, NO_MEMORY. */
uint32_t tulvorn_from_json(const tulvorn_handle *type, const uint8_t *json, size_t len, tulvorn_handle *value,
                           tulvorn_fault *fault);

/* ---- where a value or JSON is none of a type */

/* Puts into `words`, as octets, the first part of the value that does not fit the type, and why:
   `$.coreData.speed: 9000 is not in 0..8191`. If the value fits the type, the first part that breaks its constraint.
   No octets if there is none. It may be a value of another type, as of
   another version of it, or one that tulvorn_read_newer returned.
   Answers MISUSE where `type` holds no type or `value` no value, NO_MEMORY. */
uint32_t tulvorn_misfit(const tulvorn_handle *type, const tulvorn_handle *value, tulvorn_handle *words);

/* Puts into `words`, as octets, why the JSON shows no value of the type: `not of the type's shape at $.coreData.speed`,
   with the first place where it is not, or `not of the type`, where the shape is right. Of a key that an object has
   twice `$.coreData.speed: the object has this key twice`. No octets where it shows one.
   Answers MISUSE where `type` holds no type, NO_JSON, NO_MEMORY. */
uint32_t tulvorn_explain_json(const tulvorn_handle *type, const uint8_t *json, size_t len, tulvorn_handle *words);

/* ---- the parts of a value, by a path such as coreData.speed or path[3].x. A `$` at the very front is ignored. The
   path is cut at each `.`, `[` and `]`. An empty piece is ignored. A piece of one to nine digits is the index of an
   element, counted from 0. Any other is the name of a component or of the chosen alternative. An absent component is
   its DEFAULT. The empty path is the value itself. No call here allocates. Each answers MISUSE if `value` holds no
   value, NOT_TEXT, NO_PATH if no value of the type has such a part, and ABSENT if this one does not have it. It answers
   OTHER_KIND if the part is of another kind than the call is for. */

/* ---- kinds */
enum {
    TULVORN_BOOLEAN = 1,
    TULVORN_NULL = 2,
    TULVORN_INTEGER = 3,
    TULVORN_ENUMERATED = 4,
    TULVORN_BIT_STRING = 5,
    TULVORN_OCTET_STRING = 6,
    TULVORN_CHARACTER_STRING = 7, /* IA5String, NumericString, VisibleString or UTF8String */
    TULVORN_SEQUENCE = 8,
    TULVORN_SEQUENCE_OF = 9,
    TULVORN_CHOICE = 10
};

/* The kind of the part's type, in `kind`. Never OTHER_KIND. */
uint32_t tulvorn_kind(const tulvorn_handle *value, const uint8_t *path, size_t len, uint32_t *kind);

/* The value of a BOOLEAN, 0 or 1, in `truth`. */
uint32_t tulvorn_boolean(const tulvorn_handle *value, const uint8_t *path, size_t len, uint32_t *truth);

/* The value of an INTEGER that is at most INT64_MAX, in `number`. OTHER_KIND too if it is greater: use
   tulvorn_unsigned. */
uint32_t tulvorn_integer(const tulvorn_handle *value, const uint8_t *path, size_t len, int64_t *number);

/* The value of an INTEGER that is not below 0, in `number`. OTHER_KIND too if it is: use tulvorn_integer. Each INTEGER
   of the profile is read by one of both. */
uint32_t tulvorn_unsigned(const tulvorn_handle *value, const uint8_t *path, size_t len, uint64_t *number);

/* How many elements a SEQUENCE OF has, or bits, octets or characters a string (a UTF8String octets), in `count`; 0 of a
   value of another kind. Never OTHER_KIND. */
uint32_t tulvorn_count(const tulvorn_handle *value, const uint8_t *path, size_t len, size_t *count);

/* The bit of a BIT STRING at `index`, counted from 0, 0 or 1, in `bit`. OTHER_KIND too where there are not so many. */
uint32_t tulvorn_bit(const tulvorn_handle *value, const uint8_t *path, size_t len, size_t index, uint32_t *bit);

/* Each of these writes octets to the front of `into`, which has `room` of them, and their number to `needed`. It
   answers TOO_SHORT if `room` is less; then `needed` is written and `into` unchanged. `into` may be null if `room` is
   0. */

/* The octets of an OCTET STRING. */
uint32_t tulvorn_octets(const tulvorn_handle *value, const uint8_t *path, size_t len, uint8_t *into, size_t room,
                        size_t *needed);

/* The characters of a character string, in UTF-8. */
uint32_t tulvorn_text(const tulvorn_handle *value, const uint8_t *path, size_t len, uint8_t *into, size_t room,
                      size_t *needed);

/* The name of the item of an ENUMERATED, or of the chosen alternative of a CHOICE. OTHER_KIND too for an item or
   alternative that the type does not have (in a value of tulvorn_read_newer): it has no name here, and JSON shows its
   number, as `"?2"` and `{"?1":null}`. */
uint32_t tulvorn_name(const tulvorn_handle *value, const uint8_t *path, size_t len, uint8_t *into, size_t room,
                      size_t *needed);

/* ---- octets and words */

/* Writes the octets that the handle holds likewise. Answers MISUSE where it holds none, TOO_SHORT. */
uint32_t tulvorn_copy(const tulvorn_handle *octets, uint8_t *into, size_t room, size_t *needed);

/* Puts the words of a fault into `words`, as octets, its places counted in the unit of the rules: `refused at bit 6:
   default`. Answers MISUSE where the rules are none, NO_MEMORY. */
uint32_t tulvorn_words(const tulvorn_fault *fault, uint32_t rules, tulvorn_handle *words);

/* Writes the version of the library, as tulvorn_copy does. That of a library that was built without a proof ends with
   `not proved`. */
uint32_t tulvorn_version(uint8_t *into, size_t room, size_t *needed);

/* TULVORN_INTERFACE of the header that the library was built with. */
uint32_t tulvorn_interface(void);

/* Frees what the handle holds. It holds nothing then, and may be closed or filled again. */
void tulvorn_close(tulvorn_handle *held);

#ifdef __cplusplus
}
#endif

#endif
