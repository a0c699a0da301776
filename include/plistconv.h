/* plistconv: property lists in their canonical form.
 *
 * The functions are proved: if a call returns 0, its result is what this header says; any other number is that of a
 * refusal that is true of the input. The header compiles as C99 and later, and as C++98 and later.
 *
 * Every call requires:
 * - Each pointer points to `count` or `room` bytes and is not null. If the count is 0, any pointer will do, null too
 *   (an empty vector's data(), a nil slice). A hash key is 16 bytes, or null.
 * - The input and the output buffer, into[0 .. room), are initialised. A buffer from malloc has to be set first; calloc
 *   does that. The reason: the proof says that a byte that is not written keeps its value, so it must have one, and
 *   the compiled code may rely on that. The structures and numbers that a call writes need not be initialised, and
 *   the _alloc calls below take care of their buffers.
 * - What a call writes overlaps none of its other arguments.
 * - 1 MiB of stack is free. A value may be 512 levels deep, and the deepest take about 620 KiB; with less the program
 *   crashes. Threads have 8 MiB with glibc, but 128 KiB with musl: create them with pthread_attr_setstacksize.
 * - The call is made neither from a signal handler, nor in the child of a fork of a program with threads.
 * Callers without this header (dlsym, another language) also have to pass a valid pointer if a count is 0, to pass 16
 * zero bytes for no key, and to initialise what a call writes.
 *
 * Threads: calls share no state, so any number may run at once, each on its own output. They may share input and key,
 * which are only read. Memory comes from malloc, realloc and free; after a call returns it keeps none.
 *
 * Refusals, by call (names are below; only the program, which reads and writes files, uses 50 and 51):
 *   plistconv_canonical, plistconv_same, plistconv_print, plistconv_lint    1 to 32, 52, 60
 *   plistconv_text                                          1 to 32, 40, 52, 60
 *   plistconv_check                                         1 to 3, 52, 60
 *   plistconv_line                                          60, and 255 (PLISTCONV_UNTOLD)
 * An input that begins with `bplist` is refused with 1 to 18, any other with 14, 16 to 18 and 20 to 32. An input of
 * more than 4,294,967,295 bytes is refused with 52, and only with that;
 * plistconv_same refuses it so unless the first input is refused already.
 */
#ifndef PLISTCONV_H
#define PLISTCONV_H

#include <stddef.h>
#include <stdint.h>
#include <stdlib.h>

#ifdef __cplusplus
extern "C" {
#endif

/* The version of this header, also as a number (10,000 * major + 100 * minor + patch). plistconv_version() returns the
 * number of the linked library. */
#define PLISTCONV_VERSION "0.3.0"
#define PLISTCONV_VERSION_NUMBER 300
uint32_t plistconv_version(void);

/* The refusals by number. docs/FORMATS.md says what each means, and which place it names. */
#define PLISTCONV_TOO_SHORT 1
#define PLISTCONV_BAD_HEADER 2
#define PLISTCONV_BAD_TRAILER 3
#define PLISTCONV_BAD_OFFSET 4
#define PLISTCONV_BAD_REFERENCE 5
#define PLISTCONV_CUT_OBJECT 6
#define PLISTCONV_BAD_MARKER 7
#define PLISTCONV_NULL_OBJECT 8
#define PLISTCONV_UID_OBJECT 9
#define PLISTCONV_SET_OBJECT 10
#define PLISTCONV_NOT_ASCII 11
#define PLISTCONV_WIDE_INTEGER 12
#define PLISTCONV_KEY_NOT_TEXT 13
#define PLISTCONV_DUPLICATE_KEY 14
#define PLISTCONV_CYCLE 15
#define PLISTCONV_TOO_DEEP 16
#define PLISTCONV_TOO_MANY_NODES 17
#define PLISTCONV_TOO_MUCH_PAYLOAD 18
#define PLISTCONV_BAD_UTF8 20
#define PLISTCONV_XML_FORM 21
#define PLISTCONV_UNEXPECTED_CHARACTER 23
#define PLISTCONV_UNCLOSED_STRING 24
#define PLISTCONV_UNCLOSED_COMMENT 25
#define PLISTCONV_BAD_ESCAPE 26
#define PLISTCONV_OCTAL_RANGE 27
#define PLISTCONV_ODD_DATA 28
#define PLISTCONV_BAD_DATA 29
#define PLISTCONV_EXPECTED 30
#define PLISTCONV_JUNK 31
#define PLISTCONV_BAD_UTF16 32
#define PLISTCONV_NOT_IN_OPEN_STEP 40
#define PLISTCONV_READ_FAILED 50
#define PLISTCONV_WRITE_FAILED 51
#define PLISTCONV_INPUT_TOO_LARGE 52
#define PLISTCONV_OUT_OF_MEMORY 60

/* The maximum size of the canonical file, and of the OpenStep text, of a value with `nodes` nodes whose strings, keys
 * and data have `payload` bytes (2 for each UTF-16 unit). If you know neither, use the _alloc calls, or call with a
 * room of 0 to get the size. */
#define PLISTCONV_FILE_ROOM(payload, nodes) (40 + (uint64_t)(payload) + 25 * (uint64_t)(nodes))
#define PLISTCONV_TEXT_ROOM(payload, nodes) (1 + 3 * (uint64_t)(payload) + 5 * (uint64_t)(nodes))

/* The units of a refusal's place. */
#define PLISTCONV_NO_PLACE 0 /* there is none, and `place` is 0 */
#define PLISTCONV_OBJECT 1   /* the number of an object of a binary file */
#define PLISTCONV_OCTET 2    /* the offset of a byte in a text, counted from 0, its byte order mark included */
#define PLISTCONV_SENT 3     /* the number of bytes written: here only 0, with the refusal 60 */

/* Why a call was refused. All fields are 0 if it was not. */
typedef struct {
    uint64_t place;  /* in the unit of `unit` */
    uint8_t number;  /* the number of the refusal, which is also what the call returns */
    uint8_t unit;    /* one of the four above */
    uint8_t input;   /* which input is refused: 1, or 2 for the second of plistconv_same */
} plistconv_refusal;

/* What plistconv_check finds. All fields are 0 if the input was refused. */
typedef struct {
    uint64_t object;   /* the object that breaks the rule; 0 if none does */
    uint8_t canonical; /* 1: the input is the canonical file of a value within the limits; else 0 */
    uint8_t rule;      /* a broken rule, from 0 to 7; 0 if none is broken */
} plistconv_finding;

/* The hash key of a call, `key`: 16 bytes with which it hashes scalars (by SipHash), or null for a fixed seed, which
 * is faster. No file, text, print or comparison depends on the key, and whether a file is canonical does not: the proof
 * is for all keys. Which of several refusals or broken rules is named may.
 * Scalars can be chosen that collide under the fixed seed, and a call then takes time quadratic in their number: 20
 * seconds for 100,000. So pass a key if the input is untrusted, as in a server: one for the process, from getentropy
 * or the like, kept secret. A key of 16 zeros counts as none. */
#define PLISTCONV_HASH_KEY_OCTETS 16

/* Writes the canonical file of the value of octets[0 .. count). Input that begins with `bplist` is read as a binary
 * property list, any other as OpenStep text.
 * Returns 0 with the size of the file in *length. If that is at most `room`, the file is in into[0 .. *length) and the
 * rest of the buffer is unchanged. If it is more, the whole buffer is unchanged, and *length is the room needed.
 * Otherwise returns the number of the refusal, with *refusal set and *length 0; the buffer is unchanged. */
uint8_t plistconv_canonical(const uint8_t *octets, size_t count, const uint8_t *key, uint8_t *into,
                            size_t room, size_t *length, plistconv_refusal *refusal);

/* Compares the values of two inputs, which are equal if and only if their canonical files are identical.
 * Returns 0 with 1 or 0 in *equal.
 * Otherwise returns the number of the refusal, with *refusal set and *equal 0. The refusal is one of the second input
 * only if the first is accepted. */
uint8_t plistconv_same(const uint8_t *first, size_t first_count, const uint8_t *second,
                       size_t second_count, const uint8_t *key, uint8_t *equal, plistconv_refusal *refusal);

/* Writes the OpenStep text of the value of octets[0 .. count), which ends with a newline. OpenStep text has no numbers,
 * booleans or dates: a value with one is refused (40).
 * Returns like plistconv_canonical. */
uint8_t plistconv_text(const uint8_t *octets, size_t count, uint8_t *into, size_t room, size_t *length,
                       plistconv_refusal *refusal);

/* Writes the printed text of the value of octets[0 .. count): for people, of every value, with one line for each item
 * of an array and each pair of a dictionary. Two values print the same if and only if they are equal. The text may be
 * far longer than the input, because a part that the input has once may occur many times in the value.
 * Returns like plistconv_canonical. */
uint8_t plistconv_print(const uint8_t *octets, size_t count, uint8_t *into, size_t room, size_t *length,
                        plistconv_refusal *refusal);

/* Checks whether octets[0 .. count) is accepted. Writes nothing and builds no value.
 * Returns 0 if it is, otherwise the number of the refusal, with *refusal set. */
uint8_t plistconv_lint(const uint8_t *octets, size_t count, plistconv_refusal *refusal);

/* Checks whether octets[0 .. count), a binary property list, is already canonical, without building its value.
 * Returns 0 with *finding set.
 * Otherwise returns 1 to 3 if the input does not have the layout of a binary file, 52 or 60, with *refusal set and all
 * fields of *finding 0. */
uint8_t plistconv_check(const uint8_t *octets, size_t count, const uint8_t *key, plistconv_finding *finding,
                        plistconv_refusal *refusal);

/* What plistconv_line returns for a refusal whose number, unit and place do not belong together. */
#define PLISTCONV_UNTOLD 255

/* Writes the line of a refusal, without a newline: `PATH: refused 14 DuplicateKey at octet 9`. The path,
 * path[0 .. path_count), is copied unchanged, and *refusal is as a call set it. The buffer and *length are used as by
 * plistconv_canonical.
 * Returns 0; 60; or PLISTCONV_UNTOLD if number, unit and place of the refusal do not belong together, for example if
 * its number is 0. Unless it returns 0, *length is 0 and the buffer is unchanged. */
uint8_t plistconv_line(const uint8_t *path, size_t path_count, const plistconv_refusal *refusal,
                       uint8_t *into, size_t room, size_t *length);

/* Calls by the names above go through these functions, which are compiled into the caller. They pass a pointer to a
 * byte of their own if a count is 0, pass zeros for no key, and initialise what a call writes. */
static inline const uint8_t *plistconv_read_(const uint8_t *octets, size_t count, const uint8_t *none) {
    return count == 0 ? none : octets;
}

static inline const uint8_t *plistconv_key_(const uint8_t *key) {
    static const uint8_t none[PLISTCONV_HASH_KEY_OCTETS] = {0};
    return key ? key : none;
}

static inline uint8_t plistconv_canonical_(const uint8_t *octets, size_t count, const uint8_t *key,
                                           uint8_t *into, size_t room, size_t *length,
                                           plistconv_refusal *refusal) {
    const plistconv_refusal unset = {0, 0, 0, 0};
    uint8_t none[2] = {0, 0};
    *length = 0;
    *refusal = unset;
    return plistconv_canonical(plistconv_read_(octets, count, none), count, plistconv_key_(key),
                               room == 0 ? none + 1 : into, room, length, refusal);
}
#define plistconv_canonical plistconv_canonical_

static inline uint8_t plistconv_print_(const uint8_t *octets, size_t count, uint8_t *into, size_t room,
                                       size_t *length, plistconv_refusal *refusal) {
    const plistconv_refusal unset = {0, 0, 0, 0};
    uint8_t none[2] = {0, 0};
    *length = 0;
    *refusal = unset;
    return plistconv_print(plistconv_read_(octets, count, none), count, room == 0 ? none + 1 : into, room,
                           length, refusal);
}
#define plistconv_print plistconv_print_

static inline uint8_t plistconv_text_(const uint8_t *octets, size_t count, uint8_t *into, size_t room,
                                      size_t *length, plistconv_refusal *refusal) {
    const plistconv_refusal unset = {0, 0, 0, 0};
    uint8_t none[2] = {0, 0};
    *length = 0;
    *refusal = unset;
    return plistconv_text(plistconv_read_(octets, count, none), count, room == 0 ? none + 1 : into, room,
                          length, refusal);
}
#define plistconv_text plistconv_text_

static inline uint8_t plistconv_same_(const uint8_t *first, size_t first_count, const uint8_t *second,
                                      size_t second_count, const uint8_t *key, uint8_t *equal,
                                      plistconv_refusal *refusal) {
    const plistconv_refusal unset = {0, 0, 0, 0};
    const uint8_t none = 0;
    *equal = 0;
    *refusal = unset;
    return plistconv_same(plistconv_read_(first, first_count, &none), first_count,
                          plistconv_read_(second, second_count, &none), second_count, plistconv_key_(key),
                          equal, refusal);
}
#define plistconv_same plistconv_same_

static inline uint8_t plistconv_lint_(const uint8_t *octets, size_t count, plistconv_refusal *refusal) {
    const plistconv_refusal unset = {0, 0, 0, 0};
    const uint8_t none = 0;
    *refusal = unset;
    return plistconv_lint(plistconv_read_(octets, count, &none), count, refusal);
}
#define plistconv_lint plistconv_lint_

static inline uint8_t plistconv_check_(const uint8_t *octets, size_t count, const uint8_t *key,
                                       plistconv_finding *finding, plistconv_refusal *refusal) {
    const plistconv_refusal unset = {0, 0, 0, 0};
    const plistconv_finding unfound = {0, 0, 0};
    const uint8_t none = 0;
    *finding = unfound;
    *refusal = unset;
    return plistconv_check(plistconv_read_(octets, count, &none), count, plistconv_key_(key), finding, refusal);
}
#define plistconv_check plistconv_check_

static inline uint8_t plistconv_line_(const uint8_t *path, size_t path_count, const plistconv_refusal *refusal,
                                      uint8_t *into, size_t room, size_t *length) {
    uint8_t none[2] = {0, 0};
    *length = 0;
    return plistconv_line(plistconv_read_(path, path_count, none), path_count, refusal,
                          room == 0 ? none + 1 : into, room, length);
}
#define plistconv_line plistconv_line_

/* Returns the name of a refusal (`DuplicateKey` for 14), or NULL if no refusal has the number. */
static inline const char *plistconv_refusal_name(unsigned number) {
    static const char *const names[] = {
        NULL, "TooShort", "BadHeader", "BadTrailer", "BadOffset", "BadReference", "CutObject", "BadMarker",
        "NullObject", "UidObject", "SetObject", "NotAscii", "WideInteger", "KeyNotText", "DuplicateKey",
        "Cycle", "TooDeep", "TooManyNodes", "TooMuchPayload", NULL, "BadUtf8", "XmlForm", NULL,
        "UnexpectedCharacter", "UnclosedString", "UnclosedComment", "BadEscape", "OctalRange", "OddData",
        "BadData", "Expected", "Junk", "BadUtf16", NULL, NULL, NULL, NULL, NULL, NULL, NULL,
        "NotInOpenStep", NULL, NULL, NULL, NULL, NULL, NULL, NULL, NULL, NULL, "ReadFailed", "WriteFailed",
        "InputTooLarge", NULL, NULL, NULL, NULL, NULL, NULL, NULL, "OutOfMemory"
    };
    return number < sizeof names / sizeof names[0] ? names[number] : NULL;
}

/* Frees what an _alloc call returned; null is allowed. */
static inline void plistconv_free(uint8_t *out) { free(out); }

typedef uint8_t (*plistconv_writer_)(const uint8_t *octets, size_t count, const uint8_t *key, uint8_t *into,
                                     size_t room, size_t *length, plistconv_refusal *refusal);

/* Calls `write` with a buffer of `factor` bytes for each byte of input, and again if that is too small. */
static inline uint8_t plistconv_alloc_(plistconv_writer_ write, size_t factor, const uint8_t *octets, size_t count,
                                       const uint8_t *key, uint8_t **out, size_t *length,
                                       plistconv_refusal *refusal) {
    const plistconv_refusal no_memory = {0, PLISTCONV_OUT_OF_MEMORY, PLISTCONV_SENT, 1};
    size_t room = count < ((size_t)-1 >> 1) / factor ? factor * count + 256 : 256;
    uint8_t *into = (uint8_t *)calloc(room, 1), *shorter, number;
    *out = NULL;
    if (!into) room = 0; /* the guess may be larger than necessary: ask for the size */
    number = write(octets, count, key, into, room, length, refusal);
    if (number == 0 && *length > room) {
        free(into);
        room = *length;
        into = (uint8_t *)calloc(room, 1);
        if (into) {
            number = write(octets, count, key, into, room, length, refusal);
        } else {
            *refusal = no_memory;
            number = PLISTCONV_OUT_OF_MEMORY;
        }
    }
    if (number != 0) {
        free(into);
        *length = 0;
        return number;
    }
    shorter = (uint8_t *)realloc(into, *length);
    *out = shorter ? shorter : into;
    return 0;
}

/* The calls with _alloc allocate the buffer themselves. They return 0 with the output in (*out)[0 .. *length), which
 * the caller frees with plistconv_free. They convert once if their first guess at the size is enough, otherwise twice.
 * Any other number is that of the refusal, 60 also if there is no memory for the buffer; *out is null and *length 0. */
static inline uint8_t plistconv_canonical_alloc(const uint8_t *octets, size_t count, const uint8_t *key,
                                                uint8_t **out, size_t *length, plistconv_refusal *refusal) {
    return plistconv_alloc_(plistconv_canonical, 2, octets, count, key, out, length, refusal);
}

static inline uint8_t plistconv_write_text_(const uint8_t *octets, size_t count, const uint8_t *key, uint8_t *into,
                                            size_t room, size_t *length, plistconv_refusal *refusal) {
    (void)key;
    return plistconv_text(octets, count, into, room, length, refusal);
}

static inline uint8_t plistconv_text_alloc(const uint8_t *octets, size_t count, uint8_t **out, size_t *length,
                                           plistconv_refusal *refusal) {
    return plistconv_alloc_(plistconv_write_text_, 2, octets, count, NULL, out, length, refusal);
}

static inline uint8_t plistconv_write_print_(const uint8_t *octets, size_t count, const uint8_t *key, uint8_t *into,
                                             size_t room, size_t *length, plistconv_refusal *refusal) {
    (void)key;
    return plistconv_print(octets, count, into, room, length, refusal);
}

static inline uint8_t plistconv_print_alloc(const uint8_t *octets, size_t count, uint8_t **out, size_t *length,
                                            plistconv_refusal *refusal) {
    return plistconv_alloc_(plistconv_write_print_, 4, octets, count, NULL, out, length, refusal);
}

#ifdef __cplusplus
}
#endif

#endif
