/* The library for C and C++: each function is that of the crate `capi`, with the promise written there (docs/PROMISES.md; the words are those
   of docs/FORMAT.md). It links into x86-64 programs: `.ci/archive` makes target/staticlib/libcapi.a.

   Lent bytes are a pointer, which isn't NULL, and a count. A buffer that is written to overlaps no other. Nothing is kept after a call, and
   nothing is allocated; 4 MiB of stack are enough for krastopi_certify and krastopi_certify_packed, 1 MiB for every other function. In an
   answer number 0 says that nothing was refused; after a refusal all but number and place is 0, and no byte is written. L, U and C count
   latches, uncontrollable and controllable inputs. */
#ifndef KRASTOPI_H
#define KRASTOPI_H

#define KRASTOPI_VERSION 4 /* of this header and library: a greater one when a struct, a function or a number changes */

#define KRASTOPI_FILE 16384        /* bytes of the longest file that is taken */
#define KRASTOPI_PRINT 15157       /* bytes of the longest print */
#define KRASTOPI_CERTIFICATE 49298 /* bytes of the longest certificate that is written */
#define KRASTOPI_REPLIES 3         /* the kinds of a certificate's table */
#define KRASTOPI_ATTACKS 4
#define KRASTOPI_PACKED 5 /* replies of C bits each */

#ifdef __cplusplus
extern "C" {
typedef bool krastopi_bool;
#else
typedef _Bool krastopi_bool;
#endif

typedef unsigned long krastopi_count;

/* The numbers of the refusals. */
enum krastopi_number {
    KRASTOPI_NOT_REFUSED = 0,
    KRASTOPI_TOO_LONG = 1,
    KRASTOPI_NO_HEADER = 2,
    KRASTOPI_BEYOND_LIMITS = 3,
    KRASTOPI_MALFORMED_LINE = 4,
    KRASTOPI_BAD_LITERAL = 5,
    KRASTOPI_DEFINED_TWICE = 6,
    KRASTOPI_NOT_DEFINED = 7,
    KRASTOPI_BAD_SYMBOL = 8,
    KRASTOPI_TOO_MANY_INPUTS = 9,
    KRASTOPI_NO_ROOM = 10,
    KRASTOPI_NO_CERTIFICATE = 11,
    KRASTOPI_OTHER_CIRCUIT = 12,
    KRASTOPI_WRONG_LENGTH = 13,
    KRASTOPI_RESET_OUTSIDE = 14,
    KRASTOPI_BROKEN_RULE = 15,
    KRASTOPI_GATE_CIRCLE = 16
};

/* What a number says. */
static inline const char *krastopi_text(unsigned char number) {
    static const char *const texts[] = {
        "Nothing is refused.",
        "The file is too long: it has more than 16384 bytes.",
        "The first line isn't 'aag' and five numbers, single spaces between them.",
        "The header breaks a limit (M 1000, L 10, I 13, exactly 1 output), or M is less than I + L + A.",
        "A line before the symbols is malformed or missing.",
        "A literal is too large, or a defining one is odd or 0.",
        "A variable is defined twice.",
        "A used variable isn't defined.",
        "A symbol line is bad, its position is, or its symbol is repeated.",
        "There are more than 5 uncontrollable or 8 controllable inputs.",
        "The lent buffer is shorter than what must be written.",
        "A record is cut short, the kinds or their order are wrong, or bytes are left over.",
        "The circuit record differs from the circuit file.",
        "The region, the replies or the attack table has the wrong length, or an unused bit is 1.",
        "State 0 isn't in the region, or has rank 0.",
        "A step rule is broken; the place is state x 2^U + reading, or the state in an attack table.",
        "A gate reaches itself through gates.",
    };
    return number < sizeof texts / sizeof texts[0] ? texts[number] : "There is no such number.";
}

struct krastopi_read_answer {
    unsigned char number;
    krastopi_count place, latches, readings, controls; /* L, U and C */
};

struct krastopi_step_answer {
    unsigned char number;
    krastopi_count place;
    krastopi_bool error;
    unsigned short next;
};

struct krastopi_certify_answer {
    unsigned char number;
    krastopi_count place;
    krastopi_bool realizable;
    krastopi_count bytes;
};

struct krastopi_check_answer {
    unsigned char number;
    krastopi_count place;
    unsigned short kind; /* KRASTOPI_REPLIES, KRASTOPI_PACKED or KRASTOPI_ATTACKS */
    krastopi_count region, table, latches, readings, controls; /* the starts of region and table, L, U and C; attacks: region and C are 0 */
};

struct krastopi_print_answer {
    unsigned char number;
    krastopi_count place, bytes;
};

struct krastopi_part {
    krastopi_count start, bytes;
};

/* Reads a file: its refusal, or L, U and C. */
struct krastopi_read_answer krastopi_read(const unsigned char *file, krastopi_count file_bytes);

/* A step of the file's circuit: error and next state. Bits above L, U and C aren't read. */
struct krastopi_step_answer krastopi_step(const unsigned char *file, krastopi_count file_bytes, unsigned short state,
                                          unsigned char reading, unsigned char control);

/* Writes the file's certificate at the front of a buffer: the verdict and the count of bytes. */
struct krastopi_certify_answer krastopi_certify(const unsigned char *file, krastopi_count file_bytes, unsigned char *out,
                                                krastopi_count out_bytes);

/* The same, its replies packed: C bits each in place of a byte. */
struct krastopi_certify_answer krastopi_certify_packed(const unsigned char *file, krastopi_count file_bytes, unsigned char *out,
                                                       krastopi_count out_bytes);

/* Whether a certificate passes for the file: the kind of its table, its starts, L, U and C. */
struct krastopi_check_answer krastopi_check(const unsigned char *file, krastopi_count file_bytes, const unsigned char *certificate,
                                            krastopi_count certificate_bytes);

/* Prints the file's circuit at the front of a buffer: the count of bytes. */
struct krastopi_print_answer krastopi_print(const unsigned char *file, krastopi_count file_bytes, unsigned char *out,
                                            krastopi_count out_bytes);

/* The circuit record as a part of the certificate; nothing where the first record is cut short or of another kind. */
struct krastopi_part krastopi_circuit_record(const unsigned char *certificate, krastopi_count certificate_bytes);

/* Whether the stored region holds a state. This and the next three take the check's answer for the same certificate, as it is. */
krastopi_bool krastopi_region_bit(const unsigned char *certificate, krastopi_count certificate_bytes,
                                  struct krastopi_check_answer passed, krastopi_count state);

/* The reply to a reading at a state: the stored one inside the stored region, 0 outside. */
unsigned char krastopi_reply(const unsigned char *certificate, krastopi_count certificate_bytes, struct krastopi_check_answer passed,
                             krastopi_count state, krastopi_count reading);

/* The stored rank of a state. */
unsigned short krastopi_rank(const unsigned char *certificate, krastopi_count certificate_bytes, struct krastopi_check_answer passed,
                             krastopi_count state);

/* The stored attack of a state. */
unsigned char krastopi_attack(const unsigned char *certificate, krastopi_count certificate_bytes, struct krastopi_check_answer passed,
                              krastopi_count state);

#ifdef __cplusplus
}
#endif

#endif
