/* Calls the library for the tests. A case on standard input is a function, whether the lent bytes are fenced, the counts of file,
   certificate and buffer, eight numbers, then the bytes of file and certificate. The answer on standard output is eight numbers, a byte that
   is 1 if every guard stands and the bytes that were only lent to be read are as they were, and the whole buffer. Counts have four bytes
   and numbers eight, little-endian.

   Guard bytes stand on both sides of what is lent. Where it is fenced, the side behind is a page that can't be read or written instead: a
   byte that is only looked at behind the end stops the driver. */
#include "krastopi.h"

typedef unsigned char byte;

long read(int fd, void *to, unsigned long bytes);
long write(int fd, const void *from, unsigned long bytes);
int memcmp(const void *a, const void *b, unsigned long bytes);
void *memcpy(void *to, const void *from, unsigned long bytes);
void *mmap(void *at, unsigned long bytes, int protection, int flags, int fd, long offset);
int mprotect(void *at, unsigned long bytes, int protection);
void exit(int status);

enum { READ, STEP, CERTIFY, CERTIFY_PACKED, CHECK, PRINT, CIRCUIT_RECORD, REGION_BIT, REPLY, RANK, ATTACK };
enum { GUARD = 64, PAGE = 4096, ROOM = 40 * PAGE, NUMBERS = 8, ANSWERS = 8 };

/* Memory that is followed by a fence, a copy of what was lent, and what is lent now. */
struct space {
    byte *start, *lent;
    krastopi_count bytes;
    int fenced;
    byte copy[ROOM];
};

static struct space file, certificate, out;

/* Buffered standard input and output. */
static byte taken[1 << 16], given[1 << 16];
static long taken_at, taken_end, given_end;

static void flush(void) {
    for (long at = 0, more; at < given_end; at += more)
        if ((more = write(1, given + at, (unsigned long)(given_end - at))) <= 0)
            exit(3);
    given_end = 0;
}

static int next_byte(void) {
    if (taken_at == taken_end) {
        flush();
        taken_at = 0;
        taken_end = read(0, taken, sizeof taken);
    }
    return taken_end <= 0 ? -1 : taken[taken_at++];
}

static void put_byte(byte b) {
    if (given_end == sizeof given)
        flush();
    given[given_end++] = b;
}

static unsigned long take_number(int bytes) {
    unsigned long n = 0;
    for (int k = 0; k < bytes; k++)
        n |= (unsigned long)(next_byte() & 255) << 8 * k;
    return n;
}

static void put_number(unsigned long n) {
    for (int k = 0; k < 8; k++)
        put_byte((byte)(n >> 8 * k));
}

static byte guard(krastopi_count at) { return (byte)(0xA5 ^ at); }

static void make(struct space *s) {
    s->start = mmap(0, ROOM + PAGE, 3, 0x22, -1, 0);
    if (s->start == (void *)-1 || mprotect(s->start + ROOM, PAGE, 0) != 0)
        exit(3);
}

/* Lends these many bytes, with guards. */
static void lend(struct space *s, krastopi_count bytes, int fenced) {
    if (bytes > ROOM - 2 * GUARD)
        exit(3);
    s->bytes = bytes;
    s->fenced = fenced;
    s->lent = fenced ? s->start + ROOM - bytes : s->start + GUARD;
    for (int k = 0; k < GUARD; k++) {
        s->lent[k - GUARD] = guard((krastopi_count)k);
        if (!fenced)
            s->lent[bytes + (krastopi_count)k] = guard((krastopi_count)k);
    }
}

static int guarded(const struct space *s) {
    for (int k = 0; k < GUARD; k++) {
        byte wanted = guard((krastopi_count)k);
        if (s->lent[k - GUARD] != wanted || (!s->fenced && s->lent[s->bytes + (krastopi_count)k] != wanted))
            return 0;
    }
    return 1;
}

static void fill(struct space *s) {
    for (krastopi_count k = 0; k < s->bytes; k++)
        s->lent[k] = (byte)next_byte();
    memcpy(s->copy, s->lent, s->bytes);
}

static int unchanged(const struct space *s) { return memcmp(s->copy, s->lent, s->bytes) == 0; }

static void call(int function, const unsigned long *n, unsigned long *a) {
    const byte *f = file.lent, *c = certificate.lent;
    krastopi_count fs = file.bytes, cs = certificate.bytes;
    struct krastopi_check_answer passed = {0, 0, (unsigned short)n[7], n[0], n[1], n[2], n[3], n[6]};
    switch (function) {
    case READ: {
        struct krastopi_read_answer r = krastopi_read(f, fs);
        a[0] = r.number, a[1] = r.place, a[2] = r.latches, a[3] = r.readings, a[4] = r.controls;
        break;
    }
    case STEP: {
        struct krastopi_step_answer r = krastopi_step(f, fs, (unsigned short)n[0], (byte)n[1], (byte)n[2]);
        a[0] = r.number, a[1] = r.place, a[2] = r.error, a[3] = r.next;
        break;
    }
    case CERTIFY: {
        struct krastopi_certify_answer r = krastopi_certify(f, fs, out.lent, out.bytes);
        a[0] = r.number, a[1] = r.place, a[2] = r.realizable, a[3] = r.bytes;
        break;
    }
    case CERTIFY_PACKED: {
        struct krastopi_certify_answer r = krastopi_certify_packed(f, fs, out.lent, out.bytes);
        a[0] = r.number, a[1] = r.place, a[2] = r.realizable, a[3] = r.bytes;
        break;
    }
    case CHECK: {
        struct krastopi_check_answer r = krastopi_check(f, fs, c, cs);
        a[0] = r.number, a[1] = r.place, a[2] = r.kind, a[3] = r.region, a[4] = r.table, a[5] = r.latches, a[6] = r.readings;
        a[7] = r.controls;
        break;
    }
    case PRINT: {
        struct krastopi_print_answer r = krastopi_print(f, fs, out.lent, out.bytes);
        a[0] = r.number, a[1] = r.place, a[2] = r.bytes;
        break;
    }
    case CIRCUIT_RECORD: {
        struct krastopi_part r = krastopi_circuit_record(c, cs);
        a[0] = r.start, a[1] = r.bytes;
        break;
    }
    case REGION_BIT: a[0] = krastopi_region_bit(c, cs, passed, n[4]); break;
    case REPLY: a[0] = krastopi_reply(c, cs, passed, n[4], n[5]); break;
    case RANK: a[0] = krastopi_rank(c, cs, passed, n[4]); break;
    case ATTACK: a[0] = krastopi_attack(c, cs, passed, n[4]); break;
    default: exit(3);
    }
}

int main(void) {
    make(&file), make(&certificate), make(&out);
    for (int function; (function = next_byte()) >= 0;) {
        int fenced = next_byte();
        lend(&file, take_number(4), fenced);
        lend(&certificate, take_number(4), fenced);
        lend(&out, take_number(4), fenced);
        unsigned long numbers[NUMBERS], answers[ANSWERS] = {0};
        for (int k = 0; k < NUMBERS; k++)
            numbers[k] = take_number(8);
        fill(&file), fill(&certificate);
        for (krastopi_count k = 0; k < out.bytes; k++)
            out.lent[k] = (byte)(31 * k + 7);
        call(function, numbers, answers);
        for (int k = 0; k < ANSWERS; k++)
            put_number(answers[k]);
        put_byte((byte)(guarded(&file) && guarded(&certificate) && guarded(&out) && unchanged(&file) && unchanged(&certificate)));
        for (krastopi_count k = 0; k < out.bytes; k++)
            put_byte(out.lent[k]);
    }
    flush();
    return 0;
}
