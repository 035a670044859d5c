/* handler CIRCUIT CERTIFICATE: checks the certificate, then plays it from reset. Each word on standard input is a reading; for each, a line
   with the reading, the reply, the error and the next state is printed at once. A refusal prints `refused`, number and place.

   Exit status: 0 all readings replied to, 1 refused, 2 wrong use, a word that is no reading, or trouble, 3 the error came, 20 unrealizable.
   The few functions of the C library that it calls are declared here, so that it can be compiled where there are no headers of it. */
#include "krastopi.h"

int open(const char *name, int flags, ...);
long read(int fd, void *to, unsigned long bytes);
int printf(const char *format, ...);
int dprintf(int fd, const char *format, ...);
int getchar(void);
int fflush(void *stream);

static unsigned char file[KRASTOPI_FILE + 1], certificate[KRASTOPI_CERTIFICATE + 1];

/* Fills the space with a file as far as it goes; the count, or -1, which is told. */
static long load(const char *name, unsigned char *space, long room) {
    int fd = open(name, 0);
    long bytes = 0, more = 1;
    while (fd >= 0 && bytes < room && (more = read(fd, space + bytes, (unsigned long)(room - bytes))) > 0)
        bytes += more;
    if (fd >= 0 && more >= 0)
        return bytes;
    dprintf(2, "handler: %s can't be read\n", name);
    return -1;
}

static int blank(int c) { return c == ' ' || c == '\t' || c == '\n' || c == '\r'; }

enum { END = -1, NO_READING = -2 };

/* The next word of standard input, if it is a number below `readings`. */
static int next_reading(int readings) {
    int n = 0, c = getchar();
    while (blank(c))
        c = getchar();
    if (c < 0)
        return END;
    for (; c >= 0 && !blank(c); c = getchar()) {
        if (c < '0' || c > '9' || n >= readings)
            return NO_READING;
        n = 10 * n + c - '0';
    }
    return n < readings ? n : NO_READING;
}

int main(int count, char **words) {
    if (count != 3) {
        dprintf(2, "usage: handler CIRCUIT CERTIFICATE\n");
        return 2;
    }
    long file_bytes = load(words[1], file, sizeof file), bytes = load(words[2], certificate, sizeof certificate);
    if (file_bytes < 0 || bytes < 0)
        return 2;
    struct krastopi_check_answer passed =
        krastopi_check(file, (krastopi_count)file_bytes, certificate, (krastopi_count)bytes);
    if (passed.number != KRASTOPI_NOT_REFUSED) {
        printf("refused %d %lu\n", passed.number, passed.place);
        dprintf(2, "handler: %s\n", krastopi_text(passed.number));
        return 1;
    }
    if (passed.kind == KRASTOPI_ATTACKS) {
        printf("unrealizable: the certificate has attacks, and no replies\n");
        return 20;
    }
    int readings = 1 << passed.readings, reading, word = 1;
    unsigned short state = 0;
    for (; (reading = next_reading(readings)) >= 0; word++) {
        unsigned char reply = krastopi_reply(certificate, (krastopi_count)bytes, passed, state, (krastopi_count)reading);
        struct krastopi_step_answer step =
            krastopi_step(file, (krastopi_count)file_bytes, state, (unsigned char)reading, reply);
        printf("%d %d %d %d\n", reading, reply, step.error, step.next);
        if (fflush(0) != 0) {
            dprintf(2, "handler: the reply can't be written\n");
            return 2;
        }
        if (step.error) {
            dprintf(2, "handler: the error came\n");
            return 3;
        }
        state = step.next;
    }
    if (reading == NO_READING) {
        dprintf(2, "handler: word %d is no reading: those are 0 to %d\n", word, readings - 1);
        return 2;
    }
    return 0;
}
