// Stands in for the C code of the kit's library os, which is there for x86-64 alone; the contracts are those of the kit's
// libs/os/src/c.rt. For measuring only: nothing of it is shipped.
#include <errno.h>
#include <fcntl.h>
#include <string.h>

static size_t count;
static char **words;

__attribute__((constructor)) static void keep(int argc, char **argv) { count = argc, words = argv; }

int rattle_open_to_read(const char *path) { return open(path, O_RDONLY | O_CLOEXEC); }

int rattle_open_new(const char *path, mode_t mode) { return open(path, O_WRONLY | O_CREAT | O_EXCL | O_CLOEXEC, mode); }

int rattle_errno(void) { return errno; }

void rattle_set_errno(int error) { errno = error; }

size_t rattle_arg_count(void) { return count; }

long rattle_arg(size_t i, char *to, size_t room) {
    if (i >= count) return -1;
    size_t length = strlen(words[i]);
    memcpy(to, words[i], length < room ? length : room);
    return length <= room ? (long)length : -2;
}
