// Refuses one request for memory of the program that it is preloaded into: the one whose number REFUSED_TURN says, counted
// from 1 over the calls of malloc, calloc and realloc. It then writes a byte to the open file REFUSED_FILE. Where REFUSED_MARKED
// is there, only those requests count that the program makes behind a look at its variable MEMORY_MAY_BE_REFUSED and before
// one at MEMORY_IS_AMPLE; else all of them.
#include <errno.h>
#include <stdatomic.h>
#include <stdlib.h>
#include <string.h>
#include <unistd.h>

extern char **environ;
extern void *__libc_malloc(size_t), *__libc_calloc(size_t, size_t), *__libc_realloc(void *, size_t);

static unsigned long turn;
static int file;
static atomic_bool counts;
static atomic_ulong asked;

char *getenv(const char *name) {
    if (strcmp(name, "MEMORY_MAY_BE_REFUSED") == 0) counts = 1;
    if (strcmp(name, "MEMORY_IS_AMPLE") == 0) counts = 0;
    for (char **it = environ; it != NULL && *it != NULL; it++) {
        size_t length = strlen(name);
        if (strncmp(*it, name, length) == 0 && (*it)[length] == '=') return *it + length + 1;
    }
    return NULL;
}

__attribute__((constructor)) static void begin(void) {
    turn = strtoul(getenv("REFUSED_TURN"), NULL, 10);
    file = atoi(getenv("REFUSED_FILE"));
    counts = getenv("REFUSED_MARKED") == NULL;
}

static int is_refused(void) {
    if (!counts || atomic_fetch_add(&asked, 1) + 1 != turn) return 0;
    if (write(file, "!", 1) != 1) abort();
    errno = ENOMEM;
    return 1;
}

void *malloc(size_t size) { return is_refused() ? NULL : __libc_malloc(size); }
void *calloc(size_t count, size_t size) { return is_refused() ? NULL : __libc_calloc(count, size); }
void *realloc(void *old, size_t size) { return is_refused() ? NULL : __libc_realloc(old, size); }
