// Refuses the program that it is preloaded into each request for memory from the signal SIGUSR1 on, until SIGUSR2. A program that looks
// for misused memory has an allocator of its own, which can't be stood in for. With TAKES_MEMORY that one is told of a limit, beyond which
// it refuses by itself, and so much is taken here between the signals that it comes to it.
#include <errno.h>
#include <signal.h>
#include <stdatomic.h>
#include <stdlib.h>
#include <sys/mman.h>

extern void *__libc_malloc(size_t), *__libc_calloc(size_t, size_t), *__libc_realloc(void *, size_t);

enum { TAKEN = 1 << 29 };

static atomic_bool refuses;
static void *taken = MAP_FAILED;

static void refuse(int number) {
    (void)number;
    refuses = 1;
    if (getenv("TAKES_MEMORY") != NULL)
        taken = mmap(NULL, TAKEN, PROT_READ | PROT_WRITE, MAP_PRIVATE | MAP_ANONYMOUS | MAP_POPULATE, -1, 0);
}

static void grant(int number) {
    (void)number;
    refuses = 0;
    if (taken != MAP_FAILED) munmap(taken, TAKEN);
    taken = MAP_FAILED;
}

__attribute__((constructor)) static void begin(void) {
    struct sigaction refusing = {.sa_handler = refuse, .sa_flags = SA_RESTART};
    struct sigaction granting = {.sa_handler = grant, .sa_flags = SA_RESTART};
    sigaction(SIGUSR1, &refusing, NULL);
    sigaction(SIGUSR2, &granting, NULL);
}

static void *refused(void) {
    errno = ENOMEM;
    return NULL;
}

void *malloc(size_t size) { return refuses ? refused() : __libc_malloc(size); }
void *calloc(size_t count, size_t size) { return refuses ? refused() : __libc_calloc(count, size); }
void *realloc(void *old, size_t size) { return refuses ? refused() : __libc_realloc(old, size); }
