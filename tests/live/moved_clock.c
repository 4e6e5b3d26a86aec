/* Moves the machine's time, as a program that it is preloaded into sees it, by as many seconds as a file says; or has it give none,
   where the file says so (none), or has the clock that never goes back give none either (all). */
#define _GNU_SOURCE
#include <dlfcn.h>
#include <errno.h>
#include <fcntl.h>
#include <stdlib.h>
#include <time.h>
#include <unistd.h>

int clock_gettime(clockid_t clock, struct timespec *moment) {
    int (*real)(clockid_t, struct timespec *) = (int (*)(clockid_t, struct timespec *))dlsym(RTLD_NEXT, "clock_gettime");
    int status = real(clock, moment);
    const char *path = getenv("MOVED_BY");
    if (status == 0 && (clock == CLOCK_REALTIME || clock == CLOCK_MONOTONIC) && path != NULL) {
        char text[32] = "";
        int file = open(path, O_RDONLY);
        if (file >= 0) {
            if (read(file, text, sizeof text - 1) > 0) {
                moment->tv_sec += clock == CLOCK_REALTIME ? atol(text) : 0;
            }
            close(file);
            if (text[0] == 'a' || (text[0] == 'n' && clock == CLOCK_REALTIME)) {
                errno = EIO;
                status = -1;
            }
        }
    }
    return status;
}
