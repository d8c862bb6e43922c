/* Loaded before the C library: the REFUSED-th call of malloc or realloc finds no memory, and leaves the file MARK. With EVERY
 * each EVERY-th call behind it finds none either. The file CALLS is made, empty, when this library is loaded, and has the number of calls when the process has ended. */
#define _GNU_SOURCE
#include <dlfcn.h>
#include <errno.h>
#include <fcntl.h>
#include <stdio.h>
#include <stdlib.h>
#include <unistd.h>

static void *(*usual_malloc)(size_t);
static void *(*usual_realloc)(void *, size_t);
static long calls, refused, every;

static void find_usual(void) {
    const char *number = getenv("REFUSED");
    refused = number ? atol(number) : 0;
    const char *period = getenv("EVERY");
    every = period ? atol(period) : 0;
    *(void **)&usual_realloc = dlsym(RTLD_NEXT, "realloc");
    *(void **)&usual_malloc = dlsym(RTLD_NEXT, "malloc");
}

static int is_refused(void) {
    if (!usual_malloc) find_usual();
    calls++;
    if (calls != refused && (every <= 0 || calls < refused || (calls - refused) % every != 0)) return 0;
    const char *mark = getenv("MARK");
    if (mark) close(open(mark, O_CREAT | O_WRONLY, 0600));
    errno = ENOMEM;
    return 1;
}

void *malloc(size_t size) { return is_refused() ? 0 : usual_malloc(size); }
void *realloc(void *old, size_t size) { return is_refused() ? 0 : usual_realloc(old, size); }

/* Writes a text to the file CALLS, in place of what it had. */
static void tell(const char *text, size_t len) {
    const char *name = getenv("CALLS");
    int file = name ? open(name, O_CREAT | O_TRUNC | O_WRONLY, 0600) : -1;
    if (file >= 0 && write(file, text, len) == (ssize_t)len) close(file);
}

__attribute__((constructor)) static void loaded(void) { tell("", 0); }

__attribute__((destructor)) static void ended(void) {
    char text[32];
    tell(text, (size_t)snprintf(text, sizeof text, "%ld\n", calls));
}
