/* Refuses a program memory. Loaded before the C library, it lets the call of malloc or realloc with the number REFUSE find no
   memory, and with REFUSE_ON=1 all calls after it too. Where one was refused, the file descriptor 3 gets a byte. */
#include <errno.h>
#include <stdlib.h>
#include <unistd.h>

extern void *__libc_malloc(size_t size);
extern void *__libc_realloc(void *old, size_t size);

static long met, refused;
static int goes_on;

__attribute__((constructor)) static void start(void) {
    const char *number = getenv("REFUSE"), *on = getenv("REFUSE_ON");
    met = 0;
    refused = number ? atol(number) : 0;
    goes_on = on && *on == '1';
}

static int is_refused(void) {
    if (!refused) return 0;
    met++;
    if (met < refused || (met > refused && !goes_on)) return 0;
    if (met == refused && write(3, "!", 1) != 1) _exit(99);
    errno = ENOMEM;
    return 1;
}

void *malloc(size_t size) {
    return is_refused() ? NULL : __libc_malloc(size);
}

void *realloc(void *old, size_t size) {
    return is_refused() ? NULL : __libc_realloc(old, size);
}
