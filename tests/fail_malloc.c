/* Refuses the request for memory whose number is in REFUSE, counted from 1, and where AFTER is set each
   one after it, too. All others are met. Where COUNT names a file, how many requests there were is
   written to it at the end; where REFUSED names one, it is made at a refusal. Loaded by LD_PRELOAD in
   tests/refused-memory and tests/listen. */
#define _GNU_SOURCE
#include <dlfcn.h>
#include <errno.h>
#include <fcntl.h>
#include <stdio.h>
#include <stdlib.h>
#include <unistd.h>

static unsigned long requests;

static int is_refused(void)
{
    const char *refuse = getenv("REFUSE");
    unsigned long present = __atomic_add_fetch(&requests, 1, __ATOMIC_SEQ_CST);
    if (refuse == NULL)
        return 0;
    unsigned long number = strtoul(refuse, NULL, 10);
    int refused = present == number || (getenv("AFTER") != NULL && number != 0 && present > number);
    const char *path = getenv("REFUSED");
    if (refused && path != NULL)
        close(open(path, O_CREAT | O_WRONLY, 0600));
    return refused;
}

void *malloc(size_t size)
{
    static void *(*next)(size_t);
    if (next == NULL)
        next = dlsym(RTLD_NEXT, "malloc");
    if (is_refused()) {
        errno = ENOMEM;
        return NULL;
    }
    return next(size);
}

void *realloc(void *old, size_t size)
{
    static void *(*next)(void *, size_t);
    if (next == NULL)
        next = dlsym(RTLD_NEXT, "realloc");
    if (is_refused()) {
        errno = ENOMEM;
        return NULL;
    }
    return next(old, size);
}

__attribute__((destructor)) static void tell(void)
{
    const char *path = getenv("COUNT");
    unsigned long count = requests;
    FILE *file = path == NULL ? NULL : fopen(path, "w");
    if (file != NULL) {
        fprintf(file, "%lu\n", count);
        fclose(file);
    }
}

/* A program with threads ends by this, which runs no destructor. */
void _exit(int status)
{
    void (*next)(int) = (void (*)(int))dlsym(RTLD_NEXT, "_exit");
    tell();
    next(status);
    __builtin_unreachable();
}
