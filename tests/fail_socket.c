/* Makes a call of the system fail, which a sound system seldom does: recvfrom, sendto, clock_gettime or
   pthread_create, as FAIL_CALL names it. The calls are counted from 1, and where FAIL_PORT is set, those alone whose socket
   has this local port. All from FAIL_FROM to FAIL_TO fail, with the error number in FAIL_ERRNO; all
   others are made. A call of recvfrom that brings nothing in time, before any other has brought something,
   isn't counted where the first one isn't to fail. Where FAILED names a file, it is made at a failure.
   Loaded by LD_PRELOAD in tests/listen. */
#define _GNU_SOURCE
#include <arpa/inet.h>
#include <dlfcn.h>
#include <errno.h>
#include <fcntl.h>
#include <netinet/in.h>
#include <pthread.h>
#include <stdlib.h>
#include <string.h>
#include <sys/socket.h>
#include <time.h>
#include <unistd.h>

static unsigned long calls;

static unsigned long number_in(const char *name)
{
    const char *text = getenv(name);
    return text == NULL ? 0 : strtoul(text, NULL, 10);
}

/* The local port of a socket, 0 where it has none. */
static unsigned long port_of(int file)
{
    struct sockaddr_storage at;
    socklen_t length = sizeof at;
    if (getsockname(file, (struct sockaddr *)&at, &length) != 0)
        return 0;
    if (at.ss_family == AF_INET)
        return ntohs(((struct sockaddr_in *)&at)->sin_port);
    if (at.ss_family == AF_INET6)
        return ntohs(((struct sockaddr_in6 *)&at)->sin6_port);
    return 0;
}

/* Whether calls of this name are counted, of this socket. A call of no socket has the file -1. */
static int is_counted(const char *call, int file)
{
    const char *named = getenv("FAIL_CALL");
    if (named == NULL || strcmp(named, call) != 0)
        return 0;
    return file < 0 || getenv("FAIL_PORT") == NULL || port_of(file) == number_in("FAIL_PORT");
}

/* Whether this call fails, with errno set then. */
static int fails(const char *call, int file)
{
    if (!is_counted(call, file))
        return 0;
    unsigned long present = __atomic_add_fetch(&calls, 1, __ATOMIC_SEQ_CST);
    if (present < number_in("FAIL_FROM") || present > number_in("FAIL_TO"))
        return 0;
    const char *path = getenv("FAILED");
    if (path != NULL && present == number_in("FAIL_FROM"))
        close(open(path, O_CREAT | O_WRONLY, 0600));
    errno = (int)number_in("FAIL_ERRNO");
    return 1;
}

ssize_t recvfrom(int file, void *buffer, size_t size, int flags, struct sockaddr *from, socklen_t *length)
{
    static ssize_t (*next)(int, void *, size_t, int, struct sockaddr *, socklen_t *);
    if (next == NULL)
        next = (ssize_t (*)(int, void *, size_t, int, struct sockaddr *, socklen_t *))dlsym(RTLD_NEXT, "recvfrom");
    if (is_counted("recvfrom", file) && number_in("FAIL_FROM") > 1 && __atomic_load_n(&calls, __ATOMIC_SEQ_CST) == 0) {
        ssize_t count = next(file, buffer, size, flags, from, length);
        if (count >= 0)
            __atomic_store_n(&calls, 1, __ATOMIC_SEQ_CST);
        return count;
    }
    return fails("recvfrom", file) ? -1 : next(file, buffer, size, flags, from, length);
}

/* A call of recv is one of recvfrom that asks for no address. */
ssize_t recv(int file, void *buffer, size_t size, int flags)
{
    return recvfrom(file, buffer, size, flags, NULL, NULL);
}

ssize_t sendto(int file, const void *bytes, size_t size, int flags, const struct sockaddr *to, socklen_t length)
{
    static ssize_t (*next)(int, const void *, size_t, int, const struct sockaddr *, socklen_t);
    if (next == NULL)
        next = (ssize_t (*)(int, const void *, size_t, int, const struct sockaddr *, socklen_t))dlsym(RTLD_NEXT, "sendto");
    return fails("sendto", file) ? -1 : next(file, bytes, size, flags, to, length);
}

int clock_gettime(clockid_t clock, struct timespec *time)
{
    static int (*next)(clockid_t, struct timespec *);
    if (next == NULL)
        next = (int (*)(clockid_t, struct timespec *))dlsym(RTLD_NEXT, "clock_gettime");
    return fails("clock_gettime", -1) ? -1 : next(clock, time);
}

int pthread_create(pthread_t *thread, const pthread_attr_t *attributes, void *(*routine)(void *), void *argument)
{
    static int (*next)(pthread_t *, const pthread_attr_t *, void *(*)(void *), void *);
    if (next == NULL)
        next = (int (*)(pthread_t *, const pthread_attr_t *, void *(*)(void *), void *))dlsym(RTLD_NEXT, "pthread_create");
    return fails("pthread_create", -1) ? errno : next(thread, attributes, routine, argument);
}
