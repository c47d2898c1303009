/* Refuses requests for memory and for threads where a test says so, and counts the threads that are asked for. tests/run-unproved
   puts it beside the tests that say `mod refusing;` (tests/refusing.source), whose programs are built with
   AddressSanitizer: that leaves the names with two underscores to whoever wants to stand before its own functions,
   which have three. Requests that the C library and AddressSanitizer make for themselves are neither refused nor
   counted: the program's own come from two functions, by which all Rattle code asks for memory. */
#include <errno.h>
#include <pthread.h>
#include <stddef.h>
#include <stdint.h>

void *___interceptor_malloc(size_t size);
void *___interceptor_realloc(void *old, size_t size);
extern const char rattle_alloc[], rattle_realloc[];
int ___interceptor_pthread_create(pthread_t *thread, const pthread_attr_t *how, void *(*start)(void *), void *word);

/* The requests from number `first` to number `last` are refused, counted from 1 since they were named, and those of
   more than `largest` bytes. */
static uint64_t first, last, largest = UINT64_MAX, requests, refused, threads, most_threads = UINT64_MAX;

static uint64_t load(const uint64_t *number)
{
    return __atomic_load_n(number, __ATOMIC_SEQ_CST);
}

static void store(uint64_t *number, uint64_t value)
{
    __atomic_store_n(number, value, __ATOMIC_SEQ_CST);
}

/* Whether a call that returns to this place is made by the function, which is shorter than 64 bytes. */
static int is_within(const char *function, const char *place)
{
    return place > function && place - function < 64;
}

static int is_refused(const char *place, size_t size)
{
    if (!is_within(rattle_alloc, place) && !is_within(rattle_realloc, place))
        return 0;
    uint64_t present = __atomic_add_fetch(&requests, 1, __ATOMIC_SEQ_CST);
    if ((present < load(&first) || present > load(&last)) && size <= load(&largest))
        return 0;
    __atomic_add_fetch(&refused, 1, __ATOMIC_SEQ_CST);
    errno = ENOMEM;
    return 1;
}

void *__interceptor_malloc(size_t size)
{
    return is_refused(__builtin_return_address(0), size) ? NULL : ___interceptor_malloc(size);
}

void *__interceptor_realloc(void *old, size_t size)
{
    return is_refused(__builtin_return_address(0), size) ? NULL : ___interceptor_realloc(old, size);
}

int __interceptor_pthread_create(pthread_t *thread, const pthread_attr_t *how, void *(*start)(void *), void *word)
{
    if (__atomic_add_fetch(&threads, 1, __ATOMIC_SEQ_CST) > load(&most_threads))
        return EAGAIN;
    return ___interceptor_pthread_create(thread, how, start, word);
}

void refuse_requests(uint64_t from, uint64_t to)
{
    store(&last, 0);
    store(&largest, UINT64_MAX);
    store(&most_threads, UINT64_MAX);
    store(&requests, 0);
    store(&refused, 0);
    store(&threads, 0);
    store(&first, from);
    store(&last, to);
}

void refuse_larger_requests(uint64_t bytes)
{
    refuse_requests(0, 0);
    store(&largest, bytes);
}

/* No more than `most` threads are started from now on. */
void refuse_more_threads(uint64_t most)
{
    refuse_requests(0, 0);
    store(&most_threads, most);
}

uint64_t requests_refused(void)
{
    return load(&refused);
}

uint64_t threads_started(void)
{
    return load(&threads);
}
