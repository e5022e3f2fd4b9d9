// Counts the allocations of a program into which it is preloaded, and refuses some of them. COUNTS
// names the file of the count, one number of 8 bytes. REFUSE_FIRST to REFUSE_LAST are refused,
// counted from 1; none if they are not set.
#include <errno.h>
#include <fcntl.h>
#include <stdlib.h>
#include <sys/mman.h>
#include <unistd.h>

void *__libc_malloc(size_t size);
void *__libc_calloc(size_t number, size_t size);
void *__libc_realloc(void *old, size_t size);
void *__libc_memalign(size_t alignment, size_t size);

static unsigned long number_in(const char *name) {
    const char *text = getenv(name);
    return text == NULL ? 0 : strtoul(text, NULL, 10);
}

static int is_refused(void) {
    static unsigned long *calls, first, last;
    if (calls == NULL) {
        const char *path = getenv("COUNTS");
        int file = open(path == NULL ? "" : path, O_RDWR);
        void *found = mmap(NULL, sizeof *calls, PROT_READ | PROT_WRITE, MAP_SHARED, file, 0);
        if (file < 0 || found == MAP_FAILED) {
            _exit(99);
        }
        close(file);
        calls = found;
        first = number_in("REFUSE_FIRST");
        last = number_in("REFUSE_LAST");
    }
    *calls += 1;
    return first <= *calls && *calls <= last;
}

static void *refused(void) {
    errno = ENOMEM;
    return NULL;
}

void *malloc(size_t size) {
    return is_refused() ? refused() : __libc_malloc(size);
}

void *calloc(size_t number, size_t size) {
    return is_refused() ? refused() : __libc_calloc(number, size);
}

void *realloc(void *old, size_t size) {
    return is_refused() ? refused() : __libc_realloc(old, size);
}

void *memalign(size_t alignment, size_t size) {
    return is_refused() ? refused() : __libc_memalign(alignment, size);
}

void *aligned_alloc(size_t alignment, size_t size) {
    return memalign(alignment, size);
}

int posix_memalign(void **made, size_t alignment, size_t size) {
    void *found = memalign(alignment, size);
    if (found == NULL) {
        return ENOMEM;
    }
    *made = found;
    return 0;
}
