/*
 * Allocations that can be made to fail, buffers of an exact length, and what is printed of an
 * answer.
 */
#include "test.h"
#ifdef GUARDED
#include "guard.h"
#endif

#include <sys/mman.h>

/* ---- Memory: the library calls these instead of malloc, realloc and free */

long allowed = -1;

long requests;

void *__real_malloc(size_t size);
void *__wrap_malloc(size_t size);
void *__real_realloc(void *old, size_t size);
void *__wrap_realloc(void *old, size_t size);

static bool is_refused(void) {
    requests++;
    if (allowed < 0)
        return false;
    if (allowed == 0)
        return true;
    allowed--;
    return false;
}

/* Requests of more than GREAT bytes only reserve addresses: a page takes memory when it is
 * written. */
static const size_t GREAT = (size_t)1 << 30;

static struct {
    void *at;
    size_t size;
} great[8];

static void *great_room(size_t size) {
    for (size_t i = 0; i < sizeof great / sizeof great[0]; i++) {
        if (great[i].at == NULL) {
            void *at = mmap(NULL, size, PROT_READ | PROT_WRITE, MAP_PRIVATE | MAP_ANONYMOUS | MAP_NORESERVE, -1, 0);
            great[i].size = size;
            return great[i].at = at == MAP_FAILED ? NULL : at;
        }
    }
    return NULL;
}

void __real_free(void *at);
void __wrap_free(void *at);

void *__wrap_malloc(size_t size) { return is_refused() ? NULL : size > GREAT ? great_room(size) : __real_malloc(size); }

void __wrap_free(void *at) {
#ifdef GUARDED
    if (guarded_free(at))
        return;
#endif
    for (size_t i = 0; at != NULL && i < sizeof great / sizeof great[0]; i++) {
        if (great[i].at == at) {
            munmap(at, great[i].size);
            great[i].at = NULL;
            return;
        }
    }
    __real_free(at);
}

void *__wrap_realloc(void *old, size_t size) { return is_refused() ? NULL : __real_realloc(old, size); }

/* The library's memmove: the sanitizer moves bytes one by one, but copies them at once, and checks
 * the same bytes for both. */
void *__real_memmove(void *to, const void *from, size_t count);
void *__wrap_memmove(void *to, const void *from, size_t count);

void *__wrap_memmove(void *to, const void *from, size_t count) {
    bool is_apart = (uintptr_t)to - (uintptr_t)from >= count && (uintptr_t)from - (uintptr_t)to >= count;
    return is_apart ? memcpy(to, from, count) : __real_memmove(to, from, count);
}

/* ---- Files */

/* Bytes in a buffer of exactly their number: a sanitizer reports every read beyond its end. */
octets room_for(size_t count) {
#ifdef GUARDED
    octets between = {guarded_room(count), count};
    if (between.octets != NULL)
        return between;
#endif
    octets made = {malloc(count ? count : 1), count};
    if (made.octets == NULL)
        exit(3);
    return made;
}

octets file_of(const char *path) {
    FILE *file = fopen(path, "rb");
    if (file == NULL || fseek(file, 0, SEEK_END) != 0)
        exit(3);
    octets read = room_for((size_t)ftell(file));
    rewind(file);
    if (fread(read.octets, 1, read.count, file) != read.count)
        exit(3);
    fclose(file);
    return read;
}

bool next_batch(octets *batch) {
    uint8_t count[4];
    if (fread(count, 1, 4, stdin) != 4)
        return false;
    *batch = room_for(count[0] | (size_t)count[1] << 8 | (size_t)count[2] << 16 | (size_t)count[3] << 24);
    return fread(batch->octets, 1, batch->count, stdin) == batch->count;
}

void print_answer(const iim_answer *a) {
    printf("%d %d %d %d %d %" PRIu64 " %zu %zu %zu\n", a->status, a->layer, a->cause, a->rec, a->set, a->octet, a->used,
           a->written, a->ticket);
}

void print_refusal(FILE *to, long number, const iim_answer *a) {
    char line[128];
    expect(iim_error_text((uint64_t)number, a, line, sizeof line) == strlen(line), "the length of the line of a refusal");
    fprintf(to, "%s\n", line);
}

void guard_buffers(void) {
#ifdef GUARDED
    guarded.end = getenv("GUARD_BEFORE") != NULL ? GUARD_BEFORE : GUARD_AFTER;
#endif
}
