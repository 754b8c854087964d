/* Stands before malloc and realloc of the program that it is loaded into, and refuses requests for memory.
 *
 * REFUSE=K refuses the request of number K, from 1, and REFUSE=K+ all later ones too. For each request an octet is written to the
 * file that the descriptor REQUESTS names: '.' where it was granted, 'x' where it was refused. */
typedef unsigned long size_t;

extern void *__libc_malloc(size_t size);
extern void *__libc_realloc(void *block, size_t size);
extern char *getenv(const char *name);
extern long write(int file, const void *octets, size_t size);

static unsigned long first, count;
static int and_later, file;

static unsigned long number_in(const char *text, const char **end) {
    unsigned long number = 0;
    for (; *text >= '0' && *text <= '9'; text++)
        number = 10 * number + (unsigned long)(*text - '0');
    *end = text;
    return number;
}

__attribute__((constructor)) static void begin(void) {
    const char *refused = getenv("REFUSE"), *requests = getenv("REQUESTS"), *end;
    if (refused && requests) {
        first = number_in(refused, &end);
        and_later = *end == '+';
        file = (int)number_in(requests, &end);
    }
}

static int is_refused(void) {
    if (!file)
        return 0;
    count++;
    int refused = count == first || (and_later && first && count > first);
    (void)!write(file, refused ? "x" : ".", 1);
    return refused;
}

void *malloc(size_t size) {
    return is_refused() ? 0 : __libc_malloc(size);
}

void *realloc(void *block, size_t size) {
    return is_refused() ? 0 : __libc_realloc(block, size);
}
