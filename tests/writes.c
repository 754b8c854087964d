/* Stands before write of the program that it is loaded into. For each write an octet is written to the file that the descriptor WRITES
 * names: '1' where it goes to standard output, '2' where it goes to standard error. */
typedef unsigned long size_t;

extern long syscall(long number, ...);
extern char *getenv(const char *name);

enum { WRITE = 1 }; /* the system's number of the call (x86-64) */

static int file;

__attribute__((constructor)) static void begin(void) {
    const char *writes = getenv("WRITES");
    for (; writes && *writes >= '0' && *writes <= '9'; writes++)
        file = 10 * file + *writes - '0';
}

long write(int to, const void *octets, size_t size) {
    if (file && (to == 1 || to == 2))
        syscall(WRITE, file, to == 1 ? "1" : "2", (size_t)1);
    return syscall(WRITE, to, octets, size);
}

long __write(int to, const void *octets, size_t size) {
    return write(to, octets, size);
}
