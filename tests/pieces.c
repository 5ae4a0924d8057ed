/* pieces LENGTH: writes what it reads in pieces of so many bytes, each by a call of its own. tests/plot feeds a
 * pipe with it: in pieces of one byte a file of 10 MB takes Python more than ten seconds. */
#include <stdio.h>
#include <stdlib.h>
#include <unistd.h>

int main(int argc, char **argv) {
    static char bytes[1 << 20];
    size_t length = argc == 2 ? strtoul(argv[1], NULL, 10) : 0, got;
    if (length == 0 || length > sizeof bytes) return 2;
    while ((got = fread(bytes, 1, sizeof bytes / length * length, stdin)) > 0)
        for (size_t i = 0; i < got; i += length) {
            size_t n = got - i < length ? got - i : length;
            if (write(STDOUT_FILENO, bytes + i, n) != (ssize_t)n) return 1;
        }
    return ferror(stdin) ? 1 : 0;
}
