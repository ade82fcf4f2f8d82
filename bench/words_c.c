// The plain program that words_bench is timed beside: packs an N by N array in squares of SIDE rows into a message and unpacks it
// into another array, REPS times, a column part of a square by one memcpy. usage: words_c N SIDE REPS
#include <stdio.h>
#include <stdlib.h>
#include <string.h>
#include <time.h>

static double now(void) {
    struct timespec t;
    clock_gettime(CLOCK_MONOTONIC, &t);
    return t.tv_sec + 1e-9 * t.tv_nsec;
}

int main(int argc, char **argv) {
    if (argc != 4) return 2;
    size_t n = atoi(argv[1]), side = atoi(argv[2]), words = n * n;
    int reps = atoi(argv[3]);
    int *a = malloc(words * 4), *b = malloc(words * 4), *message = malloc(words * 4);
    if (!a || !b || !message) return 1;
    unsigned x = 1;
    for (size_t i = 0; i < words; i++) a[i] = (x = x * 1664525 + 1013904223) >> 1;
    memset(b, 1, words * 4);
    for (int r = 0; r < reps; r++) {
        memset(message, 0, words * 4);
        double start = now();
        int *p = message;
        for (size_t tj = 0; tj < n / side; tj++)
            for (size_t ti = 0; ti < n / side; ti++)
                for (size_t k = 0; k < side; k++) {
                    const int *part = a + (tj * side + k) * n + ti * side;
                    if (side == 1) *p++ = *part;
                    else memcpy(p, part, 4 * side), p += side;
                }
        double pack = now() - start;
        start = now();
        p = message;
        for (size_t tj = 0; tj < n / side; tj++)
            for (size_t ti = 0; ti < n / side; ti++)
                for (size_t k = 0; k < side; k++) {
                    int *part = b + (tj * side + k) * n + ti * side;
                    if (side == 1) *part = *p++;
                    else memcpy(part, p, 4 * side), p += side;
                }
        printf("pack %.0f us, unpack %.0f us\n", pack * 1e6, (now() - start) * 1e6);
    }
    printf("same %d\n", memcmp(a, b, words * 4) == 0);
    return 0;
}
