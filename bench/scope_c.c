// The copies that a broadcast of SIDE by SIDE words to N ranks in order needs: of each message one into its buffer and one out of
// it, along the hypercube from the first rank. Each is one memcpy, or one for each column. All buffers were touched before.
// usage: scope_c N SIDE whole|columns
#include <stdint.h>
#include <stdio.h>
#include <stdlib.h>
#include <string.h>
#include <time.h>

static int parent(int k) {
    int high = 1;
    while (high * 2 <= k) high *= 2;
    return k - high;
}

static void *room(size_t bytes) {
    void *p = malloc(bytes);
    if (!p) exit(1);
    memset(p, 1, bytes);
    return p;
}

static void copy(int32_t *to, const int32_t *from, size_t words, size_t step) {
    for (size_t at = 0; at < words; at += step) memcpy(to + at, from + at, step * sizeof(int32_t));
}

int main(int argc, char **argv) {
    if (argc < 4) return 2;
    int n = atoi(argv[1]), side = atoi(argv[2]);
    if (n < 1 || n > 64 || side < 1) return 2;
    size_t words = (size_t)side * side, bytes = words * sizeof(int32_t), step = argv[3][0] == 'c' ? (size_t)side : words;
    int32_t *array[64], *buffer[64];
    for (int k = 0; k < n; k++) array[k] = room(bytes);
    for (int k = 1; k < n; k++) buffer[k] = room(bytes);
    for (int j = 0; j < side; j++)
        for (int i = 0; i < side; i++) array[0][(size_t)j * side + i] = 1 + 3 * i + 7 * j;
    struct timespec a, b;
    clock_gettime(CLOCK_MONOTONIC, &a);
    for (int k = 1; k < n; k++) {
        copy(buffer[k], array[parent(k)], words, step);
        copy(array[k], buffer[k], words, step);
    }
    clock_gettime(CLOCK_MONOTONIC, &b);
    printf("the last word of the last rank is %d\n", array[n - 1][words - 1]);
    printf("run in order %ld us\n", (b.tv_sec - a.tv_sec) * 1000000 + (b.tv_nsec - a.tv_nsec) / 1000);
    return 0;
}
