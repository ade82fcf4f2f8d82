/* The "close to the physical limit" yardstick: one thread, no MPI, no checking beyond
 * what the layout needs.  The whole file is read at once, digits are parsed straight
 * into the owner's local array, and pieces are written from one large buffer.
 *
 *   split_c split IN OUT P Q MB NB
 *   split_c join  PREFIX OUT
 *   split_c move  PREFIX OUT P Q MB NB
 *   split_c gen   FILE M N SEED          a general file of random i32
 *   split_c fill  PREFIX M N A B C       A + B*i + C*j on 4 by 4 in blocks of 64, moved to 2 by 8 in blocks of 32, written
 *   split_c mem   M N P Q MB NB P2 Q2 MB2 NB2 REPS    memcpy, element move, run move; no files
 *   split_c load  SEED SIZE              as gridtool's load, without the plan
 */
#define _GNU_SOURCE
#include <stdio.h>
#include <stdlib.h>
#include <string.h>
#include <stdint.h>
#include <fcntl.h>
#include <unistd.h>
#include <sys/stat.h>
#include <time.h>
#ifndef PLAIN
#include <immintrin.h>          /* the limit; -DPLAIN gives digit loops in plain C instead */
#endif

typedef struct { int P, Q, mb, nb, rs, cs; int *lld, *cols; int **v; } Side;

static void die(const char *a, const char *b) { fprintf(stderr, "split_c: %s: %s\n", b, a); exit(1); }
static double now(void) { struct timespec t; clock_gettime(CLOCK_MONOTONIC, &t); return t.tv_sec + 1e-9 * t.tv_nsec; }
static int numroc(int n, int nb, int p, int src, int P)
{
    int d = (P + p - src) % P, b = n / nb, r = b / P * nb;
    return r + (d < b % P ? nb : d == b % P ? n % nb : 0);
}
static int max1(int x) { return x > 1 ? x : 1; }

/* ---- reading ---- */
static char *slurp(const char *name, size_t *len)
{
    int fd = open(name, O_RDONLY);
    struct stat st;
    if (fd < 0 || fstat(fd, &st)) die("missing", name);
    char *t = malloc(st.st_size + 32);
    size_t n = 0;
    while (n < (size_t)st.st_size) {
        ssize_t k = read(fd, t + n, st.st_size - n);
        if (k <= 0) die("read", name);
        n += k;
    }
    close(fd);
    memset(t + n, 0, 32);
    *len = n;
    return t;
}
#ifndef PLAIN
static uint8_t right[17][16];            /* right[k]: shuffle that brings k digits to the right end */
#endif
static inline int num(char **s)          /* one value */
{
    char *p = *s;
#ifndef PLAIN
    if (*p == '\n') p++;
    int minus = *p == '-';
    char *q = p + minus;
    __m128i y = _mm_sub_epi8(_mm_loadu_si128((const __m128i *)q), _mm_set1_epi8('0'));
    int other = ~_mm_movemask_epi8(_mm_cmpeq_epi8(_mm_min_epu8(y, _mm_set1_epi8(9)), y)) & 0xffff;
    int len = __builtin_ctz(other | 0x10000);
    if (__builtin_expect(len > 0 && len < 11, 1)) {
        y = _mm_shuffle_epi8(y, _mm_loadu_si128((const __m128i *)right[len]));
        y = _mm_maddubs_epi16(y, _mm_set_epi8(1, 10, 1, 10, 1, 10, 1, 10, 1, 10, 1, 10, 1, 10, 1, 10));
        y = _mm_madd_epi16(y, _mm_set_epi16(1, 100, 1, 100, 1, 100, 1, 100));
        y = _mm_packus_epi32(y, y);
        y = _mm_madd_epi16(y, _mm_set_epi16(1, 10000, 1, 10000, 1, 10000, 1, 10000));
        uint64_t two = (uint64_t)_mm_cvtsi128_si64(y);
        unsigned x = (unsigned)two * 100000000u + (unsigned)(two >> 32);
        *s = q + len;
        return (int)((x ^ (0u - minus)) + minus);
    }
#endif
    while ((unsigned char)(*p - '0') > 9 && *p != '-' && *p) p++;
    int neg = *p == '-';
    p += neg;
    unsigned x = 0, d;
    while ((d = (unsigned char)*p - '0') <= 9) { x = x * 10 + d; p++; }
    *s = p;
    return (int)(neg ? 0u - x : x);
}
static char *header(char *s, int *desc)
{
    while (*s == '%') {
        if (desc && !strncmp(s, "%DESC ", 6)) { char *e = s + 5; for (int k = 0; k < 11; k++) desc[k] = num(&e); }
        s = strchr(s, '\n') + 1;
    }
    return s;
}

/* ---- writing ---- */
static char pairs[200];
static char out[1 << 20];
static size_t fill;
static int ofd;
static void flush(void)
{
    for (size_t n = 0; n < fill;) { ssize_t k = write(ofd, out + n, fill - n); if (k <= 0) die("write", "file"); n += k; }
    fill = 0;
}
#ifndef PLAIN
static uint8_t left[32];                 /* left + k: shuffle that drops k bytes at the left end */
static void tables(void)
{
    for (int k = 0; k <= 16; k++) for (int i = 0; i < 16; i++) right[k][i] = i < 16 - k ? 0x80 : i - (16 - k);
    for (int i = 0; i < 32; i++) left[i] = i < 16 ? i : 0x80;
}
static inline void put(int v)
{
    static const unsigned ten[10] = { 0, 10, 100, 1000, 10000, 100000, 1000000, 10000000, 100000000, 1000000000 };
    if (fill > sizeof out - 32) flush();
    char *w = out + fill;
    unsigned minus = (unsigned)v >> 31, u = ((unsigned)v ^ (0u - minus)) + minus;
    *w = '-';
    w += minus;
    int bits = 32 - __builtin_clz(u | 1), t = bits * 1233 >> 12, len = t + (u >= ten[t < 10 ? t : 9]);
    if (!t) len = 1;
    unsigned hi = u / 100000000u, lo = u % 100000000u;
    uint64_t x = lo / 10000 | (uint64_t)(lo % 10000) << 32, h;
    h = (x * 5243 >> 19) & 0x0000007f0000007full;
    x = h | (x - 100 * h) << 16;
    h = (x * 103 >> 10) & 0x000f000f000f000full;
    x = (h | (x - 10 * h) << 8) + 0x3030303030303030ull;
    uint16_t top;
    memcpy(&top, pairs + 2 * hi, 2);
    __m128i d = _mm_set_epi64x((long long)(x >> 48), (long long)(x << 16 | top));
    d = _mm_shuffle_epi8(d, _mm_loadu_si128((const __m128i *)(left + 10 - len)));
    _mm_storeu_si128((__m128i *)w, d);
    w[len] = '\n';
    fill = w + len + 1 - out;
}
#else
static void tables(void) { }
static inline void put(int v)
{
    if (fill > sizeof out - 16) flush();
    char *w = out + fill, b[12];
    unsigned u = v;
    if (v < 0) { *w++ = '-'; u = 0u - u; }
    char *p = b + 12;
    while (u >= 100) { unsigned r = u % 100; u /= 100; p -= 2; memcpy(p, pairs + 2 * r, 2); }
    if (u >= 10) { p -= 2; memcpy(p, pairs + 2 * u, 2); } else *--p = '0' + u;
    size_t k = b + 12 - p;
    memcpy(w, p, k);
    w[k] = '\n';
    fill = w + k + 1 - out;
}
#endif
static void start(const char *name, int rows, int cols, const int *desc)
{
    ofd = open(name, O_WRONLY | O_CREAT | O_TRUNC, 0644);
    if (ofd < 0) die("cannot write", name);
    fill = sprintf(out, "%%%%MatrixMarket matrix array integer general\n");
    if (desc) {
        fill += sprintf(out + fill, "%%DESC");
        for (int k = 0; k < 11; k++) fill += sprintf(out + fill, " %d", desc[k]);
        out[fill++] = '\n';
    }
    fill += sprintf(out + fill, "%d %d\n", rows, cols);
}
static void stop(void) { flush(); close(ofd); }

static Side side(int m, int n, int P, int Q, int mb, int nb)
{
    Side s = { P, Q, mb, nb, 0, 0, malloc(4 * P * Q), malloc(4 * P * Q), malloc(8 * P * Q) };
    for (int k = 0; k < P * Q; k++) {
        s.lld[k] = max1(numroc(m, mb, k / Q, 0, P));
        s.cols[k] = max1(numroc(n, nb, k % Q, 0, Q));
        s.v[k] = calloc((size_t)s.lld[k] * s.cols[k], 4);
    }
    return s;
}
static void write_pieces(const char *prefix, int m, int n, Side *s)
{
    for (int k = 0; k < s->P * s->Q; k++) {
        char name[4096];
        int d[11] = { s->P, s->Q, k / s->Q, k % s->Q, m, n, s->mb, s->nb, s->rs, s->cs, s->lld[k] };
        snprintf(name, sizeof name, "%s.%d.%d", prefix, k / s->Q, k % s->Q);
        start(name, s->lld[k], s->cols[k], d);
        size_t c = (size_t)s->lld[k] * s->cols[k];
        for (size_t i = 0; i < c; i++) put(s->v[k][i]);
        stop();
    }
}
static Side read_pieces(const char *prefix, int *m, int *n)
{
    Side s;
    memset(&s, 0, sizeof s);
    int k = 0, K = 1;
    do {
        char name[4096];
        size_t len;
        int d[11] = { 0 };
        snprintf(name, sizeof name, "%s.%d.%d", prefix, k ? k / s.Q : 0, k ? k % s.Q : 0);
        char *t = slurp(name, &len), *p = header(t, d);
        if (!k) {
            s.P = d[0]; s.Q = d[1]; *m = d[4]; *n = d[5]; s.mb = d[6]; s.nb = d[7]; s.rs = d[8]; s.cs = d[9];
            K = s.P * s.Q;
            s.lld = malloc(4 * K); s.cols = malloc(4 * K); s.v = malloc(8 * K);
        }
        s.lld[k] = num(&p); s.cols[k] = num(&p);
        size_t c = (size_t)s.lld[k] * s.cols[k];
        s.v[k] = malloc(4 * c);
        for (size_t i = 0; i < c; i++) s.v[k][i] = num(&p);
        free(t);
    } while (++k < K);
    return s;
}
/* whole column runs: the greatest stretch in one block of A and one of B at a time */
static void move_runs(int m, int n, Side *a, Side *b)
{
    for (int j = 0; j < n; j++) {
        int qa = (a->cs + j / a->nb) % a->Q, ja = j / (a->nb * a->Q) * a->nb + j % a->nb;
        int qb = (b->cs + j / b->nb) % b->Q, jb = j / (b->nb * b->Q) * b->nb + j % b->nb;
        for (int i = 0; i < m;) {
            int len = a->mb - i % a->mb, lb = b->mb - i % b->mb;
            if (lb < len) len = lb;
            if (m - i < len) len = m - i;
            int pa = (a->rs + i / a->mb) % a->P, ia = i / (a->mb * a->P) * a->mb + i % a->mb, ka = pa * a->Q + qa;
            int pb = (b->rs + i / b->mb) % b->P, ib = i / (b->mb * b->P) * b->mb + i % b->mb, kb = pb * b->Q + qb;
            memcpy(b->v[kb] + (size_t)jb * b->lld[kb] + ib, a->v[ka] + (size_t)ja * a->lld[ka] + ia, 4 * (size_t)len);
            i += len;
        }
    }
}
/* the plain rule, element by element */
static void move_elements(int m, int n, Side *a, Side *b)
{
    for (int j = 0; j < n; j++) for (int i = 0; i < m; i++) {
        int ka = (a->rs + i / a->mb) % a->P * a->Q + (a->cs + j / a->nb) % a->Q;
        int kb = (b->rs + i / b->mb) % b->P * b->Q + (b->cs + j / b->nb) % b->Q;
        int ia = i / (a->mb * a->P) * a->mb + i % a->mb, ja = j / (a->nb * a->Q) * a->nb + j % a->nb;
        int ib = i / (b->mb * b->P) * b->mb + i % b->mb, jb = j / (b->nb * b->Q) * b->nb + j % b->nb;
        b->v[kb][(size_t)jb * b->lld[kb] + ib] = a->v[ka][(size_t)ja * a->lld[ka] + ia];
    }
}
static int cmpd(const void *a, const void *b) { double x = *(double *)a, y = *(double *)b; return x < y ? -1 : x > y; }

int main(int argc, char **argv)
{
    const char *c = argc > 1 ? argv[1] : "";
    int v[12];
    for (int k = 0; k < 100; k++) { pairs[2 * k] = '0' + k / 10; pairs[2 * k + 1] = '0' + k % 10; }
    tables();
    if (!strcmp(c, "split") && argc == 8) {
        size_t len;
        char *t = slurp(argv[2], &len), *p = header(t, NULL);
        int m = num(&p), n = num(&p), mb = atoi(argv[6]), nb = atoi(argv[7]);
        Side b = side(m, n, atoi(argv[4]), atoi(argv[5]), mb, nb);
        for (int j = 0; j < n; j++) {
            int q = j / nb % b.Q, lj = j / (nb * b.Q) * nb + j % nb;
            for (int i = 0; i < m; i += mb) {
                int k = i / mb % b.P * b.Q + q, len1 = m - i < mb ? m - i : mb;
                int *w = b.v[k] + (size_t)lj * b.lld[k] + i / (mb * b.P) * mb;
                for (int u = 0; u < len1; u++) w[u] = num(&p);
            }
        }
        free(t);
        write_pieces(argv[3], m, n, &b);
    } else if (!strcmp(c, "join") && argc == 4) {
        int m, n;
        Side a = read_pieces(argv[2], &m, &n), b = side(m, n, 1, 1, max1(m), max1(n));
        move_runs(m, n, &a, &b);
        start(argv[3], m, n, NULL);
        for (size_t i = 0; i < (size_t)m * n; i++) put(b.v[0][i]);
        stop();
    } else if (!strcmp(c, "move") && argc == 8) {
        int m, n;
        Side a = read_pieces(argv[2], &m, &n), b = side(m, n, atoi(argv[4]), atoi(argv[5]), atoi(argv[6]), atoi(argv[7]));
        move_runs(m, n, &a, &b);
        write_pieces(argv[3], m, n, &b);
    } else if (!strcmp(c, "fill") && argc == 8) {
        int m = atoi(argv[3]), n = atoi(argv[4]), fa = atoi(argv[5]), fb = atoi(argv[6]), fc = atoi(argv[7]);
        Side a = side(m, n, 4, 4, 64, 64), b = side(m, n, 2, 8, 32, 32);
        for (int k = 0; k < 16; k++) {
            int lr = numroc(m, 64, k / 4, 0, 4), lc = numroc(n, 64, k % 4, 0, 4);
            for (int lj = 0; lj < lc; lj++) {
                uint32_t col = (uint32_t)fa + (uint32_t)fc * (uint32_t)((lj / 64 * 4 + k % 4) * 64 + lj % 64);
                int *w = a.v[k] + (size_t)lj * a.lld[k];
                for (int li = 0; li < lr; li++) w[li] = (int)(col + (uint32_t)fb * (uint32_t)((li / 64 * 4 + k / 4) * 64 + li % 64));
            }
        }
        move_runs(m, n, &a, &b);
        write_pieces(argv[2], m, n, &b);
    } else if (!strcmp(c, "gen") && argc == 6) {
        int m = atoi(argv[3]), n = atoi(argv[4]);
        uint64_t x = strtoull(argv[5], NULL, 10);
        start(argv[2], m, n, NULL);
        for (size_t i = 0; i < (size_t)m * n; i++) { x = x * 6364136223846793005u + 1442695040888963407u; put((int)(uint32_t)(x >> 32)); }
        stop();
    } else if (!strcmp(c, "mem") && argc == 13) {
        for (int k = 0; k < 11; k++) v[k] = atoi(argv[2 + k]);
        int m = v[0], n = v[1], R = v[10] < 64 ? v[10] : 64;
        Side a = side(m, n, v[2], v[3], v[4], v[5]), b = side(m, n, v[6], v[7], v[8], v[9]);
        size_t w = 0;
        for (int k = 0; k < a.P * a.Q; k++) for (size_t i = 0; i < (size_t)a.lld[k] * a.cols[k]; i++) a.v[k][i] = (int)(w++ * 2654435761u);
        for (int k = 0; k < b.P * b.Q; k++) memset(b.v[k], 0xff, (size_t)b.lld[k] * b.cols[k] * 4);
        int *f = malloc(w * 4), *g = malloc(w * 4);
        memset(f, 1, w * 4); memset(g, 2, w * 4);
        double t[3][64];
        for (int r = 0; r < R; r++) {
            double s = now(); memcpy(g, f, w * 4); __asm__ volatile("" ::: "memory"); t[0][r] = now() - s;
            s = now(); move_elements(m, n, &a, &b); t[1][r] = now() - s;
            s = now(); move_runs(m, n, &a, &b); t[2][r] = now() - s;
        }
        for (int k = 0; k < 3; k++) qsort(t[k], R, sizeof(double), cmpd);
        printf("mem memcpy_s %.6f element_s %.6f runs_s %.6f\n", t[0][R / 2], t[1][R / 2], t[2][R / 2]);
    } else if (!strcmp(c, "load") && argc == 4) {
        uint64_t x = strtoull(argv[2], NULL, 10);
        int n = atoi(argv[3]);
        Side w = side(n, n, 1, 1, n, n), a = side(n, n, 4, 4, 64, 64), b = side(n, n, 2, 8, 32, 32), d = side(n, n, 4, 4, 64, 64);
        for (size_t i = 0; i < (size_t)n * n; i++) { x = x * 6364136223846793005u + 1442695040888963407u; w.v[0][i] = (int)(uint32_t)(x >> 32); }
        move_runs(n, n, &w, &a);
        double s = now();
        move_runs(n, n, &a, &b);
        move_runs(n, n, &b, &d);
        double e = now() - s;
        long long sum = 0;
        for (int k = 0; k < 16; k++) {
            int lr = numroc(n, 64, k / 4, 0, 4), lc = numroc(n, 64, k % 4, 0, 4);
            for (int j = 0; j < lc; j++) for (int i = 0; i < lr; i++) sum += d.v[k][(size_t)j * d.lld[k] + i];
        }
        printf("load %s %s sum %lld move_s %.6f\n", argv[2], argv[3], sum, e);
    } else { fprintf(stderr, "split_c: bad words\n"); return 2; }
    return 0;
}
