/* Kernels of bin/bench-emitted in C by hand: the plate of examples/jacobi.f, bench/wave.f and
 * bench/dots.f. With -fopenmp each loop that can be is a parallel one, by its directive; without, all
 * of it is serial. KERNEL is PLATE, WAVE or DOTS, N and M are the named constants of the source.
 */
#include <inttypes.h>
#include <stdint.h>
#include <stdio.h>

#define PLATE 1
#define WAVE 2
#define DOTS 3

#if KERNEL == PLATE
static int64_t a[N + 2][N + 2], b[N + 2][N + 2];

static void run(void)
{
#pragma omp parallel for
    for (int j = 0; j <= N + 1; j++) {
        a[j][0] = 100000;
        for (int i = 1; i <= N + 1; i++)
            a[j][i] = 0;
    }
    for (int sweep = 1; sweep <= M; sweep++) {
#pragma omp parallel for
        for (int j = 1; j <= N; j++)
            for (int i = 1; i <= N; i++)
                b[j][i] = (a[j][i - 1] + a[j][i + 1] + a[j - 1][i] + a[j + 1][i]) / 4;
#pragma omp parallel for
        for (int j = 1; j <= N; j++)
            for (int i = 1; i <= N; i++)
                a[j][i] = b[j][i];
    }
    int64_t sum = 0;
#pragma omp parallel for reduction(+ : sum)
    for (int j = 1; j <= N; j++)
        for (int i = 1; i <= N; i++)
            sum += a[j][i];
    printf(" SWEEPS %d POINTS %d\n MIDDLE OF THE PLATE %" PRId64 "\n", M, N * N, a[(N + 1) / 2][(N + 1) / 2]);
    printf(" BELOW THE UPPER EDGE %" PRId64 " %" PRId64 " %" PRId64 "\n", a[1][1], a[(N + 1) / 2][1], a[N][1]);
    printf(" MEAN %" PRId64 "\n", sum / (N * N));
}
#elif KERNEL == WAVE
static int64_t a[M + 1][N + 1];

static void run(void)
{
#pragma omp parallel for
    for (int i = 0; i <= N; i++)
        a[0][i] = 1000 * i;
    for (int k = 1; k <= M; k++) {
#pragma omp parallel for
        for (int i = 1; i <= N; i++)
            a[k][i] = (a[k - 1][i - 1] + 3 * a[k - 1][i]) / 4 + k;
    }
    printf(" %" PRId64 " %" PRId64 "\n", a[M][1], a[M][N]);
}
#else
static int64_t x[N], y[N];

static void run(void)
{
    int64_t sum = 0;
#pragma omp parallel for
    for (int i = 0; i < N; i++) {
        x[i] = i + 1;
        y[i] = N - (i + 1);
    }
    for (int k = 0; k < M; k++) {
#pragma omp parallel for reduction(+ : sum)
        for (int i = 0; i < N; i++)
            sum += x[i] * y[i];
        x[k] = sum;
    }
    printf(" %" PRId64 "\n", sum);
}
#endif

int main(void)
{
    run();
    return 0;
}
