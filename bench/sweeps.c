/* The sweeps of bench/sweeps.f in C over plain memory, for comparison with crates/spmd_workers and
 * crates/fork_join: the loops over elements are shared out by OpenMP, with its barrier behind each.
 *
 *     sweeps P
 *
 * It writes the microseconds that P threads take, and the second element on a line behind.
 */
#include <omp.h>
#include <stdint.h>
#include <stdio.h>
#include <stdlib.h>

enum { POINTS = 100000, SWEEPS = 200 };

static int64_t a[POINTS + 1], b[POINTS + 1];

int main(int count, char **words)
{
    const int threads = count == 2 ? atoi(words[1]) : 0;
    if (threads < 1 || threads > 64) {
        fputs("usage: sweeps P, from 1 to 64\n", stderr);
        return 2;
    }
    const double begun = omp_get_wtime();
#pragma omp parallel num_threads(threads)
    {
#pragma omp for
        for (int i = 1; i <= POINTS; i++)
            a[i] = i;
        for (int sweep = 1; sweep <= SWEEPS; sweep++) {
#pragma omp for
            for (int i = 2; i < POINTS; i++)
                b[i] = (a[i - 1] + a[i] + a[i + 1]) / 3;
#pragma omp for
            for (int i = 2; i < POINTS; i++)
                a[i] = b[i];
        }
    }
    const double ended = omp_get_wtime();
    printf("%.0f\n%lld\n", (ended - begun) * 1e6, (long long)a[2]);
    return 0;
}
