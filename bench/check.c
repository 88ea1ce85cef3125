/* The check of a block by hand in C, for docs/SPEED.md: the same structure as the product's, one byte or one
 * 64-bit word to an element. Build twice, and run:
 *
 *     mkdir -p target
 *     cc -O3 -DELEMENT=uint8_t  bench/check.c -o target/check8  && target/check8
 *     cc -O3 -DELEMENT=uint64_t bench/check.c -o target/check64 && target/check64
 */
#include <stdint.h>
#include <stdio.h>
#include <stdlib.h>
#include <string.h>
#include <time.h>

typedef ELEMENT element;

#include "codes.h"

static void add_turned(element *restrict to, const element *restrict from, int m, int by)
{
	int cut = m - by;
	for (int i = 0; i < cut; i++)
		to[i] ^= from[by + i];
	for (int i = cut; i < m; i++)
		to[i] ^= from[i - cut];
}

static void sum_segment(element *sums, const element *run, const struct permutation *table,
			const struct term *terms, int count, int j, int m)
{
	memset(sums, 0, m * sizeof(element));
	for (int k = 0; k < count; k++) {
		const struct permutation *p = &table[terms[k].t];
		add_turned(sums, run + (4 * terms[k].g + (p->theta + j) % 4) * m, m, p->phi[j]);
	}
}

/* The lowest row of a block row that is not zero, or -1. */
static int lowest_row(const element *run, const struct permutation *table,
		      const struct term *terms, int count, int m)
{
	element sums[512];
	for (int j = 0; j < 4; j++) {
		sum_segment(sums, run, table, terms, count, j, m);
		element any = 0;
		for (int i = 0; i < m; i++)
			any |= sums[i];
		for (int i = 0; any && i < m; i++)
			if (sums[i])
				return j * m + i;
	}
	return -1;
}

__attribute__((noinline)) static int check(element *run, const struct code *c)
{
	for (int j = 0; j < 4; j++)
		sum_segment(run + (4 * (c->K + 2) + j) * c->m, run, c->table, c->third, c->n3, j, c->m);
	int row = lowest_row(run, c->table, c->first, c->n1, c->m);
	if (row >= 0)
		return row;
	row = lowest_row(run, c->table, c->second, c->n2, c->m);
	return row < 0 ? -1 : 4 * c->m + row;
}

int main(void)
{
	for (int k = 0; k < 3; k++) {
		const struct code *c = &codes[k];
		element *run = calloc((c->K + 3) * 4 * c->m, sizeof(element));
		long best = 1000000000;
		volatile int answers = 0;
		for (int round = 0; round < 50; round++) {
			struct timespec a, b;
			clock_gettime(CLOCK_MONOTONIC, &a);
			for (int i = 0; i < 2000; i++)
				answers += check(run, c);
			clock_gettime(CLOCK_MONOTONIC, &b);
			long ns = ((b.tv_sec - a.tv_sec) * 1000000000L + b.tv_nsec - a.tv_nsec) / 2000;
			best = ns < best ? ns : best;
		}
		printf("code %d, %zu bytes to an element: check %ld ns\n", k + 1, sizeof(element), best);
		free(run);
	}
	return 0;
}
