/* Check and both coders in C by the product's own loops: a turned segment is added in two parts, and of a first
 * row the ones are listed at each use, the segment is written twice and sixteen sums are held at a time.
 */
#include <string.h>

#include "codes.h"

typedef ELEMENT element;

/* Sixteen sums, in vectors of the compiler. */
typedef uint64_t vec __attribute__((vector_size(16), aligned(sizeof(element)), may_alias));
enum { VECS = sizeof(element) };

/* Nothing is made beforehand. */
struct lists { const struct code *c; };
static void prepare(struct lists *l, int k) { l->c = &codes[k]; }

static void add_turned(element *restrict to, const element *restrict from, int m, int by)
{
	int cut = m - by;
	for (int i = 0; i < cut; i++)
		to[i] ^= from[by + i];
	for (int i = cut; i < m; i++)
		to[i] ^= from[i - cut];
}

static void sum_segment(element *sums, const element *run, const struct code *c, const struct term *terms,
			int count, int j)
{
	memset(sums, 0, c->m * sizeof(element));
	for (int k = 0; k < count; k++) {
		const struct permutation *p = &c->table[terms[k].t];
		add_turned(sums, run + (4 * terms[k].g + (p->theta + j) % 4) * c->m, c->m, p->phi[j]);
	}
}

static void write_group(element *run, const struct code *c, int group, const struct term *terms, int count)
{
	element sums[128];
	for (int j = 0; j < 4; j++) {
		sum_segment(sums, run, c, terms, count, j);
		memcpy(run + (4 * group + j) * c->m, sums, c->m * sizeof(element));
	}
}

static int lowest_row(const element *run, const struct code *c, const struct term *terms, int count)
{
	element sums[128];
	for (int j = 0; j < 4; j++) {
		element any = 0;
		sum_segment(sums, run, c, terms, count, j);
		for (int i = 0; i < c->m; i++)
			any |= sums[i];
		for (int i = 0; any && i < c->m; i++)
			if (sums[i])
				return j * c->m + i;
	}
	return -1;
}

static int list_ones(int *places, const uint32_t *words, int m)
{
	int n = 0;
	for (int e = 0; e < m; e++)
		if (words[(m - 1 - e) / 32] >> (e % 32) & 1)
			places[n++] = e + 1;
	return n;
}

static void add_shifted(element *sums, const element *wide, const int *places, int count)
{
	vec held[VECS];
#pragma GCC unroll 16
	for (int v = 0; v < VECS; v++)
		held[v] = ((vec *)sums)[v];
	for (int k = 0; k < count; k++)
#pragma GCC unroll 16
		for (int v = 0; v < VECS; v++)
			held[v] ^= ((const vec *)(wide + places[k]))[v];
#pragma GCC unroll 16
	for (int v = 0; v < VECS; v++)
		((vec *)sums)[v] = held[v];
}

/* First row `targets * r + q` of the table takes segment `source + r` to segment `target + q`. */
static void write_product(element *run, const uint32_t *words, int source, int sources, int target, int targets, int m)
{
	for (int q = 0; q < targets; q++) {
		element sums[128] = { 0 }, wide[256];
		for (int r = 0; r < sources; r++) {
			int places[128], count = list_ones(places, words + (targets * r + q) * (m / 32), m);
			memcpy(wide, run + (source + r) * m, m * sizeof(element));
			memcpy(wide + m, run + (source + r) * m, m * sizeof(element));
			for (int base = 0; base < m; base += 16)
				add_shifted(sums + base, wide + base, places, count);
		}
		memcpy(run + (target + q) * m, sums, m * sizeof(element));
	}
}

static int check(element *run, const struct lists *l)
{
	const struct code *c = l->c;
	write_group(run, c, c->K + 2, c->third, c->n3);
	int row = lowest_row(run, c, c->first, c->n1);
	if (row >= 0)
		return row;
	row = lowest_row(run, c, c->second, c->n2);
	return row < 0 ? -1 : 4 * c->m + row;
}

static void table_coder(element *run, const struct lists *l)
{
	const struct code *c = l->c;
	write_product(run, c->generator, 0, 4 * c->K, 4 * c->K, 8, c->m);
	write_group(run, c, c->K + 2, c->third, c->n3);
}

static void check_coder(element *run, const struct lists *l)
{
	const struct code *c = l->c;
	write_group(run, c, c->K + 2, c->third, c->n3 - 2);
	write_group(run, c, c->K, c->second + 1, c->n2 - 1);
	write_product(run, c->inverse, 4 * c->K, 4, 4 * (c->K + 1), 4, c->m);
	write_group(run, c, c->K + 2, c->third, c->n3);
	write_group(run, c, c->K, c->first + 1, c->n1 - 1);
}
