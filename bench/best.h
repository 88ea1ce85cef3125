/* Check and both coders by hand, over elements that are added by exclusive or. A block is laid out with each
 * segment written twice, so that a turned segment is one stretch of it. Sums are held in registers over a whole
 * list of summands; the lists are made once, by `prepare`. Of a first row each one is added, or, where segments
 * are long enough for it to pay, each four neighbours at once, by their sum made beforehand for all targets.
 */
#include <string.h>

#include "codes.h"

typedef ELEMENT element;

/* Bytes that are added at once: a notation of the compiler, which maps it to what the machine has. */
#ifndef VECTOR
#define VECTOR 16
#endif
typedef uint64_t vec __attribute__((vector_size(VECTOR), aligned(sizeof(element)), may_alias));

/* How many sums are held: for bytes a whole segment's, else 128 bytes of them. It is never more than 8 vectors. */
#define WIDTH(m) (sizeof(element) == 1 ? (m) : 128 / (int)sizeof(element))
#define VECS(m) (WIDTH(m) * (int)sizeof(element) / VECTOR)
#define INLINE static inline __attribute__((always_inline))

/* Sums of neighbours read up to three places past a segment written twice. */
enum { LONGEST_LAID = 2 * 2560 + 16, LONGEST_FOURS = 16 * 256 };

/* Where the summands of a segment begin in the laid block. */
struct list { int count; uint16_t at[600]; };

/* Where the sums of four neighbours begin that one first row adds. */
struct fours { int count; uint16_t at[32]; };

/* The lists of code k. For each segment of a group: the first block row without a, the second without b, the third, its message part
 * and b's part. For each segment that a table makes: its summands. */
struct lists {
	int k;
	struct list first[4], second[4], third[4], message[4], closing[4], generator[8], inverse[4];
	struct fours generator_fours[32 * 8], inverse_fours[4 * 4];
};

static void list_terms(struct list lists[4], const struct code *c, const struct term *terms, int count)
{
	for (int j = 0; j < 4; j++) {
		lists[j].count = count;
		for (int k = 0; k < count; k++) {
			const struct permutation *p = &c->table[terms[k].t];
			int segment = 4 * terms[k].g + (p->theta + j) % 4;
			lists[j].at[k] = 2 * segment * c->m + p->phi[j];
		}
	}
}

/* First row `targets * r + q` takes segment `source + r` to target q. */
static void list_ones(struct list *lists, int targets, const uint32_t *words, int source, int sources, int m)
{
	for (int q = 0; q < targets; q++) {
		struct list *l = &lists[q];
		l->count = 0;
		for (int r = 0; r < sources; r++)
			for (int e = 0; e < m; e++)
				if (words[(targets * r + q) * (m / 32) + (m - 1 - e) / 32] >> (e % 32) & 1)
					l->at[l->count++] = 2 * (source + r) * m + (e + 1) % m;
	}
}

/* The sums of the places that the bits of p choose among four are laid from 2 * p * m on. */
static void list_fours(struct fours *all, const uint32_t *words, int rows, int m)
{
	for (int n = 0; n < rows; n++) {
		all[n].count = 0;
		for (int e = 0; e < m; e += 4) {
			int p = words[n * (m / 32) + (m - 1 - e) / 32] >> (e % 32) & 15;
			if (p)
				all[n].at[all[n].count++] = 2 * p * m + e + 1;
		}
	}
}

static void prepare(struct lists *l, int k)
{
	const struct code *c = &codes[k];
	l->k = k;
	list_terms(l->first, c, c->first + 1, c->n1 - 1);
	list_terms(l->second, c, c->second + 1, c->n2 - 1);
	list_terms(l->third, c, c->third, c->n3);
	list_terms(l->message, c, c->third, c->n3 - 2);
	list_terms(l->closing, c, c->third + c->n3 - 2, 2);
	list_ones(l->generator, 8, c->generator, 0, 4 * c->K, c->m);
	list_ones(l->inverse, 4, c->inverse, 4 * c->K, 4, c->m);
	list_fours(l->generator_fours, c->generator, 4 * c->K * 8, c->m);
	list_fours(l->inverse_fours, c->inverse, 4 * 4, c->m);
}

/* Read, add and write as many places as are held. */
INLINE void load(vec *sums, const element *from, int m)
{
#pragma GCC unroll 8
	for (int v = 0; v < VECS(m); v++)
		sums[v] = ((const vec *)from)[v];
}

INLINE void add(vec *sums, const element *from, int m)
{
#pragma GCC unroll 8
	for (int v = 0; v < VECS(m); v++)
		sums[v] ^= ((const vec *)from)[v];
}

INLINE void store(element *to, const vec *sums, int m)
{
#pragma GCC unroll 8
	for (int v = 0; v < VECS(m); v++)
		((vec *)to)[v] = sums[v];
}

/* Adds the places from `base` on of each summand. */
INLINE void add_list(vec *sums, const element *laid, const struct list *l, int base, int m)
{
#pragma GCC unroll 2
	for (int k = 0; k < l->count; k++)
		add(sums, laid + l->at[k] + base, m);
}

/* Writes the places from `base` on of a segment of the laid block. */
INLINE void lay(element *laid, int segment, int base, const vec *sums, int m)
{
	store(laid + 2 * segment * m + base, sums, m);
	store(laid + 2 * segment * m + m + base, sums, m);
}

INLINE void lay_groups(element *laid, const element *run, int first, int count, int m)
{
	for (int s = 4 * first; s < 4 * (first + count); s++)
		for (int base = 0; base < m; base += WIDTH(m)) {
			vec sums[8];
			load(sums, run + s * m + base, m);
			lay(laid, s, base, sums, m);
		}
}

/* Where the sums of a list go, and whether what is laid there is added. */
enum { TO_RUN = 1, TO_LAID = 2, ADDED = 4 };

/* Makes `count` segments from segment `first` on, each from its list. */
INLINE void make(element *run, element *laid, int how, int first, int count, const struct list *lists, int m)
{
	for (int s = first; s < first + count; s++)
		for (int base = 0; base < m; base += WIDTH(m)) {
			vec sums[8] = { 0 };
			if (how & ADDED)
				load(sums, laid + 2 * s * m + base, m);
			add_list(sums, laid, &lists[s - first], base, m);
			if (how & TO_RUN)
				store(run + s * m + base, sums, m);
			if (how & TO_LAID)
				lay(laid, s, base, sums, m);
		}
}

/* The sums of four neighbours of a laid segment, for each choice among them. */
INLINE void lay_fours(element *fours, const element *segment, int m)
{
	for (int base = 0; base < 2 * m; base += WIDTH(m)) {
		vec sums[8];
		load(sums, segment + base, m);
		store(fours + 2 * m + base, sums, m);
	}
	for (int p = 2; p < 16; p++) {
		int high = p < 4 ? 1 : p < 8 ? 2 : 3, rest = p - (1 << high);
		for (int base = 0; base < 2 * m; base += WIDTH(m)) {
			vec sums[8] = { 0 };
			if (rest)
				load(sums, fours + 2 * rest * m + base, m);
			add(sums, segment + high + base, m);
			store(fours + 2 * p * m + base, sums, m);
		}
	}
}

/* Makes `targets` segments of the run and of the laid block from `sources` laid ones, four neighbours at a time. */
INLINE void make_by_fours(element *run, element *laid, int source, int sources, int target, int targets,
			  const struct fours *rows, int m)
{
	element fours[LONGEST_FOURS];
	for (int r = 0; r < sources; r++) {
		lay_fours(fours, laid + 2 * (source + r) * m, m);
		for (int q = 0; q < targets; q++)
			for (int base = 0; base < m; base += WIDTH(m)) {
				const struct fours *row = &rows[targets * r + q];
				element *to = run + (target + q) * m + base;
				vec sums[8] = { 0 };
				if (r)
					load(sums, to, m);
#pragma GCC unroll 2
				for (int k = 0; k < row->count; k++)
					add(sums, fours + row->at[k] + base, m);
				store(to, sums, m);
			}
	}
	lay_groups(laid, run, target / 4, targets / 4, m);
}

INLINE int is_zero(const vec *sums, int m)
{
	vec any = { 0 };
	uint64_t words[VECTOR / 8], found = 0;
#pragma GCC unroll 8
	for (int v = 0; v < VECS(m); v++)
		any |= sums[v];
	memcpy(words, &any, sizeof(any));
	for (int i = 0; i < VECTOR / 8; i++)
		found |= words[i];
	return !found;
}

/* The lowest row of a block row that is not zero, or -1. Group `own` is added as it stands. */
INLINE int lowest_row(const element *run, const element *laid, int own, const struct list *lists, int m)
{
	for (int j = 0; j < 4; j++)
		for (int base = 0; base < m; base += WIDTH(m)) {
			vec sums[8];
			load(sums, run + (4 * own + j) * m + base, m);
			add_list(sums, laid, &lists[j], base, m);
			if (is_zero(sums, m))
				continue;
			element at[WIDTH(m)];
			store(at, sums, m);
			for (int i = 0; i < WIDTH(m); i++)
				if (at[i])
					return j * m + base + i;
		}
	return -1;
}

INLINE int check_in(element *run, const struct lists *l, int K, int m)
{
	element laid[LONGEST_LAID];
	lay_groups(laid, run, 0, K, m);
	lay_groups(laid, run, K + 1, 1, m);
	make(run, laid, TO_RUN | TO_LAID, 4 * (K + 2), 4, l->third, m);
	int row = lowest_row(run, laid, K, l->first, m);
	if (row >= 0)
		return row;
	row = lowest_row(run, laid, K + 1, l->second, m);
	return row < 0 ? -1 : 4 * m + row;
}

INLINE void table_in(element *run, const struct lists *l, int K, int m)
{
	element laid[LONGEST_LAID];
	lay_groups(laid, run, 0, K, m);
	if (m >= 64)
		make_by_fours(run, laid, 0, 4 * K, 4 * K, 8, l->generator_fours, m);
	else
		make(run, laid, TO_RUN | TO_LAID, 4 * K, 8, l->generator, m);
	make(run, laid, TO_RUN, 4 * (K + 2), 4, l->third, m);
}

/* The message's part of z, what b has to undo (in a's place), b, z, a. */
INLINE void rows_in(element *run, const struct lists *l, int K, int m)
{
	element laid[LONGEST_LAID];
	lay_groups(laid, run, 0, K, m);
	make(run, laid, TO_LAID, 4 * (K + 2), 4, l->message, m);
	make(run, laid, TO_LAID, 4 * K, 4, l->second, m);
	if (m >= 128)
		make_by_fours(run, laid, 4 * K, 4, 4 * (K + 1), 4, l->inverse_fours, m);
	else
		make(run, laid, TO_RUN | TO_LAID, 4 * (K + 1), 4, l->inverse, m);
	make(run, laid, TO_RUN | TO_LAID | ADDED, 4 * (K + 2), 4, l->closing, m);
	make(run, laid, TO_RUN, 4 * K, 4, l->first, m);
}

/* Each call is compiled for each code's lengths. */
#define BY_CODE(call, run, l) \
	((l)->k == 0 ? call(run, l, 2, 128) : (l)->k == 1 ? call(run, l, 4, 64) : call(run, l, 8, 32))

/* The lowest row that is not zero, or -1; writes z. */
static int check(element *run, const struct lists *l) { return BY_CODE(check_in, run, l); }

/* Write a, b and z behind the message. */
static void table_coder(element *run, const struct lists *l) { BY_CODE(table_in, run, l); }
static void check_coder(element *run, const struct lists *l) { BY_CODE(rows_in, run, l); }
