/* The three codes: their permutations, the terms of their block rows, and their tables. */
#include <stdint.h>

#include "tables.h"

/* Segment j goes by segment (theta + j) mod 4, read from its place phi[j] on. Permutation 0 is the identity. */
struct permutation { int theta, phi[4]; };

/* Permutation `t` of group `g`: the message's K groups, then a, b and z. */
struct term { int t, g; };

static const struct permutation permutations_0[] = {
	{ 0, { 0, 0, 0, 0 } }, { 3, { 16, 0, 0, 0 } }, { 0, { 103, 53, 8, 35 } },
	{ 1, { 105, 74, 119, 97 } }, { 2, { 0, 45, 89, 112 } }, { 2, { 50, 47, 31, 64 } },
	{ 3, { 29, 0, 122, 93 } }, { 0, { 115, 59, 1, 99 } }, { 1, { 30, 102, 69, 94 } },
};

static const struct term first_0[] = {
	{ 0, 2 }, { 0, 4 }, { 1, 4 },
};

static const struct term second_0[] = {
	{ 0, 3 }, { 0, 0 }, { 0, 1 }, { 2, 4 }, { 3, 4 }, { 4, 4 },
};

static const struct term third_0[] = {
	{ 0, 0 }, { 5, 1 }, { 6, 1 }, { 7, 3 }, { 8, 3 },
};

static const struct permutation permutations_1[] = {
	{ 0, { 0, 0, 0, 0 } }, { 3, { 59, 0, 0, 0 } }, { 0, { 18, 32, 46, 44 } },
	{ 1, { 52, 21, 45, 51 } }, { 2, { 23, 36, 27, 12 } }, { 2, { 11, 30, 48, 15 } },
	{ 3, { 7, 29, 37, 12 } }, { 0, { 22, 44, 41, 4 } }, { 1, { 25, 29, 13, 7 } },
	{ 0, { 27, 39, 9, 2 } }, { 1, { 30, 14, 49, 30 } }, { 2, { 43, 22, 36, 53 } },
	{ 0, { 14, 15, 10, 23 } }, { 2, { 46, 48, 11, 29 } }, { 3, { 62, 55, 18, 37 } },
};

static const struct term first_1[] = {
	{ 0, 4 }, { 0, 6 }, { 1, 6 },
};

static const struct term second_1[] = {
	{ 0, 5 }, { 9, 0 }, { 10, 0 }, { 11, 0 }, { 0, 1 }, { 0, 2 }, { 0, 3 }, { 2, 6 },
	{ 3, 6 }, { 4, 6 },
};

static const struct term third_1[] = {
	{ 0, 0 }, { 12, 1 }, { 13, 1 }, { 14, 1 }, { 0, 2 }, { 5, 3 }, { 6, 3 }, { 7, 5 },
	{ 8, 5 },
};

static const struct permutation permutations_2[] = {
	{ 0, { 0, 0, 0, 0 } }, { 3, { 1, 0, 0, 0 } }, { 0, { 22, 27, 12, 13 } },
	{ 1, { 0, 30, 30, 19 } }, { 2, { 26, 28, 18, 14 } }, { 2, { 0, 7, 10, 15 } },
	{ 3, { 10, 1, 16, 20 } }, { 0, { 5, 8, 13, 17 } }, { 1, { 18, 20, 9, 4 } },
	{ 0, { 3, 26, 7, 4 } }, { 1, { 22, 24, 15, 11 } }, { 2, { 3, 4, 16, 17 } },
	{ 0, { 8, 12, 18, 20 } }, { 2, { 25, 23, 4, 8 } }, { 3, { 25, 15, 23, 22 } },
	{ 0, { 2, 15, 5, 19 } }, { 1, { 27, 22, 3, 15 } }, { 2, { 7, 31, 29, 5 } },
	{ 0, { 7, 3, 11, 21 } }, { 1, { 15, 29, 4, 17 } }, { 2, { 10, 21, 8, 9 } },
	{ 0, { 4, 2, 2, 20 } }, { 1, { 19, 5, 11, 18 } }, { 2, { 7, 11, 11, 31 } },
	{ 1, { 9, 26, 3, 13 } }, { 2, { 26, 9, 15, 2 } }, { 3, { 17, 17, 13, 18 } },
};

static const struct term first_2[] = {
	{ 0, 8 }, { 0, 10 }, { 1, 10 },
};

static const struct term second_2[] = {
	{ 0, 9 }, { 21, 0 }, { 22, 0 }, { 23, 0 }, { 0, 1 }, { 15, 2 }, { 16, 2 }, { 17, 2 },
	{ 0, 3 }, { 9, 4 }, { 10, 4 }, { 11, 4 }, { 0, 5 }, { 0, 6 }, { 0, 7 }, { 2, 10 },
	{ 3, 10 }, { 4, 10 },
};

static const struct term third_2[] = {
	{ 0, 0 }, { 24, 1 }, { 25, 1 }, { 26, 1 }, { 0, 2 }, { 18, 3 }, { 19, 3 }, { 20, 3 },
	{ 0, 4 }, { 12, 5 }, { 13, 5 }, { 14, 5 }, { 0, 6 }, { 5, 7 }, { 6, 7 }, { 7, 9 },
	{ 8, 9 },
};

/* The first block row begins with a, the second with b; the third ends with b's two terms, and lacks z. */
struct code {
	int K, m;
	const struct permutation *table;
	const struct term *first, *second, *third;
	int n1, n2, n3;
	const uint32_t *generator, *inverse;
};

static const struct code codes[] = {
	{ 2, 128, permutations_0, first_0, second_0, third_0, 3, 6, 5, half_generator, half_inverse },
	{ 4, 64, permutations_1, first_1, second_1, third_1, 3, 10, 9, two_thirds_generator, two_thirds_inverse },
	{ 8, 32, permutations_2, first_2, second_2, third_2, 3, 18, 17, four_fifths_generator, four_fifths_inverse },
};
