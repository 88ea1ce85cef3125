/* Times a check and both coders by hand in C, after testing them, for one kind of element: uint8_t is one bit to
 * a byte, uint64_t 64 blocks side by side, and unsigned __int128 a form, its set in one half and its bit in the
 * other. With PLAIN, by the product's own loops, else as fast as we can. bench/compare builds and runs it.
 */
#include <stdio.h>
#include <stdlib.h>
#include <time.h>

#ifdef PLAIN
#include "plain.h"
#define WAY "plain C"
#else
#include "best.h"
#define WAY "best C"
#endif
#include "rows.h"

enum { ROUNDS = 400, CALLS = 20 };

static struct lists lists[3];

static void require(int holds, const char *what)
{
	if (!holds) {
		fprintf(stderr, WAY ": %s\n", what);
		exit(1);
	}
}

static element any_element(void)
{
	element e = rand() >> 8 & 1;
	for (size_t i = 1; sizeof(element) > 1 && i < 8 * sizeof(element); i++)
		e = e << 1 | (rand() >> 8 & 1);
	return e;
}

/* Both coders make one block, whose rows are zero; one changed element of it fails at the row that it should. */
static void test(int k, element *run, element *other)
{
	const struct code *c = &codes[k];
	int n = 4 * c->m * (c->K + 2), whole = 4 * c->m * (c->K + 3);
	for (int i = 0; i < 1024; i++)
		run[i] = other[i] = any_element();
	table_coder(run, &lists[k]);
	check_coder(other, &lists[k]);
	require(memcmp(run, other, whole * sizeof(element)) == 0, "the coders differ");
	require(failing(run, c) < 0, "a row is not zero");
	require(check(run, &lists[k]) == -1, "a codeblock does not pass");
	require(memcmp(run, other, whole * sizeof(element)) == 0, "check changes a codeblock");
	int at = rand() % n;
	run[at] ^= 1;
	int answer = check(run, &lists[k]);
	require(answer >= 0 && answer == failing(run, c), "a changed block fails elsewhere");
	run[at] ^= 1;
	check(run, &lists[k]);
}

static double seconds(void)
{
	struct timespec t;
	clock_gettime(CLOCK_MONOTONIC, &t);
	return t.tv_sec + t.tv_nsec * 1e-9;
}

/* The shortest time of a call, in nanoseconds, over many short rounds. */
#define BEST(best, call)                                        \
	do {                                                    \
		best = 1e9;                                     \
		for (int round = 0; round < ROUNDS; round++) {  \
			double start = seconds();               \
			for (int i = 0; i < CALLS; i++)         \
				call;                           \
			double spent = (seconds() - start) * 1e9 / CALLS; \
			best = spent < best ? spent : best;           \
		}                                               \
	} while (0)

int main(void)
{
	static element run[2560], other[2560];
	int blocks = sizeof(element) == 8 ? 64 : 1;
	const char *kind = sizeof(element) == 1 ? "bits" : blocks == 64 ? "64 lanes" : "forms";
	for (int k = 0; k < 3; k++) {
		double ns;
		volatile int answers = 0;
		prepare(&lists[k], k);
		for (int i = 0; i < 100; i++)
			test(k, run, other);
		BEST(ns, answers += check(run, &lists[k]));
		printf(WAY ", code %d, %s: check %.0f ns, %.0f blocks/s\n", k + 1, kind, ns, 1e9 * blocks / ns);
		BEST(ns, table_coder(run, &lists[k]));
		printf(WAY ", code %d, %s: table coder %.0f ns, %.0f Mbit/s\n", k + 1, kind, ns, 1024e3 * blocks / ns);
		BEST(ns, check_coder(run, &lists[k]));
		printf(WAY ", code %d, %s: check coder %.0f ns, %.0f Mbit/s\n", k + 1, kind, ns, 1024e3 * blocks / ns);
	}
	return 0;
}
