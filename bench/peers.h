// What the programs over other libraries share: a code's whole parity-check matrix as an alist file, and timing.
#include <algorithm>
#include <chrono>
#include <cstdio>
#include <fstream>
#include <string>
#include <vector>

typedef unsigned char element;
#include "codes.h"
#include "rows.h"

typedef std::vector<std::vector<int>> lists;

static size_t longest(const lists &all)
{
	size_t most = 0;
	for (const auto &list : all)
		most = std::max(most, list.size());
	return most;
}

static void write_lengths(std::ostream &out, const lists &all)
{
	for (const auto &list : all)
		out << list.size() << ' ';
	out << '\n';
}

static void write_lists(std::ostream &out, const lists &all)
{
	for (const auto &list : all) {
		for (size_t i = 0; i < longest(all); i++)
			out << (i < list.size() ? list[i] + 1 : 0) << ' ';
		out << '\n';
	}
}

// Writes 3M rows over N columns, the punctured ones among them, with parity before message, since both libraries
// solve for the first columns they can. No two terms of a row meet in a place.
static void write_alist(const std::string &path, const code &c)
{
	int M = 4 * c.m, N = (c.K + 3) * M;
	lists rows(3 * M), columns(N);
	std::vector<term> terms[3] = { { c.first, c.first + c.n1 }, { c.second, c.second + c.n2 },
				       { c.third, c.third + c.n3 } };
	terms[2].push_back({ 0, c.K + 2 });
	for (int r = 0; r < 3 * M; r++)
		for (term t : terms[r / M]) {
			rows[r].push_back((place_of(&c, t, r % M) + 3 * M) % N);
			columns[rows[r].back()].push_back(r);
		}
	std::ofstream out(path);
	out << columns.size() << ' ' << rows.size() << '\n' << longest(columns) << ' ' << longest(rows) << '\n';
	write_lengths(out, columns);
	write_lengths(out, rows);
	write_lists(out, columns);
	write_lists(out, rows);
}

// The shortest time of a call, in nanoseconds.
template <typename Call> double best(Call call)
{
	double shortest = 1e18;
	for (int round = 0; round < 100; round++) {
		auto start = std::chrono::steady_clock::now();
		call();
		std::chrono::duration<double, std::nano> spent = std::chrono::steady_clock::now() - start;
		shortest = std::min(shortest, spent.count());
	}
	return shortest;
}

static void report(const char *library, int k, const element *run, double ns)
{
	printf("%s, code %d, bits: coder %.0f ns, %.2f Mbit/s, its block %s\n", library, k + 1, ns, 1024e3 / ns,
	       failing(run, &codes[k]) < 0 ? "passes" : "does NOT pass");
}
