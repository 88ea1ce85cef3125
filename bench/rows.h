/* The rows of a whole block by their definition, place by place: what every coder's blocks are tested by. */
/* The place of a whole block that a term adds to row i of its block row. */
static int place_of(const struct code *c, struct term term, int i)
{
	const struct permutation *p = &c->table[term.t];
	int j = i / c->m;
	return 4 * c->m * term.g + c->m * ((p->theta + j) % 4) + (p->phi[j] + i) % c->m;
}

static element row(const element *run, const struct code *c, const struct term *terms, int count, int i)
{
	element sum = 0;
	for (int k = 0; k < count; k++)
		sum ^= run[place_of(c, terms[k], i)];
	return sum;
}

/* The lowest row that is not zero, or -1. */
static int failing(const element *run, const struct code *c)
{
	int M = 4 * c->m;
	for (int i = 0; i < M; i++)
		if (row(run, c, c->first, c->n1, i))
			return i;
	for (int i = 0; i < M; i++)
		if (row(run, c, c->second, c->n2, i))
			return M + i;
	for (int i = 0; i < M; i++)
		if (row(run, c, c->third, c->n3, i) ^ run[(c->K + 2) * M + i])
			return 2 * M + i;
	return -1;
}
