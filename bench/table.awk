# From lines as "code 1, bits: check 539 ns, 1855287 blocks/s" of the product, and of the C with "best C, " or
# "plain C, " before, in any number: a table of the shortest times, the rates they make, and how many times the
# C's the product's time is.
{
	by = sub(/^best C, /, "") ? "best" : sub(/^plain C, /, "") ? "plain" : "product"
	split($0, part, ": ")
	split(part[2], figure, / ns|, /)
	time = figure[1]
	sub(/.* /, "", time)
	call = figure[1]
	sub(/ [0-9]+$/, "", call)
	sub(/^code /, "", part[1])
	if (!sub(/, /, " | ", part[1]))
		part[1] = part[1] " | forms"
	row = part[1] " | " call
	if (!(row in seen)) {
		seen[row] = 1
		order[++rows] = row
	}
	if (!((by, row) in best) || time + 0 < best[by, row])
		best[by, row] = time + 0
}

# With commas between thousands.
function grouped(n,   s) {
	s = sprintf("%.0f", n)
	while (match(s, /[0-9][0-9][0-9][0-9]($|,)/))
		s = substr(s, 1, RSTART) "," substr(s, RSTART + 1)
	return s
}

function rate(row, ns,   blocks) {
	if (row ~ /fill/)
		return ""
	blocks = row ~ /64 lanes/ ? 64 : 1
	if (row ~ /\| check$/)
		return sprintf("%.2f M blocks/s", blocks * 1e3 / ns)
	return grouped(blocks * 1024e3 / ns) " Mbit/s"
}

# The columns of one row of the table, as far as there is C for it.
function columns(row, p,   best_c, plain_c) {
	best_c = best["best", row]
	plain_c = best["plain", row]
	if (!best_c)
		return " | | | | "
	return sprintf("%s | %.2f | %s | %s | %.2f", grouped(plain_c), p / plain_c, grouped(best_c),
		rate(row, best_c), p / best_c)
}

END {
	print "| code | elements | call | product, ns | rate | plain C, ns | product / plain | best C, ns | rate | product / best |"
	print "|---|---|---|---|---|---|---|---|---|---|"
	for (i = 1; i <= rows; i++) {
		row = order[i]
		p = best["product", row]
		printf "| %s | %s | %s | %s |\n", row, grouped(p), rate(row, p), columns(row, p)
	}
}
