// Times IT++'s systematic LDPC generator on the three codes, and tests its blocks by our rows. The argument is a
// path for the matrices.
#include <itpp/itcomm.h>

#include "peers.h"

int main(int, char **argv)
{
	for (int k = 0; k < 3; k++) {
		write_alist(argv[1], codes[k]);
		itpp::LDPC_Parity H(argv[1], "alist");
		itpp::LDPC_Generator_Systematic G(&H, true);
		itpp::bvec message = itpp::randb(1024), block;
		double ns = best([&] { G.encode(message, block); });
		std::vector<element> run;
		for (int i = 0; i < block.size(); i++)
			run.push_back(int(i < 1024 ? message[i] : block[i]));
		report("IT++", k, run.data(), ns);
	}
}
