// Times GNU Radio's LDPC encoder on the three codes, and tests its blocks by our rows. The argument is a path for
// the matrices.
#include <gnuradio/fec/ldpc_encoder.h>

#include "peers.h"

int main(int, char **argv)
{
	for (int k = 0; k < 3; k++) {
		write_alist(argv[1], codes[k]);
		auto coder = gr::fec::ldpc_encoder::make(argv[1]);
		std::vector<element> message(coder->get_input_size()), block(coder->get_output_size());
		for (auto &bit : message)
			bit = rand() >> 8 & 1;
		double ns = best([&] { coder->generic_work(message.data(), block.data()); });
		std::vector<element> run(message);
		run.insert(run.end(), block.begin(), block.end() - 1024);
		report("GNU Radio", k, run.data(), ns);
	}
}
