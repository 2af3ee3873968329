// Requests from SystemC, for bench/c: nanoseconds a request of 16 bytes, and a step, through a target
// with eight threads that block. Usage: requests CASE COUNT.
#include "hmc_target.h"

#include <cstdio>
#include <cstdlib>
#include <ctime>
#include <fstream>
#include <sstream>

#include <tlm_utils/simple_initiator_socket.h>

struct Traffic : sc_core::sc_module {
    tlm_utils::simple_initiator_socket<Traffic> out;
    SC_HAS_PROCESS(Traffic);
    Traffic(sc_core::sc_module_name name, unsigned count) : sc_module(name), out("out"), left(count) {
        for (unsigned i = 0; i < 8; i++)
            sc_core::sc_spawn([this] { run(); });
    }
    void run() {
        unsigned char data[16] = {1};
        while (left > 0) {
            left--;
            tlm::tlm_generic_payload payload;
            sc_core::sc_time delay = sc_core::SC_ZERO_TIME;
            payload.set_command(left % 2 ? tlm::TLM_READ_COMMAND : tlm::TLM_WRITE_COMMAND);
            payload.set_address(16 * (left / 2 % 64));
            payload.set_data_ptr(data);
            payload.set_data_length(16);
            payload.set_streaming_width(16);
            out->b_transport(payload, delay);
            wrong += !payload.is_response_ok();
        }
    }
    unsigned left, wrong = 0;
};

int sc_main(int words, char **word) {
    if (words != 3)
        return 2;
    std::stringstream text;
    text << std::ifstream(word[1]).rdbuf();
    const unsigned count = static_cast<unsigned>(std::atoi(word[2]));
    hmc::Target target("target", text.str(), hmc::AddressMap{1, 1024});
    Traffic traffic("traffic", count);
    traffic.out.bind(target.sockets[0]);
    const std::clock_t start = std::clock();
    sc_core::sc_start(1, sc_core::SC_SEC);
    const double took = static_cast<double>(std::clock() - start) * 1e9 / CLOCKS_PER_SEC;
    std::printf("%.1f %.1f\n", took / count,
                took / (static_cast<double>(target.rounds()) * target.memory().steps_of_round()));
    return traffic.wrong != 0 || traffic.left != 0;
}
