// Two initiators at one target: one blocks, with any addresses, lengths and byte enables; the other
// has eight transactions at once. Each byte is compared with a plain copy of the memory.
// Usage: test CASE COUNT. The case has two cubes of 1,024 bytes. Ends with 0 where all is well.
#include "hmc_target.h"

#include <tlm_utils/simple_initiator_socket.h>

#include <chrono>
#include <cstdio>
#include <cstdlib>
#include <fstream>
#include <sstream>

using sc_core::SC_ZERO_TIME;
using sc_core::sc_time;
using Payload = tlm::tlm_generic_payload;

constexpr std::uint64_t CUBE = 1024;
constexpr unsigned ALL = 8; // transactions at once

static unsigned long wrong = 0;
static unsigned done = 0;

static void want(bool is_so, const char *what) {
    if (is_so)
        return;
    wrong++;
    std::fprintf(stderr, "not so: %s\n", what);
}

struct Random {
    unsigned seed;
    unsigned below(unsigned limit) {
        seed = seed * 1103515245u + 12345u;
        return (seed >> 9) % limit;
    }
};

static void fill(Payload &p, tlm::tlm_command command, std::uint64_t at, unsigned char *data,
                 unsigned length) {
    p.set_command(command);
    p.set_address(at);
    p.set_data_ptr(data);
    p.set_data_length(length);
    p.set_streaming_width(length);
    p.set_byte_enable_ptr(nullptr);
    p.set_dmi_allowed(false);
    p.set_response_status(tlm::TLM_INCOMPLETE_RESPONSE);
}

// Uses the lower half of both cubes.
struct Blocking : sc_core::sc_module {
    tlm_utils::simple_initiator_socket<Blocking> out;
    SC_HAS_PROCESS(Blocking);
    Blocking(sc_core::sc_module_name name, unsigned count)
        : sc_module(name), out("out"), count_(count) {
        SC_THREAD(run);
    }

private:
    tlm::tlm_response_status send(Payload &p) {
        sc_time delay = SC_ZERO_TIME;
        out->b_transport(p, delay);
        return p.get_response_status();
    }
    void misuse() {
        Payload p;
        tlm::tlm_dmi dmi;
        fill(p, tlm::TLM_READ_COMMAND, 2 * CUBE - 8, data_, 16);
        want(send(p) == tlm::TLM_ADDRESS_ERROR_RESPONSE, "past the end");
        fill(p, tlm::TLM_READ_COMMAND, ~0ull, data_, 16);
        want(send(p) == tlm::TLM_ADDRESS_ERROR_RESPONSE, "the greatest address");
        fill(p, tlm::TLM_READ_COMMAND, 0, data_, 16);
        p.set_streaming_width(8);
        want(send(p) == tlm::TLM_BURST_ERROR_RESPONSE, "a streaming width");
        fill(p, tlm::TLM_IGNORE_COMMAND, 0, data_, 16);
        want(send(p) == tlm::TLM_OK_RESPONSE, "nothing is asked");
        want(!out->get_direct_mem_ptr(p, dmi), "direct memory");
        p.set_write();
        want(out->transport_dbg(p) == 0, "a debug write");
    }
    void one() {
        const unsigned half = static_cast<unsigned>(CUBE / 2);
        const unsigned offset = random_.below(half);
        const unsigned length = 1 + random_.below(half - offset);
        const std::uint64_t at = CUBE * random_.below(2) + offset;
        const bool is_write = random_.below(2);
        const unsigned enables = random_.below(3) ? 0 : 1 + random_.below(16);
        unsigned char mask[16];
        for (unsigned i = 0; i < 16; i++)
            mask[i] = random_.below(2) ? TLM_BYTE_ENABLED : TLM_BYTE_DISABLED;
        for (unsigned i = 0; i < length; i++)
            data_[i] = static_cast<unsigned char>(random_.below(256));
        std::copy(data_, data_ + length, was_);
        Payload p;
        fill(p, is_write ? tlm::TLM_WRITE_COMMAND : tlm::TLM_READ_COMMAND, at, data_, length);
        if (enables) {
            p.set_byte_enable_ptr(mask);
            p.set_byte_enable_length(enables);
        }
        want(send(p) == tlm::TLM_OK_RESPONSE, "the response of a blocking transaction");
        for (unsigned i = 0; i < length; i++) {
            const bool is_on = !enables || mask[i % enables] == TLM_BYTE_ENABLED;
            if (is_write && is_on)
                copy_[at + i] = was_[i];
            want(data_[i] == (!is_write && is_on ? copy_[at + i] : was_[i]), "a byte");
        }
        done++;
    }
    // Compares the lower half of a cube by a debug access, which may begin at any address.
    void look(std::uint64_t at) {
        Payload p;
        const unsigned length = static_cast<unsigned>(CUBE / 2) - 3;
        fill(p, tlm::TLM_READ_COMMAND, at + 3, data_, length);
        want(out->transport_dbg(p) == length, "the length of a debug access");
        want(std::equal(data_, data_ + length, copy_ + at + 3), "the bytes of a debug access");
    }
    void run() {
        misuse();
        for (unsigned i = 0; i < count_; i++)
            one();
        for (unsigned i = 0; i < 2; i++)
            look(CUBE * i);
    }
    unsigned count_;
    Random random_{7};
    unsigned char data_[CUBE], was_[CUBE], copy_[2 * CUBE] = {};
};

struct Pool : tlm::tlm_mm_interface {
    void free(Payload *p) override {
        delete[] p->get_data_ptr();
        p->reset();
        delete p;
    }
};

// Uses the upper half of both cubes, each 64 bytes for one transaction at a time.
struct Pipelined : sc_core::sc_module {
    tlm_utils::simple_initiator_socket<Pipelined> out;
    SC_HAS_PROCESS(Pipelined);
    Pipelined(sc_core::sc_module_name name, unsigned count)
        : sc_module(name), out("out"), count_(count) {
        out.register_nb_transport_bw(this, &Pipelined::nb_transport_bw);
        SC_THREAD(run);
        SC_THREAD(end_responses);
    }

private:
    void begin(unsigned place) {
        auto *p = new Payload(&pool_);
        auto *data = new unsigned char[64];
        const bool is_write = random_.below(2);
        for (unsigned i = 0; i < 64; i++)
            data[i] = static_cast<unsigned char>(random_.below(256));
        p->acquire();
        fill(*p, is_write ? tlm::TLM_WRITE_COMMAND : tlm::TLM_READ_COMMAND,
             place / 8 * CUBE + CUBE / 2 + place % 8 * 64, data, 64);
        if (is_write)
            std::copy(data, data + 64, copy_[place]);
        is_busy_[place] = true;
        flying_++;
        tlm::tlm_phase phase = tlm::BEGIN_REQ;
        sc_time delay = SC_ZERO_TIME;
        want(out->nb_transport_fw(*p, phase, delay) == tlm::TLM_UPDATED && phase == tlm::END_REQ,
             "a request is accepted at once");
    }
    void run() {
        for (unsigned i = 0; i < count_;) {
            const unsigned place = random_.below(16);
            if (flying_ == ALL || is_busy_[place]) {
                wait(freed_);
                continue;
            }
            begin(place);
            i++;
        }
    }
    tlm::tlm_sync_enum nb_transport_bw(Payload &p, tlm::tlm_phase &phase, sc_time &) {
        want(phase == tlm::BEGIN_RESP && !is_responding_, "one response at a time");
        const unsigned place = static_cast<unsigned>(p.get_address() / CUBE * 8 +
                                                     p.get_address() % CUBE / 64 - 8);
        want(p.is_response_ok(), "the response of a transaction");
        want(!p.is_read() || std::equal(copy_[place], copy_[place] + 64, p.get_data_ptr()),
             "the bytes of a read");
        is_busy_[place] = false;
        flying_--;
        done++;
        freed_.notify(SC_ZERO_TIME);
        // Each third response is ended later, by a call.
        if (done % 3 == 0) {
            is_responding_ = &p;
            late_.notify(sc_time(3, sc_core::SC_NS));
            return tlm::TLM_ACCEPTED;
        }
        p.release();
        phase = tlm::END_RESP;
        return tlm::TLM_COMPLETED;
    }
    void end_responses() {
        for (;;) {
            wait(late_);
            Payload *p = std::exchange(is_responding_, nullptr);
            tlm::tlm_phase phase = tlm::END_RESP;
            sc_time delay = SC_ZERO_TIME;
            out->nb_transport_fw(*p, phase, delay);
            p->release();
        }
    }
    unsigned count_, flying_ = 0;
    Random random_{3};
    unsigned char copy_[16][64] = {};
    bool is_busy_[16] = {};
    Payload *is_responding_ = nullptr;
    sc_core::sc_event freed_, late_;
    Pool pool_;
};

// A bench that fails: it reads, and then reports an error.
struct Failing : sc_core::sc_module {
    tlm_utils::simple_initiator_socket<Failing> out;
    SC_HAS_PROCESS(Failing);
    explicit Failing(sc_core::sc_module_name name) : sc_module(name), out("out") {
        SC_THREAD(run);
    }
    void run() {
        unsigned char bytes[16] = {};
        Payload payload;
        sc_time delay = SC_ZERO_TIME;
        payload.set_command(tlm::TLM_READ_COMMAND);
        payload.set_address(0x440);
        payload.set_data_ptr(bytes);
        payload.set_data_length(sizeof bytes);
        payload.set_streaming_width(sizeof bytes);
        out->b_transport(payload, delay);
        SC_REPORT_ERROR("bench", "it fails here");
    }
};

// A run that fails: the target leaves its case in the file.
static int fail_at(const std::string &text, const std::string &tape) {
    const sc_time period(1, sc_core::SC_NS);
    hmc::Target target("target", text, hmc::AddressMap{2, CUBE}, 1, period, tape);
    Failing failing("failing");
    failing.out.bind(target.sockets[0]);
    sc_core::sc_start(1, sc_core::SC_SEC);
    return 0;
}

int sc_main(int words, char **word) {
    if (words != 3 && words != 4)
        return 2;
    std::ifstream file(word[1]);
    std::stringstream text;
    text << file.rdbuf();
    if (words == 4)
        return fail_at(text.str(), word[3]);
    const unsigned count = static_cast<unsigned>(std::atoi(word[2]));
    hmc::Target target("target", text.str(), hmc::AddressMap{2, CUBE}, 2);
    Blocking blocking("blocking", count);
    Pipelined pipelined("pipelined", count);
    blocking.out.bind(target.sockets[0]);
    pipelined.out.bind(target.sockets[1]);
    const auto start = std::chrono::steady_clock::now();
    sc_core::sc_start(1, sc_core::SC_SEC);
    const std::chrono::duration<double> took = std::chrono::steady_clock::now() - start;
    want(done == 2 * count, "each transaction is done");
    std::printf("systemc: %u transactions, %lu wrong, %llu rounds of %u steps, %.0f ns a step\n",
                done, wrong, static_cast<unsigned long long>(target.rounds()),
                target.memory().steps_of_round(),
                took.count() * 1e9 / static_cast<double>(target.rounds()) /
                    target.memory().steps_of_round());
    return wrong != 0;
}
