// A TLM-2.0 target in front of a network of Hybrid Memory Cubes.
//
// It has a socket for each initiator; the requests of socket i go in at host i modulo the hosts. A
// transaction may have any address, length and byte enables inside of the memory: it is split into
// reads and writes of 16 to 256 bytes that stay in a block, and what isn't whole multiples of 16
// bytes is written by masked writes. A round of the network takes one period while something is
// asked; else the network rests. Direct memory is refused, and a debug access
// reads the memory without a step.
//
// b_transport and the base protocol of nb_transport with four phases are served, on the same socket
// too. A transaction isn't atomic: its parts meet those of others.
#ifndef HMC_TARGET_H
#define HMC_TARGET_H

#include "hmc.hpp"

#include <algorithm>
#include <cstdio>
#include <deque>
#include <exception>
#include <memory>
#include <string>
#include <systemc>
#include <tlm>
#include <tlm_utils/simple_target_socket.h>

namespace hmc {

// How the addresses of a bus fall on cubes: cube i has those from i * cube_bytes on.
struct AddressMap {
    unsigned cubes;          // 1 to 8
    std::uint64_t cube_bytes; // block size * vaults * banks of a vault * rows of a bank
    unsigned block_bytes = 256;
};

class Target : public sc_core::sc_module {
public:
    using Socket = tlm_utils::simple_target_socket_tagged<Target>;
    sc_core::sc_vector<Socket> sockets;

    SC_HAS_PROCESS(Target);
    // Where `tape` names a file, the network keeps a tape, which memory().save writes as a case; the
    // target writes it to that file when it is destroyed in a run that failed: one that reported an
    // error, or that an exception ends.
    Target(sc_core::sc_module_name name, std::string_view text, AddressMap map,
           unsigned initiators = 1,
           sc_core::sc_time period = sc_core::sc_time(1, sc_core::SC_NS),
           std::string tape = std::string())
        : sc_module(name), sockets("sockets", initiators),
          memory_(tape.empty() ? Memory(text) : Memory::taped(text)), map_(map), period_(period),
          ports_(initiators), tape_(std::move(tape)) {
        for (unsigned i = 0; i < initiators; i++) {
            const int id = static_cast<int>(i);
            sockets[i].register_b_transport(this, &Target::b_transport, id);
            sockets[i].register_nb_transport_fw(this, &Target::nb_transport_fw, id);
            sockets[i].register_get_direct_mem_ptr(this, &Target::get_direct_mem_ptr, id);
            sockets[i].register_transport_dbg(this, &Target::transport_dbg, id);
        }
        SC_THREAD(run);
    }
    ~Target() override {
        if (!tape_.empty() && has_failed())
            save();
    }
    Memory &memory() { return memory_; }
    std::uint64_t rounds() const { return rounds_; }

private:
    using Payload = tlm::tlm_generic_payload;
    // A transaction under way: how many of its parts are, and what is to be done at the end.
    struct Transfer {
        Payload *payload;
        unsigned host;
        unsigned parts;
        bool has_failed;
        std::function<void()> end;
    };
    using Shared = std::shared_ptr<Transfer>;
    // The responses of a socket: of these the first is with the initiator.
    struct Port {
        std::deque<Payload *> responses;
    };

    static bool has_failed() {
        using sc_core::sc_report_handler;
        return sc_report_handler::get_count(sc_core::SC_ERROR) != 0 ||
               sc_report_handler::get_count(sc_core::SC_FATAL) != 0 ||
               std::uncaught_exceptions() != 0;
    }

    // A file that can't be written is no reason to end in another way.
    void save() noexcept {
        try {
            memory_.save(tape_);
        } catch (const std::exception &error) {
            std::fprintf(stderr, "%s: %s\n", name(), error.what());
        }
    }

    void run() {
        for (;;) {
            while (memory_.is_idle())
                wait(asked_);
            memory_.round();
            rounds_++;
            wait(period_);
        }
    }

    void b_transport(int id, Payload &payload, sc_core::sc_time &delay) {
        wait(delay);
        delay = sc_core::SC_ZERO_TIME;
        bool is_done = false;
        sc_core::sc_event done;
        begin(id, payload, [&] {
            is_done = true;
            done.notify(sc_core::SC_ZERO_TIME);
        });
        while (!is_done)
            wait(done);
    }

    tlm::tlm_sync_enum nb_transport_fw(int id, Payload &payload, tlm::tlm_phase &phase,
                                       sc_core::sc_time &) {
        if (phase == tlm::END_RESP) {
            end_response(id);
            return tlm::TLM_COMPLETED;
        }
        if (phase != tlm::BEGIN_REQ)
            return tlm::TLM_ACCEPTED;
        payload.acquire();
        begin(id, payload, [this, id, &payload] { respond(id, payload); });
        phase = tlm::END_REQ;
        return tlm::TLM_UPDATED;
    }

    bool get_direct_mem_ptr(int, Payload &, tlm::tlm_dmi &data) {
        data.allow_none();
        return false;
    }

    // Reads without a step, up to the first byte that there isn't; it doesn't write.
    unsigned transport_dbg(int, Payload &payload) {
        const unsigned length = payload.is_read() ? payload.get_data_length() : 0;
        unsigned read = 0;
        while (read < length) {
            const std::uint64_t address = payload.get_address() + read;
            const std::uint64_t skipped = address % 16;
            std::array<std::uint8_t, 16> block;
            if (address / map_.cube_bytes >= map_.cubes ||
                hmc_block(hmc_driver_session(memory_.driver()), cube_of(address),
                          address % map_.cube_bytes - skipped, block.data()) != HMC_OK)
                break;
            for (std::uint64_t i = skipped; i < 16 && read < length; i++)
                payload.get_data_ptr()[read++] = block[i];
        }
        return read;
    }

    // A response waits until the initiator has ended the one before it.
    void respond(int id, Payload &payload) {
        Port &port = ports_[static_cast<std::size_t>(id)];
        port.responses.push_back(&payload);
        if (port.responses.size() == 1)
            begin_response(id);
    }

    void begin_response(int id) {
        Port &port = ports_[static_cast<std::size_t>(id)];
        while (!port.responses.empty()) {
            tlm::tlm_phase phase = tlm::BEGIN_RESP;
            sc_core::sc_time delay = sc_core::SC_ZERO_TIME;
            Payload *first = port.responses.front();
            const auto sync = sockets[static_cast<std::size_t>(id)]->nb_transport_bw(
                *first, phase, delay);
            if (sync == tlm::TLM_ACCEPTED)
                return;
            port.responses.pop_front();
            first->release();
        }
    }

    void end_response(int id) {
        Port &port = ports_[static_cast<std::size_t>(id)];
        if (port.responses.empty())
            return;
        port.responses.front()->release();
        port.responses.pop_front();
        begin_response(id);
    }

    // Whether a transaction is one that the memory has.
    bool is_served(Payload &payload) const {
        const std::uint64_t end = map_.cubes * map_.cube_bytes;
        const std::uint64_t length = payload.get_data_length();
        if (payload.get_streaming_width() < length) {
            payload.set_response_status(tlm::TLM_BURST_ERROR_RESPONSE);
            return false;
        }
        if (payload.get_address() > end || length > end - payload.get_address()) {
            payload.set_response_status(tlm::TLM_ADDRESS_ERROR_RESPONSE);
            return false;
        }
        payload.set_response_status(tlm::TLM_OK_RESPONSE);
        return length != 0 && payload.get_command() != tlm::TLM_IGNORE_COMMAND;
    }

    // Asks for all parts of a transaction. Its end comes at once where there is none.
    void begin(int id, Payload &payload, std::function<void()> end) {
        if (!is_served(payload)) {
            end();
            return;
        }
        const unsigned host = static_cast<unsigned>(id) % memory_.hosts();
        // One part more while parts are added, so that the end comes after all of them.
        auto transfer = std::make_shared<Transfer>(
            Transfer{&payload, host, 1, false, std::move(end)});
        std::uint64_t at = 0;
        while (at < payload.get_data_length())
            at += payload.is_read() ? read_part(transfer, at) : write_part(transfer, at);
        end_part(transfer);
        asked_.notify(sc_core::SC_ZERO_TIME);
    }

    void end_part(const Shared &transfer) {
        if (--transfer->parts != 0)
            return;
        if (transfer->has_failed)
            transfer->payload->set_response_status(tlm::TLM_ADDRESS_ERROR_RESPONSE);
        transfer->end();
    }

    static bool is_enabled(const Payload &payload, std::uint64_t at) {
        const unsigned char *enables = payload.get_byte_enable_ptr();
        return !enables || enables[at % payload.get_byte_enable_length()] != TLM_BYTE_DISABLED;
    }

    // The bytes from an address on that stay in its block.
    std::uint64_t left_in_block(std::uint64_t address) const {
        return map_.block_bytes - address % map_.block_bytes;
    }
    std::uint8_t cube_of(std::uint64_t address) const {
        return static_cast<std::uint8_t>(address / map_.cube_bytes);
    }

    // Asks for a read that has the bytes from `at` on, and returns how many of them it has.
    std::uint64_t read_part(const Shared &transfer, std::uint64_t at) {
        Payload &payload = *transfer->payload;
        const std::uint64_t address = payload.get_address() + at;
        const std::uint64_t skipped = address % 16;
        const std::uint64_t start = address - skipped;
        const std::uint64_t wanted = (skipped + payload.get_data_length() - at + 15) / 16 * 16;
        std::uint64_t size = std::min(wanted, left_in_block(start));
        size = size == 256 ? size : std::min<std::uint64_t>(size, 128);
        const std::uint64_t part =
            std::min<std::uint64_t>(size - skipped, payload.get_data_length() - at);
        transfer->parts++;
        memory_.read(transfer->host, cube_of(start), start % map_.cube_bytes, size,
                     [=](const hmc_entry_t &entry) {
                         copy_out(*transfer, entry, at, skipped, part);
                         end_part(transfer);
                     });
        return part;
    }

    static void copy_out(Transfer &transfer, const hmc_entry_t &entry, std::uint64_t at,
                         std::uint64_t skipped, std::uint64_t part) {
        if (entry.answer != 2) {
            transfer.has_failed = true;
            return;
        }
        unsigned char *data = transfer.payload->get_data_ptr();
        for (std::uint64_t i = 0; i < part; i++)
            if (is_enabled(*transfer.payload, at + i))
                data[at + i] = entry.returned[skipped + i];
    }

    // The bytes from `at` on that can be written whole: a number of them that a write has, or 0.
    std::uint64_t whole_bytes(const Payload &payload, std::uint64_t at) const {
        const std::uint64_t address = payload.get_address() + at;
        if (address % 16 != 0)
            return 0;
        const std::uint64_t most =
            std::min<std::uint64_t>(payload.get_data_length() - at, left_in_block(address));
        std::uint64_t whole = 0;
        while (whole < most && is_enabled(payload, at + whole))
            whole++;
        return whole == 256 ? whole : std::min<std::uint64_t>(whole / 16 * 16, 128);
    }

    // Asks for a write of bytes from `at` on, and returns how many of them it has.
    std::uint64_t write_part(const Shared &transfer, std::uint64_t at) {
        const std::uint64_t whole = whole_bytes(*transfer->payload, at);
        if (whole == 0)
            return write_masked_part(transfer, at);
        const std::uint64_t address = transfer->payload->get_address() + at;
        transfer->parts++;
        memory_.write(transfer->host, cube_of(address), address % map_.cube_bytes,
                      Bytes(transfer->payload->get_data_ptr() + at, whole), ender(transfer));
        return whole;
    }

    // The same for bytes of one group of 8, by a masked write where one of them is enabled.
    std::uint64_t write_masked_part(const Shared &transfer, std::uint64_t at) {
        const Payload &payload = *transfer->payload;
        const std::uint64_t address = payload.get_address() + at;
        const std::uint64_t skipped = address % 8;
        const std::uint64_t part =
            std::min<std::uint64_t>(8 - skipped, payload.get_data_length() - at);
        std::array<std::uint8_t, 8> bytes{}, mask{};
        bool has_any = false;
        for (std::uint64_t i = 0; i < part; i++) {
            if (!is_enabled(payload, at + i))
                continue;
            bytes[skipped + i] = payload.get_data_ptr()[at + i];
            mask[skipped + i] = 0xff;
            has_any = true;
        }
        if (has_any) {
            const std::uint64_t start = address - skipped;
            transfer->parts++;
            memory_.write_masked(transfer->host, cube_of(start), start % map_.cube_bytes, bytes,
                                 mask, ender(transfer));
        }
        return part;
    }

    Memory::Done ender(const Shared &transfer) {
        return [this, transfer](const hmc_entry_t &entry) {
            transfer->has_failed |= entry.answer != 1;
            end_part(transfer);
        };
    }

    Memory memory_;
    AddressMap map_;
    sc_core::sc_time period_;
    std::vector<Port> ports_;
    std::string tape_;
    sc_core::sc_event asked_;
    std::uint64_t rounds_ = 0;
};

} // namespace hmc
#endif
