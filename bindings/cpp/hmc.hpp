// The library for C++: sessions that close themselves, a memory that answers by callbacks, and
// reports of whole cases.
//
// A header over hmc.h and hmc_driver.h; no proof covers it. C++17, and std::span where there is
// one. Each class is for one thread at a time, can be moved and not copied. What goes wrong throws
// hmc::Error, which has the status, and out of memory std::bad_alloc.
#ifndef HMC_HPP
#define HMC_HPP

#include "hmc.h"
#include "hmc_driver.h"

#include <array>
#include <cerrno>
#include <cstdint>
#include <cstring>
#include <functional>
#include <memory>
#include <new>
#include <stdexcept>
#include <string>
#include <string_view>
#include <unordered_map>
#include <utility>
#include <vector>
#if defined(__has_include)
#if __has_include(<span>) && __cplusplus >= 202002L
#include <span>
#endif
#endif

namespace hmc {

#if defined(__cpp_lib_span)
using Bytes = std::span<const std::uint8_t>;
#else
// Bytes that someone else keeps.
class Bytes {
public:
    Bytes() = default;
    Bytes(const std::uint8_t *at, std::size_t length) : at_(at), length_(length) {}
    Bytes(const std::vector<std::uint8_t> &from) : at_(from.data()), length_(from.size()) {}
    template <std::size_t N>
    Bytes(const std::array<std::uint8_t, N> &from) : at_(from.data()), length_(N) {}
    const std::uint8_t *data() const { return at_; }
    std::size_t size() const { return length_; }

private:
    const std::uint8_t *at_ = nullptr;
    std::size_t length_ = 0;
};
#endif

// A bit mask of a landing, and a flit.
using Flit = std::array<std::uint8_t, 16>;

// A call that did nothing, with the status that says why. Where a text is at fault it is a Fault.
class Error : public std::runtime_error {
public:
    Error(const char *call, std::uint8_t status)
        : std::runtime_error(std::string(call) + ": " + hmc_status_name(status)), status_(status) {}
    Error(const std::string &said, std::uint8_t status)
        : std::runtime_error(said), status_(status) {}
    std::uint8_t status() const { return status_; }

private:
    std::uint8_t status_;
};

inline void require(const char *call, std::uint8_t status) {
    if (status == HMC_MEMORY)
        throw std::bad_alloc();
    if (status != HMC_OK)
        throw Error(call, status);
}

// The bytes of a text. The calls want a pointer also where there are none.
inline const std::uint8_t *bytes_of(std::string_view text) {
    return reinterpret_cast<const std::uint8_t *>(text.empty() ? "" : text.data());
}

// A text that is no case, request or schedule, with its first fault: what() ends with it as
// docs/case.md, docs/script.md and docs/schedule.md have it, as `bad link 0 range`.
class Fault : public Error {
public:
    Fault(const char *call, const hmc_fault_t &fault)
        : Error((std::string(call) + ": bad " + section_of(fault) + " " +
                 std::to_string(fault.line) + " " + kind_of(fault)),
                HMC_BAD),
          section_(section_of(fault)), line_(fault.line), kind_(kind_of(fault)) {}
    // One of toml, top, cube, net, link, script and schedule.
    const std::string &section() const { return section_; }
    // Of a cube or a link its number, from 0; of a script or a schedule its line, from 1; else 0.
    std::uint32_t line() const { return line_; }
    // What is wrong, in a word.
    const std::string &kind() const { return kind_; }

private:
    static std::string section_of(const hmc_fault_t &fault) {
        return hmc_section_name(fault.section);
    }
    static std::string kind_of(const hmc_fault_t &fault) {
        return reinterpret_cast<const char *>(fault.word);
    }

    std::string section_;
    std::uint32_t line_;
    std::string kind_;
};

// The same where the text may be at fault: `find` is the call that shows its first fault.
template <class Find> void require_text(const char *call, std::uint8_t status, Find find) {
    hmc_fault_t fault;
    if (status == HMC_BAD && find(&fault) == HMC_OK)
        throw Fault(call, fault);
    require(call, status);
}

inline void require_case(const char *call, std::uint8_t status, std::string_view text) {
    require_text(call, status, [text](hmc_fault_t *fault) {
        return hmc_fault(bytes_of(text), text.size(), fault);
    });
}

// Logic units (docs/units.md) that never worked, at most 8: the one at place i is in slot i.
using Units = std::vector<hmc_unit_t>;

inline const hmc_unit_t *units_at(const Units &units) {
    static const hmc_unit_t none{};
    return units.empty() ? &none : units.data();
}

// A text that a call writes into a room of so many bytes, with its length also where it doesn't
// fit: then there is a second call. The status is left to be judged.
template <class Write>
std::string written(std::uint8_t &status, std::size_t room, Write write) {
    std::string text(room, '\0');
    std::size_t length = 0;
    const auto into = [&] {
        return write(reinterpret_cast<std::uint8_t *>(&text[0]), text.size(), &length);
    };
    status = into();
    if (status == HMC_NONE && length > text.size()) {
        text.resize(length);
        status = into();
    }
    text.resize(length);
    return text;
}

// A request: the code of its command (docs/packets.md), its cube, an address below 2^34, and as
// many bytes as the command has.
struct Request {
    std::uint8_t code;
    std::uint8_t cube;
    std::uint64_t address;
    Bytes payload;
};

// The code of rd16 to rd128 and rd256, and of wr16 to wr128 and wr256. The size is that of the
// name; with another one it throws.
inline std::uint8_t read_code(std::size_t size) {
    if (size == 256)
        return 119;
    if (size < 16 || size > 128 || size % 16 != 0)
        throw Error("a read of this size", HMC_BAD);
    return static_cast<std::uint8_t>(48 + size / 16 - 1);
}

inline std::uint8_t write_code(std::size_t size) {
    if (size == 256)
        return 79;
    if (size < 16 || size > 128 || size % 16 != 0)
        throw Error("a write of this size", HMC_BAD);
    return static_cast<std::uint8_t>(8 + size / 16 - 1);
}

// A session of a case (docs/case.md).
class Session {
public:
    explicit Session(std::string_view text, const Units &units = {}) {
        require_case("open", hmc_open_with(bytes_of(text), text.size(), units_at(units),
                                           units.size(), &handle_), text);
    }
    // The same with a tape.
    static Session taped(std::string_view text, const Units &units = {}) {
        Session session;
        require_case("open", hmc_open_taped(bytes_of(text), text.size(), units_at(units),
                                            units.size(), &session.handle_), text);
        return session;
    }
    ~Session() { hmc_close(&handle_); }
    Session(const Session &) = delete;
    Session &operator=(const Session &) = delete;
    Session(Session &&from) noexcept : handle_(std::exchange(from.handle_, hmc_session{})) {}
    Session &operator=(Session &&from) noexcept {
        std::swap(handle_, from.handle_);
        return *this;
    }

    // Asks a host for one request more; throws where it may not.
    void request(std::uint8_t host, const Request &asked, bool fenced = false,
                 bool poisoned = false) {
        static const std::uint8_t none[1] = {0};
        const std::uint8_t *payload = asked.payload.size() ? asked.payload.data() : none;
        require("request", hmc_request(&handle_, host, fenced, poisoned, asked.code, asked.cube,
                                       asked.address, payload, asked.payload.size()));
    }
    // Asks for the one request that a text states, in the words of a script (docs/script.md).
    void ask(std::string_view text) {
        require_text("ask", hmc_ask(&handle_, bytes_of(text), text.size()),
                     [&](hmc_fault_t *fault) {
                         return hmc_ask_fault(&handle_, bytes_of(text), text.size(), fault);
                     });
    }
    // Asks a host for nothing more from now on.
    void finish(std::uint8_t host) { require("finish", hmc_finish(&handle_, host)); }
    // Takes a step. Returns HMC_OK, HMC_PASSED or HMC_WAITS, and throws where there is no such step
    // or none may be taken.
    std::uint8_t step(std::uint8_t kind, std::uint8_t a = 0, std::uint8_t b = 0,
                      std::uint8_t c = 0, const Flit &mask = Flit{}) {
        const std::uint8_t status = hmc_step(&handle_, kind, a, b, c, mask.data());
        if (status != HMC_PASSED && status != HMC_WAITS)
            require("step", status);
        return status;
    }
    // Lays down the steps that a text states, in the words of a schedule (docs/schedule.md), in
    // place of those that are left.
    void lay(std::string_view text) {
        require_text("lay", hmc_lay(&handle_, bytes_of(text), text.size()),
                     [&](hmc_fault_t *fault) {
                         return hmc_lay_fault(&handle_, bytes_of(text), text.size(), fault);
                     });
    }
    // Takes laid steps, and tries at most so many, up to an entry whose kind k has the bit k set in
    // `stops`. Returns how many were taken; throws where a step may not be taken any more, also
    // after it took steps.
    std::uint32_t run(std::uint32_t most, std::uint32_t stops = 0) {
        std::uint32_t steps = 0;
        const std::uint8_t status = hmc_run(&handle_, most, stops, &steps);
        if (status != HMC_NONE)
            require("run", status);
        return steps;
    }
    // The latest entry; throws before the first step.
    hmc_entry_t entry() {
        hmc_entry_t shown;
        require("entry", hmc_entry(&handle_, &shown));
        return shown;
    }
    // The line of the latest entry, with its line feed; throws before the first step.
    std::string line() {
        std::array<std::uint8_t, 2048> text;
        std::size_t length = 0;
        require("line", hmc_line(&handle_, text.data(), text.size(), &length));
        return std::string(text.begin(), text.begin() + static_cast<std::ptrdiff_t>(length));
    }
    // The tape: the requests as a script, and the steps as a schedule; throws where there is none.
    std::string tape_script() {
        return tape_text([this](std::uint8_t *out, std::size_t room, std::size_t *length) {
            return hmc_tape_script(&handle_, out, room, length);
        });
    }
    std::string tape_schedule() {
        return tape_text([this](std::uint8_t *out, std::size_t room, std::size_t *length) {
            return hmc_tape_schedule(&handle_, out, room, length);
        });
    }
    // The handle, for the calls of hmc.h.
    hmc_session *handle() { return &handle_; }

private:
    Session() = default;
    template <class Write> static std::string tape_text(Write write) {
        std::uint8_t status = HMC_OK;
        std::string text = written(status, 4096, write);
        require("the tape", status);
        return text;
    }

    hmc_session handle_{};
};

// A report (docs/report.md), and whether it ends with a landing that passed.
struct Report {
    std::string text;
    bool passed;
};

// The report of a case; throws where the text is no case or there is no such unit.
inline Report run_case(std::string_view text, const Units &units = {}) {
    std::uint8_t status = HMC_OK;
    Report made{written(status, 1 << 20,
                        [&](std::uint8_t *out, std::size_t room, std::size_t *length) {
                            return hmc_run_case(bytes_of(text), text.size(), units_at(units),
                                                units.size(), out, room, length);
                        }),
                false};
    made.passed = status == HMC_PASSED;
    if (!made.passed)
        require_case("run_case", status, text);
    return made;
}

// Whether a report is that of a case. Where it is, `number` is how many entries it has, else the
// first line, from 1, that shows that it isn't.
struct Verdict {
    bool lawful;
    std::uint32_t number;
};

inline Verdict check(std::string_view text, std::string_view report, const Units &units = {}) {
    Verdict verdict{false, 0};
    const std::uint8_t status =
        hmc_check(bytes_of(text), text.size(), bytes_of(report), report.size(), units_at(units),
                  units.size(), &verdict.number);
    verdict.lawful = status == HMC_OK;
    if (status != HMC_UNLAWFUL)
        require_case("check", status, text);
    return verdict;
}

// A network that is asked by functions: each request has one, which is called once with its answer,
// or for a posted request with what was given. It is stepped in rounds.
class Memory {
public:
    using Done = std::function<void(const hmc_entry_t &)>;

    // A case whose script has no requests.
    explicit Memory(std::string_view text) : Memory(text, false) {}
    // The same with a tape.
    static Memory taped(std::string_view text) { return Memory(text, true); }
    // Writes the case that replays what was done so far to a file, of a memory with a tape; throws
    // std::runtime_error where the file can't be written.
    void save(const std::string &path) {
        const std::uint8_t status = hmc_driver_save(driver_.get(), path.c_str());
        const int number = errno;
        if (status == HMC_NONE)
            throw std::runtime_error("the tape is not saved to " + path + ": " +
                                     std::strerror(number));
        require("save", status);
    }

    // Asks a host for a request. Where this throws, `done` isn't called.
    void request(std::uint8_t host, const Request &asked, Done done) {
        const std::uint64_t id = next_++;
        const auto at = calls_.emplace(id, std::move(done)).first;
        const std::uint8_t status =
            hmc_driver_request(driver_.get(), host, asked.code, asked.cube, asked.address,
                               asked.payload.data(), asked.payload.size(), id);
        if (status != HMC_OK)
            calls_.erase(at);
        require("request", status);
    }
    void read(std::uint8_t host, std::uint8_t cube, std::uint64_t address, std::size_t size,
              Done done) {
        request(host, Request{read_code(size), cube, address, Bytes{}}, std::move(done));
    }
    void write(std::uint8_t host, std::uint8_t cube, std::uint64_t address, Bytes bytes,
               Done done) {
        request(host, Request{write_code(bytes.size()), cube, address, bytes}, std::move(done));
    }
    // Writes the bits of 8 bytes that a mask has, at a multiple of 8.
    void write_masked(std::uint8_t host, std::uint8_t cube, std::uint64_t address,
                      const std::array<std::uint8_t, 8> &bytes,
                      const std::array<std::uint8_t, 8> &mask, Done done) {
        std::array<std::uint8_t, 16> both;
        for (std::size_t i = 0; i < 8; i++) {
            both[i] = bytes[i];
            both[8 + i] = mask[i];
        }
        constexpr std::uint8_t bit_write = 17;
        request(host, Request{bit_write, cube, address, Bytes(both.data(), both.size())},
                std::move(done));
    }

    // Takes one round, and calls what is done in it. A call may ask for more, and may throw: then
    // the rest of the round is taken by the next call.
    void round() {
        std::uint64_t id = 0;
        hmc_entry_t entry;
        std::uint8_t status;
        while ((status = hmc_driver_go(driver_.get(), &id, &entry)) == HMC_OK) {
            const auto at = calls_.find(id);
            const Done done = std::move(at->second);
            calls_.erase(at);
            if (done)
                done(entry);
        }
        if (status != HMC_NONE)
            throw Error("round", status);
    }
    // Whether every request is done.
    bool is_idle() const { return calls_.empty(); }
    std::uint8_t hosts() const { return hmc_driver_hosts(driver_.get()); }
    std::uint32_t steps_of_round() const { return hmc_driver_steps_of_round(driver_.get()); }
    // The driver, for the calls of hmc_driver.h that only look, and for sends and landings of one's
    // own. A take of one's own loses the call of its answer.
    hmc_driver *driver() { return driver_.get(); }

private:
    Memory(std::string_view text, bool is_taped) {
        const auto open = is_taped ? hmc_driver_open_taped : hmc_driver_open;
        std::uint8_t status = HMC_OK;
        driver_.reset(open(bytes_of(text), text.size(), &status));
        require_text("open", status, [&](hmc_fault_t *fault) {
            const std::uint8_t found = hmc_fault(bytes_of(text), text.size(), fault);
            if (found == HMC_NONE)
                throw Error(std::string("open: the script has requests") +
                                (is_taped ? ", or a key has an escape" : ""),
                            HMC_BAD);
            return found;
        });
    }

    struct Close {
        void operator()(hmc_driver *driver) const { hmc_driver_close(driver); }
    };
    std::unique_ptr<hmc_driver, Close> driver_;
    std::unordered_map<std::uint64_t, Done> calls_;
    std::uint64_t next_ = 0;
};

} // namespace hmc
#endif
