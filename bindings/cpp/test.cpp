// Misuse, moves, writes and reads that are answered by callbacks, tapes, logic units and reports.
// Ends with 0 if all is well.
#include "hmc.hpp"

#include <algorithm>
#include <cstdio>
#include <cstdlib>
#include <fstream>
#include <sstream>

static void want(bool is_so, const char *what) {
    if (!is_so) {
        std::fprintf(stderr, "not so: %s\n", what);
        std::exit(1);
    }
}

template <class Call> static void want_error(std::uint8_t status, const char *what, Call call) {
    try {
        call();
    } catch (const hmc::Error &error) {
        want(error.status() == status, what);
        return;
    }
    want(false, what);
}

// A text at fault throws what is wrong with it, and where.
template <class Call>
static void want_fault(const char *section, unsigned line, const char *kind, Call call) {
    try {
        call();
    } catch (const hmc::Fault &fault) {
        const std::string said =
            "bad " + std::string(section) + " " + std::to_string(line) + " " + kind;
        const std::string what = fault.what();
        want(fault.section() == section && fault.line() == line && fault.kind() == kind, kind);
        want(what.size() > said.size(), what.c_str());
        want(what.find(said) == what.size() - said.size(), what.c_str());
        return;
    }
    want(false, kind);
}

static std::string with(std::string text, const std::string &old, const std::string &text_new);

static void faults(const std::string &text) {
    const std::string few = with(text, "tokens = 34", "tokens = 16");
    want_fault("toml", 0, "syntax", [] { hmc::Session("no case"); });
    want_fault("link", 0, "range", [&] { hmc::Session{few}; });
    want_fault("link", 0, "range", [&] { hmc::Session::taped(few); });
    want_fault("link", 0, "range", [&] { hmc::Memory{few}; });
    want_fault("link", 0, "range", [&] { hmc::Memory::taped(few); });
    want_fault("link", 0, "range", [&] { hmc::run_case(few); });
    want_fault("link", 0, "range", [&] { hmc::check(few, ""); });
    hmc::Session session(text);
    want_fault("script", 1, "command", [&] { session.ask("0 rd17 0 0"); });
    want_fault("script", 0, "one", [&] { session.ask(""); });
    want_fault("schedule", 2, "range", [&] { session.lay("send 0\nsend 9"); });
    const std::string asked = with(text, "script = ''", "script = '0 rd16 0 0'");
    try {
        hmc::Memory memory(asked);
        want(false, "a memory of a case with requests");
    } catch (const hmc::Error &error) {
        want(error.what() == std::string("open: the script has requests"), error.what());
    }
}

static void misuse(const std::string &text) {
    want_error(HMC_BAD, "no case", [] { hmc::Session("no case"); });
    hmc::Session first(text);
    hmc::Session second(std::move(first));
    want_error(HMC_CLOSED, "a session that was moved", [&] { first.finish(0); });
    want_error(HMC_NONE, "an entry before the first step", [&] { second.entry(); });
    want_error(HMC_NONE, "a step of no part", [&] { second.step(HMC_SEND, 9); });
    want_error(HMC_NO_HOST, "host 8", [&] { second.finish(8); });
    want_error(HMC_NO_CUBE, "cube 7", [&] {
        second.request(0, hmc::Request{hmc::read_code(16), 7, 0, hmc::Bytes{}});
    });
    want(second.step(HMC_GIVE) == HMC_WAITS, "a give that waits");
    want(second.step(HMC_TAKE, 0) == HMC_OK && second.line() == "idle take 0 empty\n",
         "the line of a take");
    want_error(HMC_BAD, "a read of 24 bytes", [] { hmc::read_code(24); });
    want_error(HMC_BAD, "no text", [] { hmc::Session(std::string_view()); });
    want_error(HMC_BAD, "words that are no request", [&] { second.ask("0 rd17 0 0"); });
    want_error(HMC_BAD, "words that are no steps", [&] { second.lay("round"); });
    want_error(HMC_NONE, "no tape", [&] { second.tape_script(); });
    want_error(HMC_NONE, "nine units", [&] { hmc::Session(text, hmc::Units(9)); });
    want_error(HMC_NONE, "no unit", [&] { hmc::run_case(text, {{2, 0, 0}}); });
    want_error(HMC_NONE, "no unit", [&] { hmc::check(text, "", {{HMC_STAMP, 8, 0}}); });
    want_error(HMC_BAD, "the report of no case", [] { hmc::run_case("no case"); });
    want_error(HMC_BAD, "a check by no case", [] { hmc::check("no case", ""); });
}

static void run_until_idle(hmc::Memory &memory) {
    for (int i = 0; i < 1000 && !memory.is_idle(); i++)
        memory.round();
    want(memory.is_idle(), "each request is done");
}

static void answers(const std::string &text) {
    hmc::Memory memory(text);
    std::array<std::uint8_t, 64> bytes;
    for (std::size_t i = 0; i < bytes.size(); i++)
        bytes[i] = static_cast<std::uint8_t>(3 * i);
    int done = 0;
    memory.write(0, 0, 0x40, bytes, [&](const hmc_entry_t &entry) { done += entry.answer == 1; });
    memory.write_masked(0, 0, 0x48, {255, 255, 0, 0, 0, 0, 0, 0}, {255, 15, 0, 0, 0, 0, 0, 0},
                        [&](const hmc_entry_t &entry) { done += entry.answer == 1; });
    run_until_idle(memory);
    bytes[8] = 255;
    bytes[9] = static_cast<std::uint8_t>((bytes[9] & 0xf0) | 15);
    memory.read(0, 0, 0x40, 64, [&](const hmc_entry_t &entry) {
        want(entry.returned_length == 64, "64 bytes");
        want(std::equal(bytes.begin(), bytes.end(), entry.returned), "the bytes of a read");
        done++;
    });
    memory.request(0, hmc::Request{24, 0, 0x80, hmc::Bytes(bytes.data(), 16)},
                   [&](const hmc_entry_t &entry) { done += entry.kind == HMC_GAVE; });
    memory.read(0, 0, 0x41, 16, [&](const hmc_entry_t &entry) {
        want(entry.answer == 5 && entry.value == 1, "an address that isn't aligned");
        done++;
    });
    run_until_idle(memory);
    want(done == 5, "each function was called once");
    want_error(HMC_NO_HOST, "host 7", [&] { memory.read(7, 0, 0, 16, nullptr); });
    want(memory.is_idle(), "a request that was refused isn't waited for");
}

// The text with another one in the place of the first of its kind.
static std::string with(std::string text, const std::string &old, const std::string &text_new) {
    const std::size_t at = text.find(old);
    want(at != std::string::npos, "a text that is there");
    return text.replace(at, old.size(), text_new);
}

// What a memory with a tape saves is a case with its answers.
static void saves(const std::string &text, const std::string &path) {
    hmc::Memory memory = hmc::Memory::taped(text);
    std::string line;
    memory.read(0, 1, 0x40, 16, [&](const hmc_entry_t &entry) {
        line = "\ntook 0 " + std::to_string(entry.tag) + " read 0 " + std::string(32, '0') + "\n";
    });
    run_until_idle(memory);
    memory.save(path);
    std::ifstream file(path);
    std::stringstream saved;
    saved << file.rdbuf();
    want(hmc::run_case(saved.str()).text.find(line) != std::string::npos, "the answer of the tape");
    for (const bool is_taped : {true, false}) {
        hmc::Memory other = is_taped ? hmc::Memory::taped(text) : hmc::Memory(text);
        try {
            other.save(is_taped ? "/no/such/folder/case.toml" : path);
        } catch (const hmc::Error &) {
        } catch (const std::runtime_error &) {
            continue;
        }
        want(false, "a save that can't be");
    }
}

// A session with a tape and a unit that reverses blocks. The case with its tape has its lines.
static void tapes(const std::string &text) {
    const hmc::Units units{{HMC_REVERSE, 1, 3}};
    hmc::Session session = hmc::Session::taped(text, units);
    want(session.tape_script().empty() && session.tape_schedule().empty(), "an empty tape");
    session.ask("0 unit3 1 0x40 000102030405060708090a0b0c0d0e0f");
    session.finish(0);
    session.lay("round 1000");
    std::string lines;
    while (lines.find("\ntook ") == std::string::npos && session.run(1) == 1)
        lines += session.line();
    want(session.entry().kind == HMC_TOOK && session.entry().answer == 2, "the answer of a unit");
    const std::string script = session.tape_script();
    want(script == "0 unit3 1 0x40 000102030405060708090a0b0c0d0e0f\n", "the tape's script");
    const std::string schedule = session.tape_schedule();
    want(schedule.size() > 4096 && schedule.compare(0, 7, "give 0\n") == 0, "a long schedule");
    std::string tape = with(text, "script = ''", "script = '''\n" + script + "'''");
    tape = with(tape, "schedule = ''", "schedule = '''\n" + schedule + "'''");
    hmc::Report report = hmc::run_case(tape, units);
    want(!report.passed && report.text.compare(0, lines.size(), lines) == 0, "the lines of the tape");
    hmc::Verdict verdict = hmc::check(tape, report.text, units);
    const auto entries = static_cast<std::size_t>(std::count(lines.begin(), lines.end(), '\n'));
    want(verdict.lawful && verdict.number == entries, "a lawful report");
    want(!hmc::check(tape, report.text).lawful, "a report without the unit");
    report.text[0] ^= 1;
    verdict = hmc::check(tape, report.text, units);
    want(!verdict.lawful && verdict.number == 1, "a changed report");
}

int main(int count, char **words) {
    if (count != 3)
        return 2;
    std::ifstream file(words[1]);
    std::stringstream text;
    text << file.rdbuf();
    misuse(text.str());
    faults(text.str());
    saves(text.str(), words[2]);
    answers(text.str());
    tapes(text.str());
    std::puts("cpp: ok");
    return 0;
}
