// Installs a rule, counts a packet for a key by a worker, and shows it: the library for C from C++.
//     count PROFILE.toml
#include "pcef.h"
#include <cstdlib>
#include <fstream>
#include <iostream>
#include <iterator>
#include <memory>
#include <stdexcept>
#include <string>

namespace {

const char *const LINES[] = {
    R"({"do":"install","rule":{"name":"web","precedence":100,)"
    R"("filters":[{"text":"permit out 17 from any 53 to assigned"}],"qci":9,)"
    R"("arp":{"level":8,"capability":false,"vulnerability":true},"gate":"ENABLED","key":"vid"}})",
    R"({"do":"monitor","key":"vid","grant":1000})",
};

// 28 octets of UDP from port 53 of 198.51.100.7 to 10.0.0.2.
const uint8_t PACKET[] = {0x45, 0, 0, 28, 0, 0,   0, 0, 64,   17, 0, 0, 198, 51,
                          100,  7, 10, 0, 0, 2, 0, 53, 0x13, 0x88, 0, 8, 0,   0};

// Memory of a handle.
template <typename Handle> Handle *room(size_t size) {
    void *at = std::aligned_alloc(16, (size + 15) / 16 * 16);
    if (!at) throw std::bad_alloc();
    return static_cast<Handle *>(at);
}

struct close_session {
    void operator()(pcef_session *at) const {
        pcef_close(at);
        std::free(at);
    }
};

struct drop_worker {
    void operator()(pcef_worker *at) const {
        pcef_drop_worker(at);
        std::free(at);
    }
};

std::string answer(pcef_session *at, const std::string &line) {
    std::string text(65536, 0);
    size_t length = pcef_line(at, reinterpret_cast<const uint8_t *>(line.data()), line.size(),
                              reinterpret_cast<uint8_t *>(&text[0]), text.size());
    if (length > text.size()) throw std::runtime_error("no answer");
    text.resize(length);
    return text;
}

} // namespace

int main(int argc, char **argv) {
    if (argc != 2) return 2;
    std::ifstream file(argv[1], std::ios::binary);
    const std::string profile{std::istreambuf_iterator<char>(file), {}};
    // The worker goes before its session does.
    std::unique_ptr<pcef_session, close_session> session(room<pcef_session>(pcef_size()));
    std::unique_ptr<pcef_worker, drop_worker> worker(room<pcef_worker>(pcef_worker_size()));
    pcef_room(session.get());
    pcef_worker_room(worker.get());
    const auto *text = reinterpret_cast<const uint8_t *>(profile.data());
    if (pcef_open(session.get(), text, profile.size()) != PCEF_OK) return 1;
    for (const char *line : LINES) answer(session.get(), line);
    if (pcef_attach(session.get(), worker.get()) > 15) return 1;
    const pcef_packet packet = {PACKET, sizeof PACKET, sizeof PACKET, 0};
    pcef_verdict verdict = {};
    if (pcef_take(worker.get(), &packet, 1, &verdict, 1) != 1 || verdict.status != PCEF_PASSED) return 1;
    if (pcef_is_refused(pcef_finish(session.get(), worker.get()))) return 1;
    std::cout << answer(session.get(), R"({"do":"show"})") << '\n';
}
