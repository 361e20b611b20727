// Makes random calls on the registry of registry.hpp from several threads without pauses, and
// writes the log of what they saw, which iox2-conform judges, to standard output.
//
//     record THREADS CALLS SEED [SERVICES]
//
// At most eight THREADS together make about CALLS calls on each of the SERVICES, one service after
// another. Where there is one service, a node of the main thread stays registered until the others
// are done, so that it is not locked before.
#include <cstdio>
#include <cstdlib>
#include <string>

#include "registry.hpp"

namespace lockfree {
namespace {

using iox2sd::LogCaller;
using iox2sd::LogCommand;
using iox2sd::LogToken;
using iox2sd::LogWriter;
using iox2sd::Role;

const iox2sd::Capacities capacities{6, 5, 4};
constexpr Role roles[] = {Role::Listener, Role::Notifier};
/// The most threads, the main one with them.
constexpr std::size_t most_threads = 9;

/// Numbers that look random, by xorshift.
class Dice {
public:
    explicit Dice(std::uint64_t seed) : state_(seed * 0x9E3779B97F4A7C15 | 1) {}

    std::size_t below(std::size_t bound) {
        state_ ^= state_ << 13;
        state_ ^= state_ >> 7;
        state_ ^= state_ << 17;
        return static_cast<std::size_t>(state_ >> 20) % bound;
    }

private:
    std::uint64_t state_;
};

/// A handle that other threads may try to remove too.
class Shared {
public:
    void set(const Handle& handle) {
        packed_.store((handle.ticket + 1) << 8 | handle.slot, std::memory_order_release);
    }

    std::optional<Handle> get() const {
        const std::uint64_t packed = packed_.load(std::memory_order_acquire);
        if (packed == 0) return {};
        return Handle{packed & 0xff, (packed >> 8) - 1};
    }

private:
    std::atomic<std::uint64_t> packed_{0};
};

/// A service, and what its threads share.
struct Service {
    explicit Service(std::uint64_t number)
        : log(LogWriter::create(iox2sd::PatternKind::Event, number, capacities).value()),
          registry(capacities) {}

    LogWriter log;
    Registry registry;
    Shared nodes[most_threads];
    Shared ports[2][most_threads];
    std::atomic<int> waiting{0};
};

/// A thread that calls the registry, and writes down what it saw.
class Thread {
public:
    Thread(Service& service, std::uint32_t number, std::size_t calls, std::uint64_t seed)
        : service_(service),
          number_(number),
          calls_(calls),
          dice_(seed * 64 + number),
          caller_(service.log.caller(std::string(1, static_cast<char>('A' + number))).value()) {
        caller_.reserve(calls, 4 * calls).value();
    }

    /// Waits for the others, so that all begin together, and makes the calls.
    void run() {
        --service_.waiting;
        while (service_.waiting.load() > 0) std::this_thread::yield();
        for (std::size_t call = 0; call < calls_; ++call) step();
    }

    void register_node(std::uint32_t which) {
        const iox2sd_id node = node_id(which);
        LogToken token = begin(iox2sd_log_register(node));
        const Registry::Attached made = service_.registry.register_node(node);
        if (made.handle) service_.nodes[number_].set(*made.handle);
        nodes_[which] = made.handle;
        token.end(made.reply).value();
    }

    void deregister(const Handle& handle) {
        LogToken token = begin(iox2sd_log_deregister(handle.slot, handle.ticket));
        token.end(service_.registry.deregister_node(handle)).value();
    }

    /// Removes the node, until no port of it is left or it is gone.
    void leave(std::uint32_t which) {
        const Handle handle = *nodes_[which];
        LogToken token = begin(iox2sd_log_deregister(handle.slot, handle.ticket));
        const Reply reply = service_.registry.deregister_node(handle);
        const bool is_kept = reply.as_c().kind == IOX2SD_LOG_PORTS_ATTACHED;
        if (!is_kept) nodes_[which].reset();
        token.end(reply).value();
    }

private:
    iox2sd_id node_id(std::uint32_t which) const { return {number_ + 1, 0, 0, which}; }

    LogToken begin(const iox2sd_log_command& command) {
        return caller_.begin(LogCommand::from_c(command)).value();
    }

    void step() {
        const std::size_t kind = dice_.below(16);
        const auto which = static_cast<std::uint32_t>(dice_.below(2));
        const std::size_t role = dice_.below(2);
        if (kind < 5) return nodes_[which] ? leave(which) : register_node(which);
        if (kind < 8) return attach(which, role);
        if (kind < 11) return release(role, service_.ports[role][number_]);
        const std::size_t other = dice_.below(most_threads - 1);
        if (kind == 11) return release(role, service_.ports[role][other]);
        if (kind == 12) return remove_other(other);
        if (kind == 13) return list_nodes();
        if (kind == 14) return list_ports(role);
        count_ports(role);
    }

    void attach(std::uint32_t which, std::size_t role) {
        const iox2sd_port_id port{static_cast<std::uint64_t>(roles[role]),
                                  {number_ + 1, 0, 0, ports_++}};
        LogToken token = begin(iox2sd_log_add(port, node_id(which)));
        const auto made = service_.registry.attach(roles[role], port.port, node_id(which));
        if (made.handle) service_.ports[role][number_].set(*made.handle);
        token.end(made.reply).value();
    }

    void release(std::size_t role, const Shared& shared) {
        const std::optional<Handle> handle = shared.get();
        if (!handle) return;
        LogToken token = begin(iox2sd_log_release(static_cast<std::uint64_t>(roles[role]),
                                                  handle->slot, handle->ticket));
        token.end(service_.registry.release_port(roles[role], *handle)).value();
    }

    void remove_other(std::size_t other) {
        const std::optional<Handle> handle = service_.nodes[other].get();
        if (handle) deregister(*handle);
    }

    void list_nodes() {
        LogToken token = begin(iox2sd_log_nodes());
        const std::vector<iox2sd_id> ids = service_.registry.nodes();
        token.end(Reply::list(ids.data(), ids.size())).value();
    }

    void list_ports(std::size_t role) {
        LogToken token = begin(iox2sd_log_list(static_cast<std::uint64_t>(roles[role])));
        const std::vector<iox2sd_id> ids = service_.registry.ports(roles[role]);
        token.end(Reply::list(ids.data(), ids.size())).value();
    }

    void count_ports(std::size_t role) {
        LogToken token = begin(iox2sd_log_count(static_cast<std::uint64_t>(roles[role])));
        token.end(Reply::count(service_.registry.count_ports(roles[role]))).value();
    }

    Service& service_;
    std::uint32_t number_;
    std::size_t calls_;
    Dice dice_;
    LogCaller caller_;
    std::optional<Handle> nodes_[2];
    std::uint32_t ports_ = 0;
};

/// Makes calls on a service by so many threads. Returns its log.
iox2sd::List<char> run(std::uint64_t number, std::uint32_t threads, std::size_t calls,
                       std::uint64_t seed, bool stays_open) {
    Service service(number);
    Thread main(service, most_threads - 1, 2, seed);
    if (stays_open) main.register_node(1);
    std::vector<Thread> callers;
    for (std::uint32_t at = 0; at < threads; ++at) {
        callers.emplace_back(service, at, calls / threads, seed);
    }
    service.waiting = static_cast<int>(threads);
    std::vector<std::thread> running;
    for (Thread& caller : callers) running.emplace_back([&caller] { caller.run(); });
    for (std::thread& each : running) each.join();
    if (stays_open) main.leave(1);
    return service.log.text().value();
}

/// Prints a log. Where others stand above it, each begin of a call has the number of its service.
void print(std::string_view log, std::uint64_t number, bool is_alone) {
    while (!log.empty()) {
        const std::size_t end = log.find('\n') + 1;
        const std::string_view line = log.substr(0, end);
        log.remove_prefix(end);
        const std::size_t sign = line.find_first_of("<>! ");
        if (!is_alone && line[sign] == '>') std::printf("%s: ", std::to_string(number).c_str());
        std::fwrite(line.data(), 1, line.size(), stdout);
    }
}

}  // namespace
}  // namespace lockfree

int main(int count, char** words) {
    if (count < 4) {
        std::fputs("record THREADS CALLS SEED [SERVICES]\n", stderr);
        return 2;
    }
    const auto threads = static_cast<std::uint32_t>(std::atoi(words[1]));
    const auto calls = static_cast<std::size_t>(std::atoll(words[2]));
    const auto seed = static_cast<std::uint64_t>(std::atoll(words[3]));
    const auto services = static_cast<std::uint64_t>(count > 4 ? std::atoll(words[4]) : 1);
    if (threads == 0) {
        std::fputs("THREADS is at least 1\n", stderr);
        return 2;
    }
    for (std::uint64_t number = 1; number <= services; ++number) {
        const bool is_alone = services == 1;
        const auto log = lockfree::run(number, threads, calls, seed + number, is_alone);
        lockfree::print(log, number, is_alone);
    }
    return 0;
}
