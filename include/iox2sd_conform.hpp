/// Logs of services for C++17: the calls that were made on a service of any implementation and the
/// replies that were seen are judged by the sequential specification (docs/CONFORM.md shows a log).
/// A `LogWriter` (iox2sd_log.hpp) writes the log of a registry of one's own, and a `Recorder` that
/// of a service of this layer.
///
/// A header alone, over iox2sd.hpp, iox2sd_log.hpp and iox2sd_conform.h, under the rules of the
/// first.
#ifndef IOX2SD_CONFORM_HPP
#define IOX2SD_CONFORM_HPP

#include <iterator>

#include "iox2sd_log.hpp"
// Headers of C have the casts and the NULL of C.
#pragma GCC diagnostic push
#pragma GCC diagnostic ignored "-Wold-style-cast"
#pragma GCC diagnostic ignored "-Wzero-as-null-pointer-constant"
#include "iox2sd_conform.h"
#pragma GCC diagnostic pop

namespace iox2sd {

namespace detail {

/// Takes the first line off the lines, and returns what stands in it behind these words.
inline std::string_view take_line(std::string_view& lines, std::string_view front) noexcept {
    const std::string_view line = lines.substr(0, lines.find('\n'));
    lines.remove_prefix(line.size() + 1);
    return line.substr(front.size());
}

/// The number of these digits.
inline std::size_t number_of(std::string_view digits) noexcept {
    std::size_t number = 0;
    for (const char digit : digits) number = 10 * number + static_cast<std::size_t>(digit - '0');
    return number;
}

/// The same as `take_line`, of a line of ids.
inline std::string_view take_ids(std::string_view& lines, std::string_view front) noexcept {
    const std::string_view ids = take_line(lines, front);
    return ids.empty() ? ids : ids.substr(1);
}

}  // namespace detail

/// What the calls before a refused reply can have led to. Its texts last as long as their
/// `LogVerdict`.
struct Configuration {
    /// The lines in which the open calls begin that were made, with a space between.
    std::string_view made;
    std::string_view possible;  ///< Every reply that the call could have had then.
    /// The ids of the nodes that are registered, by rising slot, one for each handle, with a space
    /// between.
    std::string_view nodes;
    /// Those of the ports that are attached: of the pattern's first role by rising slot, then the
    /// others.
    std::string_view ports;

    IOX2SD_FIELDS(made, possible, nodes, ports);
};

/// The configurations of a verdict, one after the other, each once. They are read from its report,
/// and last as long as their `LogVerdict`.
class Configurations {
public:
    class const_iterator {
    public:
        using iterator_category = std::input_iterator_tag;
        using value_type = Configuration;
        using difference_type = std::ptrdiff_t;
        using pointer = const Configuration*;
        using reference = Configuration;

        explicit const_iterator(std::string_view lines) noexcept : lines_(lines) {}

        Configuration operator*() const noexcept {
            std::string_view rest = lines_;
            return take(rest);
        }
        const_iterator& operator++() noexcept {
            take(lines_);
            return *this;
        }
        const_iterator operator++(int) noexcept {
            const const_iterator before = *this;
            ++*this;
            return before;
        }

        /// Iterators of one verdict are equal where equally many are left.
        friend bool operator==(const const_iterator& a, const const_iterator& b) noexcept {
            return a.lines_.size() == b.lines_.size();
        }
        friend bool operator!=(const const_iterator& a, const const_iterator& b) noexcept {
            return !(a == b);
        }

    private:
        /// Takes the lines of one configuration off the others.
        static Configuration take(std::string_view& lines) noexcept {
            constexpr std::string_view some = "lines ";
            const std::string_view made = detail::take_line(lines, "made: ");
            Configuration found{};
            if (made.substr(0, some.size()) == some) found.made = made.substr(some.size());
            found.possible = detail::take_line(lines, "possible: ");
            found.nodes = detail::take_ids(lines, "nodes:");
            found.ports = detail::take_ids(lines, "ports:");
            return found;
        }

        std::string_view lines_;
    };
    using value_type = Configuration;

    explicit Configurations(std::string_view lines) noexcept : lines_(lines) {}

    const_iterator begin() const noexcept { return const_iterator(lines_); }
    const_iterator end() const noexcept { return const_iterator({}); }
    bool empty() const noexcept { return lines_.empty(); }
    std::size_t size() const noexcept {
        return static_cast<std::size_t>(std::distance(begin(), end()));
    }
    /// The first one, where there is one.
    Configuration front() const noexcept { return *begin(); }

private:
    std::string_view lines_;
};

/// What a log was judged to be.
struct [[nodiscard]] LogVerdict {
    /// `Done` where the log conforms; `NoMemory`; or, as iox2sd_conform.h says in which order,
    /// `NoOrder` where no order of the calls explains what was seen down to a line; not decided
    /// with `TooManyConfigurations`, where orders of the calls lead to more than 4,096, and with
    /// `TooManyOpenCalls`, where more than 64 calls of a service are open; else `NoServiceLine`,
    /// `NoCallLine`, `NoReplyLine`, `CallerIsBusy`, `NoOpenCall`, `CallerIsDead`, `UnknownCaller`,
    /// `NoNewline`, `CarriageReturn` or `NoStateLine`, as the line is not what is expected.
    Status status;
    std::size_t line;   ///< The number of that line, from 1 on; else 0.
    std::size_t calls;  ///< The calls of a log that conforms; else 0.
    List<char> text;    ///< The report.

    /// What iox2-conform writes; nothing with `NoMemory`.
    IOX2SD_LENDS(std::string_view, report, text);

    /// With `NoOrder`: the line of the reply. It is `line`, or one above it, which no order
    /// explains with what was seen down to `line`. Else 0.
    std::size_t reply_line() const noexcept {
        if (status != Status::NoOrder) return 0;
        constexpr std::string_view above = " explains the reply in line ";
        const std::string_view first = line_below(0, {});
        const std::size_t at = first.rfind(above);
        return at == first.npos ? line : detail::number_of(first.substr(at + above.size()));
    }

    /// With `NoOrder`: the words of the reply that was seen. Else nothing.
    std::string_view words() const& noexcept { return line_below(1, "seen: "); }
    std::string_view words() const&& = delete;

    /// With `NoOrder`: the line of the command of its call, which is that in which the call begins,
    /// but of a call alone. Else 0.
    std::size_t call() const noexcept {
        const std::string_view called = line_below(2, "call: ");
        if (called.empty()) return 0;
        const std::size_t front = command().size() + before_line.size();
        return detail::number_of(called.substr(front, called.size() - front - 1));
    }

    /// With `NoOrder`: the text of that line. Else nothing.
    std::string_view command() const& noexcept {
        const std::string_view called = line_below(2, "call: ");
        return called.substr(0, called.rfind(before_line));
    }
    std::string_view command() const&& = delete;

    /// With `NoOrder`: the line from which the window is open, which is that of the first event of
    /// the service since none of its calls was open. Else 0.
    std::size_t window() const noexcept {
        return detail::number_of(line_below(3, "window: from line "));
    }

    /// With `NoOrder`: the lines, by rising number, in which the calls of the window begin that are
    /// needed, with a space between: no order explains these alone, and the others change nothing.
    /// Else nothing.
    std::string_view needed() const& noexcept { return line_below(4, "needed: lines "); }
    std::string_view needed() const&& = delete;

    /// With `NoOrder`: what the calls before the reply can have led to, at least one. Else none.
    Configurations configurations() const& noexcept { return Configurations(below(5)); }
    Configurations configurations() const&& = delete;

private:
    /// What stands between a command and its line.
    static constexpr std::string_view before_line = " (line ";

    /// With `NoOrder`: the lines of the report below so many first ones. Else nothing.
    std::string_view below(std::size_t count) const noexcept {
        if (status != Status::NoOrder) return {};
        std::string_view lines = text;
        for (; count != 0; --count) detail::take_line(lines, {});
        return lines;
    }

    /// With `NoOrder`: what the line below so many first ones has behind these words. Else nothing.
    std::string_view line_below(std::size_t count, std::string_view front) const noexcept {
        std::string_view lines = below(count);
        return lines.empty() ? lines : detail::take_line(lines, front);
    }
};

/// Judges a log of services.
inline LogVerdict check_log(std::string_view log) noexcept {
    // The report of a log that conforms fits here, so such a log is judged once.
    std::uint8_t front[512];
    iox2sd_conform_answer answer =
        iox2sd_conform_run(detail::bytes(log), log.size(), front, sizeof front);
    if (answer.status == IOX2SD_STATUS_NO_MEMORY) return {Status::NoMemory, 0, 0, {}};
    auto report = List<char>::written_by([&](char* out, std::size_t capacity) {
        if (out == nullptr) return detail::counted(IOX2SD_STATUS_BUFFER_TOO_SHORT, answer.length);
        if (answer.status != IOX2SD_STATUS_BUFFER_TOO_SHORT) {
            std::memcpy(out, front, answer.length);
        } else {
            auto* const bytes = reinterpret_cast<std::uint8_t*>(out);
            answer = iox2sd_conform_run(detail::bytes(log), log.size(), bytes, capacity);
            if (answer.status == IOX2SD_STATUS_NO_MEMORY) return detail::counted(answer.status, 0);
        }
        return detail::counted(IOX2SD_STATUS_DONE, answer.length);
    });
    if (!report) return {report.error(), 0, 0, {}};
    return {Status{answer.status}, answer.line, answer.calls, std::move(report).value()};
}

/// A service that writes down each call on it with its reply, as a log that `check_log` judges. So
/// what a test saw is compared with the sequential specification.
///
/// Its calls are those of `Service` that have a line in a log, with the errors of that class, and
/// `NoMemory` where there is none for a line: then the call is not made. A call with a handle of
/// another service, or of the other kind, has no line.
class Recorder {
public:
    /// Makes a service with nothing attached, with all the tickets that there are.
    /// Errors: those of `Service::create`.
    static Result<Recorder> create(PatternKind pattern, std::uint64_t number,
                                   const Capacities& capacities) noexcept {
        Result<Service> service = Service::create(pattern, number, capacities);
        if (!service) return service.error();
        Result<LogWriter> log = LogWriter::create(pattern, number, capacities);
        if (!log) return log.error();
        const Result<LogCaller> caller = log->caller("A");
        if (!caller) return caller.error();
        return Recorder(std::move(service).value(), std::move(log).value(), *caller);
    }

    /// The same of what `Service::create` makes a service of.
    template <class Described, class = decltype(capacities(std::declval<const Described&>()))>
    static Result<Recorder> create(const Described& described, std::uint64_t number) noexcept {
        return create(detail::pattern_of(described), number, capacities(described));
    }

    /// The service, for queries that are not written down.
    IOX2SD_LENDS(const Service&, service, service_);

    /// The log so far. Error: `NoMemory`.
    Result<List<char>> log() noexcept { return log_.text(); }

    Result<ContainerHandle> register_node_id(const UniqueNodeId& node) noexcept {
        return recorded(LogCommand::register_node(node), made_reply,
                        [&] { return service_.register_node_id(node); });
    }

    Result<DeregisterNodeState> deregister_node_id(const ContainerHandle& handle) noexcept {
        const auto call = [&] { return service_.deregister_node_id(handle); };
        if (!is_own(handle) || handle.role != Role::Node) return call();
        const LogCommand command = LogCommand::deregister_node(handle.slot, handle.ticket);
        return recorded(command, [](DeregisterNodeState state) { return state_reply(state); },
                        call);
    }

    Result<ContainerHandle> attach(const PortDetails& details) noexcept {
        return recorded(LogCommand::attach(port_id(details), node_id(details)), made_reply,
                        [&] { return service_.attach(details); });
    }

    Result<void> release_port(const ContainerHandle& handle) noexcept {
        const auto call = [&] { return service_.release_port(handle); };
        if (!is_own(handle) || !is_port(handle.role)) return call();
        const LogCommand command =
            LogCommand::release_port(handle.role, handle.slot, handle.ticket);
        return recorded(command, [] { return LogReply::released(); }, call);
    }

    /// A line has no kinds of ports: where one is kept, the port of the other kind with its number
    /// is kept too.
    template <class Range>
    Result<DeadNodeRemoval> remove_dead_node_id(const UniqueNodeId& dead, Range&& kept) {
        const auto parts = [](const UniquePortId& port) { return port.parts(); };
        const Result<List<iox2sd_id>> ids = List<iox2sd_id>::of_range(kept, parts);
        if (!ids) return ids.error();
        const Result<List<UniquePortId>> ports = of_both_kinds(*ids);
        if (!ports) return ports.error();
        const LogCommand command = LogCommand::remove_dead_node(dead, ids->data(), ids->size());
        const auto reply = [](const DeadNodeRemoval& removal) {
            return state_reply(removal.state);
        };
        return recorded(command, reply,
                        [&] { return service_.remove_dead_node_id(dead, *ports); });
    }
    Result<DeadNodeRemoval> remove_dead_node_id(
        const UniqueNodeId& dead, std::initializer_list<UniquePortId> kept = {}) {
        return remove_dead_node_id<const std::initializer_list<UniquePortId>&>(dead, kept);
    }

    Result<List<UniqueNodeId>> nodes() noexcept {
        return listed(LogCommand::nodes(), service_.nodes(),
                      [](const UniqueNodeId& node) { return node.parts(); });
    }

    /// `Role::Node` has no line.
    Result<List<PortDetails>> ports(Role role) noexcept {
        if (!is_port(role)) return service_.ports(role);
        return listed(LogCommand::ports(role), service_.ports(role),
                      [](const PortDetails& port) { return port_id(port).parts(); });
    }

    /// `Role::Node` has no line.
    Result<std::size_t> count_ports(Role role) noexcept {
        const auto call = [&] { return service_.count_ports(role); };
        if (!is_port(role)) return call();
        return recorded(LogCommand::count_ports(role),
                        [](std::size_t count) { return LogReply::count(count); }, call);
    }

private:
    Recorder(Service&& service, LogWriter&& log, const LogCaller& caller) noexcept
        : service_(std::move(service)), log_(std::move(log)), caller_(caller) {}

    bool is_own(const ContainerHandle& handle) const noexcept {
        const Result<std::uint64_t> number = service_.service_number();
        return number && handle.service == *number;
    }

    static bool is_port(Role role) noexcept { return role > Role::Node && role <= Role::Writer; }

    static LogReply made_reply(const ContainerHandle& made) noexcept {
        return LogReply::handle(made.slot, made.ticket);
    }

    static LogReply state_reply(DeregisterNodeState state) noexcept {
        return state == DeregisterNodeState::HasOwners ? LogReply::has_owners()
                                                       : LogReply::no_owners();
    }

    /// The reply of a call that is refused, where one says so.
    static std::optional<LogReply> refused_reply(Status status) noexcept {
        if (status == Status::IsLocked) return LogReply::locked();
        if (status == Status::NodeNotRegistered) return LogReply::not_registered();
        if (status == Status::OutOfSpace) return LogReply::full();
        if (status == Status::RoleNotInPattern) return LogReply::wrong_pattern();
        if (status == Status::ForeignHandle) return LogReply::not_owned();
        if (status == Status::PortsStillAttached) return LogReply::ports_attached();
        return {};
    }

    /// Makes a call, and writes it down with its reply. Memory for its line is taken first, so the
    /// line cannot be missing. One that was moved from has no caller: it only makes the call.
    template <class Reply, class Make>
    std::invoke_result_t<Make> recorded(const LogCommand& command, Reply reply, Make make) {
        if (!service_.service_number()) return make();
        const Result<void> taken = caller_.reserve(1, command.as_c().kept_count);
        if (!taken) return taken.error();
        auto made = make();
        if (made) {
            if constexpr (std::is_void_v<typename decltype(made)::value_type>) {
                write(command, reply());
            } else {
                write(command, reply(*made));
            }
        } else if (const auto refused = refused_reply(made.error())) {
            write(command, *refused);
        }
        return made;
    }

    /// The same of a query that returned a list or was refused.
    template <class T, class Parts>
    Result<List<T>> listed(const LogCommand& command, Result<List<T>> found, Parts parts) noexcept {
        if (!service_.service_number()) return found;
        List<iox2sd_id> ids;
        if (found) {
            Result<List<iox2sd_id>> copied = List<iox2sd_id>::of_range(*found, parts);
            if (!copied) return copied.error();
            ids = std::move(copied).value();
        }
        const Result<void> taken = caller_.reserve(1, ids.size());
        if (!taken) return taken.error();
        if (found) {
            write(command, LogReply::list(ids.data(), ids.size()));
        } else if (const auto refused = refused_reply(found.error())) {
            write(command, *refused);
        }
        return found;
    }

    /// Writes a call for whose line there is memory.
    void write(const LogCommand& command, const LogReply& reply) noexcept {
        caller_.begin(command).value().end(reply).value();
    }

    /// The ids of the ports of both kinds that have these numbers.
    Result<List<UniquePortId>> of_both_kinds(const List<iox2sd_id>& numbers) const noexcept {
        const Result<PortRoles> roles = service_.port_roles();
        if (!roles) return roles.error();
        return List<UniquePortId>::written_by(
            [&](UniquePortId* out, std::size_t capacity) {
                for (const iox2sd_id& number : numbers) {
                    ::new (out++) UniquePortId(roles->first, number, detail::FromLibrary());
                    ::new (out++) UniquePortId(roles->second, number, detail::FromLibrary());
                }
                return detail::counted(IOX2SD_STATUS_DONE, capacity);
            },
            2 * numbers.size());
    }

    Service service_;
    LogWriter log_;
    LogCaller caller_;
};

}  // namespace iox2sd

#endif
