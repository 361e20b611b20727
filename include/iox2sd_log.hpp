/// Logs of a registry of one's own, for C++17: its calls are written down while threads make them,
/// with the replies that they saw, as lines that `check_log` and iox2-conform judge
/// (docs/CONFORM.md).
///
/// A header alone, over iox2sd.hpp and iox2sd_log.h, which says how calls are ordered. Nothing here
/// throws but what a range throws.
///
///     LogWriter log = LogWriter::create(PatternKind::Event, 7, {2, 2, 0}).value();
///     LogCaller caller = log.caller("A").value();  // One a thread.
///     LogToken call = caller.begin(LogCommand::register_node(node)).value();
///     // .. the registry is called ..
///     call.end(LogReply::handle(slot, ticket)).value();
#ifndef IOX2SD_LOG_HPP
#define IOX2SD_LOG_HPP

#include "iox2sd.hpp"
// Headers of C have the casts and the NULL of C.
#pragma GCC diagnostic push
#pragma GCC diagnostic ignored "-Wold-style-cast"
#pragma GCC diagnostic ignored "-Wzero-as-null-pointer-constant"
#include "iox2sd_log.h"
#pragma GCC diagnostic pop

namespace iox2sd {

/// A command, as docs/SCRIPT.md has it, by the names of the layer's calls, or a weak listing. A
/// removal names its handle by slot and ticket.
class LogCommand {
public:
    static LogCommand register_node(const UniqueNodeId& node) noexcept {
        return LogCommand(iox2sd_log_register(node.parts()));
    }
    static LogCommand deregister_node(std::size_t slot, std::uint64_t ticket) noexcept {
        return LogCommand(iox2sd_log_deregister(slot, ticket));
    }
    static LogCommand attach(const UniquePortId& port, const UniqueNodeId& node) noexcept {
        const iox2sd_port_id id{static_cast<std::uint64_t>(port.role()), port.parts()};
        return LogCommand(iox2sd_log_add(id, node.parts()));
    }
    static LogCommand release_port(Role role, std::size_t slot, std::uint64_t ticket) noexcept {
        return LogCommand(iox2sd_log_release(static_cast<std::uint64_t>(role), slot, ticket));
    }
    /// Ports with the numbers of these stay; the ids last until the call begins.
    static LogCommand remove_dead_node(const UniqueNodeId& node, const iox2sd_id* kept = nullptr,
                                       std::size_t count = 0) noexcept {
        return LogCommand(iox2sd_log_dead(node.parts(), kept, count));
    }
    static LogCommand nodes() noexcept { return LogCommand(iox2sd_log_nodes()); }
    static LogCommand ports(Role role) noexcept {
        return LogCommand(iox2sd_log_list(static_cast<std::uint64_t>(role)));
    }
    static LogCommand count_ports(Role role) noexcept {
        return LogCommand(iox2sd_log_count(static_cast<std::uint64_t>(role)));
    }
    /// Lists the nodes without a lock, by a walk over the slots while others change them, so that
    /// the reply need not be a snapshot. It must have each node that was there all through the
    /// call, and none that never was.
    static LogCommand nodes_weak() noexcept { return LogCommand(iox2sd_log_nodes_weak()); }
    /// Lists the ports of the role, as `nodes_weak` does nodes.
    static LogCommand ports_weak(Role role) noexcept {
        return LogCommand(iox2sd_log_list_weak(static_cast<std::uint64_t>(role)));
    }

    static LogCommand from_c(const iox2sd_log_command& command) noexcept {
        return LogCommand(command);
    }
    const iox2sd_log_command& as_c() const noexcept { return command_; }

private:
    explicit LogCommand(const iox2sd_log_command& command) noexcept : command_(command) {}

    iox2sd_log_command command_;
};

/// What a call replied, as docs/SCRIPT.md has it.
class LogReply {
public:
    static LogReply handle(std::size_t slot, std::uint64_t ticket) noexcept {
        return LogReply(iox2sd_log_handle(slot, ticket));
    }
    static LogReply count(std::size_t ports) noexcept {
        return LogReply(iox2sd_log_counted(ports));
    }
    /// These nodes or ports; the ids last until the call ends.
    static LogReply list(const iox2sd_id* ids, std::size_t count) noexcept {
        return LogReply(iox2sd_log_listed(ids, count));
    }
    static LogReply locked() noexcept { return word(IOX2SD_LOG_LOCKED); }
    static LogReply not_registered() noexcept { return word(IOX2SD_LOG_NOT_REGISTERED); }
    static LogReply full() noexcept { return word(IOX2SD_LOG_FULL); }
    static LogReply wrong_pattern() noexcept { return word(IOX2SD_LOG_WRONG_PATTERN); }
    static LogReply has_owners() noexcept { return word(IOX2SD_LOG_HAS_OWNERS); }
    static LogReply no_owners() noexcept { return word(IOX2SD_LOG_NO_OWNERS); }
    static LogReply ports_attached() noexcept { return word(IOX2SD_LOG_PORTS_ATTACHED); }
    static LogReply released() noexcept { return word(IOX2SD_LOG_RELEASED); }
    static LogReply not_owned() noexcept { return word(IOX2SD_LOG_NOT_OWNED); }

    const iox2sd_log_reply& as_c() const noexcept { return reply_; }

private:
    explicit LogReply(const iox2sd_log_reply& reply) noexcept : reply_(reply) {}
    static LogReply word(std::uint32_t kind) noexcept { return LogReply(iox2sd_log_word(kind)); }

    iox2sd_log_reply reply_;
};

/// A call that was begun, until its end.
class [[nodiscard]] LogToken {
public:
    /// Ends the call: right after the registry replied.
    /// Errors: `NoOpenCall`, where it has ended or its caller died; `NoMemory`, which a list alone
    /// meets.
    Result<void> end(const LogReply& reply) noexcept {
        return detail::result(iox2sd_log_end(token_, reply.as_c()));
    }

private:
    friend class LogCaller;
    explicit LogToken(const iox2sd_log_token& token) noexcept : token_(token) {}

    iox2sd_log_token token_;
};

/// Who makes one call at a time: a thread. It may be copied, and lasts as long as its writer.
class LogCaller {
public:
    /// Takes memory for so many more calls, and for so many more ids in lists: recording them takes
    /// none. Error: `NoMemory`.
    Result<void> reserve(std::size_t calls, std::size_t ids = 0) noexcept {
        return detail::result(iox2sd_log_reserve(caller_, calls, ids));
    }

    /// Begins a call: right before the registry is called.
    /// Errors: `CallerIsDead`; `CallerIsBusy`, while the last call is open; `UnknownRole` for
    /// `Role::Node`; `NoMemory`. A command from C may have the other errors of iox2sd_log_begin.
    Result<LogToken> begin(const LogCommand& command) noexcept {
        const iox2sd_log_token token = iox2sd_log_begin(caller_, command.as_c());
        return detail::result(token.status, LogToken(token));
    }

    /// The caller died: its open call took effect before this, or never. Error: `CallerIsDead`.
    Result<void> died() noexcept { return detail::result(iox2sd_log_died(caller_)); }

private:
    friend class LogWriter;
    explicit LogCaller(iox2sd_log_caller* caller) noexcept : caller_(caller) {}

    iox2sd_log_caller* caller_;
};

/// The log of a service of any implementation. It is moved and not copied. One that was moved from
/// makes no caller and no text: `Null`.
class LogWriter {
public:
    /// Begins the log of a service with nothing attached. Errors: `UnknownPattern`; `NoMemory`.
    static Result<LogWriter> create(PatternKind pattern, std::uint64_t number,
                                    const Capacities& capacities) noexcept {
        LogWriter made(new (std::nothrow) iox2sd_log_writer());
        if (made.writer_ == nullptr) return Status::NoMemory;
        const std::uint32_t status =
            iox2sd_log_writer_create(made.writer_, static_cast<std::uint64_t>(pattern), number,
                                     capacities.as_c());
        if (status != IOX2SD_STATUS_DONE) return Status{status};
        return made;
    }

    LogWriter(LogWriter&& other) noexcept : writer_(std::exchange(other.writer_, nullptr)) {}
    LogWriter& operator=(LogWriter&& other) noexcept {
        std::swap(writer_, other.writer_);
        return *this;
    }
    ~LogWriter() {
        iox2sd_log_writer_free(writer_);
        delete writer_;
    }

    /// Makes a caller with this name: one to sixteen ASCII letters and digits, other than those of
    /// the others. Threads may make callers at once.
    /// Errors: `Empty`; `TooLong`; `IllegalByte`; `NoMemory`.
    Result<LogCaller> caller(std::string_view name) noexcept {
        if (name.size() > IOX2SD_LOG_MAX_NAME) return Status::TooLong;
        // A zero byte would end the name.
        if (name.find('\0') != std::string_view::npos) return Status::IllegalByte;
        char front[IOX2SD_LOG_MAX_NAME + 1] = {};
        name.copy(front, name.size());
        const iox2sd_log_caller_answer made = iox2sd_log_caller_create(writer_, front);
        return detail::result(made.status, LogCaller(made.caller));
    }

    /// The log of all callers, once the threads that record were joined. Error: `NoMemory`.
    Result<List<char>> text() noexcept {
        return List<char>::written_by([this](char* out, std::size_t capacity) {
            auto* const bytes = reinterpret_cast<std::uint8_t*>(out);
            const iox2sd_text_answer written = iox2sd_log_write(writer_, bytes, capacity);
            return detail::counted(written.status, written.length);
        });
    }

private:
    explicit LogWriter(iox2sd_log_writer* writer) noexcept : writer_(writer) {}

    iox2sd_log_writer* writer_;
};

}  // namespace iox2sd

#endif
