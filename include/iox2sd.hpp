/// The proved layer of service_descriptions for C++17: what a service is, and who is attached to
/// it.
///
/// Headers alone, over those for C; link libiox2sd.a or libiox2sd.so. Names are those of the ported
/// middleware. This one includes iox2sd_result.hpp, iox2sd_text.hpp, iox2sd_values.hpp and
/// iox2sd_service.hpp, each of which may be included alone. iox2sd_fwd.hpp declares their types,
/// iox2sd_config.hpp reads and writes the file of settings, iox2sd_conform.hpp judges logs, and
/// iox2sd_format.hpp has `std::format`.
///
/// - Values live in C++. Each rule (which text is legal, how a set is sorted, what is compatible,
///   how large a message is, who may attach) is checked by the library alone.
/// - A call that may be refused returns a `Result`, with a `Status` or with an error that has one.
///   The errors of a call are listed in the order in which they are checked.
/// - No call throws, and exceptions may be switched off. A call that takes a function or a range of
///   the caller's throws what that throws. `Service::create`, the lists,
///   `remove_dead_node_id` with ports to keep and `run_script` take memory; where it is refused,
///   they return `Status::NoMemory`. No other call takes any: texts and sets hold their bytes
///   themselves.
/// - Calls may run on several threads at once. On one `Service` any number of `const` calls may run
///   at once, or one other call alone. It may be moved from thread to thread; docs/C.md has what is
///   proved of that, and what is tested.
///
/// The library's exports are proved, under the rules of the C headers. Its small source in C and
/// this header are tested, not proved.
#ifndef IOX2SD_HPP
#define IOX2SD_HPP

#include "iox2sd_service.hpp"
#include "iox2sd_values.hpp"

namespace iox2sd {

// ---- Scripts ----

/// How a script ended.
struct ScriptRun {
    Status status;      ///< `Done`; `BadLine`; `NoMemory`.
    std::size_t line;   ///< The number of the bad line, from 1 on; 0 where none is bad.
    List<char> output;  ///< The reply lines.

    /// The reply lines: with `BadLine` those to the commands before it, with `NoMemory` none or
    /// whole ones of some first commands.
    IOX2SD_LENDS(std::string_view, replies, output);
};

/// Runs a whole script, a service and the commands on it as text (docs/SCRIPT.md).
inline ScriptRun run_script(std::string_view script) noexcept {
    iox2sd_script_answer answer{};
    auto output = List<char>::written_by([&](char* out, std::size_t capacity) {
        auto* const bytes = reinterpret_cast<std::uint8_t*>(out);
        answer = iox2sd_script_run(detail::bytes(script), script.size(), bytes, capacity);
        const bool has_ended = answer.status == IOX2SD_STATUS_BAD_LINE ||
                               (out != nullptr && answer.status == IOX2SD_STATUS_NO_MEMORY);
        return detail::counted(has_ended ? std::uint32_t{IOX2SD_STATUS_DONE} : answer.status,
                               answer.length);
    });
    if (!output) return {output.error(), 0, List<char>()};
    return {Status{answer.status}, answer.line, std::move(output).value()};
}

// ---- Versions ----

/// The version of this library, as "0.1.0".
inline Text<31> version() noexcept { return *Text<31>::written_by(iox2sd_version); }

/// The version of iceoryx2 whose layer this is, as "0.9.3".
inline Text<31> layer_version() noexcept { return *Text<31>::written_by(iox2sd_layer_version); }

/// A number that rises when a struct or a function of the library changes; `IOX2SD_ABI` is that of
/// the header.
inline std::uint32_t abi() noexcept { return iox2sd_abi(); }

}  // namespace iox2sd

#endif
