/// The file of the middleware's settings, iceoryx2.toml, for C++17: read, judged and written.
/// docs/CONFIG.md shows a file.
///
/// A header alone, over iox2sd.hpp and iox2sd_config.h, under the rules of the first. Each call on
/// a file takes memory; where it is refused, the status is `Status::NoMemory`.
#ifndef IOX2SD_CONFIG_HPP
#define IOX2SD_CONFIG_HPP

#include <cerrno>

#include "iox2sd.hpp"
// Headers of C have the casts and the NULL of C.
#pragma GCC diagnostic push
#pragma GCC diagnostic ignored "-Wold-style-cast"
#pragma GCC diagnostic ignored "-Wzero-as-null-pointer-constant"
#include "iox2sd_config.h"
#pragma GCC diagnostic pop

namespace iox2sd {

/// The tables of the file.
enum class ConfigTable : std::uint32_t {
    Root = IOX2SD_TABLE_ROOT,  ///< The whole file.
    Global = IOX2SD_TABLE_GLOBAL,
    Service = IOX2SD_TABLE_SERVICE,    ///< `global.service`
    Node = IOX2SD_TABLE_NODE,          ///< `global.node`
    Defaults = IOX2SD_TABLE_DEFAULTS,  ///< `defaults`, in which are the next four.
    PublishSubscribe = IOX2SD_TABLE_PUBLISH_SUBSCRIBE,
    Event = IOX2SD_TABLE_EVENT,
    RequestResponse = IOX2SD_TABLE_REQUEST_RESPONSE,
    Blackboard = IOX2SD_TABLE_BLACKBOARD,
};

/// The types of TOML.
enum class TomlType : std::uint32_t {
    None = IOX2SD_TOML_NONE,
    String = IOX2SD_TOML_STRING,
    Integer = IOX2SD_TOML_INTEGER,
    Float = IOX2SD_TOML_FLOAT,
    Boolean = IOX2SD_TOML_BOOLEAN,
    Datetime = IOX2SD_TOML_DATETIME,
    Array = IOX2SD_TOML_ARRAY,
    Table = IOX2SD_TOML_TABLE,
};

/// What the value of a key may be.
enum class SettingKind : std::uint32_t {
    None = IOX2SD_KIND_NONE,
    Table = IOX2SD_KIND_TABLE,
    Number = IOX2SD_KIND_NUMBER,  ///< An integer from 0 to 2^63 - 1.
    Flag = IOX2SD_KIND_FLAG,
    Path = IOX2SD_KIND_PATH,
    NameOfFile = IOX2SD_KIND_FILE_NAME,
    Backpressure = IOX2SD_KIND_BACKPRESSURE,
    Allocation = IOX2SD_KIND_ALLOCATION,
    Duration = IOX2SD_KIND_DURATION,  ///< A table of the integers `secs` and `nanos`.
};

/// How a known key is like one that no setting has.
enum class Likeness : std::uint32_t {
    None = IOX2SD_LIKENESS_NONE,
    Spelling = IOX2SD_LIKENESS_SPELLING,  ///< The same but for `-`, `_` and the case of letters.
    OtherTable = IOX2SD_LIKENESS_OTHER_TABLE,  ///< The same but for these, in another table.
    Quoted = IOX2SD_LIKENESS_QUOTED,           ///< Its path stands in quotes.
    Near = IOX2SD_LIKENESS_NEAR,               ///< The nearest key of the table.
};

namespace detail {

/// The bytes at the front of an array, of which there may be more than it holds.
template <std::size_t Capacity, std::size_t Size>
Text<Capacity> front(const std::uint8_t (&bytes)[Size], std::size_t length) noexcept {
    const std::size_t held = length < Size ? length : Size;
    return Text<Capacity>::joined({{reinterpret_cast<const char*>(bytes), held}});
}

/// A path or the name of a file that the library gave, and such a text for the library.
template <>
inline Path from_c<Path>(const iox2sd_config_text& c) noexcept {
    return Path(front<255>(c.bytes, c.length), {});
}
template <>
inline FileName from_c<FileName>(const iox2sd_config_text& c) noexcept {
    return FileName(front<255>(c.bytes, c.length), {});
}
template <class Content>
iox2sd_config_text as_c(const SemanticString<Content, 255>& text) noexcept {
    iox2sd_config_text c{};
    copy_items(bytes(text.view()), text.size(), c.bytes);
    c.length = text.size();
    return c;
}
inline iox2sd_config_text as_c(const Path& path) noexcept {
    return as_c<PathContent>(path);
}

/// What is said of a file, as "FILE:LINE:COLUMN: KEY: WORDS", without what is not known of it.
inline Text<4608> said(std::string_view file, std::size_t line, std::size_t column,
                       std::string_view key, std::string_view words) noexcept {
    const Digits at_line(line), at_column(column);
    const bool has_position = line != 0;
    return Text<4608>::joined({file, file.empty() || !has_position ? "" : ":",
                               has_position ? at_line.view() : "", has_position ? ":" : "",
                               has_position ? at_column.view() : "",
                               file.empty() && !has_position ? "" : ": ", key,
                               key.empty() ? "" : ": ", words});
}

}  // namespace detail

/// What is wrong with a file, where, and with which key.
struct ConfigFault {
    /// The file, or nothing of a text; it lasts as long as its `ConfigError`.
    std::string_view file;
    /// Where the key begins, or where the text is no file of settings, from 1; 0 where there is no
    /// position.
    std::size_t line;
    std::size_t column;  ///< In bytes, from 1; 0 where there is no position.
    Status status;
    ConfigTable table;   ///< The table of the key.
    TomlType found;      ///< The type of its value, with `WrongType`.
    SettingKind wanted;  ///< What its value may be, or `None` where nothing is wrong with a key.
    Text<80> key;        ///< The path of the key, as "defaults.event.deadline".
    Text<256> reason;    ///< What is wrong, in words.

    IOX2SD_FIELDS(file, line, column, status, table, found, wanted, key, reason);

    /// "FILE:LINE:COLUMN: KEY: REASON", without what there is not.
    Text<4608> text() const noexcept { return detail::said(file, line, column, key, reason); }

    /// The fault that the C header gives, of a file.
    static ConfigFault from_c(const iox2sd_config_fault& c, std::string_view file = {}) noexcept {
        return {file,
                c.line,
                c.column,
                Status{c.status},
                ConfigTable{c.table},
                TomlType{c.found},
                SettingKind{c.wanted},
                detail::front<80>(c.key, c.key_length),
                detail::front<256>(c.reason, c.reason_length)};
    }
};

IOX2SD_WRITTEN(ConfigFault);

/// Why the text of a file gives no settings.
struct ConfigError {
    /// `NoFile`; `NotUtf8`; `TooDeep`; `NotToml`; that of the first fault; `NoMemory`.
    Status status;
    /// Every fault, in the order of the file; one without a key with `NotUtf8`, `TooDeep` and
    /// `NotToml`.
    List<ConfigFault> faults;
    int system_error = 0;  ///< With `NoFile`, the system's number of the error.
    List<char> file;       ///< The path of the file, or nothing of a text.

    /// The first fault with its position, or what the status says of the file.
    Text<4608> text() const noexcept {
        if (!faults.empty()) return faults.front().text();
        return detail::said({file.data(), file.size()}, 0, 0, {}, iox2sd::text(status));
    }
};
IOX2SD_WRITTEN(ConfigError);

/// Why settings give no text.
struct ConfigWriteError {
    /// `BadDuration`; `UnknownStrategy`; `NoTomlInteger`, of a number above 2^63 - 1; `NoMemory`.
    Status status;
    SettingsField field;  ///< With the first two, the field that is invalid.
    Text<80> key;         ///< With `NoTomlInteger`, the path of the first such key.

    IOX2SD_FIELDS(status, field, key);

    /// The key or the field, and what is wrong with it.
    Text<255> text() const noexcept {
        const std::string_view words = iox2sd::text(status);
        if (!key.empty()) return Text<255>::joined({key, ": ", words});
        const bool has_field = status == Status::BadDuration || status == Status::UnknownStrategy;
        if (!has_field) return Text<255>::joined({words});
        return Text<255>::joined({iox2sd::text(field), ": ", words});
    }
};
IOX2SD_WRITTEN(ConfigWriteError);

/// A key of a file that no setting has.
struct UnknownKey {
    std::string_view file;  ///< The file, or nothing of a text, which lasts as long as `key`.
    std::size_t line;       ///< Where it begins, from 1; 0 where there is no position.
    std::size_t column;     ///< In bytes, from 1; 0 where there is no position.
    ConfigTable table;
    std::string_view key;  ///< Its path as TOML writes it, which lasts as long as its `ConfigFile`.
    Likeness likeness;     ///< How the known key that was probably meant is like it.
    Text<80> meant;        ///< The path of that key, or nothing.
    Text<256> reason;      ///< What is wrong and was probably meant, in words.

    IOX2SD_FIELDS(file, line, column, table, key, likeness, meant, reason);

    /// "FILE:LINE:COLUMN: KEY: REASON", without what there is not, and cut past 4608 bytes.
    Text<4608> text() const noexcept { return detail::said(file, line, column, key, reason); }
};
IOX2SD_WRITTEN(UnknownKey);

/// The texts of the settings.
struct ConfigTexts {
    Path root_path;   ///< The path below which everything else lies.
    FileName prefix;  ///< What the name of each file begins with.
    Path service_directory;  ///< Below the root path.
    // The ends of the names of services' files:
    FileName data_segment_suffix;
    FileName static_config_storage_suffix;
    FileName dynamic_config_storage_suffix;
    FileName connection_suffix;
    FileName event_connection_suffix;
    FileName blackboard_mgmt_suffix;
    FileName blackboard_data_suffix;
    Path node_directory;  ///< Below the root path.
    // The ends of the names of nodes' files:
    FileName monitor_suffix;
    FileName node_static_config_suffix;
    FileName service_tag_suffix;
    FileName port_tag_suffix;
    FileName global_mgmt_suffix;

    IOX2SD_OF_C(ConfigTexts, iox2sd_config_texts, root_path, prefix, service_directory,
                data_segment_suffix, static_config_storage_suffix, dynamic_config_storage_suffix,
                connection_suffix, event_connection_suffix, blackboard_mgmt_suffix,
                blackboard_data_suffix, node_directory, monitor_suffix, node_static_config_suffix,
                service_tag_suffix, port_tag_suffix, global_mgmt_suffix);
};

namespace detail {

/// The bytes of a path: all of them, where a `c_str` ends at the first zero byte.
template <class File>
std::string_view native(const File& path) noexcept {
    if constexpr (std::is_convertible_v<const File&, std::string_view>) {
        return path;
    } else {
        return path.native();
    }
}

}  // namespace detail

/// All settings: those of the system, and those that services get by default.
struct Config {
    GlobalSettings global;
    ConfigTexts texts;
    PublishSubscribeSettings publish_subscribe;
    EventSettings event;
    RequestResponseSettings request_response;
    BlackboardSettings blackboard;

    IOX2SD_OF_C(Config, iox2sd_config, global, texts, publish_subscribe, event, request_response,
                blackboard);

    /// The settings of the text of a file, where each key that it does not have has its default.
    static Result<ConfigFile, ConfigError> from_toml(std::string_view text) noexcept;

    /// The same of a file, which is read whole.
    static Result<ConfigFile, ConfigError> from_toml_file(const char* path) noexcept;

    /// The same of a file whose path is a `std::filesystem::path` or a `std::string`. One with a
    /// zero byte is that of no file.
    template <class File,
              class = std::enable_if_t<std::is_same_v<typename File::value_type, char>>>
    static Result<ConfigFile, ConfigError> from_toml_file(const File& path) noexcept;

    /// The settings as the text of a file, each below a comment with what it is and its default.
    Result<List<char>, ConfigWriteError> to_toml() const noexcept {
        const iox2sd_config c = as_c();
        iox2sd_config_write_answer answer{};
        auto written = List<char>::written_by([&](char* out, std::size_t capacity) {
            answer = iox2sd_config_write(&c, reinterpret_cast<std::uint8_t*>(out), capacity);
            return detail::counted(answer.status, answer.length);
        });
        if (written) return std::move(written).value();
        return ConfigWriteError{written.status(), SettingsField{answer.field},
                                detail::front<80>(answer.key, answer.key_length)};
    }

    /// The directory of services: the root path and theirs, joined. Error: `TooLong`.
    Result<Path> service_dir() const noexcept { return below(texts.service_directory); }

    /// The directory of nodes: the root path and theirs, joined. Error: `TooLong`.
    Result<Path> node_dir() const noexcept { return below(texts.node_directory); }

private:
    /// The settings of the text of a file, which is named here, or of a text alone.
    static Result<ConfigFile, ConfigError> from_text(std::string_view text,
                                                     List<char> file) noexcept;

    /// That a file was not read.
    static ConfigError no_file(std::string_view path, int system_error) noexcept;

    Result<Path> below(const Path& directory) const noexcept {
        Path path = texts.root_path;
        return path.add_path_entry(directory).transform([&path]() noexcept { return path; });
    }
};

/// What stands in a file.
struct ConfigFile {
    Config config;
    /// The keys that no setting has, in the order of the file.
    List<UnknownKey> unknown;
    List<char> paths;  ///< The paths of the unknown keys.
    List<char> file;   ///< The path of the file, or nothing of a text.
};

namespace detail {

/// Every fault of the text of a file, of which the first was found.
inline ConfigError config_error(std::string_view text, List<char> file,
                                const iox2sd_config_fault& first) noexcept {
    const std::string_view named(file.data(), file.size());
    auto found = List<iox2sd_config_fault>::written_by(
        [text](iox2sd_config_fault* out, std::size_t capacity) {
            return iox2sd_config_faults(bytes(text), text.size(), out, capacity);
        });
    if (found.status() == Status::NoMemory) return {Status::NoMemory, {}, 0, std::move(file)};
    const bool has_keys = found && !found->empty();
    const iox2sd_config_fault* const faults = has_keys ? found->data() : &first;
    auto made = List<ConfigFault>::of(
        faults, has_keys ? found->size() : 1,
        [named](const iox2sd_config_fault& c) noexcept { return ConfigFault::from_c(c, named); });
    if (!made) return {made.status(), {}, 0, std::move(file)};
    return {Status{first.status}, std::move(made).value(), 0, std::move(file)};
}

/// The unknown keys of a text, and their paths.
inline Result<List<iox2sd_unknown_key>> unknown_keys(std::string_view text,
                                                     List<char>& paths) noexcept {
    const iox2sd_unknown_answer needed =
        iox2sd_config_unknown(bytes(text), text.size(), nullptr, 0, nullptr, 0);
    return List<iox2sd_unknown_key>::written_by([&](iox2sd_unknown_key* keys, std::size_t size) {
        if (keys == nullptr) return detail::counted(needed.status, needed.count);
        auto written = List<char>::written_by([&](char* out, std::size_t capacity) {
            if (out == nullptr) {
                return detail::counted(IOX2SD_STATUS_BUFFER_TOO_SHORT, needed.length);
            }
            const iox2sd_unknown_answer answer =
                iox2sd_config_unknown(bytes(text), text.size(), keys, size,
                                      reinterpret_cast<std::uint8_t*>(out), capacity);
            return detail::counted(answer.status, answer.length);
        });
        if (!written) return detail::counted(static_cast<std::uint32_t>(written.status()), 0);
        paths = std::move(written).value();
        return detail::counted(IOX2SD_STATUS_DONE, size);
    });
}

/// The bytes of a file, as a range that is read once.
class FileBytes {
public:
    explicit FileBytes(std::FILE* file) noexcept : file_(file) {}

    struct End {};

    struct Place {
        std::FILE* file;
        int byte;

        bool operator!=(End) const noexcept { return byte != EOF; }
        char operator*() const noexcept { return static_cast<char>(byte); }
        Place& operator++() noexcept {
            byte = std::getc(file);
            return *this;
        }
    };

    Place begin() noexcept { return {file_, std::getc(file_)}; }
    End end() const noexcept { return {}; }

private:
    std::FILE* file_;
};

/// Closes a file.
struct OpenFile {
    std::FILE* file;

    explicit OpenFile(const char* path) noexcept : file(std::fopen(path, "rb")) {}
    OpenFile(const OpenFile&) = delete;
    OpenFile& operator=(const OpenFile&) = delete;
    ~OpenFile() {
        if (file != nullptr) static_cast<void>(std::fclose(file));
    }
};

}  // namespace detail

inline Result<ConfigFile, ConfigError> Config::from_text(std::string_view text,
                                                         List<char> file) noexcept {
    iox2sd_config made{};
    const iox2sd_config_answer answer =
        iox2sd_config_read(detail::bytes(text), text.size(), &made);
    if (answer.status != IOX2SD_STATUS_DONE) {
        return detail::config_error(text, std::move(file), answer.fault);
    }
    List<char> paths;
    const auto keys = detail::unknown_keys(text, paths);
    if (!keys) return ConfigError{keys.status(), {}, 0, std::move(file)};
    const std::string_view named(file.data(), file.size());
    const char* path = paths.data();
    auto unknown = List<UnknownKey>::of(
        keys->data(), keys->size(), [&path, named](const iox2sd_unknown_key& key) noexcept {
            const std::string_view own(path, key.key_length);
            path += key.key_length;
            return UnknownKey{named,
                              key.line,
                              key.column,
                              ConfigTable{key.table},
                              own,
                              Likeness{key.likeness},
                              detail::front<80>(key.meant, key.meant_length),
                              detail::front<256>(key.reason, key.reason_length)};
        });
    if (!unknown) return ConfigError{unknown.status(), {}, 0, std::move(file)};
    return ConfigFile{from_c(made), std::move(unknown).value(), std::move(paths), std::move(file)};
}

inline Result<ConfigFile, ConfigError> Config::from_toml(std::string_view text) noexcept {
    return from_text(text, {});
}

template <class File, class>
Result<ConfigFile, ConfigError> Config::from_toml_file(const File& path) noexcept {
    const char* const name = path.c_str();
    if (std::string_view(name) != detail::native(path)) return no_file(name, EINVAL);
    return from_toml_file(name);
}

inline ConfigError Config::no_file(std::string_view path, int system_error) noexcept {
    auto file = List<char>::of(path.data(), path.size(), [](char byte) noexcept { return byte; });
    if (!file) return ConfigError{file.status(), {}, 0, {}};
    return ConfigError{Status::NoFile, {}, system_error, std::move(file).value()};
}

inline Result<ConfigFile, ConfigError> Config::from_toml_file(const char* path) noexcept {
    const detail::OpenFile open(path);
    ConfigError unread = no_file(path, open.file == nullptr ? errno : 0);
    if (open.file == nullptr || unread.status != Status::NoFile) return unread;
    detail::FileBytes bytes(open.file);
    const auto text = List<char>::of_range(bytes, [](char byte) { return byte; });
    if (std::ferror(open.file) != 0) {
        unread.system_error = errno;
        return unread;
    }
    if (!text) return ConfigError{text.status(), {}, 0, std::move(unread.file)};
    return from_text(*text, std::move(unread.file));
}

}  // namespace iox2sd

#endif
