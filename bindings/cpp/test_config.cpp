// Reads and writes files of settings by iox2sd_config.hpp, and each of their refusals. The last line
// is 'N checks, N failed'.
#include <unistd.h>

#include <filesystem>
#include <sstream>
#include <string>
#include <string_view>
#include <type_traits>

#include "check.hpp"
#include "iox2sd_config.hpp"

namespace {

using namespace iox2sd;
using std::string;

template <class T>
string written(const T& value) {
    std::ostringstream out;
    out << value;
    return out.str();
}

Config read(std::string_view text) { return Config::from_toml(text).value().config; }

void defaults() {
    const auto file = Config::from_toml("");
    CHECK(file.has_value() && file->unknown.empty());
    const Config& config = file->config;
    CHECK(config.global == GlobalSettings::defaults());
    CHECK(config.publish_subscribe == PublishSubscribeSettings::defaults());
    CHECK(config.event == EventSettings::defaults());
    CHECK(config.request_response == RequestResponseSettings::defaults());
    CHECK(config.blackboard == BlackboardSettings::defaults());
    CHECK(config.texts.root_path == *default_text(ConfigEntry::RootPath));
    CHECK(config.texts.prefix == *default_text(ConfigEntry::Prefix));
    CHECK(config.texts.node_directory == *default_text(ConfigEntry::NodeDirectory));
    CHECK(config.texts.global_mgmt_suffix == *default_text(ConfigEntry::GlobalMgmtSuffix));
    CHECK(*config.service_dir() == "/tmp/iceoryx2/services");
    CHECK(*config.node_dir() == "/tmp/iceoryx2/nodes");
}

void settings() {
    const Config config = read("[global]\nprefix = 'own_'\nroot-path = '/run'\n"
                               "creation-timeout = {secs = 1, nanos = 2}\n"
                               "[defaults.event]\ndeadline = {secs = 3, nanos = 4}\n"
                               "notifier-dead-event = 5\n"
                               "[defaults.request-response]\n"
                               "server-allocation-strategy = 'PowerOfTwo'\n");
    CHECK(config.texts.prefix == "own_" && *config.service_dir() == "/run/services");
    CHECK(config.global.creation_timeout == Duration{1, 2});
    CHECK(config.event.deadline == Duration{3, 4} && config.event.notifier_dead_event->value == 5);
    CHECK(!config.event.notifier_created_event);
    CHECK(config.request_response.server_allocation_strategy == AllocationStrategy::PowerOfTwo);
    CHECK(config != read("") && config == Config(config));
    const auto text = config.to_toml();
    CHECK(text.has_value() && read({text->data(), text->size()}) == config);
}

/// Each text is read and written by its own name.
void texts() {
    const Config config = read(
        "[global]\nroot-path = '/r'\nprefix = 'p_'\n[global.service]\ndirectory = 's'\n"
        "data-segment-suffix = '.a'\nstatic-config-storage-suffix = '.b'\n"
        "dynamic-config-storage-suffix = '.c'\nconnection-suffix = '.d'\n"
        "event-connection-suffix = '.e'\nblackboard-mgmt-suffix = '.f'\n"
        "blackboard-data-suffix = '.g'\n[global.node]\ndirectory = 'n'\nmonitor-suffix = '.h'\n"
        "static-config-suffix = '.i'\nservice-tag-suffix = '.j'\nport-tag-suffix = '.k'\n"
        "global-mgmt-suffix = '.l'\n");
    const auto& [root, prefix, services, a, b, c, d, e, f, g, nodes, h, i, j, k, l] = config.texts;
    CHECK(root == "/r" && prefix == "p_" && services == "s" && a == ".a" && b == ".b" && c == ".c");
    CHECK(d == ".d" && e == ".e" && f == ".f" && g == ".g" && nodes == "n" && h == ".h");
    CHECK(i == ".i" && j == ".j" && k == ".k" && l == ".l");
    CHECK(*config.service_dir() == "/r/s" && *config.node_dir() == "/r/n");
    const auto text = config.to_toml();
    CHECK(text.has_value() && read({text->data(), text->size()}) == config);
}

void unknown_keys() {
    auto file = Config::from_toml("[defaults.publish-subscribe]\n  max-publisher = 3\n[other]\n"
                                  "[global]\nPREFIX = 1\n'node.directory' = 1\n"
                                  "[global.node]\ncreation-timeout = 1\n");
    CHECK(file.has_value() && file->unknown.size() == 5);
    const ConfigFile moved = std::move(file).value();
    const List<UnknownKey>& keys = moved.unknown;
    CHECK(keys[0].table == ConfigTable::PublishSubscribe && keys[0].file.empty());
    CHECK(keys[0].line == 2 && keys[0].column == 3 && keys[0].likeness == Likeness::Near);
    CHECK(keys[0].key == "defaults.publish-subscribe.max-publisher");
    CHECK(keys[0].meant == "defaults.publish-subscribe.max-publishers");
    CHECK(keys[0].reason == "this table has no such key, "
                            "defaults.publish-subscribe.max-publishers may be meant");
    CHECK(written(keys[0]) == "2:3: defaults.publish-subscribe.max-publisher: " +
                                  string(keys[0].reason.view()));
    CHECK(keys[1].table == ConfigTable::Root && keys[1].key == "other" && keys[1].meant.empty());
    CHECK(keys[1].line == 3 && keys[1].column == 2 && keys[1].likeness == Likeness::None);
    CHECK(written(keys[1]) == "3:2: other: this table has no such key");
    CHECK(keys[2].likeness == Likeness::Spelling && keys[2].meant == "global.prefix");
    CHECK(keys[3].likeness == Likeness::Quoted && keys[3].key == "global.\"node.directory\"");
    CHECK(keys[4].likeness == Likeness::OtherTable && keys[4].table == ConfigTable::Node);
    CHECK(keys[4] != keys[3] && keys[4] == UnknownKey(keys[4]));
}

void faults() {
    const auto refused = Config::from_toml("[defaults.event]\nmax-nodes = -1\n"
                                           "[global]\n  creation-timeout = 5\nother = 1\n");
    CHECK(!refused && refused.status() == Status::BelowZero);
    const List<ConfigFault>& all = refused.error().faults;
    CHECK(all.size() == 2 && refused.error().system_error == 0 && refused.error().file.empty());
    CHECK(all[0].status == Status::BelowZero && all[0].wanted == SettingKind::Number);
    CHECK(all[0].line == 2 && all[0].column == 1 && all[0].file.empty());
    CHECK(written(all[0]) ==
          "2:1: defaults.event.max-nodes: is not an integer from 0 to 9223372036854775807");
    CHECK(all[0] != all[1]);
    CHECK(all[1].status == Status::WrongType && all[1].table == ConfigTable::Global);
    CHECK(all[1].found == TomlType::Integer && all[1].wanted == SettingKind::Duration);
    CHECK(all[1].line == 4 && all[1].column == 3);
    CHECK(written(all[1]) == "4:3: global.creation-timeout: is an integer, and a table of `secs` "
                             "and `nanos` is wanted");
    CHECK(written(refused.error()) == written(all[0]));
    const auto no_toml = Config::from_toml("[global\n");
    CHECK(no_toml.status() == Status::NotToml && no_toml.error().faults.size() == 1);
    CHECK(no_toml.error().faults[0].line == 1 && no_toml.error().faults[0].key.empty());
    CHECK(written(no_toml.error()).find("1:8: ") == 0);
    CHECK(Config::from_toml("\xff").status() == Status::NotUtf8);
    CHECK(written(Config::from_toml("a = 1\n \xff").error()) == "2:2: the file is no UTF-8");
    const string large = "[global]\nprefix = 1\n" + string(131072, '#');
    CHECK(Config::from_toml(large).error().faults[0].line == 0);
    CHECK(written(Config::from_toml(large).error()).find("global.prefix: is an integer") == 0);
}

void writing() {
    Config config = read("");
    config.blackboard.max_nodes = SIZE_MAX;
    auto refused = config.to_toml();
    CHECK(refused.status() == Status::NoTomlInteger);
    CHECK(refused.error().key == "defaults.blackboard.max-nodes");
    config.event.deadline = Duration{0, 1000000000};
    refused = config.to_toml();
    CHECK(refused.status() == Status::BadDuration && refused.error().key.empty());
    CHECK(refused.error().field == SettingsField::Deadline);
    config = read("");
    config.publish_subscribe.publisher_allocation_strategy = AllocationStrategy{3};
    refused = config.to_toml();
    CHECK(refused.status() == Status::UnknownStrategy);
    CHECK(written(refused.error()) == "publisher_allocation_strategy: unknown strategy");
}

/// What is read of a file with these bytes, which is closed again.
Result<ConfigFile, ConfigError> of_file(const string& bytes) {
    char path[] = "/tmp/iox2sd_config_XXXXXX";
    const int file = mkstemp(path);
    CHECK(write(file, bytes.data(), bytes.size()) == static_cast<ssize_t>(bytes.size()));
    close(file);
    auto read = Config::from_toml_file(path);
    unlink(path);
    const int next = dup(STDOUT_FILENO);
    CHECK(next == file);
    close(next);
    return read;
}

void files() {
    const auto read =
        of_file("[global]\nprefix = 'own_'\n" + string(5000, '#') + "\nprefx = 1\n");
    CHECK(read.has_value() && read->config.texts.prefix == "own_" && read->unknown.size() == 1);
    CHECK(read->unknown[0].meant == "global.prefix" && read->unknown[0].line == 4);
    const std::string_view file(read->file.data(), read->file.size());
    CHECK(file.find("/tmp/iox2sd_config_") == 0 && read->unknown[0].file == file);
    CHECK(written(read->unknown[0]) ==
          string(file) + ":4:1: global.prefx: " + string(read->unknown[0].reason.view()));
    const auto faulty = of_file("[global]\n  prefix = 1\n" + string(5000, '#'));
    const ConfigFault& fault = faulty.error().faults[0];
    CHECK(fault.file.find("/tmp/iox2sd_config_") == 0 && fault.line == 2 && fault.column == 3);
    CHECK(fault.file == std::string_view(faulty.error().file.data(), faulty.error().file.size()));
    CHECK(written(faulty.error()) ==
          string(fault.file) + ":2:3: global.prefix: " + string(fault.reason.view()));
    const auto large = of_file("[global]\nprefix = 1\n" + string(131072, '#'));
    CHECK(written(large.error()).find(": global.prefix: is an integer") != string::npos);
    // No byte ends a file.
    CHECK(of_file("prefix = 1\n" + string(1, '\0')).status() == Status::NotToml);
    CHECK(of_file("prefix = 1\n\xff").status() == Status::NotUtf8);
    const auto missing = Config::from_toml_file("/nowhere/iceoryx2.toml");
    CHECK(missing.status() == Status::NoFile && missing.error().system_error == ENOENT);
    CHECK(written(missing.error()) == "/nowhere/iceoryx2.toml: the file cannot be read");
    const auto folder = Config::from_toml_file("/tmp");
    CHECK(folder.status() == Status::NoFile && folder.error().system_error == EISDIR);
    const std::filesystem::path no_path = "/nowhere/iceoryx2.toml";
    CHECK(Config::from_toml_file(no_path).error().system_error == ENOENT);
    CHECK(Config::from_toml_file(no_path.string()).error().system_error == ENOENT);
    const string with_zero("/dev/null\0more", 14);
    for (const auto& read_zero : {Config::from_toml_file(std::filesystem::path(with_zero)).status(),
                                  Config::from_toml_file(with_zero).status()}) {
        CHECK(read_zero == Status::NoFile);
    }
    CHECK(Config::from_toml_file(with_zero).error().system_error == EINVAL);
    CHECK(Config::from_toml_file(std::filesystem::path("/dev/null")));
    const auto empty = Config::from_toml_file("/dev/null");
    CHECK(empty.has_value() && empty->config == Config::from_toml("").value().config);
}

static_assert(std::is_nothrow_move_constructible_v<ConfigFile>);
static_assert(!std::is_copy_constructible_v<ConfigFile>);

}  // namespace

int main() {
    defaults();
    settings();
    texts();
    unknown_keys();
    faults();
    writing();
    files();
    return end_of_checks();
}
