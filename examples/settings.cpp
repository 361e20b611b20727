// Reads a file of settings: what it says, which keys no setting has, and what is wrong with it. The
// file is the first argument; without one there are two texts.
//
// It prints:
//     services are in /run/my/services
//     a publisher needs memory for 66 samples
//     6:1: defaults.event.max-listener: this table has no such key, defaults.event.max-listeners may be meant
//     refused: a value of another type is wanted
//       2:3: global.creation-timeout: is an integer, and a table of `secs` and `nanos` is wanted
//       4:1: defaults.event.max-nodes: is not an integer from 0 to 9223372036854775807
#include <iostream>

#include "iox2sd_config.hpp"

using namespace iox2sd;

namespace {

bool report(const Result<ConfigFile, ConfigError>& file) {
    if (!file) {
        std::cout << "refused: " << text(file.status()) << '\n';
        for (const ConfigFault& fault : file.error().faults) std::cout << "  " << fault << '\n';
        return false;
    }
    const PublishSubscribeSettings& samples = file->config.publish_subscribe;
    std::cout << "services are in " << file->config.service_dir().value() << '\n'
              << "a publisher needs memory for "
              << samples.required_amount_of_samples_per_data_segment().value() << " samples\n";
    for (const UnknownKey& unknown : file->unknown) std::cout << unknown << '\n';
    return true;
}

}  // namespace

int main(int count, char** arguments) {
    if (count > 1) return report(Config::from_toml_file(arguments[1])) ? 0 : 1;
    const auto good = Config::from_toml("[global]\nroot-path = '/run/my'\n"
                                        "[defaults.publish-subscribe]\nmax-subscribers = 16\n"
                                        "[defaults.event]\nmax-listener = 3\n");
    const auto bad = Config::from_toml("[global]\n  creation-timeout = 5\n"
                                       "[defaults.event]\nmax-nodes = -1\n");
    return report(good) && !report(bad) ? 0 : 1;
}
