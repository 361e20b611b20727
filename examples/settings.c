// Reads texts of a file of settings: what they say, and what is wrong with them.
//
// It prints:
//     root path /run/my, 16 subscribers, 1 unknown key
//     refused: 2:3: global.creation-timeout: is an integer, and a table of `secs` and `nanos` is wanted
#include "iox2sd_config.h"

#include <stdio.h>

static bool report(const char *text) {
    iox2sd_config config;
    const iox2sd_config_answer read = iox2sd_config_read_str(text, &config);
    if (!IOX2SD_SUCCEEDED(read.status)) {
        printf("refused: %zu:%zu: %.*s: %.*s\n", read.fault.line, read.fault.column,
               (int)read.fault.key_length, (const char *)read.fault.key,
               (int)sizeof read.fault.reason, (const char *)read.fault.reason);
        return false;
    }
    printf("root path %.*s, %zu subscribers, %zu unknown key\n",
           (int)config.texts.root_path.length, (const char *)config.texts.root_path.bytes,
           config.publish_subscribe.max_subscribers, read.unknown);
    return true;
}

int main(void) {
    const bool good = report("[global]\nroot-path = '/run/my'\n[defaults.publish-subscribe]\n"
                             "max-subscribers = 16\nmax-publisher = 3\n");
    const bool bad = report("[global]\n  creation-timeout = 5\n[defaults.event]\nmax-nodes = -1\n");
    return good && !bad ? 0 : 1;
}
