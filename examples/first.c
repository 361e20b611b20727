#include "iox2sd_config.h"
#include <inttypes.h>
#include <stdio.h>

/* A node joins an event service with the number 7 and the capacities of iceoryx2.toml (of less than
 * 64 KiB), and leaves. Its id is a process, seconds, nanoseconds and a counter. */
static iox2sd_status join_and_leave(iox2sd_service *service) {
    static uint8_t text[65536];
    iox2sd_config config;
    FILE *file = fopen("iceoryx2.toml", "rb");
    if (file == NULL) return IOX2SD_STATUS_NO_FILE;
    size_t length = fread(text, 1, sizeof text, file);
    bool whole = feof(file) != 0;
    fclose(file);
    if (!whole) return IOX2SD_STATUS_NO_FILE;
    iox2sd_config_answer read = iox2sd_config_read(text, length, &config);
    if (!IOX2SD_SUCCEEDED(read.status)) return read.status;
    iox2sd_status made = iox2sd_service_create_event(
        service, 7, iox2sd_event_capacities_of_settings(&config.event));
    if (!IOX2SD_SUCCEEDED(made)) return made;
    iox2sd_handle_answer node = iox2sd_register_node_id(service, (iox2sd_id){1, 0, 0, 1});
    if (!IOX2SD_SUCCEEDED(node.status)) return node.status;
    printf("slot %zu of service %" PRIu64 "\n", node.handle.slot, node.handle.service);
    return iox2sd_deregister_node_id(service, node.handle);
}

int main(void) {
    iox2sd_service service = IOX2SD_SERVICE_NONE;
    iox2sd_status status = join_and_leave(&service);
    if (status == IOX2SD_STATUS_DONE_LOCKED) puts("it is locked");
    if (!IOX2SD_SUCCEEDED(status)) fprintf(stderr, "%s\n", iox2sd_status_str(status));
    iox2sd_service_free(&service);
    return IOX2SD_SUCCEEDED(status) ? 0 : 1;
}
