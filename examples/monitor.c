// A liveness monitor: removes dead nodes with their ports, but keeps the ports that are still being
// read. The service is locked when its last node is removed.
//
// It prints:
//     dead node 10: 1 publishers, 0 subscribers removed, nodes are left
//       kept: subscriber 21
//     dead node 10: 0 publishers, 1 subscribers removed, nodes are left
//     dead node 11: 1 publishers, 0 subscribers removed, the service is locked
//     a late node: the service is locked for good
#include "iox2sd.h"

#include <stdio.h>

// Whether the calls succeeded.
static bool remove_dead(iox2sd_service *service, iox2sd_id dead, const iox2sd_port_id *kept,
                        size_t kept_count) {
    iox2sd_port_details ports[8];  // As many as the service may have, four of each role.
    const iox2sd_dead_node_removal gone =
        iox2sd_remove_dead_node_id(service, dead, kept, kept_count);
    if (!IOX2SD_SUCCEEDED(gone.status)) return false;
    const iox2sd_count_answer left = iox2sd_ports_of(service, dead, ports, 8);
    if (!IOX2SD_SUCCEEDED(left.status)) return false;
    printf("dead node %u: %zu publishers, %zu subscribers removed, %s\n", (unsigned)dead.counter,
           gone.first, gone.second,
           gone.status == IOX2SD_STATUS_DONE_LOCKED ? "the service is locked" : "nodes are left");
    for (size_t i = 0; i < left.count; i++)
        printf("  kept: %s %u\n", iox2sd_role_str(ports[i].role), (unsigned)ports[i].port.counter);
    return true;
}

int main(void) {
    const iox2sd_id camera = {1, 0, 0, 10}, lidar = {2, 0, 0, 11};
    const iox2sd_port_id read = {IOX2SD_ROLE_SUBSCRIBER, {1, 0, 0, 21}};
    const iox2sd_publish_subscribe_capacities four = {4, 4, 4};
    const iox2sd_port_details ports[] = {
        {.role = IOX2SD_ROLE_PUBLISHER, .port = {1, 0, 0, 20}, .node = camera},
        {.role = read.role, .port = read.port, .node = camera, .buffer_size = 2},
        {.role = IOX2SD_ROLE_PUBLISHER, .port = {2, 0, 0, 22}, .node = lidar}};
    iox2sd_service service = IOX2SD_SERVICE_NONE;
    if (!IOX2SD_SUCCEEDED(iox2sd_service_create_publish_subscribe(&service, 7, four)) ||
        !IOX2SD_SUCCEEDED(iox2sd_register_node_id(&service, camera).status) ||
        !IOX2SD_SUCCEEDED(iox2sd_register_node_id(&service, lidar).status))
        return 1;
    for (size_t i = 0; i < 3; i++)
        if (!IOX2SD_SUCCEEDED(iox2sd_attach(&service, &ports[i]).status)) return 1;
    if (!remove_dead(&service, camera, &read, 1) || !remove_dead(&service, camera, NULL, 0) ||
        !remove_dead(&service, lidar, NULL, 0))
        return 1;
    printf("a late node: %s\n",
           iox2sd_status_str(iox2sd_register_node_id(&service, camera).status));
    return IOX2SD_SUCCEEDED(iox2sd_service_free(&service)) ? 0 : 1;
}
