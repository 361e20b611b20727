#include <iostream>
#include "iox2sd.hpp"
#include "iox2sd_config.hpp"
using namespace iox2sd;

// A node joins an event service with the number 7 and the capacities of iceoryx2.toml, and leaves.
Result<DeregisterNodeState> join_and_leave() {
    const auto file = Config::from_toml_file("iceoryx2.toml");
    if (!file) return file.error();
    auto service = Service::create(file->config.event, 7);
    if (!service) return service.error();
    const auto id = UniqueNodeId::create(1, 0, 0, 1);  // process, seconds, nanoseconds, counter
    if (!id) return id.error();
    const auto node = service->register_node_id(*id);
    if (!node) return node.error();
    std::cout << "slot " << node->slot << " of service " << node->service << '\n';
    return service->deregister_node_id(*node);
}

int main() {
    const auto left = join_and_leave();
    if (left == DeregisterNodeState::NoMoreOwners) std::cout << "it is locked\n";
    if (!left) std::cerr << left.error() << '\n';
    return left ? 0 : 1;
}
