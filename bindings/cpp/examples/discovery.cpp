// Discovery: who is attached to a service, by node, and its available capacities.
//
// It prints:
//     request-response, 2 of 3 nodes, 1 of 1 servers, 2 of 8 clients
//     node 1000000000000000000000001
//       server 100000000000000000000000a
//       client 100000000000000000000000b
//     node 2000000000000000000000002
//       client 200000000000000000000000c
#include <algorithm>
#include <iostream>
#include <vector>

#include "iox2sd.hpp"

using namespace iox2sd;

namespace {

Result<void> print(const Service& service) {
    const auto nodes = service.nodes();
    if (!nodes) return nodes.error();
    std::vector<UniqueNodeId> rising(nodes->begin(), nodes->end());
    std::sort(rising.begin(), rising.end());
    rising.erase(std::unique(rising.begin(), rising.end()), rising.end());
    for (const UniqueNodeId& node : rising) {
        std::cout << "node " << node << '\n';
        const auto ports = service.ports_of(node);
        if (!ports) return ports.error();
        for (const PortDetails& port : *ports) {
            std::cout << "  " << role(port) << ' ' << port_id(port) << '\n';
        }
    }
    return {};
}

}  // namespace

int main() {
    const UniqueNodeId one = UniqueNodeId::create(1, 0, 0, 1).value();
    const UniqueNodeId two = UniqueNodeId::create(2, 0, 0, 2).value();
    Service service = Service::create(RequestResponseCapacities{3, 1, 8}, 7).value();
    if (!service.register_node_id(two) || !service.register_node_id(one)) return 1;
    if (!service.attach(ClientDetails{UniqueClientId(2, 0, 0, 12), two})) return 1;
    if (!service.attach(ClientDetails{UniqueClientId(1, 0, 0, 11), one})) return 1;
    if (!service.attach(ServerDetails{UniqueServerId(1, 0, 0, 10), one})) return 1;

    const PortRoles roles = service.port_roles().value();
    std::cout << service.kind().value() << ", " << service.number_of_nodes().value() << " of " << service.max_nodes().value()
              << " nodes, " << service.count_ports(roles.first).value() << " of "
              << service.max_ports(roles.first).value() << " servers, "
              << service.count_ports(roles.second).value() << " of "
              << service.max_ports(roles.second).value() << " clients\n";
    return print(service) ? 0 : 1;
}
