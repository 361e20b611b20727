// A liveness monitor: removes dead nodes with their ports, but keeps the ports that are still being
// read. The service is locked when its last node is removed.
//
// It prints:
//     dead 100000000000000000000000a: 1 publishers, 0 subscribers, nodes are left
//       kept: subscriber 1000000000000000000000015
//     dead 100000000000000000000000a: 0 publishers, 1 subscribers, nodes are left
//     dead 200000000000000000000000b: 1 publishers, 0 subscribers, locked
//     a late node: the service is locked for good
#include <iostream>

#include "iox2sd.hpp"

using namespace iox2sd;

namespace {

void remove(Service& service, const UniqueNodeId& dead,
            std::initializer_list<UniquePortId> kept = {}) {
    const DeadNodeRemoval gone = service.remove_dead_node_id(dead, kept).value();
    std::cout << "dead " << dead << ": " << gone.first << " publishers, " << gone.second
              << " subscribers, " << (*service.is_locked() ? "locked\n" : "nodes are left\n");
    for (const PortDetails& port : service.ports_of(dead).value()) {
        std::cout << "  kept: " << role(port) << ' ' << port_id(port) << '\n';
    }
}

}  // namespace

int main() {
    const UniqueNodeId camera = UniqueNodeId::create(1, 0, 0, 10).value();
    const UniqueNodeId lidar = UniqueNodeId::create(2, 0, 0, 11).value();
    const UniqueSubscriberId read(1, 0, 0, 21);
    Service service = Service::create(PublishSubscribeCapacities{4, 4, 4}, 7).value();
    service.register_node_id(camera).value();
    service.register_node_id(lidar).value();
    service.attach(PublisherDetails{UniquePublisherId(1, 0, 0, 20), camera}).value();
    service.attach(SubscriberDetails{read, camera, 2}).value();
    service.attach(PublisherDetails{UniquePublisherId(2, 0, 0, 22), lidar}).value();

    remove(service, camera, {read});
    remove(service, camera);
    remove(service, lidar);
    std::cout << "a late node: " << service.register_node_id(camera).status() << '\n';
}
