"""A liveness monitor: removes dead nodes from a service, and keeps the ports that are in use."""

from iox2sd import (
    DynamicConfig, ListenerDetails, NotifierDetails, UniqueListenerId, UniqueNodeId,
    UniqueNotifierId,
)

NODES = [UniqueNodeId(process, 1000, 0, 1) for process in (11, 12, 13)]
LISTENERS = [UniqueListenerId(node.process, 1001, 0, 2) for node in NODES]


def clean_up(service: DynamicConfig, dead: UniqueNodeId, *in_use: UniqueListenerId) -> None:
    """Removes what a dead node left, but for listeners that are in use."""
    gone = service.remove_dead_node_id(dead, keep=in_use)
    print(f"node {dead}: {gone.first} listeners and {gone.second} notifiers are removed, "
          f"{len(service.ports_of(dead))} stay, {service.number_of_nodes} nodes are left")


with DynamicConfig.event(7, max_nodes=4, max_listeners=8, max_notifiers=8) as service:
    for node, listener in zip(NODES, LISTENERS):
        service.register_node_id(node)
        service.attach(ListenerDetails(listener_id=listener, node_id=node))
        notifier = UniqueNotifierId(node.process, 1001, 0, 3)
        service.attach(NotifierDetails(notifier_id=notifier, node_id=node))
    clean_up(service, NODES[0], *LISTENERS)
    for node in NODES:
        clean_up(service, node)
    print("it is locked" if service.is_locked else "it goes on")
