"""A discovery: finds services by pattern and name, and prints who is attached to them."""

from iox2sd import (
    BlackboardStaticConfig, DynamicConfig, EventStaticConfig, ListenerDetails, MessagingPattern,
    ReaderDetails, ServiceHash, ServiceName, StaticConfig, TypeDetail, UniqueListenerId,
    UniqueNodeId, UniqueReaderId, UniqueServiceId,
)

NAME = ServiceName("Motor/State")
NODE = UniqueNodeId(21, 1000, 0, 1)


def found_services() -> "list[tuple[StaticConfig, DynamicConfig]]":
    """Two services of one name, which their patterns keep apart."""
    keys = BlackboardStaticConfig.new(TypeDetail("MotorNumber", size=4, alignment=4))
    events = DynamicConfig.event(1, max_nodes=2, max_listeners=2, max_notifiers=2)
    board = DynamicConfig.blackboard(2, max_nodes=2, max_readers=2, max_writers=1)
    for service in (events, board):
        service.register_node_id(NODE)
    listener = UniqueListenerId(21, 1000, 0, 2)
    events.attach(ListenerDetails(listener_id=listener, node_id=NODE))
    for counter in (3, 4):
        reader = UniqueReaderId(21, 1000, 0, counter)
        board.attach(ReaderDetails(reader_id=reader, node_id=NODE))
    return [
        (StaticConfig(NAME, UniqueServiceId(21, 1000, 0, 5), EventStaticConfig.new()), events),
        (StaticConfig(NAME, UniqueServiceId(21, 1000, 0, 6), keys), board),
    ]


directory = {found[0].service_hash: found for found in found_services()}
for service_hash, (description, attached) in directory.items():
    print(f"{description.name}, {description.messaging_pattern.name}, {service_hash}")
    for node in attached.list_node_ids():
        print(f"  node {node}")
    for role in attached.port_roles:
        print(f"  {attached.count_ports(role)} of {attached.max_ports(role)}: {role.name}")
        for details in attached.list_ports(role):
            print(f"    {details.port_id} of node {details.node_id}")
    attached.close()
for pattern in MessagingPattern:
    print(pattern.name, "found" if ServiceHash.new(NAME, pattern) in directory else "not found")
