from iox2sd import Config, DeregisterNodeState, DynamicConfig, UniqueNodeId

settings = Config.from_toml_file("iceoryx2.toml").config.defaults.event
with DynamicConfig.described(settings, service_number=7) as service:
    node = service.register_node_id(UniqueNodeId(process=1, seconds=0, nanoseconds=0, counter=1))
    print(f"slot {node.slot} of service {node.service}")
    if service.deregister_node_id(node) is DeregisterNodeState.NO_MORE_OWNERS:
        print("it is locked")
