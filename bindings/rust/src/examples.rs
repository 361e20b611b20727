//! How the examples of several pages begin and end.

/// The lines that begin an example: up to the settings of a pattern, a service, a node, a listener and
/// its port; up to a description; a set of attributes, the types of a message, or what is fixed by a
/// pattern. And those that end it. The pattern is that of events where none is named.
macro_rules! example {
    (service) => {
        example!(service of event)
    };
    (node) => {
        example!(node of event)
    };
    (listener) => {
        concat!(
            example!(node),
            "\nlet listener_id = UniqueListenerId::new(1, 0, 0, 2);",
            "\nlet listener = ListenerDetails { listener_id, node_id };"
        )
    };
    (port) => {
        concat!(
            example!(listener),
            "\nlet port = service.attach(listener)?;"
        )
    };
    (of $module:ident) => {
        concat!(
            "```\n# use iox2sd::prelude::*;\nlet settings = Config::default().defaults.",
            stringify!($module),
            ";"
        )
    };
    (service of $module:ident) => {
        concat!(
            example!(of $module),
            "\nlet mut service = DynamicConfig::with_capacities(&settings, 7)?;"
        )
    };
    (node of $module:ident) => {
        concat!(
            example!(service of $module),
            "\nlet node_id = UniqueNodeId::new(1, 0, 0, 1).expect(\"the id of a node\");",
            "\nlet node = service.register_node_id(node_id)?;"
        )
    };
    (description of $module:ident) => {
        concat!(
            example!(of $module),
            "\nlet (name, id) = (\"front\".parse()?, UniqueServiceId::new(1, 0, 0, 1));",
            "\nlet mut service = StaticConfig::new(&name, &settings, id)?;"
        )
    };
    (attributes) => {
        concat!(
            "```\nuse iox2sd::attribute::*;\n\n",
            "let [site, robot]: [AttributeKey; 2] = [\"site\".parse()?, \"robot\".parse()?];\n",
            "let (north, east) = (\"north\".parse()?, \"east\".parse()?);\n",
            "let mut set = AttributeSet::new();\n",
            "set.add(&site, &north)?;\nset.add(&site, &east)?;"
        )
    };
    (types) => {
        concat!(
            "```\nuse iox2sd::static_config::message_type_details::*;\n\n",
            "let mut details = MessageTypeDetails::from::<u64, u32, u8>(TypeVariant::Dynamic)?;"
        )
    };
    (fixed $module:ident) => {
        concat!(
            "```\nuse iox2sd::config::Config;\nuse iox2sd::static_config::",
            stringify!($module),
            "::StaticConfig;\n\nlet mut fixed = StaticConfig::new(&Config::default());"
        )
    };
    (end) => {
        "# Ok::<(), Box<dyn std::error::Error>>(())\n```"
    };
}
