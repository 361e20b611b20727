// A service builder: opens a service that its maker has described, or reports the first reason for
// which it may not be opened. Nothing stays registered where it may not.
//
// It prints:
//     refused: color=blue: a required pair is not in the set
//     refused: payload: the opener's type has a greater alignment than the service's
//     refused: max_subscribers: a setting is not what the opener requires
//     opened with slot 0, a message has 40 bytes, alignment 8
//     refused: no slot or no ticket is left
#include <iostream>

#include "iox2sd.hpp"

using namespace iox2sd;

namespace {

TypeDetail type(TypeVariant variant, std::string_view name, std::size_t size,
                std::size_t alignment = 8) {
    return TypeDetail::create(variant, name, size, alignment).value();
}

void open(const StaticConfig& description, Service& service, const Requirements& required) {
    if (const auto met = description.satisfies(required); !met) {
        std::cout << "refused: " << met.error() << '\n';
    } else if (const auto node = service.register_node_id(UniqueNodeId::create(1, 0, 0, 2).value());
               !node) {
        std::cout << "refused: " << node.error() << '\n';
    } else {
        const auto& types = description.publish_subscribe()->message_type_details;
        const Layout message = types.sample_layout(2).value();
        std::cout << "opened with slot " << node->slot << ", a message has " << message.size
                  << " bytes, alignment " << message.alignment << '\n';
    }
}

}  // namespace

int main() {
    const AttributeKey color = AttributeKey::create("color").value();
    const AttributeValue red = AttributeValue::create("red").value();
    const MessageTypeDetails types{type(TypeVariant::FixedSize, "Header", 8),
                                   type(TypeVariant::FixedSize, "UserHeader", 4, 4),
                                   type(TypeVariant::Dynamic, "Payload", 8)};
    PublishSubscribeSettings settings = PublishSubscribeSettings::defaults();
    settings.max_nodes = 1;
    AttributeSet attributes;
    attributes.add(color, red).value();
    const StaticConfig description =
        StaticConfig::create(ServiceName::create("My/Service").value(), UniqueServiceId(1, 0, 0, 1),
                             attributes, PublishSubscribeStaticConfig(settings, types))
            .value();
    Service service = Service::create(description, 7).value();

    Requirements blue{description.messaging_pattern()}, fitting = blue;
    blue.attributes.require(color, AttributeValue::create("blue").value()).value();
    fitting.attributes.require(color, red).value();
    PublishSubscribeStaticConfig wider(settings, types), more = wider;
    wider.message_type_details.payload = type(TypeVariant::Dynamic, "Payload", 8, 16);
    more.max_subscribers = 9;
    const Requirements all[] = {blue, {wider}, {more}, fitting, fitting};
    for (const Requirements& required : all) open(description, service, required);
}
