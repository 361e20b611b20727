// A port factory: attaches a publisher, and says which memory it needs: as many blocks as samples
// can be in use at once, each of which holds a message.
//
// It prints:
//     slot 0: 34 blocks of 1048 bytes, 35632 bytes, alignment 8
//     slot 1: 34 blocks of 1048 bytes, 35632 bytes, alignment 8
//     refused: no slot or no ticket is left
//     refused: the answer would pass its range
#include <cstdint>
#include <iostream>

#include "iox2sd.hpp"

using namespace iox2sd;

namespace {

/// The memory of a publisher: blocks of one size that lie end to end.
struct DataSegment {
    Layout block;
    std::size_t blocks;
    std::size_t size;  // Of all blocks together, at most 2^63 - 1.
};

struct Publisher {
    ContainerHandle handle;
    DataSegment segment;
};

Result<DataSegment> data_segment(const PublishSubscribeStaticConfig& config, std::size_t loans,
                                 std::size_t elements) {
    const auto blocks = config.required_amount_of_samples_per_data_segment(loans);
    if (!blocks) return blocks.error();
    const auto block = config.message_type_details.sample_layout(elements);
    if (!block) return block.error();
    if (block->size != 0 && *blocks > PTRDIFF_MAX / block->size) return Status::TooLarge;
    return DataSegment{*block, *blocks, *blocks * block->size};
}

Result<Publisher> attach_publisher(const PublishSubscribeStaticConfig& config, Service& service,
                                   const UniquePublisherId& id, const UniqueNodeId& node,
                                   std::size_t loans, std::size_t elements) {
    return data_segment(config, loans, elements).and_then([&](const DataSegment& segment) {
        const PublisherDetails details{id, node, segment.blocks, elements,
                                       DataSegmentType::Static, 1};
        return service.attach(details).transform(
            [&](const ContainerHandle& handle) { return Publisher{handle, segment}; });
    });
}

void report(const Result<Publisher>& made) {
    if (!made) {
        std::cout << "refused: " << made.error() << '\n';
        return;
    }
    const DataSegment& segment = made->segment;
    std::cout << "slot " << made->handle.slot << ": " << segment.blocks << " blocks of "
              << segment.block.size << " bytes, " << segment.size << " bytes, alignment "
              << segment.block.alignment << '\n';
}

}  // namespace

int main() {
    const MessageTypeDetails types{
        TypeDetail::create(TypeVariant::FixedSize, "Header", 8, 8).value(),
        TypeDetail::create(TypeVariant::FixedSize, "UserHeader", 4, 4).value(),
        TypeDetail::create(TypeVariant::Dynamic, "Payload", 8, 8).value()};
    const PublishSubscribeStaticConfig config(PublishSubscribeSettings::defaults(), types);
    Service service = Service::create(config, 7).value();
    const UniqueNodeId node = UniqueNodeId::create(1, 0, 0, 1).value();
    if (!service.register_node_id(node)) return 1;
    const std::size_t loans = PublishSubscribeSettings::defaults().publisher_max_loaned_samples;
    const auto make = [&](std::uint32_t counter, std::size_t elements) {
        report(attach_publisher(config, service, UniquePublisherId(1, 0, 0, counter), node, loans,
                                elements));
    };
    for (const std::uint32_t counter : {10u, 11u, 12u}) make(counter, 128);
    make(13, SIZE_MAX);
}
