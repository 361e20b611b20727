"""A port factory: attaches publishers and subscribers to a service, and takes them back."""

from iox2sd import (
    DataSegmentType, DynamicConfig, MessageTypeDetails, OutOfSpaceError, PublisherDetails,
    PublishSubscribeSettings, PublishSubscribeStaticConfig, SubscriberDetails, TypeDetail,
    TypeVariant, UniqueNodeId, UniquePublisherId, UniqueSubscriberId,
)

NODE = UniqueNodeId(31, 1000, 0, 1)
MESSAGE = MessageTypeDetails(
    TypeDetail("Header", size=40, alignment=8),
    TypeDetail("Stamp", size=8, alignment=8),
    TypeDetail("Point", size=12, alignment=4, variant=TypeVariant.DYNAMIC),
)
SETTINGS = PublishSubscribeSettings(max_publishers=1, subscriber_max_buffer_size=5)
CONFIG = PublishSubscribeStaticConfig.new(MESSAGE, SETTINGS)
SAMPLES = CONFIG.required_amount_of_samples_per_data_segment(2)


def publisher(counter: int) -> PublisherDetails:
    """A publisher, whose data segment holds all samples that can be in use at once."""
    return PublisherDetails(
        publisher_id=UniquePublisherId(31, 1000, 0, counter), node_id=NODE,
        number_of_samples=SAMPLES, max_slice_len=1000,
        data_segment_type=DataSegmentType.STATIC, max_number_of_segments=1,
    )


subscriber = SubscriberDetails(
    subscriber_id=UniqueSubscriberId(31, 1000, 0, 3), node_id=NODE,
    buffer_size=CONFIG.subscriber_max_buffer_size,
)
with DynamicConfig.described(CONFIG, 9) as service, service.registered(NODE):
    with service.attached(publisher(2)) as sends, service.attached(subscriber) as reads:
        size = MESSAGE.sample_layout(1000).size
        print(f"publisher in slot {sends.slot}: {SAMPLES} samples of {size} bytes")
        print(f"subscriber in slot {reads.slot}: a buffer of {subscriber.buffer_size} samples")
        try:
            service.attach(publisher(4))
        except OutOfSpaceError as refusal:
            print(refusal)
    print(f"{len(service.ports_of(NODE))} ports are left")
