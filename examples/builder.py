"""A builder: describes a service for camera images, and checks three openers of it."""

from iox2sd import (
    Attribute, AttributeKey, AttributeSet, AttributeValue, AttributeVerifier, DynamicConfig, Error,
    MessageTypeDetails, PublishSubscribeSettings, PublishSubscribeStaticConfig, Requirements,
    ServiceName, StaticConfig, TypeDetail, UniqueServiceId,
)

CAMERA = AttributeKey("camera")


def images(size: int, alignment: int) -> PublishSubscribeStaticConfig:
    """The pattern, the settings and the types of a service for images of this size."""
    image = TypeDetail("Image", size, alignment)
    types = MessageTypeDetails(TypeDetail("Header", 40, 8), TypeDetail("()", 0, 1), image)
    return PublishSubscribeStaticConfig.new(types, PublishSubscribeSettings(max_publishers=1))


def requires(side: str, size: int) -> Requirements:
    """What an opener requires that reads images of this size from one camera."""
    verifier = AttributeVerifier().require(CAMERA, AttributeValue(side))
    return Requirements(pattern_config=images(size, 16), attributes=verifier)


sides = [Attribute(CAMERA, AttributeValue(side)) for side in ("left", "right")]
id, offered = UniqueServiceId(17, 1000, 0, 1), images(1 << 20, 64)
service = StaticConfig(ServiceName("Camera/Images"), id, offered, AttributeSet(sides))
print(service.name, service.service_hash, offered.message_type_details.sample_layout(1))
for required in (requires("left", 1 << 20), requires("rear", 1 << 20), requires("left", 64)):
    try:
        service.check_satisfies(required)
        print("opened")
    except Error as refusal:
        print(f"refused: {refusal}")
with DynamicConfig.described(service, 7) as made:
    print(made)
