// A service builder: opens a service that its maker has described, or reports the first reason for
// which it may not be opened. Nothing stays registered where it may not.
//
// It prints:
//     refused: attributes: a required pair is not in the set
//     refused: payload: the opener's type has a greater alignment than the service's
//     refused: max_subscribers: a setting is not what the opener requires
//     opened with slot 0, a message has 40 bytes, alignment 8
//     refused: no slot or no ticket is left
#include "iox2sd_values.h"

#include <stdio.h>

static void open_it(iox2sd_service *service, const iox2sd_offer *offer,
                    const iox2sd_requirements *required) {
    const iox2sd_id node = {1, 0, 0, 2};
    const iox2sd_layout_answer message = iox2sd_message_sample_layout(offer->messages, 2);
    const iox2sd_open_answer checked = iox2sd_open_check(offer, required);
    if (!IOX2SD_SUCCEEDED(checked.status)) {
        uint8_t words[256];
        const iox2sd_text_answer text = iox2sd_open_text(checked, words, sizeof words);
        printf("refused: %.*s\n", (int)text.length, (const char *)words);
        return;
    }
    const iox2sd_handle_answer opened = iox2sd_register_node_id(service, node);
    if (IOX2SD_SUCCEEDED(opened.status)) {
        printf("opened with slot %zu, a message has %zu bytes, alignment %zu\n",
               opened.handle.slot, message.size, message.alignment);
    } else {
        printf("refused: %s\n", iox2sd_status_str(opened.status));
    }
}

int main(void) {
    const uint32_t one = IOX2SD_VARIANT_FIXED_SIZE, many = IOX2SD_VARIANT_DYNAMIC;
    const iox2sd_id id = {1, 0, 0, 1};
    const iox2sd_attribute red = iox2sd_attribute_str("color", "red"),
                           blue = iox2sd_attribute_str("color", "blue");
    const iox2sd_message_details types = {iox2sd_type_detail_str("Header", one, 8, 8),
                                          iox2sd_type_detail_str("UserHeader", one, 4, 4),
                                          iox2sd_type_detail_str("Payload", many, 8, 8)};
    iox2sd_publish_subscribe_settings settings = iox2sd_publish_subscribe_defaults();
    iox2sd_description described;
    iox2sd_service service = IOX2SD_SERVICE_NONE;
    settings.max_nodes = 1;
    const iox2sd_field_answer made =
        iox2sd_describe_publish_subscribe_str(&settings, "My/Service", false, id, &described);
    if (!IOX2SD_SUCCEEDED(made.status) ||
        !IOX2SD_SUCCEEDED(iox2sd_service_create_of_description(&service, 7, &described)))
        return 1;
    const iox2sd_offer offer = {&described, &red, 1, &types, NULL, NULL};
    iox2sd_message_details wider = types;
    iox2sd_description more = described;
    wider.payload.alignment = 16;
    more.publish_subscribe.max_subscribers++;
    const iox2sd_requirements required[] = {
        {.description = &described, .pairs = &blue, .pairs_length = 1},
        {.description = &described, .messages = &wider},
        {.description = &more, .messages = &types},
        {.description = &described, .pairs = &red, .pairs_length = 1, .messages = &types},
        {.description = &described}};
    for (size_t i = 0; i < 5; i++) open_it(&service, &offer, &required[i]);
    return IOX2SD_SUCCEEDED(iox2sd_service_free(&service)) ? 0 : 1;
}
