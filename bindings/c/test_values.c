/* A caller in C and C++ of the calls on values: each call, each refusal, and buffers that are short
 * by one. */
#include "iox2sd_values.h"

#include <stdio.h>
#include <stdlib.h>
#include <string.h>

static int wrong = 0;

#define CHECK(condition)                                              \
    do {                                                              \
        if (!(condition)) {                                           \
            fprintf(stderr, "line %d: %s\n", __LINE__, #condition);   \
            wrong = 1;                                                \
        }                                                             \
    } while (0)

static const uint8_t *bytes(const char *text) { return (const uint8_t *)text; }

/* Whether all bytes from `from` on are as they were set. */
static bool untouched(const uint8_t *out, size_t from, size_t end) {
    for (; from < end; from++) {
        if (out[from] != 0xAA) return false;
    }
    return true;
}

static bool is_place(iox2sd_place_answer answer, uint32_t status, size_t at) {
    return answer.status == status && answer.at == at;
}

static bool is_text(iox2sd_text_answer answer, uint32_t status, size_t length) {
    return answer.status == status && answer.length == length;
}

static bool is_count(iox2sd_count_answer answer, uint32_t status, size_t count) {
    return answer.status == status && answer.count == count;
}

static bool is_field(iox2sd_field_answer answer, uint32_t status, uint32_t field) {
    return answer.status == status && answer.field == field;
}

/* A call's answer by the name of its status and by the number beside it. */
#define IS_PLACE(call, status, at) CHECK(is_place(call, IOX2SD_STATUS_##status, at))
#define IS_TEXT(call, status, length) CHECK(is_text(call, IOX2SD_STATUS_##status, length))
#define IS_COUNT(call, status, count) CHECK(is_count(call, IOX2SD_STATUS_##status, count))
#define IS_FIELD(call, status, field) CHECK(is_field(call, IOX2SD_STATUS_##status, field))

/* The pointer and the length of a text. */
#define TEXT(literal) bytes(literal), sizeof(literal) - 1

/* A text of bytes 'x' with one other byte. */
static const uint8_t *with_byte(size_t at, uint8_t byte) {
    static uint8_t text[300];
    memset(text, 'x', sizeof text);
    text[at] = byte;
    return text;
}

typedef iox2sd_place_answer (*check)(const uint8_t *text, size_t length);

/* What all checks of names of 1 to `most` bytes share. */
static void name_check(check checks, size_t most) {
    IS_PLACE(checks(with_byte(0, 'y'), most), DONE, 0);
    IS_PLACE(checks(with_byte(0, 'y'), 1), DONE, 0);
    IS_PLACE(checks(NULL, 0), EMPTY, 0);
    IS_PLACE(checks(with_byte(3, 0), most + 1), TOO_LONG, most);
    IS_PLACE(checks(with_byte(3, 0), most), ILLEGAL_BYTE, 3);
    IS_PLACE(checks(with_byte(most - 1, 128), most), ILLEGAL_BYTE, most - 1);
    IS_PLACE(checks(with_byte(0, 255), 1), ILLEGAL_BYTE, 0);
}

static void checks(void) {
    name_check(iox2sd_service_name_check, 255);
    name_check(iox2sd_internal_service_name_check, 255);
    name_check(iox2sd_attribute_key_check, 64);
    name_check(iox2sd_attribute_value_check, 256);
    name_check(iox2sd_file_name_check, 255);
    name_check(iox2sd_file_path_check, 255);
    name_check(iox2sd_restricted_file_name_check, 64);

    IS_PLACE(iox2sd_path_check(NULL, 0), DONE, 0);
    IS_PLACE(iox2sd_path_check(with_byte(0, '/'), 255), DONE, 0);
    IS_PLACE(iox2sd_path_check(with_byte(0, 0), 256), TOO_LONG, 255);
    IS_PLACE(iox2sd_path_check(with_byte(9, 128), 255), ILLEGAL_BYTE, 9);

    IS_PLACE(iox2sd_service_name_check(TEXT("iox2://\xff")), RESERVED_PREFIX, 0);
    IS_PLACE(iox2sd_service_name_check(TEXT("iox2:/x")), DONE, 0);
    IS_PLACE(iox2sd_internal_service_name_check(TEXT("iox2://\xff")), ILLEGAL_BYTE, 7);
    IS_PLACE(iox2sd_internal_service_name_check(TEXT("iox2://x")), DONE, 0);

    IS_PLACE(iox2sd_file_name_check(TEXT("a/b")), ILLEGAL_BYTE, 1);
    IS_PLACE(iox2sd_file_name_check(TEXT(".")), NO_FILE_NAME, 0);
    IS_PLACE(iox2sd_file_name_check(TEXT("..")), NO_FILE_NAME, 0);
    IS_PLACE(iox2sd_file_name_check(TEXT("...")), DONE, 0);
    IS_PLACE(iox2sd_file_path_check(TEXT("a/b")), DONE, 0);
    IS_PLACE(iox2sd_file_path_check(TEXT("a/")), NO_FILE_NAME, 0);
    IS_PLACE(iox2sd_file_path_check(TEXT("a/..")), NO_FILE_NAME, 0);
    IS_PLACE(iox2sd_restricted_file_name_check(TEXT("aZ9-.:_")), DONE, 0);
    IS_PLACE(iox2sd_restricted_file_name_check(TEXT("a b")), ILLEGAL_BYTE, 1);
    IS_PLACE(iox2sd_restricted_file_name_check(TEXT("..")), NO_FILE_NAME, 0);
}

static void names(void) {
    uint8_t out[300];
    CHECK(iox2sd_has_iox2_prefix(bytes("iox2://"), 7) &&
          !iox2sd_has_iox2_prefix(bytes("iox2://"), 6));
    CHECK(!iox2sd_has_iox2_prefix(NULL, 0));

    memset(out, 0xAA, sizeof out);
    IS_TEXT(iox2sd_internal_service_name(TEXT("ab"), out, 8), BUFFER_TOO_SHORT, 9);
    CHECK(untouched(out, 0, sizeof out));
    IS_TEXT(iox2sd_internal_service_name(TEXT("ab"), out, 9), DONE, 9);
    CHECK(memcmp(out, "iox2://ab", 9) == 0 && untouched(out, 9, sizeof out));
    IS_TEXT(iox2sd_internal_service_name(NULL, 0, out, sizeof out), DONE, 7);
    IS_TEXT(iox2sd_internal_service_name(with_byte(0, 'y'), 248, out, sizeof out), DONE, 255);
    memset(out, 0xAA, sizeof out);
    IS_TEXT(iox2sd_internal_service_name(with_byte(0, 0), 249, out, sizeof out), TOO_LONG, 0);
    IS_TEXT(iox2sd_internal_service_name(with_byte(0, 0), 248, out, sizeof out), ILLEGAL_BYTE, 0);
    IS_TEXT(iox2sd_internal_service_name(with_byte(0, 255), 249, out, sizeof out), NOT_UTF8, 0);
    CHECK(untouched(out, 0, sizeof out));

    IS_TEXT(iox2sd_hash_text(IOX2SD_PATTERN_EVENT, TEXT("a"), out, 26), BUFFER_TOO_SHORT, 27);
    CHECK(untouched(out, 0, sizeof out));
    IS_TEXT(iox2sd_hash_text(IOX2SD_PATTERN_EVENT, TEXT("a"), out, 27), DONE, 27);
    CHECK(memcmp(out, "mywygMzqC6QIJwxFGFv7zTYWQjc", 27) == 0 && untouched(out, 27, sizeof out));
    IS_TEXT(iox2sd_hash_text(IOX2SD_PATTERN_REQUEST_RESPONSE, TEXT("My/Service"), out, 27),
            DONE, 27);
    CHECK(memcmp(out, "h8eTEKlg0S7w-piembOTeKmjrxo", 27) == 0);
    memset(out, 0xAA, sizeof out);
    IS_TEXT(iox2sd_hash_text(4, TEXT("\xff"), out, sizeof out), UNKNOWN_PATTERN, 0);
    IS_TEXT(iox2sd_hash_text(IOX2SD_PATTERN_EVENT, TEXT("\xff"), out, sizeof out), NOT_UTF8, 0);
    IS_TEXT(iox2sd_hash_text(IOX2SD_PATTERN_EVENT, NULL, 0, out, sizeof out), BAD_SERVICE_NAME, 0);
    IS_TEXT(iox2sd_hash_text(IOX2SD_PATTERN_BLACKBOARD, TEXT("iox2://x"), out, sizeof out),
            BAD_SERVICE_NAME, 0);
    CHECK(untouched(out, 0, sizeof out));
    IS_TEXT(iox2sd_internal_hash_text(IOX2SD_PATTERN_BLACKBOARD, TEXT("iox2://x"), out, 27),
            DONE, 27);
    CHECK(memcmp(out, "dBa6f4MAuXbGPrWuZe58tIdzmlw", 27) == 0 && untouched(out, 27, sizeof out));
    memset(out, 0xAA, sizeof out);
    IS_TEXT(iox2sd_internal_hash_text(IOX2SD_PATTERN_EVENT, TEXT("a"), out, 26),
            BUFFER_TOO_SHORT, 27);
    IS_TEXT(iox2sd_internal_hash_text(4, TEXT("\xff"), out, sizeof out), UNKNOWN_PATTERN, 0);
    IS_TEXT(iox2sd_internal_hash_text(IOX2SD_PATTERN_EVENT, TEXT("\xff"), out, sizeof out),
            NOT_UTF8, 0);
    IS_TEXT(iox2sd_internal_hash_text(IOX2SD_PATTERN_EVENT, NULL, 0, out, sizeof out),
            BAD_SERVICE_NAME, 0);
    CHECK(untouched(out, 0, sizeof out));
}

static void paths(void) {
    uint8_t out[300];
    memset(out, 0xAA, sizeof out);
    IS_TEXT(iox2sd_path_add_path_entry(TEXT("a"), TEXT("bc"), out, 3), BUFFER_TOO_SHORT, 4);
    CHECK(untouched(out, 0, sizeof out));
    IS_TEXT(iox2sd_path_add_path_entry(TEXT("a"), TEXT("bc"), out, 4), DONE, 4);
    CHECK(memcmp(out, "a/bc", 4) == 0 && untouched(out, 4, sizeof out));
    IS_TEXT(iox2sd_path_add_path_entry(TEXT("a/"), TEXT("bc"), out, 4), DONE, 4);
    CHECK(is_text(iox2sd_path_add_path_entry(NULL, 0, bytes("bc"), 2, out, 4), IOX2SD_STATUS_DONE,
                  2) &&
          memcmp(out, "bc", 2) == 0);
    IS_TEXT(iox2sd_path_add_path_entry(NULL, 0, NULL, 0, NULL, 0), DONE, 0);
    IS_TEXT(iox2sd_path_add_path_entry(with_byte(0, 'y'), 127, with_byte(0, 'y'), 127, out,
                                       sizeof out), DONE, 255);
    memset(out, 0xAA, sizeof out);
    IS_TEXT(iox2sd_path_add_path_entry(with_byte(0, 'y'), 127, with_byte(0, 'y'), 128, out,
                                       sizeof out), TOO_LONG, 0);
    IS_TEXT(iox2sd_path_add_path_entry(TEXT("\xff"), TEXT("\xff"), out, sizeof out), BAD_PATH, 0);
    IS_TEXT(iox2sd_path_add_path_entry(TEXT("a"), TEXT("\xff"), out, sizeof out), BAD_ENTRY, 0);
    CHECK(untouched(out, 0, sizeof out));

    IS_TEXT(iox2sd_file_path_from_path_and_file(TEXT("a"), TEXT("bc"), out, 3),
            BUFFER_TOO_SHORT, 4);
    CHECK(untouched(out, 0, sizeof out));
    IS_TEXT(iox2sd_file_path_from_path_and_file(TEXT("a"), TEXT("bc"), out, 4), DONE, 4);
    CHECK(memcmp(out, "a/bc", 4) == 0 && untouched(out, 4, sizeof out));
    memset(out, 0xAA, sizeof out);
    IS_TEXT(iox2sd_file_path_from_path_and_file(TEXT("a"), TEXT("b/c"), out, sizeof out),
            BAD_ENTRY, 0);
    IS_TEXT(iox2sd_file_path_from_path_and_file(TEXT("\xff"), NULL, 0, out, sizeof out),
            BAD_PATH, 0);
    IS_TEXT(iox2sd_file_path_from_path_and_file(TEXT("a"), with_byte(0, 'y'), 254, out, sizeof out),
            TOO_LONG, 0);
    CHECK(untouched(out, 0, sizeof out));
}

static iox2sd_attribute pair(const char *key, const char *value) {
    iox2sd_attribute made;
    made.key = bytes(key);
    made.key_length = strlen(key);
    made.value = bytes(value);
    made.value_length = strlen(value);
    return made;
}

static iox2sd_key key_of(const char *text) {
    iox2sd_key made;
    made.text = bytes(text);
    made.length = strlen(text);
    return made;
}

static void sets(void) {
    iox2sd_attribute pairs[17];
    iox2sd_attribute before[17];
    uint8_t out[8];
    size_t i;
    for (i = 0; i < 17; i++) pairs[i] = pair("k", "v");
    IS_PLACE(iox2sd_attributes_check(NULL, 0), DONE, 0);
    IS_PLACE(iox2sd_attributes_check(pairs, 16), DONE, 0);
    IS_PLACE(iox2sd_attributes_check(pairs, 17), TOO_MANY, 16);
    pairs[16] = pair("k", "");
    IS_PLACE(iox2sd_attributes_check(pairs, 17), BAD_VALUE, 16);
    pairs[5] = pair("", "");
    IS_PLACE(iox2sd_attributes_check(pairs, 17), BAD_KEY, 5);
    pairs[3] = pair("k", "\xff");
    IS_PLACE(iox2sd_attributes_check(pairs, 17), BAD_VALUE, 3);

    pairs[0] = pair("b", "1");
    pairs[1] = pair("a", "2");
    pairs[2] = pair("b", "0");
    pairs[3] = pair("a", "10");
    memcpy(before, pairs, sizeof pairs);
    IS_PLACE(iox2sd_attributes_sort(pairs, 6), BAD_KEY, 5);
    CHECK(memcmp(before, pairs, sizeof pairs) == 0);
    IS_PLACE(iox2sd_attributes_sort(pairs, 4), DONE, 0);
    CHECK(memcmp(&pairs[0], &before[3], sizeof pairs[0]) == 0 &&
          memcmp(&pairs[1], &before[1], sizeof pairs[0]) == 0);
    CHECK(memcmp(&pairs[2], &before[2], sizeof pairs[0]) == 0 &&
          memcmp(&pairs[3], &before[0], sizeof pairs[0]) == 0);
    CHECK(memcmp(&pairs[4], &before[4], 13 * sizeof pairs[0]) == 0);
    IS_PLACE(iox2sd_attributes_sort(NULL, 0), DONE, 0);

    IS_COUNT(iox2sd_attributes_number_of_key_values(before, 4, TEXT("b")), DONE, 2);
    IS_COUNT(iox2sd_attributes_number_of_key_values(before, 4, TEXT("c")), DONE, 0);
    IS_COUNT(iox2sd_attributes_number_of_key_values(NULL, 0, TEXT("b")), DONE, 0);
    IS_COUNT(iox2sd_attributes_number_of_key_values(before, 4, NULL, 0), BAD_ASKED_KEY, 0);
    IS_COUNT(iox2sd_attributes_number_of_key_values(before, 6, NULL, 0), BAD_KEY, 0);

    memset(out, 0xAA, sizeof out);
    IS_TEXT(iox2sd_attributes_key_value(before, 4, TEXT("a"), 0, out, 1), BUFFER_TOO_SHORT, 2);
    CHECK(untouched(out, 0, sizeof out));
    IS_TEXT(iox2sd_attributes_key_value(before, 4, TEXT("a"), 0, out, 2), DONE, 2);
    CHECK(memcmp(out, "10", 2) == 0 && untouched(out, 2, sizeof out));
    CHECK(is_text(iox2sd_attributes_key_value(before, 4, bytes("a"), 1, 1, out, 8),
                  IOX2SD_STATUS_DONE, 1) &&
          out[0] == '2');
    memset(out, 0xAA, sizeof out);
    IS_TEXT(iox2sd_attributes_key_value(before, 4, TEXT("a"), 2, out, 8), NO_SUCH_VALUE, 0);
    IS_TEXT(iox2sd_attributes_key_value(before, 4, NULL, 0, 2, out, 8), BAD_ASKED_KEY, 0);
    IS_TEXT(iox2sd_attributes_key_value(before, 6, NULL, 0, 2, out, 8), BAD_KEY, 0);
    CHECK(untouched(out, 0, sizeof out));
}

static void requirements(void) {
    iox2sd_attribute pairs[3];
    iox2sd_attribute required[17];
    iox2sd_key keys[17];
    size_t i;
    pairs[0] = pair("b", "1");
    pairs[1] = pair("a", "2");
    pairs[2] = pair("b", "0");
    for (i = 0; i < 17; i++) {
        required[i] = pair("b", "0");
        keys[i] = key_of("a");
    }
    IS_PLACE(iox2sd_attributes_verify(pairs, 3, NULL, 0, NULL, 0), DONE, 0);
    IS_PLACE(iox2sd_attributes_verify(pairs, 3, required, 16, NULL, 0), DONE, 0);
    IS_PLACE(iox2sd_attributes_verify(pairs, 3, required, 3, keys, 13), DONE, 0);
    IS_PLACE(iox2sd_attributes_verify(pairs, 3, required, 17, keys, 0), TOO_MANY_REQUIRED, 16);
    IS_PLACE(iox2sd_attributes_verify(pairs, 3, required, 3, keys, 14), TOO_MANY_REQUIRED, 13);

    required[1] = pair("b", "3");
    required[2] = pair("b", "2");
    required[3] = pair("b", "2");
    keys[1] = key_of("c");
    keys[2] = key_of("0");
    keys[3] = key_of("c");
    IS_PLACE(iox2sd_attributes_verify(pairs, 3, required, 4, keys, 4), MISSING_PAIR, 2);
    IS_PLACE(iox2sd_attributes_verify(pairs, 3, required, 1, keys, 4), MISSING_KEY, 1);
    IS_PLACE(iox2sd_attributes_verify(NULL, 0, required, 1, keys, 4), MISSING_PAIR, 0);

    keys[4] = key_of("");
    IS_PLACE(iox2sd_attributes_verify(pairs, 3, required, 4, keys, 5), BAD_ASKED_KEY, 4);
    required[6] = pair("b", "");
    IS_PLACE(iox2sd_attributes_verify(pairs, 3, required, 7, keys, 5), BAD_REQUIRED_VALUE, 6);
    required[5] = pair("", "");
    IS_PLACE(iox2sd_attributes_verify(pairs, 3, required, 7, keys, 5), BAD_REQUIRED_KEY, 5);
    pairs[1] = pair("a", "");
    IS_PLACE(iox2sd_attributes_verify(pairs, 3, required, 7, keys, 5), BAD_VALUE, 1);
}

static iox2sd_type_detail type_of(const char *name, size_t size, size_t alignment) {
    iox2sd_type_detail detail;
    detail.name = bytes(name);
    detail.name_length = strlen(name);
    detail.variant = IOX2SD_VARIANT_FIXED_SIZE;
    detail.size = size;
    detail.alignment = alignment;
    return detail;
}

static iox2sd_message_details details_of(size_t payload_size, size_t payload_alignment) {
    iox2sd_message_details details;
    details.header = type_of("Header", 8, 8);
    details.user_header = type_of("UserHeader", 4, 4);
    details.payload = type_of("Payload", payload_size, payload_alignment);
    return details;
}

static bool is_part(iox2sd_part_answer answer, uint32_t status, uint32_t side, uint32_t part) {
    return answer.status == status && answer.side == side && answer.part == part;
}

static void layouts(void) {
    iox2sd_message_details details = details_of(8, 8);
    iox2sd_layout_answer room = iox2sd_message_sample_layout(&details, 2);
    iox2sd_places_answer places = iox2sd_message_places(&details, 64);
    /* 8 + 4 and at most 3 before it, 2 * 8 and at most 7 before it: 38, in eights */
    CHECK(room.status == IOX2SD_STATUS_DONE && room.size == 40 && room.alignment == 8);
    CHECK(places.status == IOX2SD_STATUS_DONE && places.user_header == 72 && places.payload == 80);

    /* A service's details, and those of an opener that may use its messages: other offsets. */
    const iox2sd_message_details service = details_of(4, 16), opener = details_of(4, 4);
    CHECK(iox2sd_message_is_compatible_to(&service, &opener).status == IOX2SD_STATUS_DONE);
    CHECK(iox2sd_message_sample_layout(&service, 1).size == 40);
    CHECK(iox2sd_message_sample_layout(&opener, 1).size == 24);
    CHECK(iox2sd_message_places(&service, 0).payload == 16);
    CHECK(iox2sd_message_places(&opener, 0).payload == 12);

    room = iox2sd_message_sample_layout(NULL, 2);
    places = iox2sd_message_places(NULL, 64);
    CHECK(room.status == IOX2SD_STATUS_NULL && room.size == 0 && room.alignment == 0);
    CHECK(places.status == IOX2SD_STATUS_NULL && places.user_header == 0 && places.payload == 0);
    details = details_of(SIZE_MAX, 3);
    room = iox2sd_message_sample_layout(&details, SIZE_MAX);
    places = iox2sd_message_places(&details, SIZE_MAX);
    CHECK(room.status == IOX2SD_STATUS_BAD_ALIGNMENT && room.size == 0 && room.alignment == 0);
    CHECK(places.status == IOX2SD_STATUS_BAD_ALIGNMENT && places.user_header == 0 &&
          places.payload == 0);
    details = details_of(SIZE_MAX, 8);
    room = iox2sd_message_sample_layout(&details, 1);
    places = iox2sd_message_places(&details, SIZE_MAX);
    CHECK(room.status == IOX2SD_STATUS_TOO_LARGE && room.size == 0 && room.alignment == 0);
    CHECK(places.status == IOX2SD_STATUS_TOO_LARGE && places.user_header == 0 &&
          places.payload == 0);
}

static void compatible(void) {
    iox2sd_message_details opener = details_of(8, 8);
    iox2sd_message_details service = details_of(8, 16);
    char long_name[258];
    memset(long_name, 'x', sizeof long_name);
    long_name[257] = 0;
    CHECK(is_part(iox2sd_message_is_compatible_to(&service, &opener), IOX2SD_STATUS_DONE, 0, 0));
    CHECK(is_part(iox2sd_message_is_compatible_to(&opener, &service),
                  IOX2SD_STATUS_GREATER_ALIGNMENT, 0, IOX2SD_PART_PAYLOAD));
    CHECK(is_part(iox2sd_message_is_compatible_to(NULL, NULL), IOX2SD_STATUS_NULL, 0, 0));
    CHECK(is_part(iox2sd_message_is_compatible_to(NULL, &opener), IOX2SD_STATUS_NULL, 1, 0));

    opener.payload.size = 9;
    CHECK(is_part(iox2sd_message_is_compatible_to(&service, &opener), IOX2SD_STATUS_OTHER_SIZE, 0,
                  IOX2SD_PART_PAYLOAD));
    opener.payload.variant = IOX2SD_VARIANT_DYNAMIC;
    CHECK(is_part(iox2sd_message_is_compatible_to(&service, &opener), IOX2SD_STATUS_OTHER_VARIANT,
                  0, IOX2SD_PART_PAYLOAD));
    opener.user_header.name = bytes("Userheader");
    CHECK(is_part(iox2sd_message_is_compatible_to(&service, &opener), IOX2SD_STATUS_OTHER_NAME, 0,
                  IOX2SD_PART_USER_HEADER));
    opener.header.alignment = 4;
    CHECK(is_part(iox2sd_message_is_compatible_to(&service, &opener), IOX2SD_STATUS_OTHER_ALIGNMENT,
                  0, IOX2SD_PART_HEADER));
    opener.header.size = 4;
    CHECK(is_part(iox2sd_message_is_compatible_to(&service, &opener), IOX2SD_STATUS_OTHER_SIZE, 0,
                  IOX2SD_PART_HEADER));

    service.payload.alignment = 12;
    CHECK(is_part(iox2sd_message_is_compatible_to(&service, &opener), IOX2SD_STATUS_BAD_ALIGNMENT,
                  1, IOX2SD_PART_PAYLOAD));
    service.user_header.name = bytes("\xc3\xa4");
    service.user_header.name_length = 2;
    CHECK(is_part(iox2sd_message_is_compatible_to(&service, &opener), IOX2SD_STATUS_ILLEGAL_BYTE, 1,
                  IOX2SD_PART_USER_HEADER));
    service.header = type_of(long_name, 8, 8);
    CHECK(is_part(iox2sd_message_is_compatible_to(&service, &opener), IOX2SD_STATUS_TOO_LONG, 1,
                  IOX2SD_PART_HEADER));
    opener.payload = type_of("\xff", 8, 3);
    CHECK(is_part(iox2sd_message_is_compatible_to(&service, &opener), IOX2SD_STATUS_NOT_UTF8, 0,
                  IOX2SD_PART_PAYLOAD));
    opener.user_header.variant = 2;
    CHECK(is_part(iox2sd_message_is_compatible_to(&service, &opener), IOX2SD_STATUS_UNKNOWN_VARIANT,
                  0, IOX2SD_PART_USER_HEADER));
}

/* Each cause, over those that are reported later. */
static void type_details(void) {
    char name[257];
    iox2sd_type_detail type = type_of("u64", SIZE_MAX, (size_t)1 << 63);
    memset(name, 'x', sizeof name);
    CHECK(iox2sd_type_detail_check(&type) == IOX2SD_STATUS_DONE);
    type = type_of("", 0, 1);
    type.variant = IOX2SD_VARIANT_DYNAMIC;
    CHECK(iox2sd_type_detail_check(&type) == IOX2SD_STATUS_DONE);
    type.name = bytes(name);
    type.name_length = 256;
    CHECK(iox2sd_type_detail_check(&type) == IOX2SD_STATUS_DONE);
    type.alignment = 0;
    CHECK(iox2sd_type_detail_check(&type) == IOX2SD_STATUS_BAD_ALIGNMENT);
    type.alignment = 3;
    CHECK(iox2sd_type_detail_check(&type) == IOX2SD_STATUS_BAD_ALIGNMENT);
    name[255] = 0;
    CHECK(iox2sd_type_detail_check(&type) == IOX2SD_STATUS_ILLEGAL_BYTE);
    type.name_length = 257;
    CHECK(iox2sd_type_detail_check(&type) == IOX2SD_STATUS_TOO_LONG);
    name[0] = (char)0xFF;
    CHECK(iox2sd_type_detail_check(&type) == IOX2SD_STATUS_NOT_UTF8);
    type.variant = 2;
    CHECK(iox2sd_type_detail_check(&type) == IOX2SD_STATUS_UNKNOWN_VARIANT);
    type.variant = UINT32_MAX;
    CHECK(iox2sd_type_detail_check(&type) == IOX2SD_STATUS_UNKNOWN_VARIANT);
    CHECK(iox2sd_type_detail_check(NULL) == IOX2SD_STATUS_NULL);
}

static void chunks(void) {
    const size_t most = SIZE_MAX;
    IS_COUNT(iox2sd_required_amount_of_samples_per_data_segment(3, 5, 7, 11, 13),
             DONE, 3 * (5 + 7) + 11 + 13);
    IS_COUNT(iox2sd_required_amount_of_chunks_per_client_data_segment(3, 5, 7),
             DONE, 3 * 2 * 5 + 7);
    IS_COUNT(iox2sd_required_amount_of_chunks_per_client_data_segment(5, 3, 0), DONE, 5 * 2 * 3);
    IS_COUNT(iox2sd_required_amount_of_chunks_per_server_data_segment(3, 5, 7, 11, 13),
             DONE, 3 * 2 * 5 * (7 + 11 + 13));
    IS_COUNT(iox2sd_required_amount_of_samples_per_data_segment(1, most, 0, 0, 0), DONE, most);
    IS_COUNT(iox2sd_required_amount_of_samples_per_data_segment(1, most, 0, 0, 1), TOO_LARGE, 0);
    IS_COUNT(iox2sd_required_amount_of_chunks_per_client_data_segment(0, most, most), DONE, most);
    IS_COUNT(iox2sd_required_amount_of_chunks_per_client_data_segment(most, most, most),
             TOO_LARGE, 0);
    IS_COUNT(iox2sd_required_amount_of_chunks_per_server_data_segment(most, most, most, most, most),
             TOO_LARGE, 0);
}

static void settings(void) {
    const iox2sd_publish_subscribe_settings p = iox2sd_publish_subscribe_defaults();
    const iox2sd_event_settings e = iox2sd_event_defaults();
    const iox2sd_request_response_settings r = iox2sd_request_response_defaults();
    const iox2sd_blackboard_settings b = iox2sd_blackboard_defaults();
    CHECK(p.max_subscribers == 8 && p.max_publishers == 2 && p.max_nodes == 20 &&
          p.subscriber_max_buffer_size == 2);
    CHECK(p.subscriber_max_borrowed_samples == 2 && p.publisher_max_loaned_samples == 2 &&
          p.publisher_history_size == 0);
    CHECK(p.subscriber_expired_connection_buffer == 128 &&
          p.backpressure_strategy == IOX2SD_BACKPRESSURE_RETRY_UNTIL_DELIVERED);
    CHECK(p.publisher_allocation_strategy == IOX2SD_ALLOCATION_STATIC && p.enable_safe_overflow);
    CHECK(e.max_listeners == 16 && e.max_notifiers == 16 && e.max_nodes == 36 &&
          e.event_id_max_value == 255);
    CHECK(!e.deadline.is_some && e.deadline.seconds == 0 && e.deadline.nanoseconds == 0);
    CHECK(!e.notifier_created_event.is_some && e.notifier_created_event.number == 0);
    CHECK(!e.notifier_dropped_event.is_some && !e.notifier_dead_event.is_some);
    CHECK(r.max_active_requests_per_client == 4 && r.max_response_buffer_size == 2 &&
          r.max_servers == 2);
    CHECK(r.max_clients == 8 && r.max_nodes == 20 &&
          r.max_borrowed_responses_per_pending_response == 2);
    CHECK(r.max_loaned_requests == 2 && r.server_max_loaned_responses_per_request == 2);
    CHECK(r.client_expired_connection_buffer == 128 && r.server_expired_connection_buffer == 128);
    CHECK(r.client_backpressure_strategy == IOX2SD_BACKPRESSURE_RETRY_UNTIL_DELIVERED &&
          r.server_backpressure_strategy == 0);
    CHECK(r.client_allocation_strategy == IOX2SD_ALLOCATION_STATIC &&
          r.server_allocation_strategy == IOX2SD_ALLOCATION_STATIC);
    CHECK(r.enable_safe_overflow_for_requests && r.enable_safe_overflow_for_responses);
    CHECK(r.enable_fire_and_forget_requests);
    CHECK(b.max_readers == 8 && b.max_nodes == 20);
}

static void global_settings(void) {
    iox2sd_global_settings g = iox2sd_global_defaults();
    CHECK(g.creation_timeout.seconds == 0 && g.creation_timeout.nanoseconds == 500000000);
    CHECK(g.cleanup_dead_nodes_on_open && g.cleanup_dead_nodes_on_creation);
    CHECK(g.cleanup_dead_nodes_on_destruction);
    g.creation_timeout.seconds = UINT64_MAX;
    g.creation_timeout.nanoseconds = 999999999;
    IS_FIELD(iox2sd_global_settings_check(&g), DONE, 0);
    g.creation_timeout.nanoseconds = 1000000000;
    IS_FIELD(iox2sd_global_settings_check(&g), BAD_DURATION, IOX2SD_FIELD_CREATION_TIMEOUT);
    IS_FIELD(iox2sd_global_settings_check(NULL), NULL, 0);
}

static void publish_subscribe_settings(void) {
    iox2sd_publish_subscribe_settings p = iox2sd_publish_subscribe_defaults();
    IS_FIELD(iox2sd_publish_subscribe_settings_check(&p), DONE, 0);
    p.backpressure_strategy = IOX2SD_BACKPRESSURE_DISCARD_DATA;
    for (uint32_t number = 0; number < 3; number++) {
        p.publisher_allocation_strategy = number;
        IS_FIELD(iox2sd_publish_subscribe_settings_check(&p), DONE, 0);
    }
    p.publisher_allocation_strategy = 3;
    IS_FIELD(iox2sd_publish_subscribe_settings_check(&p),
             UNKNOWN_STRATEGY, IOX2SD_FIELD_PUBLISHER_ALLOCATION_STRATEGY);
    p.backpressure_strategy = 2;
    IS_FIELD(iox2sd_publish_subscribe_settings_check(&p),
             UNKNOWN_STRATEGY, IOX2SD_FIELD_BACKPRESSURE_STRATEGY);
    IS_FIELD(iox2sd_publish_subscribe_settings_check(NULL), NULL, 0);
}

static void event_settings(void) {
    iox2sd_event_settings e = iox2sd_event_defaults();
    IS_FIELD(iox2sd_event_settings_check(&e), DONE, 0);
    e.notifier_dead_event.number = 5;
    e.deadline.nanoseconds = 1000000000;
    IS_FIELD(iox2sd_event_settings_check(&e), DONE, 0);
    e.deadline.is_some = true;
    IS_FIELD(iox2sd_event_settings_check(&e), BAD_DURATION, IOX2SD_FIELD_DEADLINE);
    e.deadline.nanoseconds = 999999999;
    e.deadline.seconds = UINT64_MAX;
    IS_FIELD(iox2sd_event_settings_check(&e), DONE, 0);
    IS_FIELD(iox2sd_event_settings_check(NULL), NULL, 0);
}

static void request_response_settings(void) {
    iox2sd_request_response_settings r = iox2sd_request_response_defaults();
    IS_FIELD(iox2sd_request_response_settings_check(&r), DONE, 0);
    r.server_allocation_strategy = 3;
    IS_FIELD(iox2sd_request_response_settings_check(&r),
             UNKNOWN_STRATEGY, IOX2SD_FIELD_SERVER_ALLOCATION_STRATEGY);
    r.client_allocation_strategy = 3;
    IS_FIELD(iox2sd_request_response_settings_check(&r),
             UNKNOWN_STRATEGY, IOX2SD_FIELD_CLIENT_ALLOCATION_STRATEGY);
    r.server_backpressure_strategy = 2;
    IS_FIELD(iox2sd_request_response_settings_check(&r),
             UNKNOWN_STRATEGY, IOX2SD_FIELD_SERVER_BACKPRESSURE_STRATEGY);
    r.client_backpressure_strategy = UINT32_MAX;
    IS_FIELD(iox2sd_request_response_settings_check(&r),
             UNKNOWN_STRATEGY, IOX2SD_FIELD_CLIENT_BACKPRESSURE_STRATEGY);
    IS_FIELD(iox2sd_request_response_settings_check(NULL), NULL, 0);
}

typedef iox2sd_text_answer (*teller)(uint8_t *out, size_t capacity);

/* Whether the call tells this text, into a buffer of its length alone. */
static bool tells(teller tell, const char *expected) {
    uint8_t out[64];
    const size_t length = strlen(expected);
    memset(out, 0xAA, sizeof out);
    return is_text(tell(out, length - 1), IOX2SD_STATUS_BUFFER_TOO_SHORT, length) &&
           untouched(out, 0, sizeof out) &&
           is_text(tell(out, length), IOX2SD_STATUS_DONE, length) &&
           memcmp(out, expected, length) == 0 && untouched(out, length, sizeof out) &&
           is_text(tell(NULL, 0), IOX2SD_STATUS_BUFFER_TOO_SHORT, length);
}

static uint32_t asked;

static iox2sd_text_answer tell_asked(uint8_t *out, size_t capacity) {
    return iox2sd_default_text(asked, out, capacity);
}

static void files(void) {
    static const char *const expected[] = {"/tmp/iceoryx2/",
                                           "iox2_",
                                           "services",
                                           ".data",
                                           ".service",
                                           ".dynamic",
                                           ".connection",
                                           ".event",
                                           ".blackboard_mgmt",
                                           ".blackboard_data",
                                           "nodes",
                                           ".node_monitor",
                                           ".details",
                                           ".service_tag",
                                           ".port_tag",
                                           ".global_mgmt",
                                           "iceoryx2.toml",
                                           "config/iceoryx2.toml",
                                           "iceoryx2",
                                           "iceoryx2/iceoryx2.toml"};
    uint8_t out[300];
    for (asked = 0; asked < 20; asked++) CHECK(tells(tell_asked, expected[asked]));
    memset(out, 0xAA, sizeof out);
    IS_TEXT(iox2sd_default_text(20, out, sizeof out), UNKNOWN_TEXT, 0);
    IS_TEXT(iox2sd_service_dir(TEXT("/a"), out, 10), BUFFER_TOO_SHORT, 11);
    IS_TEXT(iox2sd_node_dir(TEXT("/a"), out, 7), BUFFER_TOO_SHORT, 8);
    IS_TEXT(iox2sd_service_dir(TEXT("\xff"), out, sizeof out), BAD_PATH, 0);
    IS_TEXT(iox2sd_node_dir(TEXT("\xff"), out, sizeof out), BAD_PATH, 0);
    IS_TEXT(iox2sd_service_dir(with_byte(0, 'y'), 247, out, sizeof out), TOO_LONG, 0);
    IS_TEXT(iox2sd_node_dir(with_byte(0, 'y'), 250, out, sizeof out), TOO_LONG, 0);
    CHECK(untouched(out, 0, sizeof out));
    IS_TEXT(iox2sd_service_dir(TEXT("/a"), out, 11), DONE, 11);
    CHECK(memcmp(out, "/a/services", 11) == 0 && untouched(out, 11, sizeof out));
    CHECK(is_text(iox2sd_node_dir(bytes("/a/"), 3, out, 8), IOX2SD_STATUS_DONE, 8) &&
          memcmp(out, "/a/nodes", 8) == 0);
    CHECK(is_text(iox2sd_node_dir(NULL, 0, out, 5), IOX2SD_STATUS_DONE, 5) &&
          memcmp(out, "nodes", 5) == 0);
    CHECK(tells(iox2sd_version, "0.1.0") && tells(iox2sd_layer_version, "0.9.3"));
}

static const iox2sd_id some_id = {1, 2, 3, 4};

/* Whether bytes are a text, and then zeros up to the end. */
static bool holds(const uint8_t *found, size_t length, size_t end, const char *text) {
    size_t at;
    if (length != strlen(text) || memcmp(found, text, length) != 0) return false;
    for (at = length; at < end; at++) {
        if (found[at] != 0) return false;
    }
    return true;
}

/* Whether the description is of this pattern and name, with the hash text of both, and of
 * `some_id`. */
static bool describes(const iox2sd_description *d, uint32_t pattern, const char *name) {
    uint8_t hash[28] = {0};
    CHECK(iox2sd_internal_hash_text(pattern, bytes(name), strlen(name), hash, sizeof hash)
              .status == IOX2SD_STATUS_DONE);
    return holds(d->name, d->name_length, sizeof d->name, name) && d->pattern == pattern
           && holds(d->hash, d->hash_length, sizeof d->hash, (const char *)hash)
           && d->id.process == 1 && d->id.seconds == 2 && d->id.nanoseconds == 3
           && d->id.counter == 4;
}

static bool is_unset(const iox2sd_publish_subscribe_config *c) {
    return c->max_subscribers + c->max_publishers + c->max_nodes + c->history_size == 0
           && c->subscriber_max_buffer_size + c->subscriber_max_borrowed_samples == 0
           && !c->enable_safe_overflow;
}

static void describe_publish_subscribe(void) {
    iox2sd_publish_subscribe_settings s = iox2sd_publish_subscribe_defaults();
    iox2sd_description d;
    const iox2sd_publish_subscribe_config *c = &d.publish_subscribe;
    memset(&d, 0xAA, sizeof d);
    s.max_subscribers = 3;
    s.max_publishers = 5;
    s.max_nodes = 7;
    s.publisher_history_size = 11;
    s.subscriber_max_buffer_size = 13;
    s.subscriber_max_borrowed_samples = 17;
    IS_FIELD(iox2sd_describe_publish_subscribe(&s, TEXT("a/b"), false, some_id, &d), DONE, 0);
    CHECK(describes(&d, IOX2SD_PATTERN_PUBLISH_SUBSCRIBE, "a/b"));
    CHECK(c->max_subscribers == 3 && c->max_publishers == 5 && c->max_nodes == 7);
    CHECK(c->history_size == 11 && c->subscriber_max_buffer_size == 13);
    CHECK(c->subscriber_max_borrowed_samples == 17 && c->enable_safe_overflow);
    CHECK(d.event.max_nodes == 0 && !d.event.deadline.is_some && d.request_response.max_nodes == 0);
    CHECK(!d.request_response.enable_fire_and_forget_requests && d.blackboard.max_writers == 0);
    IS_FIELD(iox2sd_describe_publish_subscribe(&s, TEXT("iox2://a"), true, some_id, &d), DONE, 0);
    CHECK(describes(&d, IOX2SD_PATTERN_PUBLISH_SUBSCRIBE, "iox2://a"));
}

/* Each refusal, in the order in which they are reported: the place is as it was. */
static void describe_refusals(void) {
    iox2sd_publish_subscribe_settings s = iox2sd_publish_subscribe_defaults();
    iox2sd_description d, before;
    memset(&d, 0xAA, sizeof d);
    memset(&before, 0xAA, sizeof before);
    s.publisher_allocation_strategy = 3;
    IS_FIELD(iox2sd_describe_publish_subscribe(NULL, TEXT("\xff"), false, some_id, &d), NULL, 0);
    IS_FIELD(iox2sd_describe_publish_subscribe(&s, TEXT("\xff"), false, some_id, NULL), NULL, 0);
    IS_FIELD(iox2sd_describe_publish_subscribe(&s, TEXT("\xff"), false, some_id, &d), NOT_UTF8, 0);
    IS_FIELD(iox2sd_describe_publish_subscribe(&s, TEXT("iox2://a"), false, some_id, &d),
             BAD_SERVICE_NAME, 0);
    IS_FIELD(iox2sd_describe_publish_subscribe(&s, NULL, 0, true, some_id, &d),
             BAD_SERVICE_NAME, 0);
    IS_FIELD(iox2sd_describe_publish_subscribe(&s, TEXT("a"), false, some_id, &d),
             UNKNOWN_STRATEGY, IOX2SD_FIELD_PUBLISHER_ALLOCATION_STRATEGY);
    CHECK(memcmp(&d, &before, sizeof d) == 0);
}

static void describe_event(void) {
    iox2sd_event_settings s = iox2sd_event_defaults();
    iox2sd_description d;
    const iox2sd_event_config *c = &d.event;
    const iox2sd_optional_duration deadline = {5, 999999999, true};
    const iox2sd_optional_event_id dropped = {6, true};
    memset(&d, 0xAA, sizeof d);
    s.deadline = deadline;
    s.notifier_created_event.number = 9;
    s.notifier_dropped_event = dropped;
    s.max_listeners = 3;
    s.max_notifiers = 7;
    IS_FIELD(iox2sd_describe_event(&s, with_byte(0, 'y'), 255, false, some_id, &d), DONE, 0);
    CHECK(d.name_length == 255 && memcmp(d.name, with_byte(0, 'y'), 255) == 0 && d.name[255] == 0);
    CHECK(d.pattern == IOX2SD_PATTERN_EVENT && is_unset(&d.publish_subscribe)
          && d.blackboard.max_nodes == 0);
    CHECK(c->max_listeners == 3 && c->max_notifiers == 7 && c->max_nodes == 36
          && c->event_id_max_value == 255);
    CHECK(c->deadline.is_some && c->deadline.seconds == 5 && c->deadline.nanoseconds == 999999999);
    CHECK(!c->notifier_created_event.is_some && c->notifier_created_event.number == 0);
    CHECK(c->notifier_dropped_event.is_some && c->notifier_dropped_event.number == 6);
    CHECK(!c->notifier_dead_event.is_some);
    s.deadline.nanoseconds = 1000000000;
    IS_FIELD(iox2sd_describe_event(&s, TEXT("iox2://a"), true, some_id, &d),
             BAD_DURATION, IOX2SD_FIELD_DEADLINE);
    s.deadline.is_some = false;
    IS_FIELD(iox2sd_describe_event(&s, TEXT("iox2://a"), true, some_id, &d), DONE, 0);
    CHECK(describes(&d, IOX2SD_PATTERN_EVENT, "iox2://a") && !c->deadline.is_some
          && c->deadline.nanoseconds == 0);
    IS_FIELD(iox2sd_describe_event(&s, TEXT("iox2://a"), false, some_id, &d), BAD_SERVICE_NAME, 0);
}

static void describe_request_response(void) {
    iox2sd_request_response_settings s = iox2sd_request_response_defaults();
    iox2sd_description d;
    const iox2sd_request_response_config *c = &d.request_response;
    memset(&d, 0xAA, sizeof d);
    s.max_active_requests_per_client = 3;
    s.max_loaned_requests = 5;
    s.max_response_buffer_size = 7;
    s.max_servers = 11;
    s.max_clients = 13;
    s.max_nodes = 17;
    s.max_borrowed_responses_per_pending_response = 19;
    s.enable_safe_overflow_for_requests = false;
    IS_FIELD(iox2sd_describe_request_response(&s, TEXT("a"), false, some_id, &d), DONE, 0);
    CHECK(describes(&d, IOX2SD_PATTERN_REQUEST_RESPONSE, "a") && is_unset(&d.publish_subscribe));
    CHECK(c->max_active_requests_per_client == 3 && c->max_loaned_requests == 5);
    CHECK(c->max_response_buffer_size == 7 && c->max_servers == 11 && c->max_clients == 13);
    CHECK(c->max_nodes == 17 && c->max_borrowed_responses_per_pending_response == 19);
    CHECK(!c->enable_safe_overflow_for_requests && c->enable_safe_overflow_for_responses);
    CHECK(c->enable_fire_and_forget_requests);
    IS_FIELD(iox2sd_describe_request_response(&s, TEXT("iox2://a"), true, some_id, &d), DONE, 0);
    CHECK(describes(&d, IOX2SD_PATTERN_REQUEST_RESPONSE, "iox2://a"));
    s.server_backpressure_strategy = 2;
    IS_FIELD(iox2sd_describe_request_response(&s, TEXT("a"), false, some_id, &d),
             UNKNOWN_STRATEGY, IOX2SD_FIELD_SERVER_BACKPRESSURE_STRATEGY);
}

static void describe_blackboard(void) {
    const iox2sd_blackboard_settings s = {3, 5};
    iox2sd_description d;
    memset(&d, 0xAA, sizeof d);
    IS_FIELD(iox2sd_describe_blackboard(&s, TEXT("a"), false, some_id, &d), DONE, 0);
    CHECK(describes(&d, IOX2SD_PATTERN_BLACKBOARD, "a") && is_unset(&d.publish_subscribe));
    CHECK(d.blackboard.max_readers == 3 && d.blackboard.max_writers == 1
          && d.blackboard.max_nodes == 5);
    IS_FIELD(iox2sd_describe_blackboard(&s, TEXT("iox2://a"), false, some_id, &d),
             BAD_SERVICE_NAME, 0);
    IS_FIELD(iox2sd_describe_blackboard(&s, TEXT("iox2://a"), true, some_id, &d), DONE, 0);
    CHECK(describes(&d, IOX2SD_PATTERN_BLACKBOARD, "iox2://a"));
}

static bool is_flag(iox2sd_flag_answer answer, uint32_t status, bool yes) {
    return answer.status == status && answer.yes == yes;
}

static void same_patterns(void) {
    uint32_t left, right;
    for (left = 0; left < 4; left++) {
        for (right = 0; right < 4; right++) {
            CHECK(is_flag(iox2sd_has_same_messaging_pattern(left, right), IOX2SD_STATUS_DONE,
                          left == right));
        }
        CHECK(is_flag(iox2sd_has_same_messaging_pattern(left, 4), IOX2SD_STATUS_UNKNOWN_PATTERN,
                      false));
        CHECK(is_flag(iox2sd_has_same_messaging_pattern(UINT32_MAX, left),
                      IOX2SD_STATUS_UNKNOWN_PATTERN, false));
    }
    CHECK(is_flag(iox2sd_has_same_messaging_pattern(4, 4), IOX2SD_STATUS_UNKNOWN_PATTERN, false));
}

/* Why a text is refused, where the status says which one: the status of the check of that text. */
static void causes(void) {
    static const struct {
        const char *text;
        size_t length;
    } texts[] = {{"", 0}, {"\xff", 1}, {"a/b", 3}, {".", 1}, {"a", 1}, {"iox2://a", 8}};
    uint8_t long_text[300], out[300];
    memset(long_text, 'a', sizeof long_text);
    const iox2sd_publish_subscribe_settings settings = iox2sd_publish_subscribe_defaults();
    const iox2sd_id service = {1, 2, 3, 4};
    for (size_t i = 0; i < 7; i++) {
        const uint8_t *const text = i < 6 ? bytes(texts[i].text) : long_text;
        const size_t length = i < 6 ? texts[i].length : sizeof long_text;
        const uint32_t path = iox2sd_path_check(text, length).status;
        const uint32_t file = iox2sd_file_name_check(text, length).status;
        const uint32_t key = iox2sd_attribute_key_check(text, length).status;
        const uint32_t value = iox2sd_attribute_value_check(text, length).status;
        const uint32_t name = iox2sd_service_name_check(text, length).status;
        const uint32_t internal = iox2sd_internal_service_name_check(text, length).status;
        iox2sd_text_answer told = iox2sd_path_add_path_entry(text, length, bytes("p"), 1, out, 300);
        CHECK(told.cause == path &&
              (told.status == IOX2SD_STATUS_BAD_PATH) == (path != IOX2SD_STATUS_DONE));
        told = iox2sd_path_add_path_entry(bytes("p"), 1, text, length, out, 300);
        CHECK(told.cause == path &&
              (told.status == IOX2SD_STATUS_BAD_ENTRY) == (path != IOX2SD_STATUS_DONE));
        told = iox2sd_file_path_from_path_and_file(bytes("p"), 1, text, length, out, 300);
        CHECK(told.cause == file &&
              (told.status == IOX2SD_STATUS_BAD_ENTRY) == (file != IOX2SD_STATUS_DONE));
        told = iox2sd_service_dir(text, length, out, 300);
        CHECK(told.cause == path &&
              (told.status == IOX2SD_STATUS_BAD_PATH) == (path != IOX2SD_STATUS_DONE));
        told = iox2sd_node_dir(text, length, out, 300);
        CHECK(told.cause == path &&
              (told.status == IOX2SD_STATUS_BAD_PATH) == (path != IOX2SD_STATUS_DONE));
        const bool is_utf8 = i != 1;
        told = iox2sd_hash_text(IOX2SD_PATTERN_EVENT, text, length, out, 300);
        CHECK(told.cause == (is_utf8 ? name : (uint32_t)IOX2SD_STATUS_DONE));
        CHECK((told.status == IOX2SD_STATUS_BAD_SERVICE_NAME) ==
              (is_utf8 && name != IOX2SD_STATUS_DONE));
        told = iox2sd_internal_hash_text(IOX2SD_PATTERN_EVENT, text, length, out, 300);
        CHECK(told.cause == (is_utf8 ? internal : (uint32_t)IOX2SD_STATUS_DONE));
        iox2sd_description made;
        iox2sd_field_answer field = iox2sd_describe_publish_subscribe(&settings, text, length,
                                                                      false, service, &made);
        CHECK(field.cause == (is_utf8 ? name : (uint32_t)IOX2SD_STATUS_DONE) && field.field == 0);
        field = iox2sd_describe_publish_subscribe(&settings, text, length, true, service, &made);
        CHECK(field.cause == (is_utf8 ? internal : (uint32_t)IOX2SD_STATUS_DONE));
        iox2sd_attribute pairs[2] = {iox2sd_attribute_str("k", "v"), {text, length, bytes("v"), 1}};
        iox2sd_key keys[2] = {iox2sd_key_str("k"), {text, length}};
        const iox2sd_attribute good = pairs[0];
        iox2sd_place_answer place = iox2sd_attributes_check(pairs, 2);
        CHECK(place.cause == key && place.at == (key != IOX2SD_STATUS_DONE));
        place = iox2sd_attributes_sort(pairs, 2);
        CHECK(place.cause == key);
        pairs[0] = good;
        pairs[1].key = text;
        pairs[1].key_length = length;
        place = iox2sd_attributes_verify(&good, 1, pairs, 2, NULL, 0);
        CHECK(place.cause == key && (place.status == IOX2SD_STATUS_BAD_REQUIRED_KEY) == (key != 0));
        place = iox2sd_attributes_verify(&good, 1, NULL, 0, keys, 2);
        CHECK(place.cause == key && (place.status == IOX2SD_STATUS_BAD_ASKED_KEY) == (key != 0));
        CHECK(iox2sd_attributes_number_of_key_values(&good, 1, text, length).cause == key);
        CHECK(iox2sd_attributes_number_of_key_values(pairs, 2, bytes("k"), 1).cause == key);
        CHECK(iox2sd_attributes_key_value(&good, 1, text, length, 0, out, 300).cause == key);
        CHECK(iox2sd_attributes_key_value(pairs, 2, bytes("k"), 1, 0, out, 300).cause == key);
        pairs[1] = iox2sd_attribute_str("k", "v");
        pairs[1].value = text;
        pairs[1].value_length = length;
        CHECK(iox2sd_attributes_check(pairs, 2).cause == value);
        CHECK(iox2sd_attributes_verify(pairs, 2, &good, 1, NULL, 0).cause == value);
        CHECK(iox2sd_attributes_number_of_key_values(pairs, 2, bytes("k"), 1).cause == value);
        place = iox2sd_attributes_verify(&good, 1, pairs, 2, NULL, 0);
        CHECK(place.cause == value &&
              (place.status == IOX2SD_STATUS_BAD_REQUIRED_VALUE) == (value != 0));
    }
}

/* The counts of settings are those of the functions that take the numbers one by one. */
static void counts_of_settings(void) {
    iox2sd_publish_subscribe_settings samples = iox2sd_publish_subscribe_defaults();
    iox2sd_request_response_settings requests = iox2sd_request_response_defaults();
    samples.max_subscribers = 3, samples.subscriber_max_buffer_size = 5;
    samples.subscriber_max_borrowed_samples = 7, samples.publisher_history_size = 11;
    samples.publisher_max_loaned_samples = 13;
    iox2sd_count_answer one = iox2sd_samples_of(&samples);
    iox2sd_count_answer other =
        iox2sd_required_amount_of_samples_per_data_segment(3, 5, 7, 11, 13);
    CHECK(one.status == IOX2SD_STATUS_DONE && one.count == other.count);
    requests.max_servers = 3, requests.max_clients = 5, requests.max_loaned_requests = 7;
    requests.max_active_requests_per_client = 11, requests.max_response_buffer_size = 13;
    requests.max_borrowed_responses_per_pending_response = 17;
    requests.server_max_loaned_responses_per_request = 19;
    one = iox2sd_requests_of(&requests);
    other = iox2sd_required_amount_of_chunks_per_client_data_segment(3, 11, 7);
    CHECK(one.status == IOX2SD_STATUS_DONE && one.count == other.count);
    one = iox2sd_responses_of(&requests);
    other = iox2sd_required_amount_of_chunks_per_server_data_segment(5, 11, 13, 17, 19);
    CHECK(one.status == IOX2SD_STATUS_DONE && one.count == other.count);
    CHECK(iox2sd_samples_of(NULL).status == IOX2SD_STATUS_NULL);
    CHECK(iox2sd_requests_of(NULL).status == IOX2SD_STATUS_NULL);
    CHECK(iox2sd_responses_of(NULL).status == IOX2SD_STATUS_NULL);
    samples.max_subscribers = SIZE_MAX, samples.subscriber_max_buffer_size = SIZE_MAX;
    CHECK(iox2sd_samples_of(&samples).status == IOX2SD_STATUS_TOO_LARGE);
}

int main(void) {
    causes();
    counts_of_settings();
    checks();
    names();
    paths();
    sets();
    requirements();
    layouts();
    compatible();
    type_details();
    chunks();
    settings();
    global_settings();
    publish_subscribe_settings();
    event_settings();
    request_response_settings();
    files();
    describe_publish_subscribe();
    describe_refusals();
    describe_event();
    describe_request_response();
    describe_blackboard();
    same_patterns();
    return wrong ? EXIT_FAILURE : EXIT_SUCCESS;
}
