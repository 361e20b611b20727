/* The exports by count, for C99 and C++: the proved functions of the library, which the functions
 * of the other headers and the wrappers of other languages call. In C, call the functions of
 * iox2sd.h, iox2sd_values.h, iox2sd_config.h, iox2sd_script.h and iox2sd_conform.h, which include
 * this header and say what each one does.
 *
 * Each export is that of its name without `_at`, but for its pointers. Where that one takes a
 * pointer to one struct, the export takes a pointer and a count: 1, or 0 where the pointer is NULL.
 * Then the status is IOX2SD_STATUS_NULL. A pointer to an array, a text or a buffer may be NULL only
 * where the number of its elements is 0; the export does not check this.
 */
#ifndef IOX2SD_RAW_H
#define IOX2SD_RAW_H

#include <stdbool.h>
#include <stddef.h>
#include <stdint.h>

#ifdef __cplusplus
extern "C" {
#endif

/* The structs are those of the other headers. clang warns of a function that is declared before the
 * struct that it returns. */
#if defined(__cplusplus) && defined(__clang__)
#pragma clang diagnostic push
#pragma clang diagnostic ignored "-Wreturn-type-c-linkage"
#endif

struct iox2sd_attribute;
struct iox2sd_blackboard_capacities;
struct iox2sd_blackboard_config;
struct iox2sd_blackboard_settings;
struct iox2sd_capacities;
struct iox2sd_config;
struct iox2sd_config_answer;
struct iox2sd_config_fault;
struct iox2sd_config_write_answer;
struct iox2sd_conform_answer;
struct iox2sd_count_answer;
struct iox2sd_dead_node_removal;
struct iox2sd_description;
struct iox2sd_event_capacities;
struct iox2sd_event_config;
struct iox2sd_event_settings;
struct iox2sd_field_answer;
struct iox2sd_flag_answer;
struct iox2sd_global_settings;
struct iox2sd_handle;
struct iox2sd_handle_answer;
struct iox2sd_id;
struct iox2sd_id_answer;
struct iox2sd_key;
struct iox2sd_layout_answer;
struct iox2sd_message_details;
struct iox2sd_number_answer;
struct iox2sd_part_answer;
struct iox2sd_place_answer;
struct iox2sd_places_answer;
struct iox2sd_port_answer;
struct iox2sd_port_details;
struct iox2sd_port_id;
struct iox2sd_publish_subscribe_capacities;
struct iox2sd_publish_subscribe_config;
struct iox2sd_publish_subscribe_settings;
struct iox2sd_request_response_capacities;
struct iox2sd_request_response_config;
struct iox2sd_request_response_settings;
struct iox2sd_roles_answer;
struct iox2sd_script_answer;
struct iox2sd_service;
struct iox2sd_service_numbers;
struct iox2sd_text_answer;
struct iox2sd_type_detail;
struct iox2sd_unknown_answer;
struct iox2sd_unknown_key;

/* Services, ids and statuses: those of iox2sd.h. */
struct iox2sd_text_answer iox2sd_status_text_at(uint32_t status, uint8_t *out, size_t capacity);
struct iox2sd_text_answer iox2sd_id_text_at(struct iox2sd_id id, uint8_t *out, size_t capacity);
struct iox2sd_id_answer iox2sd_id_from_text_at(const uint8_t *text, size_t length);
struct iox2sd_number_answer iox2sd_next_service_number_at(struct iox2sd_service_numbers *numbers,
                                                          size_t count);
uint32_t iox2sd_service_create_at(struct iox2sd_service *objects, size_t count, uint64_t pattern,
                                  uint64_t number, struct iox2sd_capacities capacities,
                                  uint64_t tickets);
uint32_t iox2sd_service_free_at(struct iox2sd_service *objects, size_t count);
struct iox2sd_handle_answer iox2sd_register_node_id_at(struct iox2sd_service *objects, size_t count,
                                                       struct iox2sd_id node);
uint32_t iox2sd_deregister_node_id_at(struct iox2sd_service *objects, size_t count,
                                      struct iox2sd_handle handle);
struct iox2sd_handle_answer iox2sd_attach_at(struct iox2sd_service *objects, size_t count,
                                             const struct iox2sd_port_details *ports,
                                             size_t port_count);
uint32_t iox2sd_release_port_at(struct iox2sd_service *objects, size_t count,
                                struct iox2sd_handle handle);
struct iox2sd_dead_node_removal
iox2sd_remove_dead_node_id_at(struct iox2sd_service *objects, size_t count, struct iox2sd_id dead,
                              const struct iox2sd_port_id *kept, size_t kept_count);
struct iox2sd_number_answer iox2sd_messaging_pattern_at(const struct iox2sd_service *objects,
                                                        size_t count);
struct iox2sd_number_answer iox2sd_service_number_at(const struct iox2sd_service *objects,
                                                     size_t count);
struct iox2sd_roles_answer iox2sd_port_roles_at(const struct iox2sd_service *objects, size_t count);
struct iox2sd_flag_answer iox2sd_has_role_at(const struct iox2sd_service *objects, size_t count,
                                             uint64_t role);
struct iox2sd_flag_answer iox2sd_is_locked_at(const struct iox2sd_service *objects, size_t count);
struct iox2sd_count_answer iox2sd_number_of_nodes_at(const struct iox2sd_service *objects,
                                                     size_t count);
struct iox2sd_count_answer iox2sd_max_nodes_at(const struct iox2sd_service *objects, size_t count);
struct iox2sd_flag_answer iox2sd_has_room_for_node_at(const struct iox2sd_service *objects,
                                                      size_t count);
struct iox2sd_count_answer iox2sd_count_ports_at(const struct iox2sd_service *objects, size_t count,
                                                 uint64_t role);
struct iox2sd_count_answer iox2sd_max_ports_at(const struct iox2sd_service *objects, size_t count,
                                               uint64_t role);
struct iox2sd_flag_answer iox2sd_has_room_at(const struct iox2sd_service *objects, size_t count,
                                             uint64_t role);
struct iox2sd_id_answer iox2sd_node_at(const struct iox2sd_service *objects, size_t count,
                                       struct iox2sd_handle handle);
struct iox2sd_port_answer iox2sd_port_at(const struct iox2sd_service *objects, size_t count,
                                         struct iox2sd_handle handle);
struct iox2sd_count_answer iox2sd_nodes_at(const struct iox2sd_service *objects, size_t count,
                                           struct iox2sd_id *out, size_t capacity);
struct iox2sd_count_answer iox2sd_ports_at(const struct iox2sd_service *objects, size_t count,
                                           uint64_t role, struct iox2sd_port_details *out,
                                           size_t capacity);
struct iox2sd_count_answer iox2sd_ports_of_at(const struct iox2sd_service *objects, size_t count,
                                              struct iox2sd_id node,
                                              struct iox2sd_port_details *out, size_t capacity);

/* Values: those of iox2sd_values.h. */
struct iox2sd_place_answer iox2sd_service_name_check_at(const uint8_t *text, size_t length);
struct iox2sd_place_answer iox2sd_internal_service_name_check_at(const uint8_t *text,
                                                                 size_t length);
struct iox2sd_place_answer iox2sd_attribute_key_check_at(const uint8_t *text, size_t length);
struct iox2sd_place_answer iox2sd_attribute_value_check_at(const uint8_t *text, size_t length);
struct iox2sd_place_answer iox2sd_path_check_at(const uint8_t *text, size_t length);
struct iox2sd_place_answer iox2sd_file_name_check_at(const uint8_t *text, size_t length);
struct iox2sd_place_answer iox2sd_file_path_check_at(const uint8_t *text, size_t length);
struct iox2sd_place_answer iox2sd_restricted_file_name_check_at(const uint8_t *text, size_t length);
bool iox2sd_has_iox2_prefix_at(const uint8_t *text, size_t length);
struct iox2sd_text_answer iox2sd_internal_service_name_at(const uint8_t *text, size_t length,
                                                          uint8_t *out, size_t capacity);
struct iox2sd_text_answer iox2sd_path_add_path_entry_at(const uint8_t *path, size_t path_length,
                                                        const uint8_t *entry, size_t entry_length,
                                                        uint8_t *out, size_t capacity);
struct iox2sd_text_answer
iox2sd_file_path_from_path_and_file_at(const uint8_t *path, size_t path_length, const uint8_t *file,
                                       size_t file_length, uint8_t *out, size_t capacity);
struct iox2sd_text_answer iox2sd_hash_text_at(uint64_t pattern, const uint8_t *name, size_t length,
                                              uint8_t *out, size_t capacity);
struct iox2sd_text_answer iox2sd_internal_hash_text_at(uint64_t pattern, const uint8_t *name,
                                                       size_t length, uint8_t *out,
                                                       size_t capacity);
struct iox2sd_text_answer iox2sd_default_text_at(uint32_t which, uint8_t *out, size_t capacity);
struct iox2sd_text_answer iox2sd_service_dir_at(const uint8_t *root, size_t length, uint8_t *out,
                                                size_t capacity);
struct iox2sd_text_answer iox2sd_node_dir_at(const uint8_t *root, size_t length, uint8_t *out,
                                             size_t capacity);
struct iox2sd_text_answer iox2sd_version_at(uint8_t *out, size_t capacity);
struct iox2sd_text_answer iox2sd_layer_version_at(uint8_t *out, size_t capacity);
struct iox2sd_place_answer iox2sd_attributes_check_at(const struct iox2sd_attribute *pairs,
                                                      size_t length);
struct iox2sd_place_answer iox2sd_attributes_sort_at(struct iox2sd_attribute *pairs, size_t length);
struct iox2sd_count_answer
iox2sd_attributes_number_of_key_values_at(const struct iox2sd_attribute *pairs, size_t length,
                                          const uint8_t *key, size_t key_length);
struct iox2sd_text_answer iox2sd_attributes_key_value_at(const struct iox2sd_attribute *pairs,
                                                         size_t length, const uint8_t *key,
                                                         size_t key_length, size_t index,
                                                         uint8_t *out, size_t capacity);
struct iox2sd_place_answer
iox2sd_attributes_verify_at(const struct iox2sd_attribute *pairs, size_t length,
                            const struct iox2sd_attribute *required, size_t required_length,
                            const struct iox2sd_key *keys, size_t keys_length);
uint32_t iox2sd_type_detail_check_at(const struct iox2sd_type_detail *detail, size_t count);
struct iox2sd_layout_answer
iox2sd_message_sample_layout_at(const struct iox2sd_message_details *details, size_t count,
                                size_t elements);
struct iox2sd_places_answer iox2sd_message_places_at(const struct iox2sd_message_details *details,
                                                     size_t count, size_t header);
struct iox2sd_part_answer
iox2sd_message_is_compatible_to_at(const struct iox2sd_message_details *service,
                                   size_t service_count,
                                   const struct iox2sd_message_details *opener,
                                   size_t opener_count);
struct iox2sd_field_answer
iox2sd_global_settings_check_at(const struct iox2sd_global_settings *settings, size_t count);
struct iox2sd_field_answer
iox2sd_publish_subscribe_settings_check_at(const struct iox2sd_publish_subscribe_settings *settings,
                                           size_t count);
struct iox2sd_field_answer
iox2sd_event_settings_check_at(const struct iox2sd_event_settings *settings, size_t count);
struct iox2sd_field_answer
iox2sd_request_response_settings_check_at(const struct iox2sd_request_response_settings *settings,
                                          size_t count);
struct iox2sd_field_answer
iox2sd_publish_subscribe_satisfies_at(const struct iox2sd_publish_subscribe_config *service,
                                      size_t count,
                                      const struct iox2sd_publish_subscribe_config *required,
                                      size_t required_count);
struct iox2sd_field_answer
iox2sd_event_satisfies_at(const struct iox2sd_event_config *service, size_t count,
                          const struct iox2sd_event_config *required,
                          size_t required_count);
struct iox2sd_field_answer
iox2sd_request_response_satisfies_at(const struct iox2sd_request_response_config *service,
                                     size_t count,
                                     const struct iox2sd_request_response_config *required,
                                     size_t required_count);
struct iox2sd_field_answer
iox2sd_blackboard_satisfies_at(const struct iox2sd_blackboard_config *service, size_t count,
                               const struct iox2sd_blackboard_config *required,
                               size_t required_count);
struct iox2sd_publish_subscribe_capacities
iox2sd_publish_subscribe_capacities_of_settings_at(
    const struct iox2sd_publish_subscribe_settings *settings, size_t count);
struct iox2sd_event_capacities
iox2sd_event_capacities_of_settings_at(const struct iox2sd_event_settings *settings, size_t count);
struct iox2sd_request_response_capacities
iox2sd_request_response_capacities_of_settings_at(
    const struct iox2sd_request_response_settings *settings, size_t count);
struct iox2sd_blackboard_capacities
iox2sd_blackboard_capacities_of_settings_at(const struct iox2sd_blackboard_settings *settings,
                                            size_t count);
struct iox2sd_field_answer
iox2sd_describe_publish_subscribe_at(const struct iox2sd_publish_subscribe_settings *settings,
                                     size_t count, const uint8_t *name, size_t length,
                                     bool internal, struct iox2sd_id id,
                                     struct iox2sd_description *out, size_t out_count);
struct iox2sd_field_answer
iox2sd_describe_event_at(const struct iox2sd_event_settings *settings, size_t count,
                         const uint8_t *name, size_t length, bool internal, struct iox2sd_id id,
                         struct iox2sd_description *out, size_t out_count);
struct iox2sd_field_answer
iox2sd_describe_request_response_at(const struct iox2sd_request_response_settings *settings,
                                    size_t count, const uint8_t *name, size_t length, bool internal,
                                    struct iox2sd_id id, struct iox2sd_description *out,
                                    size_t out_count);
struct iox2sd_field_answer
iox2sd_describe_blackboard_at(const struct iox2sd_blackboard_settings *settings, size_t count,
                              const uint8_t *name, size_t length, bool internal,
                              struct iox2sd_id id, struct iox2sd_description *out,
                              size_t out_count);

/* Files of settings: those of iox2sd_config.h. */
struct iox2sd_config_answer iox2sd_config_read_at(const uint8_t *text, size_t length,
                                                  struct iox2sd_config *out, size_t out_count);
struct iox2sd_count_answer iox2sd_config_faults_at(const uint8_t *text, size_t length,
                                                   struct iox2sd_config_fault *out,
                                                   size_t capacity);
struct iox2sd_unknown_answer
iox2sd_config_unknown_at(const uint8_t *text, size_t length, struct iox2sd_unknown_key *out,
                         size_t capacity, uint8_t *paths, size_t paths_capacity);
struct iox2sd_config_write_answer
iox2sd_config_write_at(const struct iox2sd_config *settings, size_t count, uint8_t *out,
                       size_t capacity);

/* Scripts: that of iox2sd_script.h. */
struct iox2sd_script_answer iox2sd_script_run_at(const uint8_t *script, size_t length, uint8_t *out,
                                                 size_t capacity);

/* Logs: that of iox2sd_conform.h. */
struct iox2sd_conform_answer iox2sd_conform_run_at(const uint8_t *log, size_t length, uint8_t *out,
                                                   size_t capacity);

#if defined(__cplusplus) && defined(__clang__)
#pragma clang diagnostic pop
#endif

#ifdef __cplusplus
}
#endif

#endif
