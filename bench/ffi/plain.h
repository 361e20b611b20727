/* The calls of iox2sd.h that calls.c makes, by a plain program: what one writes in C++ in an
 * afternoon. It has the structs of iox2sd.h, and its ids to keep are sorted. */
#ifndef PLAIN_H
#define PLAIN_H

#include "iox2sd.h"

#ifdef __cplusplus
extern "C" {
#endif

typedef struct plain_service {
    struct plain_registries *registries;
} plain_service;

uint32_t plain_service_create(plain_service *service, uint32_t pattern, uint64_t number,
                              iox2sd_capacities capacities, uint64_t tickets);
uint32_t plain_service_free(plain_service *service);
iox2sd_handle_answer plain_register_node_id(plain_service *service, iox2sd_id node);
uint32_t plain_deregister_node_id(plain_service *service, iox2sd_handle handle);
iox2sd_handle_answer plain_attach(plain_service *service, const iox2sd_port_details *port);
uint32_t plain_release_port(plain_service *service, iox2sd_handle handle);
iox2sd_dead_node_removal plain_remove_dead_node_id(plain_service *service, iox2sd_id dead,
                                                   const iox2sd_port_id *kept, size_t kept_count);
iox2sd_flag_answer plain_is_locked(const plain_service *service);
iox2sd_count_answer plain_count_ports(const plain_service *service, uint64_t role);
iox2sd_port_answer plain_port(const plain_service *service, iox2sd_handle handle);
iox2sd_count_answer plain_ports(const plain_service *service, uint64_t role,
                                iox2sd_port_details *out, size_t capacity);
iox2sd_count_answer plain_ports_of(const plain_service *service, iox2sd_id node,
                                   iox2sd_port_details *out, size_t capacity);

#ifdef __cplusplus
}
#endif

#endif
