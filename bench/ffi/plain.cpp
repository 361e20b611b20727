// A plain program beside the library: slots in a vector, a free list, the details in the slot.
#include "plain.h"

#include <algorithm>
#include <optional>
#include <vector>

namespace {

constexpr size_t NONE = SIZE_MAX;

bool operator==(const iox2sd_id &one, const iox2sd_id &other) {
    return memcmp(&one, &other, sizeof one) == 0;
}

bool is_before(const iox2sd_id &one, const iox2sd_id &other) {
    if (one.process != other.process) return one.process < other.process;
    if (one.seconds != other.seconds) return one.seconds < other.seconds;
    if (one.nanoseconds != other.nanoseconds) return one.nanoseconds < other.nanoseconds;
    return one.counter < other.counter;
}

// A bounded map from handles to details. The slot that was freed last is taken first.
template <class T> class Registry {
    struct Slot {
        bool used;
        uint64_t ticket;
        size_t next_free;
        T details;
    };
    std::vector<Slot> slots;
    size_t capacity, freed_last = NONE, length = 0;
    uint64_t next_ticket = 0, tickets;

public:
    Registry(size_t capacity, uint64_t tickets) : capacity(capacity), tickets(tickets) {
        slots.reserve(capacity);
    }

    size_t size() const { return length; }

    std::optional<iox2sd_handle> add(uint64_t service, uint64_t role, const T &details) {
        if (length == capacity || next_ticket == tickets) return std::nullopt;
        size_t slot = freed_last;
        if (slot == NONE) {
            slot = slots.size();
            slots.push_back({true, next_ticket, NONE, details});
        } else {
            freed_last = slots[slot].next_free;
            slots[slot] = {true, next_ticket, NONE, details};
        }
        length++;
        return iox2sd_handle{service, role, slot, next_ticket++};
    }

    const T *find(const iox2sd_handle &handle) const {
        if (handle.slot >= slots.size()) return nullptr;
        const Slot &slot = slots[handle.slot];
        return slot.used && slot.ticket == handle.ticket ? &slot.details : nullptr;
    }

    void remove(size_t slot) {
        slots[slot].used = false;
        slots[slot].next_free = freed_last;
        freed_last = slot;
        length--;
    }

    // How many were removed, which are those for which `goes` holds.
    template <class Goes> size_t remove_where(Goes goes) {
        const size_t before = length;
        for (size_t slot = 0; slot < slots.size(); slot++)
            if (slots[slot].used && goes(slots[slot].details)) remove(slot);
        return before - length;
    }

    template <class Show> void each(Show show) const {
        for (const Slot &slot : slots)
            if (slot.used) show(slot.details);
    }

    template <class Is> size_t count(Is is) const {
        size_t found = 0;
        each([&](const T &details) { found += is(details); });
        return found;
    }

    template <class Is> bool any(Is is) const {
        return std::any_of(slots.begin(), slots.end(), [&](const Slot &slot) { return slot.used && is(slot.details); });
    }
};

using Ports = Registry<iox2sd_port_details>;

iox2sd_handle_answer answer(const std::optional<iox2sd_handle> &made) {
    if (!made) return {IOX2SD_STATUS_OUT_OF_SPACE, IOX2SD_HANDLE_NONE};
    return {IOX2SD_STATUS_DONE, *made};
}

iox2sd_count_answer counted(uint32_t status, size_t count) {
    return {status, IOX2SD_STATUS_DONE, count};
}

// The order of ports to keep: by ids, and by roles where ids are the same.
bool is_kept_before(const iox2sd_port_id &one, const iox2sd_port_id &other) {
    return one.port == other.port ? one.role < other.role : is_before(one.port, other.port);
}

} // namespace

struct plain_registries {
    uint64_t number, first_role, second_role;
    bool locked = false;
    Registry<iox2sd_id> nodes;
    Ports first, second;

    Ports *ports(uint64_t role) {
        if (role == first_role) return &first;
        return role == second_role ? &second : nullptr;
    }

    bool is_registered(const iox2sd_id &node) const {
        return nodes.any([&](const iox2sd_id &other) { return other == node; });
    }

    uint32_t state() const { return locked ? IOX2SD_STATUS_DONE_LOCKED : IOX2SD_STATUS_DONE; }
};

uint32_t plain_service_create(plain_service *service, uint32_t pattern, uint64_t number,
                              iox2sd_capacities capacities, uint64_t tickets) {
    static const uint64_t roles[4][2] = {{IOX2SD_ROLE_PUBLISHER, IOX2SD_ROLE_SUBSCRIBER},
                                         {IOX2SD_ROLE_LISTENER, IOX2SD_ROLE_NOTIFIER},
                                         {IOX2SD_ROLE_SERVER, IOX2SD_ROLE_CLIENT},
                                         {IOX2SD_ROLE_READER, IOX2SD_ROLE_WRITER}};
    if (pattern >= 4) return IOX2SD_STATUS_UNKNOWN_PATTERN;
    service->registries = new plain_registries{
        number, roles[pattern][0], roles[pattern][1], false, {capacities.nodes, tickets},
        {capacities.first, tickets}, {capacities.second, tickets}};
    return IOX2SD_STATUS_DONE;
}

uint32_t plain_service_free(plain_service *service) {
    delete service->registries;
    service->registries = nullptr;
    return IOX2SD_STATUS_DONE;
}

iox2sd_handle_answer plain_register_node_id(plain_service *service, iox2sd_id node) {
    plain_registries &its = *service->registries;
    if (its.locked) return {IOX2SD_STATUS_IS_LOCKED, IOX2SD_HANDLE_NONE};
    return answer(its.nodes.add(its.number, IOX2SD_ROLE_NODE, node));
}

uint32_t plain_deregister_node_id(plain_service *service, iox2sd_handle handle) {
    plain_registries &its = *service->registries;
    if (handle.service != its.number || handle.role != IOX2SD_ROLE_NODE) return IOX2SD_STATUS_FOREIGN_HANDLE;
    const iox2sd_id *node = its.nodes.find(handle);
    if (node == nullptr) return IOX2SD_STATUS_FOREIGN_HANDLE;
    const auto is_its = [&](const iox2sd_port_details &port) { return port.node == *node; };
    const auto is_it = [&](const iox2sd_id &other) { return other == *node; };
    if ((its.first.any(is_its) || its.second.any(is_its)) && its.nodes.count(is_it) == 1)
        return IOX2SD_STATUS_PORTS_STILL_ATTACHED;
    its.nodes.remove(handle.slot);
    its.locked = its.nodes.size() == 0;
    return its.state();
}

iox2sd_handle_answer plain_attach(plain_service *service, const iox2sd_port_details *port) {
    plain_registries &its = *service->registries;
    Ports *ports = its.ports(port->role);
    if (ports == nullptr) return {IOX2SD_STATUS_ROLE_NOT_IN_PATTERN, IOX2SD_HANDLE_NONE};
    if (its.locked) return {IOX2SD_STATUS_IS_LOCKED, IOX2SD_HANDLE_NONE};
    if (!its.is_registered(port->node)) return {IOX2SD_STATUS_NODE_NOT_REGISTERED, IOX2SD_HANDLE_NONE};
    return answer(ports->add(its.number, port->role, *port));
}

uint32_t plain_release_port(plain_service *service, iox2sd_handle handle) {
    plain_registries &its = *service->registries;
    Ports *ports = its.ports(handle.role);
    if (ports == nullptr || handle.service != its.number || ports->find(handle) == nullptr)
        return IOX2SD_STATUS_FOREIGN_HANDLE;
    ports->remove(handle.slot);
    return IOX2SD_STATUS_DONE;
}

iox2sd_dead_node_removal plain_remove_dead_node_id(plain_service *service, iox2sd_id dead,
                                                   const iox2sd_port_id *kept, size_t kept_count) {
    plain_registries &its = *service->registries;
    bool stays = false;
    const auto goes = [&](const iox2sd_port_details &port) {
        if (!(port.node == dead)) return false;
        const iox2sd_port_id id = {port.role, port.port};
        const bool is_kept = std::binary_search(kept, kept + kept_count, id, is_kept_before);
        stays |= is_kept;
        return !is_kept;
    };
    const size_t first = its.first.remove_where(goes), second = its.second.remove_where(goes);
    if (!stays && its.nodes.remove_where([&](const iox2sd_id &node) { return node == dead; }) != 0)
        its.locked = its.nodes.size() == 0;
    return {its.state(), first, second};
}

iox2sd_flag_answer plain_is_locked(const plain_service *service) {
    return {IOX2SD_STATUS_DONE, service->registries->locked};
}

iox2sd_count_answer plain_count_ports(const plain_service *service, uint64_t role) {
    const Ports *ports = service->registries->ports(role);
    if (ports == nullptr) return counted(IOX2SD_STATUS_ROLE_NOT_IN_PATTERN, 0);
    return counted(IOX2SD_STATUS_DONE, ports->size());
}

iox2sd_port_answer plain_port(const plain_service *service, iox2sd_handle handle) {
    plain_registries &its = *service->registries;
    const Ports *ports = its.ports(handle.role);
    const iox2sd_port_details *port = nullptr;
    if (ports != nullptr && handle.service == its.number) port = ports->find(handle);
    if (port == nullptr) return {IOX2SD_STATUS_FOREIGN_HANDLE, {}};
    return {IOX2SD_STATUS_DONE, *port};
}

iox2sd_count_answer plain_ports(const plain_service *service, uint64_t role,
                                iox2sd_port_details *out, size_t capacity) {
    const Ports *ports = service->registries->ports(role);
    if (ports == nullptr) return counted(IOX2SD_STATUS_ROLE_NOT_IN_PATTERN, 0);
    if (ports->size() > capacity) return counted(IOX2SD_STATUS_BUFFER_TOO_SHORT, ports->size());
    ports->each([&](const iox2sd_port_details &port) { *out++ = port; });
    return counted(IOX2SD_STATUS_DONE, ports->size());
}

iox2sd_count_answer plain_ports_of(const plain_service *service, iox2sd_id node,
                                   iox2sd_port_details *out, size_t capacity) {
    const plain_registries &its = *service->registries;
    const auto is_its = [&](const iox2sd_port_details &port) { return port.node == node; };
    const size_t number = its.first.count(is_its) + its.second.count(is_its);
    if (number > capacity) return counted(IOX2SD_STATUS_BUFFER_TOO_SHORT, number);
    const auto list = [&](const iox2sd_port_details &port) {
        if (is_its(port)) *out++ = port;
    };
    its.first.each(list);
    its.second.each(list);
    return counted(IOX2SD_STATUS_DONE, number);
}
