/* Whether a service meets what an opener requires, the capacities of services with some settings,
 * and numbers for services: each field changed in turn, and each refusal. Compiled as C99 and
 * linked with libiox2sd.a. The last line is 'N checks, N failed'. */
#include "iox2sd_values.h"

#include "check.h"

static bool is_field(iox2sd_field_answer answer, uint32_t status, uint32_t field) {
    return answer.status == status && answer.field == field;
}

#define IS_FIELD(call, status, field) CHECK(is_field(call, IOX2SD_STATUS_##status, field))

static void publish_subscribe(void) {
    const iox2sd_publish_subscribe_config service = {5, 5, 5, 5, 5, 5, true};
    iox2sd_publish_subscribe_config required = service;
    size_t *const numbers[] = {&required.max_subscribers,
                               &required.max_publishers,
                               &required.max_nodes,
                               &required.history_size,
                               &required.subscriber_max_buffer_size,
                               &required.subscriber_max_borrowed_samples};
    const uint32_t fields[] = {IOX2SD_FIELD_MAX_SUBSCRIBERS,
                               IOX2SD_FIELD_MAX_PUBLISHERS,
                               IOX2SD_FIELD_MAX_NODES,
                               IOX2SD_FIELD_HISTORY_SIZE,
                               IOX2SD_FIELD_SUBSCRIBER_MAX_BUFFER_SIZE,
                               IOX2SD_FIELD_SUBSCRIBER_MAX_BORROWED_SAMPLES};
    IS_FIELD(iox2sd_publish_subscribe_satisfies(&service, &required), DONE, 0);
    for (size_t i = 0; i < 6; i++) {
        *numbers[i] = 6;
        IS_FIELD(iox2sd_publish_subscribe_satisfies(&service, &required), UNMET, fields[i]);
        IS_FIELD(iox2sd_publish_subscribe_satisfies(&required, &service), DONE, 0);
        *numbers[i] = 4;
        IS_FIELD(iox2sd_publish_subscribe_satisfies(&service, &required), DONE, 0);
        *numbers[i] = 5;
    }
    required.enable_safe_overflow = false;
    IS_FIELD(iox2sd_publish_subscribe_satisfies(&service, &required),
             UNMET, IOX2SD_FIELD_ENABLE_SAFE_OVERFLOW);
    required.max_nodes = 6;
    IS_FIELD(iox2sd_publish_subscribe_satisfies(&service, &required),
             UNMET, IOX2SD_FIELD_MAX_NODES);
    IS_FIELD(iox2sd_publish_subscribe_satisfies(NULL, &required), NULL, 0);
    IS_FIELD(iox2sd_publish_subscribe_satisfies(&service, NULL), NULL, 0);
}

static void event(void) {
    const iox2sd_event_config service = {
        5, 5, 5, 5, {7, 8, true}, {1, true}, {2, true}, {0, false}};
    iox2sd_event_config required = service;
    size_t *const numbers[] = {&required.max_notifiers, &required.max_listeners,
                               &required.max_nodes, &required.event_id_max_value};
    const uint32_t fields[] = {IOX2SD_FIELD_MAX_NOTIFIERS, IOX2SD_FIELD_MAX_LISTENERS,
                               IOX2SD_FIELD_MAX_NODES, IOX2SD_FIELD_EVENT_ID_MAX_VALUE};
    iox2sd_optional_event_id *const events[] = {&required.notifier_created_event,
                                                &required.notifier_dropped_event,
                                                &required.notifier_dead_event};
    const uint32_t numbered[] = {IOX2SD_FIELD_NOTIFIER_CREATED_EVENT,
                                 IOX2SD_FIELD_NOTIFIER_DROPPED_EVENT,
                                 IOX2SD_FIELD_NOTIFIER_DEAD_EVENT};
    IS_FIELD(iox2sd_event_satisfies(&service, &required), DONE, 0);
    for (size_t i = 0; i < 4; i++) {
        *numbers[i] = 6;
        IS_FIELD(iox2sd_event_satisfies(&service, &required), UNMET, fields[i]);
        *numbers[i] = 4;
        IS_FIELD(iox2sd_event_satisfies(&service, &required), DONE, 0);
    }
    for (size_t i = 0; i < 3; i++) {
        const iox2sd_optional_event_id kept = *events[i], other = {3, true};
        *events[i] = other;
        IS_FIELD(iox2sd_event_satisfies(&service, &required), UNMET, numbered[i]);
        *events[i] = kept;
    }
    required.notifier_dead_event.number = 9;
    IS_FIELD(iox2sd_event_satisfies(&service, &required), DONE, 0);
    required.deadline.nanoseconds = 9;
    IS_FIELD(iox2sd_event_satisfies(&service, &required), UNMET, IOX2SD_FIELD_DEADLINE);
    required.deadline.is_some = false;
    IS_FIELD(iox2sd_event_satisfies(&service, &required), UNMET, IOX2SD_FIELD_DEADLINE);
    required = service;
    required.deadline.nanoseconds = 1000000000;
    IS_FIELD(iox2sd_event_satisfies(&service, &required), BAD_DURATION, IOX2SD_FIELD_DEADLINE);
    IS_FIELD(iox2sd_event_satisfies(&required, &service), BAD_DURATION, IOX2SD_FIELD_DEADLINE);
    IS_FIELD(iox2sd_event_satisfies(NULL, &required), NULL, 0);
    IS_FIELD(iox2sd_event_satisfies(&service, NULL), NULL, 0);
}

static void request_response(void) {
    const iox2sd_request_response_config service = {5, 5, 5, 5, 5, 5, 5, true, true, true};
    iox2sd_request_response_config required = service;
    size_t *const numbers[] = {&required.max_active_requests_per_client,
                               &required.max_loaned_requests,
                               &required.max_response_buffer_size,
                               &required.max_servers,
                               &required.max_clients,
                               &required.max_nodes,
                               &required.max_borrowed_responses_per_pending_response};
    const uint32_t fields[] = {IOX2SD_FIELD_MAX_ACTIVE_REQUESTS_PER_CLIENT,
                               IOX2SD_FIELD_MAX_LOANED_REQUESTS,
                               IOX2SD_FIELD_MAX_RESPONSE_BUFFER_SIZE,
                               IOX2SD_FIELD_MAX_SERVERS,
                               IOX2SD_FIELD_MAX_CLIENTS,
                               IOX2SD_FIELD_MAX_NODES,
                               IOX2SD_FIELD_MAX_BORROWED_RESPONSES_PER_PENDING_RESPONSE};
    bool *const flags[] = {&required.enable_safe_overflow_for_requests,
                           &required.enable_safe_overflow_for_responses,
                           &required.enable_fire_and_forget_requests};
    const uint32_t choices[] = {IOX2SD_FIELD_ENABLE_SAFE_OVERFLOW_FOR_REQUESTS,
                                IOX2SD_FIELD_ENABLE_SAFE_OVERFLOW_FOR_RESPONSES,
                                IOX2SD_FIELD_ENABLE_FIRE_AND_FORGET_REQUESTS};
    IS_FIELD(iox2sd_request_response_satisfies(&service, &required), DONE, 0);
    for (size_t i = 0; i < 7; i++) {
        *numbers[i] = 6;
        IS_FIELD(iox2sd_request_response_satisfies(&service, &required), UNMET, fields[i]);
        *numbers[i] = 4;
        IS_FIELD(iox2sd_request_response_satisfies(&service, &required), DONE, 0);
    }
    required.max_servers = 6;
    for (size_t i = 0; i < 3; i++) {
        *flags[i] = false;
        IS_FIELD(iox2sd_request_response_satisfies(&service, &required), UNMET, choices[i]);
        *flags[i] = true;
    }
    IS_FIELD(iox2sd_request_response_satisfies(NULL, &required), NULL, 0);
    IS_FIELD(iox2sd_request_response_satisfies(&service, NULL), NULL, 0);
}

static void blackboard(void) {
    const iox2sd_blackboard_config service = {5, 5, 5};
    iox2sd_blackboard_config required = service;
    size_t *const numbers[] = {&required.max_readers, &required.max_writers, &required.max_nodes};
    const uint32_t fields[] = {IOX2SD_FIELD_MAX_READERS, IOX2SD_FIELD_MAX_WRITERS,
                               IOX2SD_FIELD_MAX_NODES};
    IS_FIELD(iox2sd_blackboard_satisfies(&service, &required), DONE, 0);
    for (size_t i = 0; i < 3; i++) {
        *numbers[i] = 6;
        IS_FIELD(iox2sd_blackboard_satisfies(&service, &required), UNMET, fields[i]);
        *numbers[i] = 4;
        IS_FIELD(iox2sd_blackboard_satisfies(&service, &required), DONE, 0);
    }
    IS_FIELD(iox2sd_blackboard_satisfies(NULL, &required), NULL, 0);
    IS_FIELD(iox2sd_blackboard_satisfies(&service, NULL), NULL, 0);
}

/* By settings that were filled, and by what is fixed then. */
static void capacities_of_services(void) {
    iox2sd_publish_subscribe_settings p = iox2sd_publish_subscribe_defaults();
    iox2sd_event_settings e = iox2sd_event_defaults();
    iox2sd_request_response_settings r = iox2sd_request_response_defaults();
    const iox2sd_blackboard_settings b = {3, 5};
    const iox2sd_publish_subscribe_config pc = {3, 4, 5, 0, 0, 0, false};
    const iox2sd_event_config ec = {3, 4, 5, 0, {0, 0, false}, {0, false}, {0, false}, {0, false}};
    const iox2sd_request_response_config rc = {0, 0, 0, 3, 4, 5, 0, false, false, false};
    const iox2sd_blackboard_config bc = {3, 4, 5};
    iox2sd_publish_subscribe_capacities ps;
    iox2sd_event_capacities ev;
    iox2sd_request_response_capacities rr;
    iox2sd_blackboard_capacities bb;
    p.max_subscribers = 3, p.max_publishers = 4, p.max_nodes = 5;
    e.max_notifiers = 3, e.max_listeners = 4, e.max_nodes = 5;
    r.max_servers = 3, r.max_clients = 4, r.max_nodes = 5;
    ps = iox2sd_publish_subscribe_capacities_of_settings(&p);
    CHECK(ps.subscribers == 3 && ps.publishers == 4 && ps.nodes == 5);
    ps = iox2sd_publish_subscribe_capacities_of_config(&pc);
    CHECK(ps.subscribers == 3 && ps.publishers == 4 && ps.nodes == 5);
    ev = iox2sd_event_capacities_of_settings(&e);
    CHECK(ev.notifiers == 3 && ev.listeners == 4 && ev.nodes == 5);
    ev = iox2sd_event_capacities_of_config(&ec);
    CHECK(ev.notifiers == 3 && ev.listeners == 4 && ev.nodes == 5);
    rr = iox2sd_request_response_capacities_of_settings(&r);
    CHECK(rr.servers == 3 && rr.clients == 4 && rr.nodes == 5);
    rr = iox2sd_request_response_capacities_of_config(&rc);
    CHECK(rr.servers == 3 && rr.clients == 4 && rr.nodes == 5);
    bb = iox2sd_blackboard_capacities_of_settings(&b);
    CHECK(bb.readers == 3 && bb.writers == 1 && bb.nodes == 5);
    bb = iox2sd_blackboard_capacities_of_config(&bc);
    CHECK(bb.readers == 3 && bb.writers == 4 && bb.nodes == 5);
}

static void no_capacities(void) {
    const iox2sd_publish_subscribe_capacities p =
        iox2sd_publish_subscribe_capacities_of_settings(NULL);
    const iox2sd_event_capacities e = iox2sd_event_capacities_of_settings(NULL);
    const iox2sd_request_response_capacities r =
        iox2sd_request_response_capacities_of_settings(NULL);
    const iox2sd_blackboard_capacities b = iox2sd_blackboard_capacities_of_settings(NULL);
    CHECK(p.nodes + p.publishers + p.subscribers == 0);
    CHECK(e.nodes + e.listeners + e.notifiers == 0);
    CHECK(r.nodes + r.servers + r.clients == 0);
    CHECK(b.nodes + b.readers + b.writers == 0);
    CHECK(iox2sd_publish_subscribe_capacities_of_config(NULL).nodes == 0);
    CHECK(iox2sd_event_capacities_of_config(NULL).nodes == 0);
    CHECK(iox2sd_request_response_capacities_of_config(NULL).nodes == 0);
    CHECK(iox2sd_blackboard_capacities_of_config(NULL).nodes == 0);
}

static void service_numbers(void) {
    iox2sd_service_numbers numbers = IOX2SD_SERVICE_NUMBERS_NONE;
    iox2sd_number_answer answer;
    for (uint64_t number = 1; number < 4; number++) {
        answer = iox2sd_next_service_number(&numbers);
        CHECK(answer.status == IOX2SD_STATUS_DONE && answer.number == number &&
              numbers.last == number);
    }
    numbers.last = UINT64_MAX - 1;
    answer = iox2sd_next_service_number(&numbers);
    CHECK(answer.status == IOX2SD_STATUS_DONE && answer.number == UINT64_MAX);
    for (int again = 0; again < 2; again++) {
        answer = iox2sd_next_service_number(&numbers);
        CHECK(answer.status == IOX2SD_STATUS_OUT_OF_SPACE && answer.number == 0);
        CHECK(numbers.last == UINT64_MAX);
    }
    answer = iox2sd_next_service_number(NULL);
    CHECK(answer.status == IOX2SD_STATUS_NULL && answer.number == 0);
}

int main(void) {
    publish_subscribe();
    event();
    request_response();
    blackboard();
    capacities_of_services();
    no_capacities();
    service_numbers();
    return end_of_checks();
}
