// Whether a service meets what an opener requires, and numbers for services. The last line is
// 'N checks, N failed'.
#include "iox2sd.hpp"

#include "check.hpp"

#include <cstdint>

using namespace iox2sd;

namespace {

const TypeDetail number = TypeDetail::create(TypeVariant::FixedSize, "u64", 8, 8).value();
const MessageTypeDetails message{number, number, number};

/// A service meets what it has itself, and not the requirement that is changed so, in this field.
template <class Fixed, class Change>
bool is_unmet(const Fixed& service, SettingsField field, Change change) {
    Fixed required = service;
    change(required);
    const Result<void, SettingsError> answer = service.satisfies(required);
    return service.satisfies(service).has_value() && !answer.has_value() &&
           answer.error() == SettingsError{Status::Unmet, field};
}

/// A service does not meet a requirement `r` in this field where it is changed so.
#define UNMET(field, ...) \
    CHECK(is_unmet(service, SettingsField::field, [](Fixed& r) { __VA_ARGS__; }))

void publish_subscribe() {
    using Fixed = PublishSubscribeStaticConfig;
    const Fixed service(PublishSubscribeSettings::defaults(), message);
    UNMET(MaxSubscribers, ++r.max_subscribers);
    UNMET(MaxPublishers, ++r.max_publishers);
    UNMET(MaxNodes, ++r.max_nodes);
    UNMET(HistorySize, ++r.history_size);
    UNMET(SubscriberMaxBufferSize, ++r.subscriber_max_buffer_size);
    UNMET(SubscriberMaxBorrowedSamples, ++r.subscriber_max_borrowed_samples);
    UNMET(EnableSafeOverflow, r.enable_safe_overflow = false);
    Fixed fewer = service;
    --fewer.max_nodes;
    CHECK(service.satisfies(fewer).has_value());
}

void event() {
    using Fixed = EventStaticConfig;
    Fixed service = EventSettings::defaults();
    service.deadline = Duration(1, 2);
    UNMET(MaxNotifiers, ++r.max_notifiers);
    UNMET(MaxListeners, ++r.max_listeners);
    UNMET(MaxNodes, ++r.max_nodes);
    UNMET(EventIdMaxValue, ++r.event_id_max_value);
    UNMET(Deadline, r.deadline = std::nullopt);
    UNMET(NotifierCreatedEvent, r.notifier_created_event = EventId{0});
    UNMET(NotifierDroppedEvent, r.notifier_dropped_event = EventId{0});
    UNMET(NotifierDeadEvent, r.notifier_dead_event = EventId{0});
    Fixed required = service;
    required.deadline = Duration(1, 1000000000);
    const SettingsError invalid{Status::BadDuration, SettingsField::Deadline};
    CHECK(service.satisfies(required).error() == invalid);
    CHECK(required.satisfies(service).error() == invalid);
}

void request_response() {
    using Fixed = RequestResponseStaticConfig;
    const Fixed service(RequestResponseSettings::defaults(), message, message);
    UNMET(EnableSafeOverflowForRequests, r.enable_safe_overflow_for_requests = false);
    UNMET(EnableSafeOverflowForResponses, r.enable_safe_overflow_for_responses = false);
    UNMET(EnableFireAndForgetRequests, r.enable_fire_and_forget_requests = false);
    UNMET(MaxActiveRequestsPerClient, ++r.max_active_requests_per_client);
    UNMET(MaxLoanedRequests, ++r.max_loaned_requests);
    UNMET(MaxResponseBufferSize, ++r.max_response_buffer_size);
    UNMET(MaxServers, ++r.max_servers);
    UNMET(MaxClients, ++r.max_clients);
    UNMET(MaxNodes, ++r.max_nodes);
    UNMET(MaxBorrowedResponsesPerPendingResponse, ++r.max_borrowed_responses_per_pending_response);
}

void blackboard() {
    using Fixed = BlackboardStaticConfig;
    const Fixed service(BlackboardSettings::defaults(), number);
    UNMET(MaxReaders, ++r.max_readers);
    UNMET(MaxWriters, ++r.max_writers);
    UNMET(MaxNodes, ++r.max_nodes);
}

void service_numbers() {
    ServiceNumbers numbers;
    CHECK(numbers.last() == 0 && numbers.next().value() == 1 && numbers.next().value() == 2);
    CHECK(numbers.last() == 2);
    ServiceNumbers last(UINT64_MAX - 1);
    CHECK(last.next().value() == UINT64_MAX);
    CHECK(last.next().status() == Status::OutOfSpace && last.next().status() == Status::OutOfSpace);
}

}  // namespace

int main() {
    publish_subscribe();
    event();
    request_response();
    blackboard();
    service_numbers();
    return end_of_checks();
}
