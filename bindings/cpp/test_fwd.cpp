// A header that only names the types of iox2sd.hpp needs iox2sd_fwd.hpp alone, which agrees with the
// definitions. The last line is 'N checks, N failed'.
#include "iox2sd_fwd.hpp"

namespace {

template <class T>
constexpr bool is_declared = true;
static_assert(is_declared<iox2sd::Result<iox2sd::List<iox2sd::PublisherDetails>>>);
static_assert(is_declared<iox2sd::AttributeKey> && is_declared<iox2sd::UniqueServiceId>);
static_assert(is_declared<iox2sd::Likeness> && is_declared<iox2sd::EventStaticConfig> &&
              is_declared<iox2sd::DynamicConfig>);

/// What a user's header declares.
struct Monitor {
    const iox2sd::Service& service;
    iox2sd::Status last;
    iox2sd::Result<iox2sd::DeadNodeRemoval> remove(const iox2sd::UniqueNodeId& dead);
    iox2sd::PatternKind kind() const;
};

}  // namespace

#include "iox2sd_config.hpp"
#include "iox2sd_conform.hpp"

#include "check.hpp"

namespace {

using namespace iox2sd;

iox2sd::Result<DeadNodeRemoval> Monitor::remove(const UniqueNodeId&) {
    last = service.is_locked().status();
    return last;
}
PatternKind Monitor::kind() const { return service.kind().value(); }

}  // namespace

int main() {
    const Service service = Service::create(EventCapacities{1, 1, 1}, 7).value();
    Monitor monitor{service, Status::NoService};
    CHECK(monitor.kind() == PatternKind::Event);
    CHECK(monitor.remove(UniqueNodeId::create(1, 2, 3, 4).value()) == Status::Done);
    CHECK(monitor.last == Status::Done && is_declared<Recorder> && is_declared<Config>);
    CHECK(is_declared<LogWriter> && is_declared<Configurations>);
    return end_of_checks();
}
