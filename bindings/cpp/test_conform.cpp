// Judges logs by iox2sd_conform.hpp: verdicts with a short and a long report, logs of random calls
// that a Recorder writes down, and those of a LogWriter. The last line is 'N checks, N failed'.
#include <set>
#include <string>
#include <vector>

#include "check.hpp"
#include "iox2sd_conform.hpp"

namespace {

using namespace iox2sd;

const std::string service = "service event 7 200 2 2\n";

bool is(const LogVerdict& found, Status status, std::size_t line, std::size_t calls,
        std::string_view report) {
    return found.status == status && found.line == line && found.calls == calls &&
           found.report() == report;
}

bool has_no_parts(const LogVerdict& found) {
    return found.reply_line() == 0 && found.words().empty() && found.call() == 0 &&
           found.command().empty() && found.window() == 0 && found.needed().empty() &&
           found.configurations().empty() && found.configurations().size() == 0;
}

/// The configuration that is alone.
Configuration only(const LogVerdict& found) {
    CHECK(found.configurations().size() == 1);
    return found.configurations().front();
}

void conforming() {
    const LogVerdict one = check_log(service + "register 1.0.0.1\n= handle 199 0\n");
    CHECK(is(one, Status::Done, 0, 1, "conforms, 1 call on 1 service\n") && has_no_parts(one));
    const LogVerdict none = check_log(service);
    CHECK(is(none, Status::Done, 0, 0, "conforms, 0 calls on 1 service\n"));
}

void bad_lines() {
    const auto tells = [](std::string_view lines, Status status, std::size_t line,
                          std::string_view told) {
        const LogVerdict found = check_log(service + std::string(lines));
        CHECK(found.status == status && found.line == line && found.calls == 0);
        const std::string front = "line " + std::to_string(line) + ": ";
        CHECK(found.report() == front + std::string(told) + '\n' && has_no_parts(found));
    };
    const auto expects = [&tells](std::string_view lines, Status status, std::size_t line) {
        tells(lines, status, line, text(status));
    };
    const LogVerdict empty = check_log({});
    const std::string_view expected =
        "line 1: the line of a service is expected, as service event 7 2 2 0; a pattern is "
        "publish-subscribe, event, request-response or blackboard\n";
    CHECK(is(empty, Status::NoServiceLine, 1, 0, expected) && has_no_parts(empty));
    tells("\ncount\n", Status::NoCallLine, 3,
          "count ROLE is expected, as count listener, and no space behind it");
    tells("A> list? nodes\n", Status::NoCallLine, 2,
          "CALLER> list? ROLE is expected, as A> list? listener, and no space behind it");
    tells("nodes\n", Status::NoReplyLine, 3,
          "a reply is expected, as handle 0 3, list 1000000000000000000000001, count 2 or released; "
          "below a call alone with = before it");
    expects("A> nodes\nA> nodes\n", Status::CallerIsBusy, 3);
    expects("A< list\n", Status::NoOpenCall, 2);
    expects("A> nodes\nA!\nA> nodes\n", Status::CallerIsDead, 4);
    expects("A!\n", Status::UnknownCaller, 2);
    expects("nodes\n= list", Status::NoNewline, 3);
    expects("nodes\r\n", Status::CarriageReturn, 2);
    expects("state nodes 3\nstate nodes 4\n", Status::NoStateLine, 3);
    std::string open;
    for (int caller = 0; caller < 65; ++caller) open += "c" + std::to_string(caller) + "> nodes\n";
    expects(open, Status::TooManyOpenCalls, 66);
}

/// A reply that no order explains, after so many registrations and one attached port.
void refused(int nodes) {
    std::string log = service, ids;
    for (int k = 0; k < nodes; ++k) {
        log += "register 1.0.0.1\n= handle " + std::to_string(k) + ' ' + std::to_string(k) + '\n';
        ids += k == 0 ? "1000000000000000000000001" : " 1000000000000000000000001";
    }
    log += "add listener 1.0.0.11 1.0.0.1\n= handle 1 0\n";
    const std::size_t line = 2 * static_cast<std::size_t>(nodes) + 5;
    const LogVerdict found = check_log(log + "release 0\n= released\n");
    CHECK(found.status == Status::NoOrder && found.line == line && found.calls == 0);
    CHECK(found.words() == "released" && found.reply_line() == line && found.window() == line);
    CHECK(found.call() == line - 1 && found.command() == "release 0");
    CHECK((only(found) == Configuration{"", "not-owned", ids, "100000000000000000000000b"}));
    const std::string number = std::to_string(line);
    const std::string report =
        "line " + number + ": no order of the calls explains this reply\nseen: released\n" +
        "call: release 0 (line " + std::to_string(line - 1) + ")\nwindow: from line " + number + "\nneeded: lines " + number +
        "\nmade: none\npossible: not-owned\nnodes: " + ids + "\nports: 100000000000000000000000b\n";
    CHECK(found.report() == report);
}

/// The ids of nobody.
void nobody() {
    const LogVerdict found = check_log(service + "nodes\n= locked\n");
    CHECK(found.status == Status::NoOrder && found.words() == "locked");
    CHECK((only(found) == Configuration{"", "list", "", ""}));
}

// ---- Calls that overlapped ----

constexpr std::string_view node_1 = "1000000000000000000000001";
constexpr std::string_view node_2 = "1000000000000000000000002";
constexpr std::string_view nodes_2_1 = "1000000000000000000000002 1000000000000000000000001";

/// Two nodes at a time ask for one place: one comes first.
void one_slot() {
    const std::string both = "service event 7 1 0 0\nA> register 1.0.0.1\nB> register 2.0.0.2\n";
    const LogVerdict one = check_log(both + "A< handle 0 0\nB< full\n");
    CHECK(is(one, Status::Done, 0, 2, "conforms, 2 calls on 1 service\n"));
    const LogVerdict two = check_log(both + "A< handle 0 0\nB< handle 0 1\n");
    CHECK(two.status == Status::NoOrder && two.line == 5 && two.words() == "handle 0 1");
    CHECK(two.window() == 2 && (only(two) == Configuration{"", "full", node_1, ""}));
    CHECK(two.needed() == "2 3" && two.call() == 3 && two.command() == "B> register 2.0.0.2");
}

/// The first node is registered again and gets a port, while it is removed as a dead one: first,
/// last, or after the port was attached and before it is registered.
const std::string three = service +
                          "register 1.0.0.1\n= handle 0 0\nregister 1.0.0.2\n= handle 1 1\n"
                          "A> dead 1.0.0.1\nB> register 1.0.0.1\nC> add listener 1.0.0.9 1.0.0.1\n"
                          "A< has-owners\nB< handle 2 2\nC< handle 0 0\n";

void several_configurations() {
    const LogVerdict one =
        check_log(three + "count listener\n= count 1\nrelease listener 0 0\n= released\n");
    CHECK(is(one, Status::Done, 0, 7, "conforms, 7 calls on 1 service\n"));
    const LogVerdict found = check_log(three + "count listener\n= count 7\n");
    CHECK(found.status == Status::NoOrder && found.line == 13 && found.words() == "count 7");
    const Configurations told = found.configurations();
    const std::set<Configuration> all(told.begin(), told.end());
    const std::set<Configuration> expected = {
        {"", "count 1", nodes_2_1, "1000000000000000000000009"},
        {"", "count 0", node_2, ""},
        {"", "count 0", nodes_2_1, ""}};
    CHECK(all == expected && told.size() == 3 && all.count(told.front()) == 1);
    auto at = told.begin();
    CHECK(*at++ == told.front() && *at != told.front() && at != told.end());
}

/// An open call that was made, since a reply shows it.
void open_calls() {
    const std::string shown = "nodes\n= list " + std::string(node_1) + '\n';
    const LogVerdict found =
        check_log("service event 7 1 0 0\nA> register 1.0.0.1\n" + shown + "nodes\n= list\n");
    CHECK(found.status == Status::NoOrder && found.line == 6 && found.window() == 2);
    CHECK(found.needed() == "2 4 6");
    const std::string possible = "list " + std::string(node_1);
    CHECK((only(found) == Configuration{"2", possible, node_1, ""}));
}

/// A listing sees a node whose registration is open, until a reply says that it was not registered.
void a_reply_below() {
    const std::string seen = service + "A> register 1.0.0.1\nB> nodes\nB< list " +
                             std::string(node_1) + "\n# a note\n";
    CHECK(is(check_log(seen), Status::Done, 0, 2, "conforms, 2 calls on 1 service\n"));
    CHECK(check_log(seen + "A< handle 0 0\n").status == Status::Done);
    const LogVerdict found = check_log(seen + "A< handle 0 5\n");
    CHECK(found.status == Status::NoOrder && found.line == 6 && found.reply_line() == 4);
    CHECK(found.words() == "list " + std::string(node_1) && found.window() == 2);
    CHECK(found.needed() == "2 3" && found.call() == 3 && found.command() == "B> nodes");
    CHECK((only(found) == Configuration{"", "list", "", ""}));
}

/// What a LogWriter writes is judged: two threads that overlapped.
void written() {
    LogWriter log = LogWriter::create(PatternKind::Event, 7, {1, 0, 0}).value();
    LogCaller a = log.caller("A").value(), b = log.caller("B").value();
    const UniqueNodeId node = UniqueNodeId::create(1, 0, 0, 1).value();
    LogToken first = a.begin(LogCommand::register_node(node)).value();
    LogToken second = b.begin(LogCommand::register_node(node)).value();
    CHECK(a.begin(LogCommand::nodes()).status() == Status::CallerIsBusy);
    CHECK(second.end(LogReply::handle(0, 0)) && first.end(LogReply::full()));
    CHECK(first.end(LogReply::full()).status() == Status::NoOpenCall);
    const iox2sd_id id = node.parts();
    CHECK(a.begin(LogCommand::nodes()).value().end(LogReply::list(&id, 1)));
    LogToken open = b.begin(LogCommand::deregister_node(0, 0)).value();
    CHECK(b.died() && b.begin(LogCommand::nodes()).status() == Status::CallerIsDead);
    CHECK(open.end(LogReply::no_owners()).status() == Status::NoOpenCall);
    CHECK(a.begin(LogCommand::register_node(node)).value().end(LogReply::locked()));
    const List<char> text = log.text().value();
    CHECK(check_log(text).status == Status::Done && check_log(text).calls == 5);
    CHECK(log.caller("a b").status() == Status::IllegalByte);
    CHECK(log.caller(std::string_view("a\0", 2)).status() == Status::IllegalByte);
    CHECK(log.caller("a2345678901234567").status() == Status::TooLong);
    CHECK(log.caller(std::string_view("a23456789012345\0007", 17)).status() == Status::TooLong);
    CHECK(a.reserve(SIZE_MAX).status() == Status::NoMemory);
}

/// Whether a listing of nodes or listeners that saw those with these counters is judged so: 9 stays
/// all through the call, 10 leaves in it, and 11 comes then.
bool is_judged(const LogCommand& listing, const std::vector<std::uint32_t>& seen, Status status) {
    LogWriter log = LogWriter::create(PatternKind::Event, 7, {2, 2, 0}).value();
    LogCaller a = log.caller("A").value(), b = log.caller("B").value();
    const auto call = [&b](const LogCommand& command, const LogReply& reply) {
        CHECK(b.begin(command).value().end(reply));
    };
    const auto come = [&call](std::uint32_t counter, std::size_t slot, std::uint64_t ticket) {
        const UniqueNodeId node = UniqueNodeId::create(1, 0, 0, counter).value();
        call(LogCommand::register_node(node), LogReply::handle(slot, ticket));
        const UniquePortId port = UniqueListenerId(1, 0, 0, counter);
        call(LogCommand::attach(port, node), LogReply::handle(slot, ticket));
    };
    come(9, 0, 0);
    come(10, 1, 1);
    LogToken open = a.begin(listing).value();
    call(LogCommand::release_port(Role::Listener, 1, 1), LogReply::released());
    call(LogCommand::deregister_node(1, 1), LogReply::has_owners());
    come(11, 1, 2);
    std::vector<iox2sd_id> ids;
    for (const std::uint32_t counter : seen) ids.push_back({1, 0, 0, counter});
    CHECK(open.end(LogReply::list(ids.data(), ids.size())));
    const List<char> text = log.text().value();
    const LogVerdict found = check_log(text);
    return found.status == status && found.line == (status == Status::Done ? 0 : 19);
}

/// A weak listing has what stays, and nothing that never was there. Others are snapshots.
void weak_listings() {
    const LogCommand weak[] = {LogCommand::nodes_weak(), LogCommand::ports_weak(Role::Listener)};
    for (const LogCommand& listing : weak) {
        CHECK(is_judged(listing, {9, 10, 11}, Status::Done));
        CHECK(is_judged(listing, {9}, Status::Done));
        CHECK(is_judged(listing, {10, 11}, Status::NoOrder));
        CHECK(is_judged(listing, {9, 12}, Status::NoOrder));
    }
    CHECK(is_judged(LogCommand::nodes(), {9, 10, 11}, Status::NoOrder));
    CHECK(is_judged(LogCommand::ports(Role::Listener), {9, 10, 11}, Status::NoOrder));
}

template <class T, class = void>
constexpr bool has_configurations = false;
template <class T>
constexpr bool has_configurations<T, std::void_t<decltype(std::declval<T>().configurations())>> = true;

/// Configurations differ by each of their texts. Those of a temporary do not compile.
void configurations_differ() {
    static_assert(has_configurations<const LogVerdict&> && !has_configurations<LogVerdict>);
    const Configuration one{"2", "list", "1", "2"};
    CHECK((one == Configuration{"2", "list", "1", "2"}));
    CHECK((one != Configuration{"", "list", "1", "2"} && one != Configuration{"2", "", "1", "2"}));
    CHECK((one != Configuration{"2", "list", "", "2"}));
    CHECK((one != Configuration{"2", "list", "1", ""}));
}

// ---- Recorders ----

/// Numbers that look random, by xorshift.
class Dice {
public:
    std::size_t below(std::size_t bound) {
        state_ ^= state_ << 13;
        state_ ^= state_ >> 7;
        state_ ^= state_ << 17;
        return static_cast<std::size_t>(state_ % bound);
    }

private:
    std::uint64_t state_ = 0x9E3779B97F4A7C15;
};

constexpr Role all_roles[] = {Role::Publisher, Role::Subscriber, Role::Notifier, Role::Listener,
                              Role::Client,    Role::Server,     Role::Reader,   Role::Writer};
constexpr PatternKind patterns[] = {PatternKind::PublishSubscribe, PatternKind::Event,
                                    PatternKind::RequestResponse, PatternKind::Blackboard};

UniqueNodeId a_node(Dice& dice) {
    const std::uint32_t seconds[] = {1, 2, 9};
    return UniqueNodeId::create(1, seconds[dice.below(3)], 0, 5).value();
}

PortDetails a_port(Role role, const UniqueNodeId& node, Dice& dice) {
    iox2sd_port_details port{};
    port.role = static_cast<std::uint64_t>(role);
    port.port = {7, 0, 0, static_cast<std::uint32_t>(dice.below(5))};
    port.node = node.parts();
    return detail::port_details(port);
}

/// A role of the pattern, or any other one.
Role a_role(const Recorder& recorder, Dice& dice) {
    const PortRoles roles = recorder.service().port_roles().value();
    const Role own = dice.below(2) == 0 ? roles.first : roles.second;
    return dice.below(4) == 0 ? all_roles[dice.below(8)] : own;
}

/// A call that is drawn: whether it succeeded.
bool step(Recorder& recorder, std::vector<ContainerHandle>& handles, Dice& dice) {
    const auto made = [&handles](const Result<ContainerHandle>& result) {
        if (result) handles.push_back(*result);
        return result.has_value();
    };
    const UniqueNodeId node = a_node(dice);
    const Role role = a_role(recorder, dice);
    const std::size_t kind = dice.below(16);
    if (kind < 3) return made(recorder.register_node_id(node));
    if (kind < 8) return made(recorder.attach(a_port(role, node, dice)));
    if (kind == 8) {
        std::vector<UniquePortId> kept;
        while (dice.below(2) == 0) kept.push_back(port_id(a_port(role, node, dice)));
        return recorder.remove_dead_node_id(node, kept).has_value();
    }
    if (kind == 9) return recorder.nodes().has_value();
    if (kind == 10) return recorder.ports(role).has_value();
    if (kind == 11) return recorder.count_ports(role).has_value();
    if (handles.empty()) return false;
    const ContainerHandle handle = handles[dice.below(handles.size())];
    if (kind < 14) return recorder.deregister_node_id(handle).has_value();
    return recorder.release_port(handle).has_value();
}

/// The replies of a log, and the first word of each.
struct Replies {
    std::size_t calls = 0;
    std::set<std::string> words;

    explicit Replies(std::string_view log) {
        while (!log.empty()) {
            const std::string_view line = log.substr(0, log.find('\n'));
            log.remove_prefix(line.size() + 1);
            if (line.substr(0, 3) != "A< ") continue;
            words.emplace(line.substr(3, line.find(' ', 3) - 3));
            ++calls;
        }
    }
};

/// The log of random calls conforms.
void random_calls() {
    Dice dice;
    std::set<std::string> seen;
    for (int round = 0; round < 200; ++round) {
        const Capacities capacities{dice.below(5), dice.below(5), dice.below(5)};
        Recorder recorder = Recorder::create(patterns[round % 4], 7, capacities).value();
        std::vector<ContainerHandle> handles;
        for (std::size_t calls = dice.below(60); calls > 0; --calls) step(recorder, handles, dice);
        const List<char> log = recorder.log().value();
        const Replies replies(log);
        const LogVerdict found = check_log(log);
        CHECK(found.status == Status::Done && found.calls == replies.calls);
        seen.insert(replies.words.begin(), replies.words.end());
    }
    const std::set<std::string> all = {"handle",         "locked",     "full",      "not-registered",
                                       "wrong-pattern",  "has-owners", "no-owners", "list",
                                       "ports-attached", "released",   "not-owned", "count"};
    CHECK(seen == all);
}

/// A line has no kinds of ports, so those of one number are kept together.
void kept_together() {
    Recorder recorder = Recorder::create(PatternKind::Event, 7, {1, 2, 2}).value();
    const UniqueNodeId node = UniqueNodeId::create(1, 0, 0, 1).value();
    CHECK(recorder.register_node_id(node).has_value());
    for (const std::uint32_t counter : {1u, 2u}) {
        CHECK(recorder.attach(ListenerDetails{{1, 0, 0, counter}, node}).has_value());
        CHECK(recorder.attach(NotifierDetails{{1, 0, 0, counter}, node}).has_value());
    }
    const UniquePortId kept = UniqueNotifierId(1, 0, 0, 2);
    const auto removal = recorder.remove_dead_node_id(node, {kept});
    CHECK(removal && removal->first == 1 && removal->second == 1);
    CHECK(recorder.ports(Role::Listener).value().size() == 1);
    CHECK(port_id(recorder.ports(Role::Notifier).value()[0]) == kept);
    const List<char> log = recorder.log().value();
    CHECK(check_log(log).status == Status::Done);
}

/// What has no line is not written.
void what_has_no_line() {
    Recorder recorder = Recorder::create(PatternKind::RequestResponse, 7, {1, 2, 3}).value();
    CHECK(!*recorder.service().is_locked());
    CHECK(recorder.ports(Role::Node).status() == Status::RoleNotInPattern);
    CHECK(recorder.count_ports(Role::Node).status() == Status::RoleNotInPattern);
    CHECK(recorder.ports(Role{9}).status() == Status::UnknownRole);
    CHECK(recorder.deregister_node_id({8, Role::Node, 0, 0}).status() == Status::ForeignHandle);
    CHECK(recorder.deregister_node_id({7, Role::Client, 0, 0}).status() == Status::ForeignHandle);
    CHECK(recorder.release_port({7, Role::Node, 0, 0}).status() == Status::ForeignHandle);
    CHECK(recorder.release_port({}).status() == Status::UnknownRole);
    const std::string_view start = "service request-response 7 1 2 3\n";
    const List<char> log = recorder.log().value();
    CHECK(std::string_view(log) == start);
    CHECK(recorder.release_port({7, Role::Client, 4, 5}).status() == Status::ForeignHandle);
    const List<char> longer = recorder.log().value();
    CHECK(std::string_view(longer) == std::string(start) + "A> release client 4 5\nA< not-owned\n");
    CHECK(check_log(longer).status == Status::Done);
    CHECK(Recorder::create(PatternKind{4}, 7, {1, 1, 1}).status() == Status::UnknownPattern);
}

/// One that was moved from holds no service, also where the other is gone.
void moved_from() {
    const UniqueNodeId node = UniqueNodeId::create(1, 0, 0, 1).value();
    const UniquePortId port = UniqueListenerId(1, 0, 0, 2);
    Recorder recorder = Recorder::create(PatternKind::Event, 7, {1, 1, 1}).value();
    { const Recorder other = std::move(recorder); }
    CHECK(recorder.register_node_id(node).status() == Status::NoService);
    CHECK(recorder.deregister_node_id({7, Role::Node, 0, 0}).status() == Status::NoService);
    CHECK(recorder.release_port({7, Role::Listener, 0, 0}).status() == Status::NoService);
    CHECK(recorder.remove_dead_node_id(node, {port}).status() == Status::NoService);
    CHECK(recorder.nodes().status() == Status::NoService);
    CHECK(recorder.count_ports(Role::Listener).status() == Status::NoService);
}

}  // namespace

int main() {
    conforming();
    bad_lines();
    refused(1);
    refused(200);
    nobody();
    one_slot();
    several_configurations();
    open_calls();
    a_reply_below();
    written();
    weak_listings();
    configurations_differ();
    random_calls();
    kept_together();
    what_has_no_line();
    moved_from();
    return end_of_checks();
}
