// Formats each kind of values that iox2sd_format.hpp knows. The last line is 'N checks, N failed'.
#include <string>

#include "check.hpp"
#include "iox2sd_format.hpp"

using namespace iox2sd;

int main() {
    const UniqueNodeId node = UniqueNodeId::create(1, 0, 0, 10).value();
    const ServiceName name = ServiceName::create("lidar/front").value();
    const ServiceHash hash = ServiceHash::create(name, PatternKind::Event).value();
    CHECK(std::format("{}", name) == "lidar/front" && std::format("{}", hash) == hash);
    CHECK(std::format("[{:>13}] [{:<13}]", name, name) == "[  lidar/front] [lidar/front  ]");
    CHECK(std::format("{:.5}", name) == "lidar" && std::format("{}", Path()) == "");
    CHECK(std::format("{}", version()) == "0.1.0");
    CHECK(std::format("{} {}", node, UniqueListenerId(0, 0, 0, 7)) == "100000000000000000000000a 7");
    CHECK(std::format("{:*^5}", UniquePortId(UniqueWriterId(0, 0, 0, 11))) == "**b**");
    CHECK(std::format("{}", Status::OutOfSpace) == "no slot or no ticket is left");
    return end_of_checks();
}
