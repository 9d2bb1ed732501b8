// Calls from C++ with the data of empty vectors, which may be NULL: a script that has no set, and its packet in a
// vector.
#include "station.h"

#include <vector>

int main()
{
    std::vector<uint8_t> script, packet;
    const uint8_t set[] = {0, 0, 0, 0, STATION_RECORD_SET, 0};

    if (station_room(script.data(), script.size()) != -STATION_KIND_WRONG)
        return 1;
    if (station_build_query_results(script.data(), script.size(), packet.data(), packet.size()) != -STATION_KIND_WRONG)
        return 2;
    script.assign(set, set + sizeof set);
    if (station_build_query_results(script.data(), script.size(), packet.data(), packet.size()) !=
        -STATION_BUFFER_TOO_SHORT)
        return 3;
    packet.resize(static_cast<size_t>(station_room(script.data(), script.size())));
    if (station_build_query_results(script.data(), script.size(), packet.data(), packet.size()) != 24)
        return 4;
    return packet[0] == STATION_PACKET_TABULAR_RESULT ? 0 : 5;
}
