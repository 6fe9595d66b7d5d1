// The concurrent_map of oneTBB: insert, find and lower_bound. Its erase is not for concurrent use.
#include "potzendai_test.hpp"
#include <tbb/concurrent_map.h>

class Map {
    tbb::concurrent_map<uint64_t, uint64_t> pairs;

public:
    map_said get(uint64_t key, uint64_t &found)
    {
        auto at = pairs.find(key);
        if (at == pairs.end())
            return MAP_NONE;
        found = at->second;
        return MAP_TOLD;
    }

    map_said put_if_absent(uint64_t key, uint64_t value, uint64_t &found)
    {
        auto put = pairs.insert({key, value});
        found = put.first->second;
        return put.second ? MAP_NONE : MAP_TOLD;
    }

    map_said ceiling(uint64_t key, recording_pair &pair)
    {
        auto at = pairs.lower_bound(key);
        if (at == pairs.end())
            return MAP_NONE;
        pair = {at->first, at->second};
        return MAP_TOLD;
    }
};

int main(int argc, char **argv)
{
    Map map;
    return potzendai::test_main(argc, argv, map, "tbb_map");
}
