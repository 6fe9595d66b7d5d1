// A test of the concurrent_hash_map of oneTBB: each call holds an accessor of its key. README.md says how it is built.
#include "../cpp/potzendai_test.hpp"
#include <tbb/concurrent_hash_map.h>

class Hash {
    typedef tbb::concurrent_hash_map<uint64_t, uint64_t> pairs_type;
    pairs_type pairs;

public:
    map_said get(uint64_t key, uint64_t &found)
    {
        pairs_type::const_accessor at;
        if (!pairs.find(at, key))
            return MAP_NONE;
        found = at->second;
        return MAP_TOLD;
    }

    map_said put(uint64_t key, uint64_t value, uint64_t &found)
    {
        pairs_type::accessor at;
        bool is_new = pairs.insert(at, key);
        found = at->second;
        at->second = value;
        return is_new ? MAP_NONE : MAP_TOLD;
    }

    map_said del(uint64_t key, uint64_t &found)
    {
        pairs_type::accessor at;
        if (!pairs.find(at, key))
            return MAP_NONE;
        found = at->second;
        return pairs.erase(at) ? MAP_TOLD : MAP_NONE;
    }

    map_said replace(uint64_t key, uint64_t old, uint64_t value, uint64_t &found)
    {
        pairs_type::accessor at;
        if (!pairs.find(at, key))
            return MAP_NONE;
        found = at->second;
        if (found == old)
            at->second = value;
        return MAP_TOLD;
    }

    map_said put_if_absent(uint64_t key, uint64_t value, uint64_t &found)
    {
        pairs_type::const_accessor at;
        if (pairs.insert(at, std::make_pair(key, value)))
            return MAP_NONE;
        found = at->second;
        return MAP_TOLD;
    }
};

int main(int argc, char **argv)
{
    Hash map;
    return potzendai::test_main(argc, argv, map, "tbb");
}
