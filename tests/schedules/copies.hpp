// A map that is copied at each write. A reader has one of its versions; none is freed. Wrong 1: the new version is stored even if another one has
// come in between.
#ifndef COPIES_HPP
#define COPIES_HPP

#include "potzendai_test.hpp"
#include <atomic>
#include <map>

namespace copies {

template <int wrong> class Map {
    typedef std::map<uint64_t, uint64_t> Version;
    std::atomic<const Version *> now{new Version};

    static map_said look(const Version &version, uint64_t key, uint64_t &found)
    {
        auto at = version.find(key);
        if (at == version.end())
            return MAP_NONE;
        found = at->second;
        return MAP_TOLD;
    }

    bool publish(const Version *&old, const Version *made)
    {
        if (wrong == 1) {
            now.store(made);
            return true;
        }
        return now.compare_exchange_strong(old, made);
    }

public:
    map_said get(uint64_t key, uint64_t &found) { return look(*now.load(), key, found); }

    map_said put(uint64_t key, uint64_t value, uint64_t &found)
    {
        const Version *old = now.load();
        Version *made;
        do {
            made = new Version(*old);
            (*made)[key] = value;
        } while (!publish(old, made));
        return look(*old, key, found);
    }

    map_said del(uint64_t key, uint64_t &found)
    {
        const Version *old = now.load();
        Version *made;
        do {
            made = new Version(*old);
            made->erase(key);
        } while (!publish(old, made));
        return look(*old, key, found);
    }

    map_said scan(uint64_t low, uint64_t high, std::vector<recording_pair> &all)
    {
        const Version &version = *now.load();
        for (auto at = version.lower_bound(low); at != version.end() && at->first <= high; ++at)
            all.push_back({at->first, at->second});
        return MAP_TOLD;
    }
};

}

#endif
