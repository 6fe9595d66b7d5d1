// A std::map under a lock of type Lock, which each call takes once. A get takes it as Reading does.
#ifndef LOCKED_MAP_HPP
#define LOCKED_MAP_HPP

#include "potzendai_test.hpp"
#include <map>
#include <mutex>

template <class Lock, class Reading = std::lock_guard<Lock>> class LockedMap {
protected:
    typedef std::lock_guard<Lock> Writing;
    Lock lock;
    std::map<uint64_t, uint64_t> pairs;

    map_said look(uint64_t key, uint64_t &found) const
    {
        auto at = pairs.find(key);
        if (at == pairs.end())
            return MAP_NONE;
        found = at->second;
        return MAP_TOLD;
    }

public:
    map_said get(uint64_t key, uint64_t &found)
    {
        Reading guard(lock);
        return look(key, found);
    }

    map_said put(uint64_t key, uint64_t value, uint64_t &found)
    {
        Writing guard(lock);
        map_said said = look(key, found);
        pairs[key] = value;
        return said;
    }

    map_said del(uint64_t key, uint64_t &found)
    {
        Writing guard(lock);
        map_said said = look(key, found);
        pairs.erase(key);
        return said;
    }
};

#endif
