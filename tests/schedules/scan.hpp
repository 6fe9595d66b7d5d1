// A std::map under a lock for readers and writers. Wrong 1: a scan releases the lock between two keys.
#ifndef SCAN_HPP
#define SCAN_HPP

#include "locked_map.hpp"
#include <shared_mutex>

namespace scan {

typedef std::shared_lock<std::shared_mutex> Shared;

template <int wrong> struct Map : LockedMap<std::shared_mutex, Shared> {
    map_said scan(uint64_t low, uint64_t high, std::vector<recording_pair> &all)
    {
        Shared guard(lock);
        for (auto at = pairs.lower_bound(low); at != pairs.end() && at->first <= high; at = pairs.lower_bound(low)) {
            all.push_back({at->first, at->second});
            low = at->first + 1;
            if (wrong == 1) {
                guard.unlock();
                guard.lock();
            }
        }
        return MAP_TOLD;
    }
};

}

#endif
