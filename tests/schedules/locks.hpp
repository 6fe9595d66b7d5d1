// A std::map under a lock. Wrong 1: a put looks under the lock, releases it, and writes after it has taken the lock again.
#ifndef LOCKS_HPP
#define LOCKS_HPP

#include "locked_map.hpp"

namespace locks {

template <int wrong> struct Map : LockedMap<std::mutex> {
    map_said put(uint64_t key, uint64_t value, uint64_t &found)
    {
        std::unique_lock<std::mutex> guard(lock);
        map_said said = look(key, found);
        if (wrong == 1) {
            guard.unlock();
            guard.lock();
        }
        pairs[key] = value;
        return said;
    }
};

}

#endif
