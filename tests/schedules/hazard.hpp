// A value for each key behind a pointer. Readers say by hazard pointers which value they read, and only other values are freed (Michael 2004).
// Wrong 1: once a reader has said so, it does not look whether the slot still has the pointer: the value may have been freed before.
#ifndef HAZARD_HPP
#define HAZARD_HPP

#include "slots.hpp"
#include <vector>

namespace hazard {

template <int wrong> struct Map {
    Slot slots[KEYS] = {};
    std::atomic<Value *> hazards[THREADS] = {};

    class connection : public Writes<connection> {
        friend class Writes<connection>;
        Map &map;
        std::atomic<Value *> &hazard;
        std::vector<Value *> retired;

        Value *protect(const Slot &slot)
        {
            Value *seen = slot.load();
            for (;;) {
                hazard.store(seen);
                Value *now = wrong == 1 ? seen : slot.load();
                if (now == seen)
                    return seen;
                seen = now;
            }
        }

        bool is_read(Value *value) const
        {
            for (const auto &other : map.hazards)
                if (other.load() == value)
                    return true;
            return false;
        }

        // The memory of a freed value goes to the next allocation of its size.
        void retire(Value *value)
        {
            retired.push_back(value);
            for (size_t i = retired.size(); i-- > 0;)
                if (!is_read(retired[i])) {
                    delete retired[i];
                    retired.erase(retired.begin() + long(i));
                }
        }

    public:
        connection(Map &of, unsigned thread) : Writes<connection>(of.slots), map(of), hazard(of.hazards[thread % THREADS]) {}

        map_said get(uint64_t key, uint64_t &found)
        {
            Value *value = protect(map.slots[key]);
            if (value)
                found = value->value.load();
            hazard.store(nullptr);
            return value ? MAP_TOLD : MAP_NONE;
        }
    };
};

}

#endif
