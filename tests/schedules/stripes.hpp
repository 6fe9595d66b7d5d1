// A hash table with fewer locks than chains. Wrong 1: a lock is chosen by the key and not by its chain, so two threads may change one chain under
// different locks.
#ifndef STRIPES_HPP
#define STRIPES_HPP

#include "potzendai_test.hpp"
#include <mutex>

namespace stripes {

template <int wrong> class Map {
    enum { CHAINS = 3, STRIPES = 2 };
    struct Node { uint64_t key, value; Node *next; };
    std::mutex locks[STRIPES];
    Node *chains[CHAINS] = {};

    std::mutex &lock_of(uint64_t key) { return locks[(wrong == 1 ? key : key % CHAINS) % STRIPES]; }

    // The link that leads to a key, or the last of its chain.
    Node **find(uint64_t key)
    {
        Node **link = &chains[key % CHAINS];
        while (*link && (*link)->key != key)
            link = &(*link)->next;
        return link;
    }

public:
    map_said get(uint64_t key, uint64_t &found)
    {
        std::lock_guard<std::mutex> guard(lock_of(key));
        Node *node = *find(key);
        if (node)
            found = node->value;
        return node ? MAP_TOLD : MAP_NONE;
    }

    map_said put(uint64_t key, uint64_t value, uint64_t &found)
    {
        std::lock_guard<std::mutex> guard(lock_of(key));
        Node **link = find(key);
        if (!*link) {
            *link = new Node{key, value, nullptr};
            return MAP_NONE;
        }
        found = (*link)->value;
        (*link)->value = value;
        return MAP_TOLD;
    }

    map_said del(uint64_t key, uint64_t &found)
    {
        std::lock_guard<std::mutex> guard(lock_of(key));
        Node **link = find(key), *node = *link;
        if (!node)
            return MAP_NONE;
        found = node->value;
        *link = node->next;
        return MAP_TOLD;
    }
};

}

#endif
