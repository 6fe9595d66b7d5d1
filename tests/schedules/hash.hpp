// A hash table that grows. Each chain has a lock. To grow, all locks are taken, and a table of twice as many chains replaces the old one. Tables are
// not freed. Wrong 1: once a write has the lock of a chain, it does not look whether its table is still the map's.
#ifndef HASH_HPP
#define HASH_HPP

#include "potzendai_test.hpp"
#include <atomic>
#include <mutex>
#include <vector>

namespace hash {

template <int wrong> class Map {
    struct Node { uint64_t key, value; Node *next; };
    struct Chain { std::mutex lock; Node *first = nullptr; };
    struct Table {
        std::vector<Chain> chains;
        explicit Table(size_t count) : chains(count) {}
        Chain &of(uint64_t key) { return chains[key % chains.size()]; }
    };
    std::atomic<Table *> table{new Table(1)};
    std::atomic<uint64_t> pairs{0};

    static Node **find(Chain &chain, uint64_t key)
    {
        Node **link = &chain.first;
        while (*link && (*link)->key != key)
            link = &(*link)->next;
        return link;
    }

    void grow(Table *old)
    {
        for (Chain &chain : old->chains)
            chain.lock.lock();
        if (table.load() == old) {
            Table *made = new Table(2 * old->chains.size());
            for (Chain &chain : old->chains)
                for (Node *node = chain.first; node; node = node->next) {
                    Chain &to = made->of(node->key);
                    to.first = new Node{node->key, node->value, to.first};
                }
            table.store(made);
        }
        for (Chain &chain : old->chains)
            chain.lock.unlock();
    }

    // Locks the chain of a key in the table that the map has now.
    Chain &lock(uint64_t key, Table *&now, bool is_write)
    {
        for (;;) {
            now = table.load();
            Chain &chain = now->of(key);
            chain.lock.lock();
            if (table.load() == now || (wrong == 1 && is_write))
                return chain;
            chain.lock.unlock();
        }
    }

public:
    map_said get(uint64_t key, uint64_t &found)
    {
        Table *now;
        Chain &chain = lock(key, now, false);
        std::lock_guard<std::mutex> guard(chain.lock, std::adopt_lock);
        Node *node = *find(chain, key);
        if (node)
            found = node->value;
        return node ? MAP_TOLD : MAP_NONE;
    }

    map_said put(uint64_t key, uint64_t value, uint64_t &found)
    {
        Table *now;
        Chain &chain = lock(key, now, true);
        Node **link = find(chain, key);
        bool is_new = !*link;
        if (is_new)
            *link = new Node{key, value, nullptr};
        else {
            found = (*link)->value;
            (*link)->value = value;
        }
        chain.lock.unlock();
        if (is_new && pairs.fetch_add(1) >= now->chains.size())
            grow(now);
        return is_new ? MAP_NONE : MAP_TOLD;
    }

    map_said del(uint64_t key, uint64_t &found)
    {
        Table *now;
        Chain &chain = lock(key, now, true);
        std::lock_guard<std::mutex> guard(chain.lock, std::adopt_lock);
        Node **link = find(chain, key), *node = *link;
        if (!node)
            return MAP_NONE;
        found = node->value;
        *link = node->next;
        pairs.fetch_sub(1);
        return MAP_TOLD;
    }
};

}

#endif
