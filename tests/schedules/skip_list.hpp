// A skip list with a lock in each node (the lazy one of Herlihy, Lev, Luchangco and Shavit, 2006). Nodes are not freed. A node of key k has one more
// level than k has ones at its binary end.
// Wrong 1: once an insert has the locks of its neighbours, it does not look whether they are still neighbours.
#ifndef SKIP_LIST_HPP
#define SKIP_LIST_HPP

#include "potzendai_test.hpp"
#include <atomic>
#include <mutex>

namespace skip_list {

enum { LEVELS = 3 };

struct Node {
    const uint64_t key;
    const int levels;
    const bool is_head;
    std::atomic<uint64_t> value;
    std::atomic<Node *> next[LEVELS] = {};
    std::atomic<bool> is_removed{false}, is_linked{false};
    std::mutex lock;

    Node(uint64_t k, int l, bool head, uint64_t v) : key(k), levels(l), is_head(head), value(v) {}
};

template <int wrong> class Map {
    Node head{0, LEVELS, true, 0};

    struct Way { Node *before[LEVELS], *after[LEVELS]; };

    static int levels_of(uint64_t key)
    {
        int levels = 1;
        for (; (key & 1) && levels < LEVELS; key >>= 1)
            levels++;
        return levels;
    }

    // Finds the neighbours of a key at each level. Returns the node of the key itself, or null.
    Node *find(uint64_t key, Way &way)
    {
        Node *at = &head, *found = nullptr;
        for (int level = LEVELS; level-- > 0;) {
            Node *next = at->next[level].load();
            while (next && next->key < key) {
                at = next;
                next = at->next[level].load();
            }
            if (!found && next && next->key == key)
                found = next;
            way.before[level] = at;
            way.after[level] = next;
        }
        return found;
    }

    // Locks each node once: neighbours at higher levels may be the same.
    static void lock(const Way &way, int levels)
    {
        for (int level = 0; level < levels; level++)
            if (level == 0 || way.before[level] != way.before[level - 1])
                way.before[level]->lock.lock();
    }

    static void unlock(const Way &way, int levels)
    {
        for (int level = 0; level < levels; level++)
            if (level == 0 || way.before[level] != way.before[level - 1])
                way.before[level]->lock.unlock();
    }

    static bool are_neighbours(const Way &way, int levels, const Node *node)
    {
        for (int level = 0; level < levels; level++) {
            const Node *after = node ? node : way.after[level];
            bool is_there = !way.before[level]->is_removed.load() && (node || !after || !after->is_removed.load());
            if (!is_there || way.before[level]->next[level].load() != after)
                return false;
        }
        return true;
    }

    bool insert(const Way &way, uint64_t key, uint64_t value)
    {
        int levels = levels_of(key);
        lock(way, levels);
        bool may = wrong == 1 || are_neighbours(way, levels, nullptr);
        if (may) {
            Node *node = new Node(key, levels, false, value);
            for (int level = 0; level < levels; level++)
                node->next[level].store(way.after[level]);
            for (int level = 0; level < levels; level++)
                way.before[level]->next[level].store(node);
            node->is_linked.store(true);
        }
        unlock(way, levels);
        return may;
    }

    static bool overwrite(Node *node, uint64_t value, uint64_t &found)
    {
        while (!node->is_linked.load()) {
        }
        std::lock_guard<std::mutex> guard(node->lock);
        if (node->is_removed.load())
            return false;
        found = node->value.exchange(value);
        return true;
    }

    void unlink(Node *node)
    {
        for (;;) {
            Way way;
            find(node->key, way);
            lock(way, node->levels);
            bool may = are_neighbours(way, node->levels, node);
            for (int level = node->levels; may && level-- > 0;)
                way.before[level]->next[level].store(node->next[level].load());
            unlock(way, node->levels);
            if (may)
                return;
        }
    }

public:
    map_said get(uint64_t key, uint64_t &found)
    {
        Way way;
        Node *node = find(key, way);
        if (!node || !node->is_linked.load())
            return MAP_NONE;
        found = node->value.load();
        return node->is_removed.load() ? MAP_NONE : MAP_TOLD;
    }

    map_said put(uint64_t key, uint64_t value, uint64_t &found)
    {
        for (;;) {
            Way way;
            Node *node = find(key, way);
            if (!node && insert(way, key, value))
                return MAP_NONE;
            if (node && overwrite(node, value, found))
                return MAP_TOLD;
        }
    }

    map_said del(uint64_t key, uint64_t &found)
    {
        Way way;
        Node *node = find(key, way);
        if (!node || !node->is_linked.load())
            return MAP_NONE;
        std::lock_guard<std::mutex> guard(node->lock);
        if (node->is_removed.load())
            return MAP_NONE;
        found = node->value.load();
        node->is_removed.store(true);
        unlink(node);
        return MAP_TOLD;
    }
};

}

#endif
