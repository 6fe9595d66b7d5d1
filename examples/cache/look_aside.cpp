// A cache in front of a database, tested as one map: a get looks into the cache first, and reads the database on a miss. Nothing is ever lost,
// so this is tested without --cache. From the top of the repository:
//
//     c++ -std=c++17 -O2 -pthread -DPOTZENDAI_NO_LIBRARY -o look_aside examples/cache/look_aside.cpp
//     ./look_aside delete --bench ./bench --yield 100
//
// The first argument is the protocol, which says what keeps the cache from returning old values:
//
//     delete     a put writes the database and deletes the key in the cache; a get that misses sets what it read. No: it may set an old value
//                after the delete.
//     set        a put writes both. No: two puts may write the cache in the other order.
//     leases     a get that misses takes a lease of the key, and sets only if no put has deleted the key since; a get without lease reads the
//                database. No: it sees a new value while the cache still has the old one.
//     waiting    the same, but a get without lease waits. No: one whose lease a put has taken away still returns what it read, which may be newer
//                than what the next lease sets.
//     versions   the database counts its writes, and the cache keeps the newest version that it has seen of a key, also of one that is lost. Yes.
#include "../../drivers/cpp/potzendai_test.hpp"
#include <cstdio>
#include <cstring>
#include <map>
#include <mutex>
#include <random>
#include <sched.h>

enum protocol { DELETE, SET, LEASES, WAITING, VERSIONS, PROTOCOLS };
static const char *const names[PROTOCOLS] = {"delete", "set", "leases", "waiting", "versions"};

// A value that is not there is 0, which the driver never puts.
struct row {
    uint64_t value, version;
};

class database {
    std::mutex lock;
    std::map<uint64_t, row> rows;
    uint64_t writes = 0;

public:
    row read(uint64_t key)
    {
        std::lock_guard<std::mutex> guard(lock);
        return rows[key];
    }

    // Writes a value, and returns the one before and the new version.
    row write(uint64_t key, uint64_t value)
    {
        std::lock_guard<std::mutex> guard(lock);
        uint64_t before = rows[key].value;
        rows[key] = {value, ++writes};
        return {before, writes};
    }
};

// Each look loses the key in one of eight cases.
class cache {
    struct entry {
        uint64_t value, version, lease;
        bool is_there;
    };
    std::mutex lock;
    std::map<uint64_t, entry> entries;
    std::mt19937 draws{1};
    uint64_t leases = 0;

public:
    // Whether the key is there. If not, `lease` is a new lease, or 0 if there is one already.
    bool look(uint64_t key, uint64_t &value, uint64_t &lease)
    {
        std::lock_guard<std::mutex> guard(lock);
        entry &at = entries[key];
        at.is_there = at.is_there && draws() % 8 != 0;
        value = at.value;
        lease = 0;
        if (!at.is_there && at.lease == 0)
            lease = at.lease = ++leases;
        return at.is_there;
    }

    void set(uint64_t key, uint64_t value)
    {
        std::lock_guard<std::mutex> guard(lock);
        entry &at = entries[key];
        at.value = value;
        at.is_there = true;
    }

    // Sets a value if the lease still holds, and ends the lease.
    void set_leased(uint64_t key, uint64_t value, uint64_t lease)
    {
        std::lock_guard<std::mutex> guard(lock);
        entry &at = entries[key];
        if (at.lease == lease)
            at = {value, at.version, 0, true};
    }

    // Sets a value unless the cache has seen a newer version.
    void set_newer(uint64_t key, row read)
    {
        std::lock_guard<std::mutex> guard(lock);
        entry &at = entries[key];
        if (read.version >= at.version)
            at = {read.value, read.version, at.lease, true};
    }

    // Deletes the key, and ends its lease.
    void forget(uint64_t key)
    {
        std::lock_guard<std::mutex> guard(lock);
        entry &at = entries[key];
        at.is_there = false;
        at.lease = 0;
    }
};

class look_aside {
    protocol how;
    database rows;
    cache values;

    map_said said(uint64_t value, uint64_t &found)
    {
        found = value;
        return value ? MAP_TOLD : MAP_NONE;
    }

    map_said write(uint64_t key, uint64_t value, uint64_t &found)
    {
        row written = rows.write(key, value);
        potzendai_point();
        if (how == SET)
            values.set(key, value);
        else if (how == VERSIONS)
            values.set_newer(key, {value, written.version});
        else
            values.forget(key);
        return said(written.value, found);
    }

public:
    explicit look_aside(protocol chosen) : how(chosen) {}

    map_said get(uint64_t key, uint64_t &found)
    {
        uint64_t value, lease;
        while (!values.look(key, value, lease)) {
            if (how == WAITING && lease == 0) {
                potzendai_point();
                sched_yield();
                continue;
            }
            potzendai_point();
            row read = rows.read(key);
            potzendai_point();
            if (how == VERSIONS)
                values.set_newer(key, read);
            else if (how == DELETE || how == SET)
                values.set(key, read.value);
            else if (lease != 0)
                values.set_leased(key, read.value, lease);
            return said(read.value, found);
        }
        return said(value, found);
    }

    map_said put(uint64_t key, uint64_t value, uint64_t &found) { return write(key, value, found); }
    map_said del(uint64_t key, uint64_t &found) { return write(key, 0, found); }
};

int main(int argc, char **argv)
{
    int how = 0;
    while (how < PROTOCOLS && (argc < 2 || std::strcmp(argv[1], names[how]) != 0))
        how++;
    if (how == PROTOCOLS) {
        std::fprintf(stderr, "look_aside: the first argument is delete, set, leases, waiting or versions; --help after it prints the others\n");
        return 5;
    }
    look_aside map(static_cast<protocol>(how));
    std::string again = std::string("look_aside ") + names[how];
    argv[1] = &again[0];
    return potzendai::test_main(argc - 1, argv + 1, map, "look_aside");
}
