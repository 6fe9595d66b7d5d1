// RocksDB, tested: puts and deletes in transactions that read first, and return the value. With the word `plain` before the options, puts and deletes
// are single calls, which do not say what was there. README.md says how it is built, and what the other words set.
#include "folder_map.hpp"
#include <rocksdb/utilities/transaction.h>
#include <rocksdb/utilities/transaction_db.h>

using namespace rocksdb;

enum { PLAIN, SYNC, NO_LOG, MANUAL_LOG, SETTINGS };

static bool is_set[SETTINGS];

struct Engine {
    typedef TransactionDB Store;
    typedef rocksdb::Iterator Iterator;

    static Status open(const std::string &folder, Store *&base)
    {
        Options options;
        options.create_if_missing = true;
        options.manual_wal_flush = is_set[MANUAL_LOG];
        return Store::Open(options, TransactionDBOptions(), folder, &base);
    }

    static void destroy(const std::string &folder) { DestroyDB(folder, Options()); }

    // Of each write: whether it is logged, and the log is synced.
    static WriteOptions writes()
    {
        WriteOptions options;
        options.sync = is_set[SYNC];
        options.disableWAL = is_set[NO_LOG];
        return options;
    }
};

class Rocks : public FolderMap<Engine> {
    // Looks what is there under the key's lock, and then puts a value or deletes; a replace only if the old value is there. Nothing has changed if the
    // transaction has expired or met a conflict. If a commit fails otherwise, nobody knows.
    map_said change(uint64_t key, const uint64_t *value, const uint64_t *old, uint64_t &found)
    {
        std::string before, at = bytes_of(key);
        std::unique_ptr<Transaction> transaction(base->BeginTransaction(Engine::writes()));
        map_said said = told(transaction->GetForUpdate(ReadOptions(), at, &before), before, found);
        if (said == MAP_REFUSED)
            return said;
        Status status;
        if (!old || (said == MAP_TOLD && found == *old))
            status = value ? transaction->Put(at, bytes_of(*value)) : transaction->Delete(at);
        if (!status.ok())
            return MAP_REFUSED;
        status = transaction->Commit();
        return status.ok() ? said : status.IsExpired() || status.IsBusy() || status.IsTryAgain() ? MAP_REFUSED : MAP_UNKNOWN;
    }

public:
    Rocks() : FolderMap("rocksdb") {}

    map_said put(uint64_t key, uint64_t value, uint64_t &found)
    {
        return is_set[PLAIN] ? FolderMap::put(key, value, found) : change(key, &value, nullptr, found);
    }

    map_said del(uint64_t key, uint64_t &found) { return is_set[PLAIN] ? FolderMap::del(key, found) : change(key, nullptr, nullptr, found); }

    map_said replace(uint64_t key, uint64_t old, uint64_t value, uint64_t &found) { return change(key, &value, &old, found); }
};

int main(int argc, char **argv)
{
    static const char *const names[] = {"plain", "sync", "nolog", "manuallog", nullptr};
    int count = take_settings(argc, argv, names, is_set);
    return potzendai::test_main(argc - count, argv + count, [] { return std::unique_ptr<Rocks>(new Rocks); }, "rocksdb");
}
