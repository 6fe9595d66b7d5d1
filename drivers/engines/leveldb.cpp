// LevelDB, tested: puts and deletes that do not say what was there, since it has no transactions. README.md says how it is built, and what the word
// `sync` sets.
#include "folder_map.hpp"
#include <leveldb/db.h>

static bool is_synced;

struct Engine {
    typedef leveldb::DB Store;
    typedef leveldb::Iterator Iterator;

    static leveldb::Status open(const std::string &folder, Store *&base)
    {
        leveldb::Options options;
        options.create_if_missing = true;
        return Store::Open(options, folder, &base);
    }

    static void destroy(const std::string &folder) { leveldb::DestroyDB(folder, leveldb::Options()); }

    // Of each write: whether its log is synced.
    static leveldb::WriteOptions writes()
    {
        leveldb::WriteOptions options;
        options.sync = is_synced;
        return options;
    }
};

int main(int argc, char **argv)
{
    static const char *const names[] = {"sync", nullptr};
    int count = take_settings(argc, argv, names, &is_synced);
    auto made = [] { return std::unique_ptr<FolderMap<Engine>>(new FolderMap<Engine>("leveldb")); };
    return potzendai::test_main(argc - count, argv + count, made, "leveldb");
}
