// What LevelDB and RocksDB have in common: a map in a folder, whose puts and deletes do not say what was there before.
#ifndef ENGINES_FOLDER_MAP_HPP
#define ENGINES_FOLDER_MAP_HPP

#include "../cpp/potzendai_test.hpp"
#include "settings.h"
#include <memory>
#include <stdexcept>
#include <string>

// Numbers as bytes, the highest first, so that they rise as the numbers do.
inline std::string bytes_of(uint64_t number)
{
    std::string bytes;
    for (int i = 56; i >= 0; i -= 8)
        bytes += static_cast<char>(number >> i & 255);
    return bytes;
}

template <class Bytes> uint64_t number_in(const Bytes &bytes)
{
    uint64_t number = 0;
    for (size_t i = 0; i < bytes.size(); i++)
        number = number << 8 | static_cast<unsigned char>(bytes[i]);
    return number;
}

// A map in a folder of its own; or the store that is killed. Engine names the types of a store and of its iterators, opens and destroys a store,
// and has the options of a write.
template <class Engine> class FolderMap {
    std::string name, folder;

    void open()
    {
        if (!Engine::open(folder, base).ok())
            throw std::runtime_error(name + ": does not open");
    }

protected:
    typename Engine::Store *base = nullptr;

    template <class Status> static map_said told(const Status &status, const std::string &value, uint64_t &found)
    {
        if (status.ok())
            found = number_in(value);
        return status.ok() ? MAP_TOLD : status.IsNotFound() ? MAP_NONE : MAP_REFUSED;
    }

public:
    explicit FolderMap(const char *name) : name(name), folder(potzendai_store() ? potzendai_store() : "/tmp/potzendai-" + this->name + "-XXXXXX")
    {
        if (!potzendai_store() && !mkdtemp(&folder[0]))
            throw std::runtime_error(this->name + ": no folder");
        open();
    }

    ~FolderMap()
    {
        delete base;
        Engine::destroy(folder);
    }

    void reopen()
    {
        delete base;
        base = nullptr;
        open();
    }

    map_said get(uint64_t key, uint64_t &found)
    {
        std::string value;
        auto status = base->Get({}, bytes_of(key), &value);
        return told(status, value, found);
    }

    // Of a write that fails the manuals do not say that nothing has changed.
    map_said put(uint64_t key, uint64_t value, uint64_t &)
    {
        return base->Put(Engine::writes(), bytes_of(key), bytes_of(value)).ok() ? MAP_DONE : MAP_UNKNOWN;
    }

    map_said del(uint64_t key, uint64_t &)
    {
        return base->Delete(Engine::writes(), bytes_of(key)).ok() ? MAP_DONE : MAP_UNKNOWN;
    }

    // An iterator has a snapshot of its own.
    map_said scan(uint64_t low, uint64_t high, std::vector<recording_pair> &pairs)
    {
        std::unique_ptr<typename Engine::Iterator> at(base->NewIterator({}));
        potzendai_taken();
        for (at->Seek(bytes_of(low)); at->Valid() && number_in(at->key()) <= high; at->Next())
            pairs.push_back({number_in(at->key()), number_in(at->value())});
        return at->status().ok() ? MAP_TOLD : MAP_REFUSED;
    }
};

#endif
