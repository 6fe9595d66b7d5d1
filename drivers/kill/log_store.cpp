// A small store, tested: a map in memory, and a log that is read when it opens. The word before all others makes it wrong in one of four ways, none
// of which shows while it stays open:
//
//     seen      a put is seen by others before it is logged
//     order     puts are logged outside of the lock, so the log may have another order than the map
//     torn      a record is two writes, and opening does not cut off a torn record
//     buffered  puts are answered from a buffer that is written each 5 milliseconds
//
// The word `vague` leaves it right, but its gets do not say what they found.
#include "../cpp/potzendai_test.hpp"
#include <atomic>
#include <chrono>
#include <cstring>
#include <fcntl.h>
#include <map>
#include <mutex>
#include <stdexcept>
#include <string>
#include <thread>

static std::string plant;

class Store {
    struct Record { uint64_t kind, key, value; }; // 1 and a pair, or 2 and a key that is removed

    std::mutex lock, writers[64], buffered;
    std::map<uint64_t, uint64_t> pairs;
    std::string folder, buffer;
    std::atomic<bool> is_over{false};
    std::thread flusher;
    int log;

    void apply(const Record &record)
    {
        if (record.kind == 1)
            pairs[record.key] = record.value;
        else
            pairs.erase(record.key);
    }

    void write_all(const char *bytes, size_t length)
    {
        if (write(log, bytes, length) != static_cast<ssize_t>(length))
            abort();
    }

    void flush_often()
    {
        while (!is_over) {
            std::this_thread::sleep_for(std::chrono::milliseconds(5));
            std::lock_guard<std::mutex> guard(buffered);
            write_all(buffer.data(), buffer.size());
            buffer.clear();
        }
    }

    void append(const Record &record)
    {
        char bytes[sizeof record];
        std::memcpy(bytes, &record, sizeof record);
        if (plant == "buffered") {
            std::lock_guard<std::mutex> guard(buffered);
            buffer.append(bytes, sizeof bytes);
            return;
        }
        size_t first = plant == "torn" ? 8 : 0;
        if (first > 0) {
            write_all(bytes, first);
            potzendai_point();
        }
        write_all(bytes + first, sizeof bytes - first);
    }

    map_said changed(const Record &record, uint64_t &found)
    {
        auto at = pairs.find(record.key);
        bool is_there = at != pairs.end();
        found = is_there ? at->second : 0;
        apply(record);
        return is_there ? MAP_TOLD : MAP_NONE;
    }

    map_said change(const Record &record, uint64_t &found)
    {
        if (plant != "seen" && plant != "order") {
            std::lock_guard<std::mutex> guard(lock);
            append(record);
            return changed(record, found);
        }
        std::unique_lock<std::mutex> writer(writers[record.key % 64], std::defer_lock);
        if (plant == "seen")
            writer.lock(); // the log has each key's order of the map, but readers do not wait for it
        map_said said;
        {
            std::lock_guard<std::mutex> guard(lock);
            said = changed(record, found);
        }
        potzendai_point();
        append(record);
        return said;
    }

public:
    Store() : folder(potzendai_store() ? potzendai_store() : "/tmp/potzendai-log-XXXXXX")
    {
        if (!potzendai_store() && !mkdtemp(&folder[0]))
            throw std::runtime_error("log store: no folder");
        log = open((folder + "/log").c_str(), O_RDWR | O_CREAT | O_APPEND, 0600);
        if (log < 0)
            throw std::runtime_error("log store: no log");
        Record record;
        off_t whole = 0;
        for (; pread(log, &record, sizeof record, whole) == static_cast<ssize_t>(sizeof record); whole += sizeof record)
            apply(record);
        if (plant != "torn" && lseek(log, 0, SEEK_END) > whole && ftruncate(log, whole))
            throw std::runtime_error("log store: the log is not cut");
        if (plant == "buffered")
            flusher = std::thread(&Store::flush_often, this);
    }

    ~Store()
    {
        is_over = true;
        if (flusher.joinable())
            flusher.join();
        close(log);
        unlink((folder + "/log").c_str());
        rmdir(folder.c_str());
    }

    map_said get(uint64_t key, uint64_t &found)
    {
        std::lock_guard<std::mutex> guard(lock);
        auto at = pairs.find(key);
        found = at == pairs.end() ? 0 : at->second;
        return plant == "vague" ? MAP_DONE : at == pairs.end() ? MAP_NONE : MAP_TOLD;
    }

    map_said put(uint64_t key, uint64_t value, uint64_t &found) { return change({1, key, value}, found); }
    map_said del(uint64_t key, uint64_t &found) { return change({2, key, 0}, found); }

    map_said scan(uint64_t low, uint64_t high, std::vector<recording_pair> &all)
    {
        std::lock_guard<std::mutex> guard(lock);
        for (auto at = pairs.lower_bound(low); at != pairs.end() && at->first <= high; ++at)
            all.push_back({at->first, at->second});
        return MAP_TOLD;
    }
};

int main(int argc, char **argv)
{
    if (argc > 1 && argv[1][0] != '-') {
        plant = argv[1];
        argv[1] = argv[0];
        argc--;
        argv++;
    }
    return potzendai::test_main(argc, argv, [] { return std::unique_ptr<Store>(new Store); }, "log_store");
}
