// A std::map under a lock, for each way to lock, since each waits in another way. The program's name says which one it tests. It is C++20.
#include "locked_map.hpp"
#include "named.hpp"
#include <atomic>
#include <chrono>
#include <condition_variable>
#include <memory>
#include <mutex>
#include <semaphore.h>
#include <semaphore>
#include <shared_mutex>
#include <thread>
#include <threads.h>

struct AtomicWait {
    std::atomic<int> held{0};
    void lock()
    {
        while (held.exchange(1))
            held.wait(1);
    }
    void unlock()
    {
        held.store(0);
        held.notify_one();
    }
};

// A condition, without and with a time.
template <bool is_timed> struct Condition {
    std::mutex mutex;
    std::condition_variable condition;
    bool is_held = false;

    void wait(std::unique_lock<std::mutex> &guard)
    {
        if (is_timed)
            condition.wait_for(guard, std::chrono::seconds(1));
        else
            condition.wait(guard);
    }
    void lock()
    {
        std::unique_lock<std::mutex> guard(mutex);
        while (is_held)
            wait(guard);
        is_held = true;
    }
    void unlock()
    {
        std::lock_guard<std::mutex> guard(mutex);
        is_held = false;
        condition.notify_one();
    }
};

// Atomics of 16 bytes: compare-and-exchange, or fetch_or and fetch_and.
__extension__ typedef unsigned __int128 Word;

struct Exchange16 {
    Word word = 0;
    void lock()
    {
        Word zero = 0;
        while (!__atomic_compare_exchange_n(&word, &zero, Word(1) << 100, false, __ATOMIC_SEQ_CST, __ATOMIC_SEQ_CST))
            zero = 0;
    }
    void unlock() { __atomic_store_n(&word, 0, __ATOMIC_SEQ_CST); }
};

struct Fetch16 {
    Word word = 0;
    void lock()
    {
        while (__atomic_fetch_or(&word, Word(1) << 100, __ATOMIC_SEQ_CST) != 0) {
        }
    }
    void unlock() { __atomic_fetch_and(&word, Word(1), __ATOMIC_SEQ_CST); }
};

struct PosixSemaphore {
    sem_t semaphore;
    PosixSemaphore() { sem_init(&semaphore, 0, 1); }
    void lock() { sem_wait(&semaphore); }
    void unlock() { sem_post(&semaphore); }
};

struct TimedMutex {
    std::timed_mutex mutex;
    void lock()
    {
        while (!mutex.try_lock_for(std::chrono::milliseconds(5))) {
        }
    }
    void unlock() { mutex.unlock(); }
};

struct Semaphore {
    std::binary_semaphore semaphore{1};
    void lock() { semaphore.acquire(); }
    void unlock() { semaphore.release(); }
};

struct TestAndSet {
    std::atomic_flag flag = ATOMIC_FLAG_INIT;
    void lock()
    {
        while (flag.test_and_set(std::memory_order_acquire)) {
#ifdef __x86_64__
            __builtin_ia32_pause();
#endif
        }
    }
    void unlock() { flag.clear(std::memory_order_release); }
};

struct SleepingLock {
    std::atomic<bool> is_held{false};
    void lock()
    {
        while (is_held.exchange(true))
            std::this_thread::sleep_for(std::chrono::seconds(1));
    }
    void unlock() { is_held = false; }
};

// A static initialiser, and thread-locals.
struct Initialiser {
    static std::mutex &mutex()
    {
        static std::unique_ptr<std::mutex> made = [] {
            static std::atomic<int> times{0};
            for (int i = 0; i < 5; i++)
                times++;
            return std::make_unique<std::mutex>();
        }();
        return *made;
    }
    void lock()
    {
        static thread_local std::unique_ptr<int> mine(new int(1));
        ++*mine;
        mutex().lock();
    }
    void unlock() { mutex().unlock(); }
};

struct AtomicPointer {
    std::atomic<std::shared_ptr<int>> held;
    void lock()
    {
        auto made = std::make_shared<int>(7);
        std::shared_ptr<int> none;
        while (!held.compare_exchange_strong(none, made))
            none = nullptr;
    }
    void unlock() { held.store(nullptr); }
};

struct MutexOfC11 {
    mtx_t mutex;
    MutexOfC11() { mtx_init(&mutex, mtx_plain); }
    void lock() { mtx_lock(&mutex); }
    void unlock() { mtx_unlock(&mutex); }
};

// A lock for readers and writers, taken as by a writer.
struct SharedMutex {
    std::shared_timed_mutex mutex;
    void lock() { mutex.lock(); }
    void unlock() { mutex.unlock(); }
};

// As before C11.
struct VolatileWord {
    volatile int held = 0;
    void lock()
    {
        while (__sync_lock_test_and_set(&held, 1))
            while (held) {
            }
    }
    void unlock() { __sync_lock_release(&held); }
};

// The scheduler sees no point in inline assembly.
struct Assembly {
    int held = 0;
    void lock()
    {
        int old;
        do {
            old = 1;
            __asm__ volatile("xchg %0,%1" : "+r"(old), "+m"(held)::"memory");
        } while (old);
    }
    void unlock() { __asm__ volatile("movl $0,%0" : "+m"(held)::"memory"); }
};

int main(int argc, char **argv)
{
    return test_named(argc, argv, {
        {"atomic_wait", test<LockedMap<AtomicWait>>},
        {"condition", test<LockedMap<Condition<false>>>},
        {"timed_condition", test<LockedMap<Condition<true>>>},
        {"exchange_16", test<LockedMap<Exchange16>>},
        {"fetch_16", test<LockedMap<Fetch16>>},
        {"posix_semaphore", test<LockedMap<PosixSemaphore>>},
        {"timed_mutex", test<LockedMap<TimedMutex>>},
        {"semaphore", test<LockedMap<Semaphore>>},
        {"test_and_set", test<LockedMap<TestAndSet>>},
        {"sleeping_lock", test<LockedMap<SleepingLock>>},
        {"initialiser", test<LockedMap<Initialiser>>},
        {"atomic_pointer", test<LockedMap<AtomicPointer>>},
        {"mutex_of_c11", test<LockedMap<MutexOfC11>>},
        {"shared_mutex", test<LockedMap<SharedMutex>>},
        {"volatile_word", test<LockedMap<VolatileWord>>},
        {"assembly", test<LockedMap<Assembly>>},
    });
}
