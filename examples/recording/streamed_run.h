/* Lets threads call a map, and streams what they record to standard output: for the programs in C++ in this folder. */
#ifndef STREAMED_RUN_H
#define STREAMED_RUN_H

#include "../../drivers/c/streaming.h"
#include <csignal>
#include <cstdio>
#include <thread>
#include <vector>

/* A generator of numbers (Marsaglia's xorshift): the calls of a thread are the same at each run. */
struct Dice {
    uint64_t state;
    uint64_t below(uint64_t limit)
    {
        state ^= state << 13;
        state ^= state >> 7;
        state ^= state << 17;
        return (state >> 16) % limit;
    }
};

static streaming stream;

/* Lets so many processes make so many calls each; 0 is no limit. `call` makes the next call of a process, and returns whether it was recorded. If
 * the reader of the stream ends, all of them stop. Returns the status of the program. */
template <class Call> int run_streamed(unsigned processes, uint64_t calls, Call call)
{
    std::signal(SIGPIPE, SIG_IGN);
    bool is_whole = true;
    std::thread writer([&] {
        is_whole = streaming_write(&stream) == 0;
        if (!is_whole)
            perror("the stream was cut short");
    });
    std::vector<std::thread> threads;
    for (unsigned p = 0; p < processes; p++)
        threads.emplace_back([=] {
            Dice dice{88172645463325252u * (2 * p + 1)};
            for (uint64_t number = 0; calls == 0 || number < calls; number++)
                if (!call(p, dice))
                    return;
        });
    for (auto &thread : threads)
        thread.join();
    streaming_end(&stream);
    writer.join();
    streaming_close(&stream);
    return is_whole ? 0 : 1;
}

#endif
