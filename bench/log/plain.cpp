// The plain loop beside `bench log`: records of 128 words, each in memory of its own, are stored in order by
// sequentially consistent stores of eight bytes into an array, from 1, 2 and 4 threads that take their places by a
// fetch-and-add. What is timed is the same as there: the records are made before.
#include <atomic>
#include <chrono>
#include <cstdint>
#include <cstdio>
#include <memory>
#include <thread>
#include <vector>

int main() {
    const uint64_t records = 200000, words = 128, size = 256ull * 32768 * 4;
    for (int round = 0; round < 3; round++) {
        for (int lanes : {1, 2, 4}) {
            std::vector<std::unique_ptr<uint64_t[]>> bodies;
            for (uint64_t record = 0; record < records; record++) {
                bodies.emplace_back(new uint64_t[words]);
                for (uint64_t i = 0; i < words; i++) bodies[record][i] = 0x2064616f6c796170 + i;
            }
            // a fresh array for each run, as the log is: its pages are touched while it is made
            std::unique_ptr<std::atomic<uint64_t>[]> log(new std::atomic<uint64_t>[size]);
            for (uint64_t i = 0; i < size; i++) log[i].store(0, std::memory_order_relaxed);
            std::atomic<uint64_t> tail{0};
            auto start = std::chrono::steady_clock::now();
            std::vector<std::thread> threads;
            for (int lane = 0; lane < lanes; lane++)
                threads.emplace_back([&, lane] {
                    const uint64_t count = records / lanes;
                    for (uint64_t record = lane * count; record < (lane + 1) * count; record++) {
                        const uint64_t *body = bodies[record].get();
                        uint64_t place = tail.fetch_add(words);
                        for (uint64_t i = 0; i < words; i++) log[place + i].store(body[i]);
                    }
                });
            for (auto &thread : threads) thread.join();
            auto took = std::chrono::steady_clock::now() - start;
            fprintf(stderr, "stores %d lanes %ld ns %lu records\n", lanes,
                    (long)std::chrono::nanoseconds(took).count(), (unsigned long)records);
        }
    }
}
