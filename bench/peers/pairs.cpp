// The calls of bench/run_scenarios.py over the C++20 library, without a record.
//   pairs THREADS PAIRS MUTEXES   starts so many threads that each lock and unlock one of the mutexes so often, and joins them
#include <cstdlib>
#include <mutex>
#include <thread>
#include <vector>

int main(int count, char **words) {
    if (count != 4) return 2;
    unsigned threads = std::atoi(words[1]);
    long pairs = std::atol(words[2]);
    std::vector<std::mutex> mutexes(std::atoi(words[3]));
    std::vector<std::thread> all;
    for (unsigned t = 0; t < threads; ++t)
        all.emplace_back([&, t] {
            std::mutex &m = mutexes[t % mutexes.size()];
            for (long i = 0; i < pairs; ++i) { m.lock(); m.unlock(); }
        });
    for (auto &t : all) t.join();
}
