// The loops of bench/loops.py over the C++20 library.
//   loops NAME N THREADS   runs that loop N times in all, and prints: NAME THREADS N NANOSECONDS
// A second thread is alive throughout: the C library takes no atomic step in a process of one thread.
#include <barrier>
#include <chrono>
#include <condition_variable>
#include <cstdio>
#include <cstdlib>
#include <cstring>
#include <latch>
#include <mutex>
#include <semaphore>
#include <shared_mutex>
#include <thread>
#include <vector>

using Nanoseconds = unsigned long long;

template <class Work> static Nanoseconds timed(Work work) {
    auto begin = std::chrono::steady_clock::now();
    work();
    return std::chrono::duration_cast<std::chrono::nanoseconds>(std::chrono::steady_clock::now() - begin).count();
}

// From the common start of the threads to the last end.
template <class Work> static Nanoseconds together(unsigned threads, Work work) {
    std::barrier<> gate(threads + 1);
    std::vector<std::thread> all;
    for (unsigned t = 0; t < threads; ++t)
        all.emplace_back([&, t] { gate.arrive_and_wait(); work(t); });
    return timed([&] {
        gate.arrive_and_wait();
        for (auto &t : all) t.join();
    });
}

static Nanoseconds mutex_alone(long n) {
    std::mutex m;
    return timed([&] { for (long i = 0; i < n; ++i) { m.lock(); m.unlock(); } });
}

static Nanoseconds mutex_contended(long n, unsigned threads) {
    std::mutex m;
    volatile long counter = 0;
    return together(threads, [&](unsigned) {
        for (long i = 0; i < n / threads; ++i) { m.lock(); counter = counter + 1; m.unlock(); }
    });
}

static Nanoseconds shared_mutex_read(long n, unsigned threads) {
    std::shared_mutex m;
    auto read = [&](unsigned) { for (long i = 0; i < n / threads; ++i) { m.lock_shared(); m.unlock_shared(); } };
    return threads == 1 ? timed([&] { read(0); }) : together(threads, read);
}

static Nanoseconds semaphore_alone(long n) {
    std::counting_semaphore<65535> s(0);
    return timed([&] { for (long i = 0; i < n; ++i) { s.release(); s.acquire(); } });
}

static Nanoseconds semaphore_pingpong(long n) {
    std::counting_semaphore<65535> a(0), b(0);
    return together(2, [&](unsigned t) {
        for (long i = 0; i < n; ++i)
            if (t == 0) { a.release(); b.acquire(); } else { a.acquire(); b.release(); }
    });
}

static Nanoseconds latch_count_down(long n) {
    return timed([&] {
        for (long done = 0; done < n;) {
            long count = n - done < 60000 ? n - done : 60000;
            std::latch l(count);
            for (long i = 0; i < count; ++i) l.count_down();
            l.wait();
            done += count;
        }
    });
}

static Nanoseconds barrier_phase(long n, unsigned threads) {
    std::barrier<> b(threads);
    return together(threads, [&](unsigned) { for (long i = 0; i < n; ++i) b.arrive_and_wait(); });
}

static Nanoseconds call_once_passive(long n) {
    std::once_flag o;
    std::call_once(o, [] {});
    return timed([&] {
        for (long i = 0; i < n; ++i) {
            std::call_once(o, [] {});
            asm volatile("" : : : "memory");
        }
    });
}

// Two threads hand a number over, there and back.
static Nanoseconds condition_pingpong(long n) {
    std::mutex m;
    std::condition_variable full, empty;
    int number = 0;
    return together(2, [&](unsigned t) {
        std::condition_variable &mine = t == 0 ? empty : full, &other = t == 0 ? full : empty;
        int wanted = t == 0 ? 0 : 1;
        for (long i = 0; i < n; ++i) {
            std::unique_lock<std::mutex> lock(m);
            while (number != wanted) mine.wait(lock);
            number = 1 - wanted;
            other.notify_one();
        }
    });
}

static Nanoseconds notify_one_nobody(long n) {
    std::condition_variable c;
    return timed([&] {
        for (long i = 0; i < n; ++i) {
            c.notify_one();
            asm volatile("" : : : "memory");
        }
    });
}

int main(int count, char **words) {
    if (count != 4) return 2;
    const char *name = words[1];
    long n = std::atol(words[2]);
    unsigned threads = std::atoi(words[3]);
    std::thread other([] { std::this_thread::sleep_for(std::chrono::hours(1)); });
    other.detach();
    auto is = [&](const char *word) { return std::strcmp(name, word) == 0; };
    Nanoseconds taken = is("mutex_lock_unlock")           ? mutex_alone(n)
                        : is("mutex_contended")           ? mutex_contended(n, threads)
                        : is("shared_mutex_read")         ? shared_mutex_read(n, threads)
                        : is("semaphore_release_acquire") ? semaphore_alone(n)
                        : is("semaphore_pingpong")        ? semaphore_pingpong(n)
                        : is("latch_count_down")          ? latch_count_down(n)
                        : is("barrier_phase")             ? barrier_phase(n, threads)
                        : is("call_once_passive")         ? call_once_passive(n)
                        : is("condition_pingpong")        ? condition_pingpong(n)
                        : is("notify_one_nobody")         ? notify_one_nobody(n)
                                                          : 0;
    std::printf("%s %u %ld %llu\n", name, threads, n, taken);
    std::fflush(stdout);
    std::_Exit(0);
}
