// Two mutexes in opposite orders, built with -O2 as most programs are: in main, which runs once, the functions of <mutex> still stand by themselves.
#include <cstdio>
#include <latch>
#include <mutex>
#include <system_error>
#include <thread>

static std::mutex first, second;
static std::latch both{2};

int main() {
    std::thread other([] {
        std::lock_guard<std::mutex> one(first);
        both.arrive_and_wait();
        try {
            std::lock_guard<std::mutex> two(second);
        } catch (const std::system_error &) {
            std::puts("refused");
        }
    });
    {
        std::lock_guard<std::mutex> one(second);
        both.arrive_and_wait();
        try {
            std::lock_guard<std::mutex> two(first);
        } catch (const std::system_error &) {
            std::puts("refused");
        }
    }
    other.join();
    std::puts("end");
}
