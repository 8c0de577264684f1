// Two mutexes in opposite orders, built with -O2 as most programs are: in main, which runs once, the functions of <mutex> still stand by themselves.
#include <latch>
#include <mutex>
#include <thread>

static std::mutex first, second;
static std::latch both{2};

int main() {
    std::thread other([] {
        std::lock_guard<std::mutex> one(first);
        both.arrive_and_wait();
        std::lock_guard<std::mutex> two(second);
    });
    std::lock_guard<std::mutex> one(second);
    both.arrive_and_wait();
    std::lock_guard<std::mutex> two(first);
    other.join();
}
