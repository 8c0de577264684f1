// A latch of two that only one thread counts down; both wait for it, and main for both.
#include <latch>
#include <thread>

int main() {
    std::latch done(2);
    std::thread counts([&] { done.arrive_and_wait(); });
    std::thread waits([&] { done.wait(); });
    counts.join();
    waits.join();
}
