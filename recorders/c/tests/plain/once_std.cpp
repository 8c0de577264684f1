// Two flags of std::call_once: the function of each waits for the other one.
#include <barrier>
#include <mutex>
#include <thread>

static std::once_flag one, other;
static std::barrier both(2);

static void calls_other() {
    both.arrive_and_wait();
    std::call_once(other, [] {});
}

static void calls_one() {
    both.arrive_and_wait();
    std::call_once(one, [] {});
}

int main() {
    std::thread thread([] {
        std::call_once(one, calls_other);
    });
    std::call_once(other, calls_one);
    thread.join();
}
