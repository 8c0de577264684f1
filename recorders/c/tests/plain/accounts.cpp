// Two transfers in opposite directions, built with -O0 as by who looks for a fault: the functions of <mutex> stand by themselves.
#include <latch>
#include <mutex>
#include <thread>

struct Account {
    std::mutex mutex;
    int balance = 100;
};

static std::latch both{2};

static void transfer(Account &from, Account &to) {
    std::lock_guard<std::mutex> first(from.mutex);
    both.arrive_and_wait();
    std::lock_guard<std::mutex> second(to.mutex);
    from.balance--;
    to.balance++;
}

int main() {
    Account one, other;
    std::thread there([&] { transfer(one, other); });
    std::thread back([&] { transfer(other, one); });
    there.join();
    back.join();
}
