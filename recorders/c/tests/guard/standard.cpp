// The mutexes and threads of C++: what is refused is an exception of the standard library.
#include <cstdio>
#include <future>
#include <mutex>
#include <system_error>
#include <thread>

static std::mutex first, second;

static void take(std::mutex &one, std::mutex &other, std::promise<void> &has, std::future<void> other_has) {
    try {
        std::lock_guard<std::mutex> a(one);
        has.set_value();
        other_has.wait();
        std::lock_guard<std::mutex> b(other);
    } catch (const std::system_error &error) {
        std::puts(error.code() == std::errc::resource_deadlock_would_occur ? "refused" : error.what());
    }
}

int main() {
    std::promise<void> one_has, two_has;
    std::thread one(take, std::ref(first), std::ref(second), std::ref(one_has), two_has.get_future());
    std::thread two(take, std::ref(second), std::ref(first), std::ref(two_has), one_has.get_future());
    one.join();
    two.join();
    std::puts("end");
}
