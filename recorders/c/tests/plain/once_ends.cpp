// Routines that are called once and end: slowly, by an exception, by a cancellation, with another one inside, and in a child that is forked meanwhile. Others wait for them, and
// then one of those makes the call.
#include <atomic>
#include <chrono>
#include <cstdio>
#include <mutex>
#include <pthread.h>
#include <stdexcept>
#include <sys/wait.h>
#include <thread>
#include <unistd.h>
#include <vector>

static std::once_flag flag, inside;
static pthread_once_t slow = PTHREAD_ONCE_INIT, cancelled = PTHREAD_ONCE_INIT, forked = PTHREAD_ONCE_INIT;
static std::atomic<int> calls, thrown, cancellations, in_child;
static pthread_mutex_t mutex = PTHREAD_MUTEX_INITIALIZER;

static void rest() { std::this_thread::sleep_for(std::chrono::milliseconds(250)); }

static void throws_twice() {
    rest();
    if (++calls < 3) {
        throw std::runtime_error("not yet");
    }
    std::call_once(inside, rest);
}

static void tries() {
    for (bool done = false; !done;) {
        try {
            std::call_once(flag, throws_twice);
            done = true;
        } catch (const std::runtime_error &) {
            ++thrown;
        }
    }
}

static void rests_locked() {
    pthread_mutex_lock(&mutex);
    rest();
    pthread_mutex_unlock(&mutex);
}

static void *waits_slowly(void *word) {
    pthread_once(&slow, rests_locked);
    pthread_mutex_lock(&mutex);
    pthread_mutex_unlock(&mutex);
    return word;
}

static void is_cancelled_first() {
    if (++cancellations == 1) {
        pause();
    }
}

static void *is_cancelled(void *word) {
    pthread_once(&cancelled, is_cancelled_first);
    return word;
}

static void forks() {
    pid_t child = ++in_child == 1 ? fork() : -1;
    if (child == 0) {
        pthread_once(&forked, [] { in_child = 10; });
        _exit(in_child);
    }
    int status = 0;
    waitpid(child, &status, 0);
    std::printf("child %d\n", WEXITSTATUS(status));
}

int main() {
    std::vector<std::thread> threads;
    pthread_t first, others[3];
    for (int i = 0; i < 3; i++) {
        threads.emplace_back(tries);
        pthread_create(&others[i], nullptr, waits_slowly, nullptr);
    }
    pthread_create(&first, nullptr, is_cancelled, nullptr);
    while (cancellations == 0) {
        std::this_thread::yield();
    }
    threads.emplace_back(is_cancelled, nullptr);
    rest();
    pthread_cancel(first);
    pthread_join(first, nullptr);
    for (auto &thread : threads) {
        thread.join();
    }
    for (auto other : others) {
        pthread_join(other, nullptr);
    }
    pthread_once(&forked, forks);
    std::printf("calls %d, thrown %d, cancellations %d\n", calls.load(), thrown.load(), cancellations.load());
}
