// A mutex of each of the two forms that docs/FINDINGS.md has: tests/record/test_inherit.py takes them from the page.
#include <condition_variable>
#include <mutex>
#include <pthread.h>
#include <thread>

#include "inherit_cpp.h"

static pthread_mutex_t mutex;
static inheriting_mutex other;
static std::condition_variable is_told;
static bool told;

static void initialise() {
#include "inherit_c.h"
}

static void tell() {
    std::lock_guard<std::mutex> guard(other);
    told = true;
    is_told.notify_one();
}

int main() {
    initialise();
    pthread_mutex_lock(&mutex);
    pthread_mutex_unlock(&mutex);
    std::thread teller(tell);
    {
        std::unique_lock<std::mutex> lock(other);
        is_told.wait(lock, [] { return told; });
    }
    teller.join();
    return 0;
}
