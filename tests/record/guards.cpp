// Locks and waits by the standard library. Comments name lines: tests/record/test_places.py says what is recorded there.
#include <chrono>
#include <condition_variable>
#include <mutex>
#include <random>
#include <shared_mutex>
#include <thread>

static std::mutex map_lock, route_lock;
static std::recursive_mutex log_lock;
static std::timed_mutex sensor;
static std::shared_mutex table;
static std::condition_variable moved;
static volatile bool has_moved;
static volatile int steps; // else a call may be a jump

static void guarded() {
    std::lock_guard<std::mutex> guard(map_lock); // GUARD
    steps = steps + 1;
} // GUARDED

static void by_hand() {
    std::unique_lock<std::mutex> lock(map_lock, std::defer_lock);
    lock.lock(); // LOCK
    steps = steps + 1;
    lock.unlock(); // UNLOCK
    if (lock.try_lock()) // TRY
        lock.unlock(); // TRIED
    map_lock.lock(); // OWN
    map_lock.unlock(); // OWNED
}

static void both() {
    std::scoped_lock<std::mutex, std::mutex> guard(map_lock, route_lock); // BOTH
    steps = steps + 1;
} // LEFT

static void again() {
    std::lock_guard<std::recursive_mutex> outer(log_lock); // OUTER
    log_lock.lock(); // INNER
    log_lock.unlock(); // LEAVE
} // RETURN

struct Noise {
    using result_type = unsigned;
    static constexpr unsigned min() { return 0; }
    static constexpr unsigned max() { return 1; }
    void discard(unsigned long long) {}
    [[gnu::always_inline]] unsigned operator()() {
        std::lock_guard<std::mutex> guard(map_lock); // GENERATE
        return steps & 1;
    } // GENERATED
};

// The function of the library that has this operator inlined locks for nobody, though its class says "lock".
static void generate() {
    std::discard_block_engine<Noise, 1, 1> noise;
    steps = steps + noise();
}

static void timed() {
    std::unique_lock<std::timed_mutex> lock(sensor, std::chrono::seconds(1)); // TIMED
    steps = steps + 1;
} // READ

static void shared() {
    std::shared_lock<std::shared_mutex> lock(table);
    steps = steps + 1;
} // FREE

static void move() {
    {
        std::lock_guard<std::mutex> guard(map_lock); // MOVE
        has_moved = true;
        moved.notify_one(); // NOTIFY
    } // MOVED
    steps = steps + 1;
}

static void wait() {
    std::unique_lock<std::mutex> lock(map_lock); // ENTER
    moved.wait_for(lock, std::chrono::milliseconds(1), [] { return false; }); // WAIT_FOR
    std::thread mover(move);
    moved.wait(lock, [] { return has_moved; }); // WAIT
    lock.unlock(); // LEAVE_IT
    mover.join(); // JOIN
}

int main() {
    guarded();
    by_hand();
    both();
    again();
    generate();
    timed();
    shared();
    wait();
    return 0;
}
