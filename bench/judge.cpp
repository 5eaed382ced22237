// A plain judge of traces in C++, written for speed and not proved. `pim` is compared with it.
//
//   g++ -O3 -march=x86-64-v2 -std=c++17 -static-libstdc++ -static-libgcc judge.cpp -o judge
//
// One pass over the bytes finds the first invalid line. One pass over the steps restores the
// priorities after each step, by a walk along the chain of waiting tasks. The walk starts only if
// something can change, and stops where nothing changes. The report is written by pages.

#include <sys/stat.h>
#include <unistd.h>

#include <algorithm>
#include <array>
#include <cerrno>
#include <cstdint>
#include <cstdio>
#include <cstring>
#include <optional>
#include <string>
#include <string_view>
#include <vector>

namespace {

using std::uint16_t;
using std::uint32_t;
using std::uint64_t;
using std::uint8_t;

constexpr unsigned LAST_VERSION = 2;
constexpr size_t MOST_TASKS = 256;
constexpr size_t MOST_MUTEXES = 256;
constexpr size_t MOST_STEPS = 65536;
constexpr unsigned MOST_LOCKS = 255;
constexpr unsigned HIGHEST_PRIO = 99;
constexpr unsigned HIGHEST_NUMBER = 65535;

enum class Protocol : uint8_t { None, Inherit, Protect, InheritRecursive };
enum class Op : uint8_t { Lock, Try, Unlock, Release, Cancel, Base, Ceil };
enum class Answer : uint8_t {
    Granted,
    Queued,
    Freed,
    Withdrawn,
    Set,
    Kept,
    NoTask,
    Waiting,
    NoMutex,
    Deadlock,
    Ceiling,
    Busy,
    NotOwner,
    NotWaiting,
    Priority,
    Tickets,
    NotProtect,
    Again,
    Handed,
    Released,
};

// The texts of the replies, in their order. A number follows the last two.
constexpr std::string_view ANSWERS[] = {
    "granted",
    "queued",
    "freed",
    "withdrawn",
    "set",
    "kept",
    "refused no-task",
    "refused waiting",
    "refused no-mutex",
    "refused deadlock",
    "refused ceiling",
    "refused busy",
    "refused not-owner",
    "refused not-waiting",
    "refused priority",
    "refused tickets",
    "refused not-protect",
    "refused again",
    "handed ",
    "released ",
};

struct Reply {
    Answer answer;
    uint16_t number = 0;

    bool has_number() const { return answer >= Answer::Handed; }
    bool operator==(const Reply& other) const {
        return answer == other.answer && number == other.number;
    }
};

struct Step {
    uint16_t actor = 0, first = 0, second = 0;
    Op op = Op::Lock;
    std::optional<Reply> recorded;
};

struct Declared {
    Protocol protocol = Protocol::None;
    uint8_t ceiling = 0;
};

struct Text {
    uint16_t version = 0;
    std::vector<uint8_t> bases;
    std::vector<Declared> mutexes;
    std::vector<Step> steps;
};

// ---------------------------------------------------------------- reading

// What is left of a line.
struct Cursor {
    const char* at;
    const char* end;

    bool is_done() const { return at == end; }

    [[gnu::always_inline]] bool eat(std::string_view word) {
        if (size_t(end - at) < word.size() || std::memcmp(at, word.data(), word.size()) != 0)
            return false;
        at += word.size();
        return true;
    }

    // Reads a number without leading zeros, from 1 to the highest, or 0 if that is allowed.
    bool number(uint16_t& out, unsigned highest = HIGHEST_NUMBER, bool may_be_zero = false) {
        if (is_done() || *at < '0' || *at > '9') return false;
        if (*at == '0') {
            ++at;
            out = 0;
            return may_be_zero;
        }
        unsigned value = 0;
        while (!is_done() && *at >= '0' && *at <= '9') {
            value = value * 10 + unsigned(*at++ - '0');
            if (value > highest) return false;
        }
        out = uint16_t(value);
        return true;
    }
};

bool read_reply(Cursor& line, Reply& reply) {
    for (size_t i = 0; i < std::size(ANSWERS); ++i) {
        reply = {Answer(i)};
        if (!line.eat(ANSWERS[i])) continue;
        if (!reply.has_number()) return line.is_done();
        return line.number(reply.number, HIGHEST_NUMBER, reply.answer == Answer::Released) &&
               line.is_done();
    }
    return false;
}

bool read_op(Cursor& line, Step& step) {
    if (line.eat(" lock ")) step.op = Op::Lock;
    else if (line.eat(" unlock ")) step.op = Op::Unlock;
    else if (line.eat(" try ")) step.op = Op::Try;
    else if (line.eat(" cancel ")) step.op = Op::Cancel;
    else if (line.eat(" base ")) step.op = Op::Base;
    else if (line.eat(" ceil ")) step.op = Op::Ceil;
    else if (line.eat(" release")) step.op = Op::Release;
    else return false;
    if (step.op == Op::Release) return true;
    if (!line.number(step.first)) return false;
    if (step.op != Op::Base && step.op != Op::Ceil) return true;
    return line.eat(" ") && line.number(step.second);
}

bool read_step(Cursor& line, Step& step) {
    if (!line.number(step.actor) || !read_op(line, step)) return false;
    if (line.is_done()) return true;
    return line.eat(" = ") && read_reply(line, step.recorded.emplace());
}

// The first version of the text that has the reply.
unsigned since(Answer answer) {
    const bool is_new =
        answer == Answer::Kept || answer == Answer::NotProtect || answer == Answer::Again;
    return is_new ? 2 : 1;
}

// The first version of the text that has the step, and the reply that was recorded for it.
unsigned since(const Step& step) {
    if (step.op == Op::Ceil) return 2;
    return step.recorded ? since(step.recorded->answer) : 1;
}

// The first version of the text that has the protocol.
unsigned since(Protocol protocol) { return protocol == Protocol::InheritRecursive ? 2 : 1; }

bool read_protocol(Cursor& line, Declared& declared) {
    uint16_t ceiling = 0;
    if (line.eat("none")) declared.protocol = Protocol::None;
    else if (line.eat("inherit recursive")) declared.protocol = Protocol::InheritRecursive;
    else if (line.eat("inherit")) declared.protocol = Protocol::Inherit;
    else if (line.eat("protect ") && line.number(ceiling, HIGHEST_PRIO))
        declared.protocol = Protocol::Protect;
    else return false;
    declared.ceiling = uint8_t(ceiling);
    return line.is_done();
}

bool read_version(Cursor line, Text& text) {
    return line.eat("pim ") && line.number(text.version, LAST_VERSION) && line.is_done();
}

// Adds a line after the first, and returns whether it is valid there.
bool add_line(Cursor line, Text& text) {
    uint16_t number = 0, prio = 0;
    if (line.eat("task ")) {
        if (!text.mutexes.empty() || !text.steps.empty() || text.bases.size() == MOST_TASKS)
            return false;
        if (!line.number(number) || number != text.bases.size() + 1 || !line.eat(" ")) return false;
        if (!line.number(prio, HIGHEST_PRIO) || !line.is_done()) return false;
        text.bases.push_back(uint8_t(prio));
    } else if (line.eat("mutex ")) {
        Declared declared;
        if (!text.steps.empty() || text.mutexes.size() == MOST_MUTEXES) return false;
        if (!line.number(number) || number != text.mutexes.size() + 1 || !line.eat(" "))
            return false;
        if (!read_protocol(line, declared) || since(declared.protocol) > text.version) return false;
        text.mutexes.push_back(declared);
    } else {
        Step step;
        if (!read_step(line, step) || text.steps.size() == MOST_STEPS) return false;
        if (since(step) > text.version) return false;
        text.steps.push_back(step);
    }
    return true;
}

// Returns 0 if the text is valid, else the number of the first invalid line.
uint32_t parse(const char* data, size_t size, Text& text) {
    const char* at = data;
    const char* end = data + size;
    if (size == 0) return 1;
    for (uint32_t n = 1; at != end; ++n) {
        auto stop = static_cast<const char*>(std::memchr(at, '\n', size_t(end - at)));
        Cursor line{at, stop ? stop : end};
        at = stop ? stop + 1 : end;
        const bool is_valid = n == 1 ? read_version(line, text) : add_line(line, text);
        if (!is_valid) return n;
    }
    return 0;
}

// ---------------------------------------------------------------- writing

class Output {
public:
    bool flush() {
        const char* at = page.data();
        const char* end = at + used;
        while (at != end) {
            const ssize_t count = write(STDOUT_FILENO, at, size_t(end - at));
            if (count < 0 && errno == EINTR) continue;
            if (count <= 0) return false;
            at += count;
        }
        used = 0;
        return true;
    }

    // Makes room for one line of the report.
    bool room() { return used + LONGEST_LINE <= page.size() || flush(); }

    void text(std::string_view words) {
        std::memcpy(page.data() + used, words.data(), words.size());
        used += words.size();
    }

    void number(uint32_t value) {
        char* at = page.data() + used;
        if (value < 10) {
            at[0] = char('0' + value);
            used += 1;
        } else if (value < 100) {
            at[0] = char('0' + value / 10);
            at[1] = char('0' + value % 10);
            used += 2;
        } else if (value < 1000) {
            at[0] = char('0' + value / 100);
            at[1] = char('0' + value / 10 % 10);
            at[2] = char('0' + value % 10);
            used += 3;
        } else {
            text(std::to_string(value));
        }
    }

    void reply(const Reply& reply) {
        text(ANSWERS[size_t(reply.answer)]);
        if (reply.has_number()) number(reply.number);
    }

private:
    static constexpr size_t LONGEST_LINE = 128;

    std::array<char, 1 << 16> page;
    size_t used = 0;
};

// ---------------------------------------------------------------- the manager

struct Waiter {
    uint64_t ticket;
    uint16_t task;
    uint8_t prio;
};

bool precedes(const Waiter& one, const Waiter& other) {
    return one.prio != other.prio ? one.prio > other.prio : one.ticket < other.ticket;
}

struct Task {
    uint8_t base = 0, stored = 0, stored_before = 0;
    bool is_touched = false;
    uint16_t waits_for = 0;  // a mutex, or 0
    uint64_t ticket = 0;
    std::array<uint64_t, MOST_MUTEXES / 64> owned = {};  // a bit for each mutex
};

// Why a task has its priority: a mutex, or 0 for the base, and the task that waits for it, or 0
// for a ceiling.
struct Cause {
    uint16_t mutex = 0, waiter = 0;
};

struct Mutex {
    Protocol protocol = Protocol::None;
    uint8_t ceiling = 0;
    uint16_t owner = 0;  // a task, or 0
    uint8_t count = 0;   // how often its owner has locked it
    std::vector<Waiter> queue;

    bool is_recursive() const { return protocol == Protocol::InheritRecursive; }
    bool inherits() const { return protocol == Protocol::Inherit || is_recursive(); }
    bool protects() const { return protocol == Protocol::Protect; }
    uint8_t first_prio() const { return queue.empty() ? 0 : queue.front().prio; }
    uint8_t gives() const { return protects() ? ceiling : inherits() ? first_prio() : 0; }
};

class Manager {
public:
    explicit Manager(const Text& text)
        : tasks(text.bases.size() + 1), mutexes(text.mutexes.size() + 1) {
        for (size_t t = 1; t < tasks.size(); ++t)
            tasks[t].base = tasks[t].stored = text.bases[t - 1];
        for (size_t m = 1; m < mutexes.size(); ++m) {
            mutexes[m].protocol = text.mutexes[m - 1].protocol;
            mutexes[m].ceiling = text.mutexes[m - 1].ceiling;
        }
        touched.reserve(MOST_TASKS);
    }

    // Inlined: a caller that knows the kind of step keeps only the code of that kind.
    [[gnu::always_inline]] Reply step(const Step& step) {
        if (!has_task(step.actor)) return {Answer::NoTask};
        const bool withdraws = step.op == Op::Cancel && step.first == step.actor;
        if (tasks[step.actor].waits_for && !withdraws) return {Answer::Waiting};
        switch (step.op) {
            case Op::Lock: return lock(step.actor, step.first);
            case Op::Try: return try_lock(step.actor, step.first);
            case Op::Unlock: return unlock(step.actor, step.first);
            case Op::Release: return release(step.actor);
            case Op::Cancel: return cancel(step.first);
            case Op::Base: return set_base(step.first, step.second);
            case Op::Ceil: return set_ceiling(step.actor, step.first, step.second);
        }
        __builtin_unreachable();
    }

    // Writes a line for each task whose priority the last step changed, in ascending order, and
    // forgets them.
    bool write_changes(Output& out) {
        sort_touched();
        for (uint16_t t : touched) {
            Task& task = tasks[t];
            task.is_touched = false;
            if (task.stored == task.stored_before) continue;
            if (!out.room()) return false;
            out.text("  task ");
            out.number(t);
            out.text(" at ");
            out.number(task.stored);
            write_reason(out, task);
        }
        touched.clear();
        return true;
    }

protected:
    std::vector<Task> tasks;     // from 1 on
    std::vector<Mutex> mutexes;  // from 1 on
    std::vector<uint16_t> touched;
    uint64_t next_ticket = 1;

    bool has_task(uint16_t t) const { return t >= 1 && t < tasks.size(); }
    bool has_mutex(uint16_t m) const { return m >= 1 && m < mutexes.size(); }

    // Sorts a few tasks; finds many in order by their marks.
    void sort_touched() {
        constexpr size_t FEW = 16;
        if (touched.size() <= FEW) return std::sort(touched.begin(), touched.end());
        touched.clear();
        for (size_t t = 1; t < tasks.size(); ++t)
            if (tasks[t].is_touched) touched.push_back(uint16_t(t));
    }

    // Calls f for each owned mutex, in ascending order, as long as it returns true.
    template <class F>
    static void each_owned(const Task& task, F f) {
        for (size_t word = 0; word < task.owned.size(); ++word)
            for (uint64_t bits = task.owned[word]; bits; bits &= bits - 1)
                if (!f(uint16_t(word * 64 + size_t(__builtin_ctzll(bits)) + 1))) return;
    }

    uint8_t priority(const Task& task) const {
        uint8_t highest = task.base;
        each_owned(task, [&](uint16_t m) {
            highest = std::max(highest, mutexes[m].gives());
            return true;
        });
        return highest;
    }

    // Stores the priorities of a task and of the tasks along its chain, as far as they change.
    void settle_from(uint16_t t) {
        for (;;) {
            Task& task = tasks[t];
            const uint8_t prio = priority(task);
            if (prio == task.stored) return;
            touch(t);
            const Waiter waiter{task.ticket, t, task.stored};
            task.stored = prio;
            if (!task.waits_for) return;
            Mutex& mutex = mutexes[task.waits_for];
            const uint8_t first_prio = mutex.first_prio();
            reposition(mutex.queue, waiter, prio);
            if (!mutex.inherits() || mutex.first_prio() == first_prio) return;
            t = mutex.owner;
        }
    }

    // Restores the priority of a task that a mutex gives this priority from now on. It rises only
    // if this is above the task's present one.
    void raise(uint16_t t, uint8_t given) {
        if (given > tasks[t].stored) settle_from(t);
    }

    // Restores the priority of a task that a mutex gave this priority until now. It falls only if
    // this is the task's present one.
    void lower(uint16_t t, uint8_t given) {
        if (given == tasks[t].stored) settle_from(t);
    }

    void touch(uint16_t t) {
        Task& task = tasks[t];
        if (task.is_touched) return;
        task.is_touched = true;
        task.stored_before = task.stored;
        touched.push_back(t);
    }

    static void reposition(std::vector<Waiter>& queue, Waiter waiter, uint8_t prio) {
        const auto from = std::lower_bound(queue.begin(), queue.end(), waiter, precedes);
        waiter.prio = prio;
        if (prio > from->prio) {
            const auto to = std::lower_bound(queue.begin(), from, waiter, precedes);
            std::move_backward(to, from, from + 1);
            *to = waiter;
        } else {
            const auto to = std::lower_bound(from + 1, queue.end(), waiter, precedes);
            std::move(from + 1, to, from);
            *(to - 1) = waiter;
        }
    }

    void bind(uint16_t m, uint16_t t) {
        mutexes[m].owner = t;
        mutexes[m].count = 1;
        tasks[t].owned[(m - 1u) / 64] |= uint64_t(1) << (m - 1u) % 64;
    }

    void unbind(uint16_t m) {
        tasks[mutexes[m].owner].owned[(m - 1u) / 64] &= ~(uint64_t(1) << (m - 1u) % 64);
        mutexes[m].owner = 0;
    }

    // Returns whether the chain from the owner of a mutex reaches the task.
    bool closes_cycle(uint16_t actor, const Mutex& mutex) const {
        for (uint16_t t = mutex.owner;; t = mutexes[tasks[t].waits_for].owner) {
            if (t == actor) return true;
            if (!tasks[t].waits_for) return false;
        }
    }

    bool is_above_ceiling(uint16_t actor, const Mutex& mutex) const {
        return mutex.protects() && tasks[actor].base > mutex.ceiling;
    }

    // Returns whether the actor locks again a recursive mutex that it owns.
    static bool relocks(uint16_t actor, const Mutex& mutex) {
        return mutex.is_recursive() && mutex.owner == actor;
    }

    static Reply relock(Mutex& mutex) {
        if (mutex.count == MOST_LOCKS) return {Answer::Again};
        ++mutex.count;
        return {Answer::Granted};
    }

    Reply grant(uint16_t actor, uint16_t m) {
        bind(m, actor);
        raise(actor, mutexes[m].gives());
        return {Answer::Granted};
    }

    Reply lock(uint16_t actor, uint16_t m) {
        if (!has_mutex(m)) return {Answer::NoMutex};
        Mutex& mutex = mutexes[m];
        if (relocks(actor, mutex)) return relock(mutex);
        if (mutex.owner && closes_cycle(actor, mutex)) return {Answer::Deadlock};
        if (is_above_ceiling(actor, mutex)) return {Answer::Ceiling};
        if (!mutex.owner) return grant(actor, m);
        if (next_ticket == UINT64_MAX) return {Answer::Tickets};
        Task& task = tasks[actor];
        task.waits_for = m;
        task.ticket = next_ticket++;
        const Waiter waiter{task.ticket, actor, task.stored};
        mutex.queue.insert(
            std::lower_bound(mutex.queue.begin(), mutex.queue.end(), waiter, precedes), waiter);
        raise(mutex.owner, mutex.gives());
        return {Answer::Queued};
    }

    Reply try_lock(uint16_t actor, uint16_t m) {
        if (!has_mutex(m)) return {Answer::NoMutex};
        if (relocks(actor, mutexes[m])) return relock(mutexes[m]);
        if (is_above_ceiling(actor, mutexes[m])) return {Answer::Ceiling};
        if (mutexes[m].owner) return {Answer::Busy};
        return grant(actor, m);
    }

    // Frees a mutex or hands it over to its first waiter, and returns that task, or 0. The old owner
    // keeps its priority.
    uint16_t hand_over(uint16_t m) {
        Mutex& mutex = mutexes[m];
        unbind(m);
        if (mutex.queue.empty()) return 0;
        const uint16_t t = mutex.queue.front().task;
        mutex.queue.erase(mutex.queue.begin());
        tasks[t].waits_for = 0;
        bind(m, t);
        raise(t, mutex.gives());
        return t;
    }

    Reply unlock(uint16_t actor, uint16_t m) {
        if (!has_mutex(m)) return {Answer::NoMutex};
        if (mutexes[m].owner != actor) return {Answer::NotOwner};
        if (mutexes[m].count > 1) {
            --mutexes[m].count;
            return {Answer::Kept};
        }
        const uint8_t given = mutexes[m].gives();
        const uint16_t t = hand_over(m);
        lower(actor, given);
        return t ? Reply{Answer::Handed, t} : Reply{Answer::Freed};
    }

    Reply release(uint16_t actor) {
        const Task before = tasks[actor];
        Reply reply{Answer::Released};
        each_owned(before, [&](uint16_t m) {
            hand_over(m);
            ++reply.number;
            return true;
        });
        if (reply.number) settle_from(actor);
        return reply;
    }

    Reply cancel(uint16_t t) {
        if (!has_task(t)) return {Answer::NoTask};
        Task& task = tasks[t];
        if (!task.waits_for) return {Answer::NotWaiting};
        Mutex& mutex = mutexes[task.waits_for];
        const Waiter waiter{task.ticket, t, task.stored};
        mutex.queue.erase(
            std::lower_bound(mutex.queue.begin(), mutex.queue.end(), waiter, precedes));
        task.waits_for = 0;
        if (mutex.inherits()) lower(mutex.owner, task.stored);
        return {Answer::Withdrawn};
    }

    Reply set_base(uint16_t t, uint16_t prio) {
        if (!has_task(t)) return {Answer::NoTask};
        if (prio < 1 || prio > HIGHEST_PRIO) return {Answer::Priority};
        tasks[t].base = uint8_t(prio);
        settle_from(t);
        return {Answer::Set};
    }

    Reply set_ceiling(uint16_t actor, uint16_t m, uint16_t ceiling) {
        if (!has_mutex(m)) return {Answer::NoMutex};
        Mutex& mutex = mutexes[m];
        if (!mutex.protects()) return {Answer::NotProtect};
        if (ceiling < 1 || ceiling > HIGHEST_PRIO) return {Answer::Priority};
        if (mutex.owner && mutex.owner != actor) return {Answer::Busy};
        mutex.ceiling = uint8_t(ceiling);
        if (mutex.owner) settle_from(actor);
        return {Answer::Set};
    }

    // Returns why the task has its priority: the mutex that gives it and, if it is an INHERIT one,
    // its first waiter.
    Cause cause(const Task& task) const {
        if (task.stored == task.base) return {};
        uint16_t source = 0, ceiling = 0;
        each_owned(task, [&](uint16_t m) {
            if (mutexes[m].gives() != task.stored) return true;
            if (mutexes[m].protects()) ceiling = m;
            else if (!source) source = m;
            return ceiling == 0;
        });
        return ceiling ? Cause{ceiling, 0} : Cause{source, mutexes[source].queue.front().task};
    }

    void write_reason(Output& out, const Task& task) const {
        const Cause from = cause(task);
        if (!from.mutex) return out.text(" base\n");
        if (from.waiter) {
            out.text(" waiter ");
            out.number(from.waiter);
            out.text(" mutex ");
        } else {
            out.text(" ceiling ");
        }
        out.number(from.mutex);
        out.text("\n");
    }
};

// ---------------------------------------------------------------- the program

enum Status { ACCEPTED = 0, REJECTED = 1, FAULT = 2 };

int fault(const char* text) {
    std::fprintf(stderr, "pim: %s\n", text);
    return FAULT;
}

// Writes the last line of a report.
int end(Output& out, std::string_view verdict, uint32_t number, Status status) {
    if (!out.room()) return fault("write");
    out.text(verdict);
    out.number(number);
    out.text("\n");
    return out.flush() ? status : fault("write");
}

int report(const Text& text, Output& out) {
    Manager manager(text);
    uint32_t number = 0;
    for (const Step& step : text.steps) {
        const Reply reply = manager.step(step);
        if (!out.room()) return fault("write");
        out.number(++number);
        out.text(" ");
        out.reply(reply);
        const bool differs = step.recorded && !(*step.recorded == reply);
        if (differs) {
            out.text(" but recorded ");
            out.reply(*step.recorded);
        }
        out.text("\n");
        if (differs) return end(out, "rejected ", number, REJECTED);
        if (!manager.write_changes(out)) return fault("write");
    }
    return end(out, "accepted ", number, ACCEPTED);
}

bool read_all(std::vector<char>& data, size_t& size) {
    struct stat info {};
    const bool is_known = fstat(STDIN_FILENO, &info) == 0 && info.st_size > 0;
    data.resize(is_known ? size_t(info.st_size) + 1 : 1 << 16);
    for (size = 0;;) {
        if (size == data.size()) data.resize(2 * size);
        const ssize_t count = read(STDIN_FILENO, data.data() + size, data.size() - size);
        if (count < 0 && errno == EINTR) continue;
        if (count <= 0) return count == 0;
        size += size_t(count);
    }
}

}  // namespace

int main() {
    std::vector<char> data;
    size_t size = 0;
    if (!read_all(data, size)) return fault("read");
    Text text;
    if (uint32_t n = parse(data.data(), size, text)) {
        std::fprintf(stderr, "pim: line %u\n", unsigned(n));
        return FAULT;
    }
    static Output out;
    return report(text, out);
}
