// What a step takes by itself, without text: libpim beside the manager of bench/judge.cpp.
//
//   steps check < TRACE            compares all answers and lists; status 1 where one differs
//   steps time REPEAT < TRACE      prints the least nanoseconds of a step: libpim's and the plain
//                                  manager's, then those of a step with its list
//   steps last REPEAT < TRACE      makes all steps but the last, and prints the least nanoseconds
//                                  of that one with its list, libpim's and the plain manager's,
//                                  how many priorities it computed and how many tasks it lists
//
// For those who count instructions, with libpim or plain as WHO:
//
//   steps WHO step COUNT < TRACE   makes the first COUNT steps
//   steps WHO list COUNT < TRACE   the same, and the list of each
//   steps WHO last COUNT < TRACE   makes all steps but the last and, where COUNT is 1, that one
//                                  with its list
//
// Both make the same checks in the same order, note the tasks whose priority a step changes, and
// list them into the same kind of array, in ascending order, with priorities and reasons. Both are
// libraries, which are called alike: libpim by the C functions of pim.h, and the plain manager by
// those of plain.h, compiled by itself. What isn't the same: libpim counts its visits.
#define main judge_main
#include "../../bench/judge.cpp"
#undef main

#include <cstdlib>
#include <ctime>

#include "plain.h"

namespace {

using Changes = std::array<pim_changed_task, PIM_MAX_TASKS>;

// The functions of a library.
struct Functions {
    decltype(&pim_make) make;
    decltype(&pim_drop) drop;
    decltype(&pim_lock) lock, try_lock, unlock;
    decltype(&pim_release_all) release_all;
    decltype(&pim_cancel) cancel;
    decltype(&pim_set_base) set_base;
    decltype(&pim_set_ceiling) set_ceiling;
    decltype(&pim_changed) changed;
};

constexpr Functions LIBPIM = {
    pim_make,   pim_drop,     pim_lock,        pim_try,    pim_unlock, pim_release_all,
    pim_cancel, pim_set_base, pim_set_ceiling, pim_changed,
};
constexpr Functions PLAIN = {
    plain_make,   plain_drop,     plain_lock,        plain_try,    plain_unlock, plain_release_all,
    plain_cancel, plain_set_base, plain_set_ceiling, plain_changed,
};

// A manager of one of the two.
template <const Functions& CALLS>
class Managed {
public:
    explicit Managed(const Text& text) {
        std::vector<uint16_t> bases(text.bases.begin(), text.bases.end());
        std::vector<pim_protocol> protocols;
        for (const Declared& d : text.mutexes)
            protocols.push_back({uint16_t(d.protocol), d.ceiling});
        bases.reserve(1);
        protocols.reserve(1);
        const size_t tasks = bases.size(), mutexes = protocols.size();
        if (CALLS.make(&h, bases.data(), tasks, protocols.data(), mutexes) != PIM_MADE)
            std::exit(2);
    }
    Managed(const Managed&) = delete;
    ~Managed() { CALLS.drop(&h); }

    pim_answer step(const Step& step) {
        switch (step.op) {
            case Op::Lock: return CALLS.lock(&h, step.actor, step.first);
            case Op::Try: return CALLS.try_lock(&h, step.actor, step.first);
            case Op::Unlock: return CALLS.unlock(&h, step.actor, step.first);
            case Op::Release: return CALLS.release_all(&h, step.actor);
            case Op::Cancel: return CALLS.cancel(&h, step.actor, step.first);
            case Op::Base: return CALLS.set_base(&h, step.actor, step.first, step.second);
            case Op::Ceil: return CALLS.set_ceiling(&h, step.actor, step.first, step.second);
        }
        std::exit(2);
    }

    size_t list(Changes& to) { return CALLS.changed(&h, to.data(), to.size()); }

private:
    pim_handle h = PIM_HANDLE_INIT;
};

using Libpim = Managed<LIBPIM>;
using Plain = Managed<PLAIN>;

bool is_same(const pim_answer& one, const pim_answer& other) {
    return one.kind == other.kind && one.refusal == other.refusal && one.number == other.number;
}

bool is_same_task(const pim_changed_task& one, const pim_changed_task& other) {
    const pim_reason &why = one.reason, &its = other.reason;
    return one.task == other.task && one.prio == other.prio && why.kind == its.kind &&
           why.task == its.task && why.mutex == its.mutex;
}

// Compares all answers and lists, and returns the status of the program.
int check(const Text& text) {
    static Changes ours, theirs;
    Libpim pim(text);
    Plain plain(text);
    for (const Step& step : text.steps) {
        bool is_equal = is_same(pim.step(step), plain.step(step));
        const size_t count = pim.list(ours);
        is_equal &= count == plain.list(theirs);
        const auto end = ours.begin() + count;
        if (is_equal && std::equal(ours.begin(), end, theirs.begin(), is_same_task)) continue;
        std::printf("they differ in step %zu\n", size_t(&step - &text.steps[0]) + 1);
        return 1;
    }
    return 0;
}

// Makes a step and, where it is asked for, its list, which the compiler takes to be read.
template <class Who>
size_t make(Who& who, const Step& step, bool lists) {
    static Changes changes;
    who.step(step);
    const size_t count = lists ? who.list(changes) : 0;
    asm volatile("" : : "r"(&changes) : "memory");
    return count;
}

// Returns the nanoseconds of a clock: that of the process doesn't count what else runs meanwhile,
// and that of the machine takes less to be asked.
int64_t nanoseconds(clockid_t clock) {
    timespec now{};
    clock_gettime(clock, &now);
    return int64_t(now.tv_sec) * 1000000000 + now.tv_nsec;
}

// Makes the first steps, and returns the nanoseconds of one.
template <class Who>
double steps(const Text& text, size_t count, bool lists) {
    Who who(text);
    const int64_t begin = nanoseconds(CLOCK_PROCESS_CPUTIME_ID);
    for (size_t i = 0; i < count; ++i) make(who, text.steps[i], lists);
    return double(nanoseconds(CLOCK_PROCESS_CPUTIME_ID) - begin) / double(count);
}

// Makes all steps but the last, and returns the nanoseconds of that one with its list, or of none.
template <class Who>
double last(const Text& text, bool makes_it) {
    Who who(text);
    for (size_t i = 0; i + 1 < text.steps.size(); ++i) make(who, text.steps[i], false);
    const int64_t begin = nanoseconds(CLOCK_MONOTONIC);
    if (makes_it) make(who, text.steps.back(), true);
    return double(nanoseconds(CLOCK_MONOTONIC) - begin);
}

// Calls both by turns, and prints the least that each of them returns.
template <class Ours, class Theirs>
void least(int repeat, Ours ours, Theirs theirs) {
    double least_ours = 1e99, least_theirs = 1e99;
    for (int i = 0; i < repeat; ++i) {
        least_ours = std::min(least_ours, ours());
        least_theirs = std::min(least_theirs, theirs());
    }
    std::printf("%.1f %.1f\n", least_ours, least_theirs);
}

void time_steps(const Text& text, int repeat) {
    const size_t count = text.steps.size();
    for (const bool lists : {false, true})
        least(repeat, [&] { return steps<Libpim>(text, count, lists); },
              [&] { return steps<Plain>(text, count, lists); });
}

void time_last(const Text& text, int repeat) {
    static Changes changes;
    least(repeat, [&] { return last<Libpim>(text, true); },
          [&] { return last<Plain>(text, true); });
    Libpim pim(text);
    pim_answer answer{};
    for (const Step& step : text.steps) answer = pim.step(step);
    std::printf("%u %zu\n", unsigned(answer.visits), pim.list(changes));
}

// Makes the first steps, or the last, by one of the two. Returns the status of the program.
template <class Who>
int count(const Text& text, std::string_view how, size_t count) {
    if (how == "last") return last<Who>(text, count > 0), 0;
    if (how != "step" && how != "list") return 2;
    return steps<Who>(text, std::min(count, text.steps.size()), how == "list"), 0;
}

}  // namespace

int main(int argc, char** argv) {
    std::vector<char> data;
    size_t size = 0;
    Text text;
    if (!read_all(data, size) || parse(data.data(), size, text) || text.steps.empty()) return 2;
    const std::string_view word = argc > 1 ? argv[1] : "";
    if (argc == 2 && word == "check") return check(text);
    if (argc == 3 && word == "time") return time_steps(text, std::atoi(argv[2])), 0;
    if (argc == 3 && word == "last") return time_last(text, std::atoi(argv[2])), 0;
    if (argc != 4) return 2;
    const size_t steps = size_t(std::atoi(argv[3]));
    if (word == "libpim") return count<Libpim>(text, argv[2], steps);
    return word == "plain" ? count<Plain>(text, argv[2], steps) : 2;
}
