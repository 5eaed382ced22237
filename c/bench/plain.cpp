// The plain manager as a library: steps.cpp calls it as it calls libpim.
#define main plain_main
#include "../../bench/judge.cpp"
#undef main

#include "plain.h"

namespace {

class Plain : public Manager {
public:
    using Manager::Manager;

    // Makes a step, and first forgets what the step before changed, as libpim does.
    pim_answer answer(const Step& step) {
        for (uint16_t t : touched) tasks[t].is_touched = false;
        touched.clear();
        return as_answer(Manager::step(step));
    }

    size_t list(pim_changed_task* to, size_t room) {
        size_t count = 0;
        sort_touched();
        for (uint16_t t : touched) {
            const Task& task = tasks[t];
            if (task.stored == task.stored_before) continue;
            if (count < room) to[count] = {t, task.stored, reason(cause(task))};
            ++count;
        }
        return count;
    }

private:
    static pim_answer as_answer(Reply reply) {
        const Answer told = reply.answer;
        if (Answer::NoTask <= told && told <= Answer::Again)
            return {PIM_REFUSED, uint8_t(unsigned(told) - unsigned(Answer::NoTask) + 1), 0, 0};
        return {kind(told), 0, reply.number, 0};
    }

    static uint8_t kind(Answer told) {
        switch (told) {
            case Answer::Granted: return PIM_GRANTED;
            case Answer::Queued: return PIM_QUEUED;
            case Answer::Freed: return PIM_FREED;
            case Answer::Handed: return PIM_HANDED;
            case Answer::Released: return PIM_RELEASED;
            case Answer::Withdrawn: return PIM_WITHDRAWN;
            case Answer::Kept: return PIM_KEPT;
            default: return PIM_SET;
        }
    }

    static pim_reason reason(Cause from) {
        if (!from.mutex) return {PIM_OF_BASE, 0, 0};
        return {uint16_t(from.waiter ? PIM_OF_WAITER : PIM_OF_CEILING), from.waiter, from.mutex};
    }
};

Plain* plain(const pim_handle* h) { return static_cast<Plain*>(h->at); }

// Makes the step, if there is a manager. Into each function goes the code of its own kind of step.
[[gnu::always_inline]] inline pim_answer step(pim_handle* h, const Step& step) {
    if (!h->at) return {PIM_NO_MANAGER, 0, 0, 0};
    return plain(h)->answer(step);
}

}  // namespace

extern "C" {

uint32_t plain_make(pim_handle* h, const uint16_t* bases, size_t tasks,
                    const pim_protocol* protocols, size_t mutexes) {
    Text text;
    text.bases.assign(bases, bases + tasks);
    for (size_t m = 0; m < mutexes; ++m)
        text.mutexes.push_back({Protocol(protocols[m].kind), uint8_t(protocols[m].ceiling)});
    h->at = new Plain(text);
    return PIM_MADE;
}

void plain_drop(pim_handle* h) {
    delete plain(h);
    h->at = nullptr;
}

pim_answer plain_lock(pim_handle* h, uint16_t task, uint16_t mutex) {
    return step(h, {task, mutex, 0, Op::Lock, {}});
}

pim_answer plain_try(pim_handle* h, uint16_t task, uint16_t mutex) {
    return step(h, {task, mutex, 0, Op::Try, {}});
}

pim_answer plain_unlock(pim_handle* h, uint16_t task, uint16_t mutex) {
    return step(h, {task, mutex, 0, Op::Unlock, {}});
}

pim_answer plain_release_all(pim_handle* h, uint16_t task) {
    return step(h, {task, 0, 0, Op::Release, {}});
}

pim_answer plain_cancel(pim_handle* h, uint16_t task, uint16_t target) {
    return step(h, {task, target, 0, Op::Cancel, {}});
}

pim_answer plain_set_base(pim_handle* h, uint16_t task, uint16_t target, uint16_t prio) {
    return step(h, {task, target, prio, Op::Base, {}});
}

pim_answer plain_set_ceiling(pim_handle* h, uint16_t task, uint16_t mutex, uint16_t ceiling) {
    return step(h, {task, mutex, ceiling, Op::Ceil, {}});
}

size_t plain_changed(const pim_handle* h, pim_changed_task* to, size_t room) {
    return h->at ? plain(h)->list(to, room) : 0;
}
}
