// The rows of a text of facts in plain C++, written for speed and not proved. It is what a proved
// program is compared with. docs/FACTS.md and docs/ROWS.md say what it reads and writes.
//
//   g++ -O2 -std=c++17 rows.cpp -o rows && ./rows < run.facts > run.rows
//
// One pass over the text. Rows are kept until the last line is known to be valid. After a line only
// the threads are looked at that can have got something else: the component of each thread that the
// line touches, which is all threads whose ways end at the same runner, or at the same cycle:
//
//   1. From the thread go to the runner by blockers, or around a cycle, and gather all behind it.
//   2. What each thread gets, from the last one gathered to the first: each passes it to its heir.
//   3. What holds of each wait now. Its time is added up only when that changes.
//   4. Which threads the kernel runs at another level than they get now.
//
// A runner knows the waits that are inverted because of it, and a CPU the runners that were there
// last, are ready, and hold up some wait. So a switch looks at these waits alone.

#include <algorithm>
#include <array>
#include <charconv>
#include <cstdint>
#include <cstdio>
#include <cstring>
#include <deque>
#include <memory>
#include <string_view>
#include <utility>
#include <vector>

namespace {

using std::uint32_t;
using std::uint64_t;
using std::uint8_t;

constexpr size_t MOST_THREADS = 65536;
constexpr uint64_t MOST_THREAD = 4294967294;
constexpr uint64_t MOST_NUMBER = 9999999999999999999u;
constexpr uint64_t MOST_LEVEL = 100;
constexpr uint64_t MOST_CPU = 65535;
constexpr int MOST_DIGITS = 19;
constexpr int MOST_NAME = 64;
constexpr int MOST_WORDS = 16;
constexpr uint8_t UNKNOWN = 255;

// ---------------------------------------------------------------- lines

enum class Protocol : uint8_t { None, Inherit, Protect };
enum class Ended : uint8_t { Unknown, By, TimedOut, Failed };
enum class What : uint8_t {
    Thread, Mutex, Object, Unseen,  // without a time
    Lost, End,                      // of no thread
    Granted, Took, Waits, GaveUp, Released, Ceiling, Priority, Runs, Blocks, Resumes, On, Off
};

// `number` is that of the mutex, the object or the CPU. `level` of a mutex is its ceiling.
struct Line {
    What what = What::Unseen;
    Protocol protocol = Protocol::None;
    Ended ended = Ended::Unknown;
    bool is_recursive = false, is_ready = false;
    uint8_t level = 0;
    uint64_t time = 0, thread = 0, number = 0, by = 0;
};

// Reads one line, which ends with a newline. No part goes past it, as none has a newline.
class Reading {
  public:
    Reading(const char* begin, Line& line) : at_(begin), line_(line) {}

    // Returns the next line's first byte, or null if this isn't a line of FACTS.md.
    const char* next() { return (is_digit(*at_) ? timed() : declaration()) ? at_ + 1 : nullptr; }

    static bool is_first(const char*& at) {
        constexpr std::string_view first = "facts 1\n";
        if (std::strncmp(at, first.data(), first.size()) != 0) return false;
        at += first.size();
        return true;
    }

  private:
    static bool is_digit(char byte) { return uint8_t(byte - '0') <= 9; }
    bool is_end() const { return *at_ == '\n'; }

    // Goes past this text if it is next.
    [[gnu::always_inline]] bool eat(std::string_view text) {
        if (std::memcmp(at_, text.data(), text.size()) != 0) return false;
        at_ += text.size();
        return true;
    }

    // Goes past this text if it is next, and a word ends after it.
    [[gnu::always_inline]] bool eat_word(std::string_view text) {
        const char after = at_[text.size()];
        return (after == ' ' || after == '\n') && eat(text);
    }

    bool number(uint64_t& to, uint64_t least, uint64_t most) {
        const char* begin = at_;
        uint64_t value = 0;
        if (has_eight_digits()) value = eight_digits();
        for (; is_digit(*at_); ++at_) value = value * 10 + uint8_t(*at_ - '0');
        to = value;
        if (at_ - begin > MOST_DIGITS || (*begin == '0' && at_ - begin > 1)) return false;
        return at_ != begin && least <= value && value <= most;
    }

    uint64_t eight_bytes() const {
        uint64_t bytes;
        std::memcpy(&bytes, at_, sizeof bytes);
        return bytes;
    }

    bool has_eight_digits() const {
        constexpr uint64_t HIGH = 0xf0f0f0f0f0f0f0f0u, SIX = 0x0606060606060606u;
        const uint64_t bytes = eight_bytes();
        return ((bytes & HIGH) | ((bytes + SIX) & HIGH) >> 4) == 0x3333333333333333u;
    }

    // Goes past eight digits. Adds up neighbours: digits, then pairs, then fours.
    uint64_t eight_digits() {
        uint64_t sums = eight_bytes() & 0x0f0f0f0f0f0f0f0fu;
        sums = (sums * (1 + (10u << 8)) >> 8) & 0x00ff00ff00ff00ffu;
        sums = (sums * (1 + (100u << 16)) >> 16) & 0x0000ffff0000ffffu;
        at_ += sizeof sums;
        return sums * (1 + (uint64_t(10000) << 32)) >> 32;
    }

    bool level() {
        uint64_t value = 0;
        const bool is_level = number(value, 0, MOST_LEVEL);
        line_.level = uint8_t(value);
        return is_level;
    }

    bool name() {
        const char* begin = at_;
        while (*at_ > 32 && *at_ < 127) ++at_;
        return at_ != begin && at_ - begin <= MOST_NAME;
    }

    // Reads names up to the end of the line. A place isn't one of four words.
    bool words(bool are_places) {
        for (int count = 0; !is_end(); ++count) {
            if (count == MOST_WORDS || !eat(" ")) return false;
            const char* begin = at_;
            if (!name() || (are_places && is_no_place({begin, size_t(at_ - begin)}))) return false;
        }
        return true;
    }

    static bool is_no_place(std::string_view word) {
        switch (word.size()) {
            case 2: return word == "by" || word == "of";
            case 6: return word == "failed";
            case 9: return word == "timed-out";
            default: return false;
        }
    }

    bool is(What what) {
        line_.what = what;
        return true;
    }

    // ---- lines without a time

    bool declaration() {
        if (eat("thread ")) return is(What::Thread) && thread();
        if (eat("mutex ")) return is(What::Mutex) && mutex();
        if (eat("object ")) return is(What::Object) && object();
        return eat("unseen") && is(What::Unseen) && !is_end() && words(false);
    }

    bool thread() {
        return number(line_.thread, 1, MOST_THREAD) && eat(" ") && level() && eat(" ") && name() &&
               is_end();
    }

    bool mutex() {
        if (!number(line_.number, 1, MOST_NUMBER) || !eat(" ")) return false;
        line_.is_recursive = eat("recursive ");
        return protocol() && name() && is_end();
    }

    bool protocol() {
        if (eat("none ")) return true;
        line_.protocol = Protocol::Inherit;
        if (eat("inherit ")) return true;
        line_.protocol = Protocol::Protect;
        return eat("protect ") && level() && eat(" ");
    }

    bool object() {
        if (!number(line_.number, 1, MOST_NUMBER)) return false;
        const bool is_kind = eat(" semaphore ") || eat(" rwlock ") || eat(" barrier ") ||
                             eat(" thread ") || eat(" condition ") || eat(" futex ");
        return is_kind && name() && is_end();
    }

    // ---- lines with a time

    bool timed() {
        if (!number(line_.time, 0, MOST_NUMBER) || !eat(" ")) return false;
        if (!is_digit(*at_)) return remark();
        return number(line_.thread, 1, MOST_THREAD) && eat(" ") && event() && words(true);
    }

    bool remark() {
        if (eat("end")) return is(What::End) && is_end();
        return eat("lost ") && is(What::Lost) && number(line_.number, 1, MOST_NUMBER) && is_end();
    }

    bool event() {
        switch (*at_) {
            case 'b': return eat("blocks ") && numbered(What::Blocks);
            case 'c': return eat("ceiling ") && numbered(What::Ceiling) && eat(" ") && level();
            case 'g':
                return eat("granted ") ? numbered(What::Granted)
                                       : eat("gave-up ") && numbered(What::GaveUp);
            case 'o': return switching();
            case 'p': return eat("priority ") && is(What::Priority) && level();
            case 'r': return eat("released ") ? numbered(What::Released) : resumes_or_runs();
            case 't': return eat("took ") && numbered(What::Took);
            case 'w': return eat("waits ") && numbered(What::Waits);
            default: return false;
        }
    }

    bool numbered(What what) { return is(what) && number(line_.number, 1, MOST_NUMBER); }

    bool switching() {
        if (eat("on ")) return is(What::On) && number(line_.number, 0, MOST_CPU);
        line_.is_ready = eat_word("off ready");
        return is(What::Off) && (line_.is_ready || eat_word("off asleep"));
    }

    bool resumes_or_runs() {
        if (eat("runs ")) return is(What::Runs) && level();
        return eat("resumes ") && numbered(What::Resumes) && ender();
    }

    bool ender() {
        if (eat(" by ")) {
            line_.ended = Ended::By;
            return number(line_.by, 1, MOST_THREAD);
        }
        if (eat_word(" timed-out")) line_.ended = Ended::TimedOut;
        else if (eat_word(" failed")) line_.ended = Ended::Failed;
        return true;
    }

    const char* at_;
    Line& line_;
};

// ---------------------------------------------------------------- lists, tables, output

// A value is in at most one list of a kind at a time, by links of its own.
template <class Value>
struct Links {
    Value* before = nullptr;
    Value* after = nullptr;
};

template <class Value, int Kind>
class List {
  public:
    struct Iterator {
        Value* at;
        Value& operator*() const { return *at; }
        void operator++() { at = at->links[Kind].after; }
        bool operator!=(Iterator other) const { return at != other.at; }
    };

    Iterator begin() const { return {first_}; }
    Iterator end() const { return {nullptr}; }
    bool is_empty() const { return !first_; }

    void add(Value& value) {
        value.links[Kind] = {nullptr, first_};
        if (first_) first_->links[Kind].before = &value;
        first_ = &value;
    }

    void remove(Value& value) {
        const auto [before, after] = value.links[Kind];
        (before ? before->links[Kind].after : first_) = after;
        if (after) after->links[Kind].before = before;
    }

  private:
    Value* first_ = nullptr;
};

using Triple = std::array<uint64_t, 3>;  // thread, mutex and level; or thread, outer and inner

constexpr uint64_t MIX = 0x9e3779b97f4a7c15u;
uint64_t mixed(uint64_t key) { return key * MIX; }
uint64_t mixed(const Triple& key) {
    uint64_t mix = mixed(key[1]) ^ key[2];
    mix = (mix ^ mix >> 32) * MIX ^ key[0];
    return (mix ^ mix >> 29) * MIX;
}

// A hash table with open addressing. Its values stay where they are.
template <class Key, class Value>
class Table {
  public:
    struct Entry {
        Key key;
        Value value;
    };

    Value* find(const Key& key) const {
        Entry* found = slots_[slot_of(key)];
        return found ? &found->value : nullptr;
    }

    // Returns the value of a key, which is a new one if there is none.
    Value& at(const Key& key) {
        size_t slot = slot_of(key);
        if (slots_[slot]) return slots_[slot]->value;
        if (2 * entries_.size() >= slots_.size()) {
            grow();
            slot = slot_of(key);
        }
        slots_[slot] = &entries_.emplace_back(Entry{key, {}});
        return slots_[slot]->value;
    }

    size_t size() const { return entries_.size(); }
    std::deque<Entry>& entries() { return entries_; }

    std::vector<Entry*> in_order() {
        std::vector<Entry*> sorted;
        for (Entry& entry : entries_) sorted.push_back(&entry);
        const auto is_before = [](Entry* one, Entry* other) { return one->key < other->key; };
        std::sort(sorted.begin(), sorted.end(), is_before);
        return sorted;
    }

  private:
    // Returns the slot that has the key, or the free one where it would be.
    size_t slot_of(const Key& key) const {
        size_t slot = mixed(key) >> shift_;
        while (slots_[slot] && !(slots_[slot]->key == key)) slot = (slot + 1) & (slots_.size() - 1);
        return slot;
    }

    void grow() {
        slots_.assign(2 * slots_.size(), nullptr);
        --shift_;
        for (Entry& entry : entries_) slots_[slot_of(entry.key)] = &entry;
    }

    unsigned shift_ = 64 - 6;
    std::vector<Entry*> slots_ = std::vector<Entry*>(64);
    std::deque<Entry> entries_;
};

// Rows as text, in memory until they are all known.
class Output {
  public:
    template <class... Numbers>
    void row(std::string_view word, Numbers... numbers) {
        begin(word);
        (put(numbers), ...);
        end();
    }

    void begin(std::string_view word) {
        if (CHUNK - used_ < MOST_ROW) next_chunk();
        std::memcpy(at(), word.data(), word.size());
        used_ += word.size();
    }

    // Adds a number to a row of any length.
    void add(uint64_t number) {
        if (CHUNK - used_ < MOST_ROW) next_chunk();
        put(number);
    }

    void end() { chunks_.back()[used_++] = '\n'; }

    bool write_all() {
        lengths_.push_back(used_);
        for (size_t i = 0; i < chunks_.size(); ++i)
            if (std::fwrite(chunks_[i].get(), 1, lengths_[i], stdout) != lengths_[i]) return false;
        return std::fflush(stdout) == 0;
    }

  private:
    static constexpr size_t CHUNK = 1 << 20, MOST_ROW = 512;

    char* at() { return chunks_.back().get() + used_; }

    void put(uint64_t number) {
        char* begin = at();
        *begin = ' ';
        used_ += size_t(std::to_chars(begin + 1, begin + 21, number).ptr - begin);
    }

    void next_chunk() {
        if (!chunks_.empty()) lengths_.push_back(used_);
        chunks_.emplace_back(new char[CHUNK]);
        used_ = 0;
    }

    std::vector<std::unique_ptr<char[]>> chunks_;
    std::vector<size_t> lengths_;
    size_t used_ = CHUNK;
};

// ---------------------------------------------------------------- waits

enum class Kind : uint8_t { Nothing, Lower, Inverted, Stalled, Meanwhile };

// What holds of a wait, by the numbers of its row: mutex, runner and gets; object and runner; or
// thread and level. A wait that is inverted is lower, too.
struct State {
    uint64_t what = 0, rest = 0;

    State(Kind kind = Kind::Nothing, uint64_t which = 0, uint32_t runner = 0, uint8_t level = 0)
        : what(which), rest(uint64_t(kind) << 40 | uint64_t(runner) << 8 | level) {}

    Kind kind() const { return Kind(rest >> 40); }
    uint32_t runner() const { return uint32_t(rest >> 8); }
    uint8_t level() const { return uint8_t(rest); }
    bool operator==(const State& other) const { return what == other.what && rest == other.rest; }
    bool operator<(const State& other) const {
        if (kind() != other.kind()) return kind() < other.kind();
        return what != other.what ? what < other.what : rest < other.rest;
    }
};

struct Sum {
    State state;
    uint64_t time;

    bool operator<(const Sum& other) const { return state < other.state; }
};

// For how long each state held.
class Sums {
  public:
    void add(const State& state, uint64_t time) {
        if (sums_.size() == room_) {
            merge();
            room_ = std::max(FEW, 2 * sums_.size());
        }
        sums_.push_back({state, time});
    }

    // Leaves one sum of each state, in ascending order.
    void merge() {
        if (sums_.size() < 2) return;
        std::sort(sums_.begin(), sums_.end());
        auto last = sums_.begin();
        for (auto next = last + 1; next != sums_.end(); ++next) {
            if (next->state == last->state) last->time += next->time;
            else *++last = *next;
        }
        sums_.erase(last + 1, sums_.end());
    }

    uint64_t of(Kind kind) const {
        uint64_t sum = 0;
        for (const auto& [state, time] : sums_) sum += state.kind() == kind ? time : 0;
        return sum;
    }

    const std::vector<Sum>& all() const { return sums_; }

    void clear() {
        sums_.clear();
        room_ = FEW;
    }

  private:
    static constexpr size_t FEW = 16;
    std::vector<Sum> sums_;
    size_t room_ = FEW;
};

struct Thread;
struct Mutex;
struct Cpu;

struct Since {
    State state;
    uint64_t clock = 0;
};

// The wait of a thread for a mutex. `runner` is the one for which it is inverted.
struct Wait {
    uint64_t line = 0, began = 0, grant = 0;
    uint32_t owner = 0;
    uint8_t level = 0, gets = 0, its_level = 0;
    Since now, meanwhile;
    Sums sums;
    Thread* runner = nullptr;
    Mutex* blame = nullptr;
};

// Since when the kernel has run a thread at another level than it gets.
struct Ran {
    uint64_t line = 0, began = 0;
    uint8_t level = 0, gets = 0;
};

// ---------------------------------------------------------------- threads, mutexes, CPUs

// The ceilings of the PROTECT mutexes that a thread owns.
class Ceilings {
  public:
    void add(uint8_t level) {
        ++counts_[level];
        levels_[level / 64] |= uint64_t(1) << level % 64;
    }

    void remove(uint8_t level) {
        if (--counts_[level] == 0) levels_[level / 64] &= ~(uint64_t(1) << level % 64);
    }

    uint8_t highest() const {
        const uint64_t word = levels_[1] ? levels_[1] : levels_[0] | 1;
        return uint8_t((levels_[1] ? 127 : 63) - __builtin_clzll(word));
    }

  private:
    std::array<uint32_t, MOST_LEVEL + 1> counts_{};
    std::array<uint64_t, 2> levels_{};
};

enum ThreadLists { WAITERS, HELD_UP, LATE };
enum MutexLists { OWNED, CONTENDED };

struct Thread {
    std::array<Links<Thread>, 3> links;
    uint32_t number = 0;
    uint8_t level = 0, gets = 0, runs = UNKNOWN, passed_on = 0;
    bool is_off = false, is_ready = false, is_late = false, is_known = false;
    Mutex* awaits = nullptr;
    List<Mutex, CONTENDED> contended;  // the mutexes that it owns and others await
    uint64_t gathered = 0, passed = 0;
    Wait wait;
    List<Mutex, OWNED> owned;
    std::unique_ptr<Ceilings> ceilings;
    Cpu* cpu = nullptr;             // where it was last
    List<Thread, HELD_UP> held_up;  // those that are inverted, and whose runner it is
    uint64_t off_since = 0, off_for = 0;
    uint64_t object = 0, block_line = 0, block_began = 0;
    uint8_t block_level = 0;
    Ran ran;

    uint8_t own() const { return ceilings ? std::max(level, ceilings->highest()) : level; }
    uint64_t off_until(uint64_t clock) const { return off_for + (is_off ? clock - off_since : 0); }
    uint8_t running_level() const { return runs == UNKNOWN ? gets : runs; }
    bool is_idle() const { return !awaits && !object; }
    bool is_on() const;
    Thread* blocker() const;
};

struct Mutex {
    std::array<Links<Mutex>, 2> links;
    uint64_t number = 0, depth = 0;
    Protocol protocol = Protocol::None;
    bool is_recursive = false;
    uint8_t ceiling = 0, level = 0;  // the owner's level when it came to own it
    Thread* owner = nullptr;
    List<Thread, WAITERS> waiters;
    uint64_t grant = 0, since = 0, off_before = 0;
};

// `late` are the runners that were on it last, are ready, and hold up some wait.
struct Cpu {
    Thread* thread = nullptr;
    List<Thread, LATE> late;
};

bool is_lower_number(const Thread* one, const Thread* other) { return one->number < other->number; }
bool Thread::is_on() const { return cpu && cpu->thread == this; }
Thread* Thread::blocker() const { return awaits ? awaits->owner : nullptr; }

struct Section {
    uint64_t count = 0, longest = 0, line = 0, used = 0;
};

struct Nest {
    uint64_t count = 0, taken = 0, line = 0;
};

// ---------------------------------------------------------------- rows

class Rows {
  public:
    // Reads the line that begins here, and goes to the next one. Returns false if it isn't valid.
    bool read(const char*& at) {
        if (++line_ == 1) return Reading::is_first(at);
        Line line;
        at = Reading(at, line).next();
        return at && !has_ended_ && follow(line);
    }

    uint64_t line() const { return line_; }

    // The text has ended: makes the rows of what lasts, and of all of it. Returns whether the
    // status is 1.
    bool finish() {
        std::vector<Thread*> threads;
        for (auto* entry : threads_.in_order()) threads.push_back(&entry->value);
        for (Thread* t : threads)
            if (t->awaits) end_wait(*t, *t->awaits, 0);
        for (Thread* t : threads)
            if (t->object) end_block(*t, 0, Ended::Unknown, nullptr);
        for (Thread* t : threads)
            if (t->ran.line) end_ran(*t, 0);
        for (auto& entry : mutexes_.entries())
            if (Mutex& m = entry.value; m.owner) end_section(*m.owner, m);
        for (const auto* entry : sections_.in_order()) {
            const auto& [key, one] = *entry;
            out_.row("section", key[0], key[1], key[2], one.count, one.longest, one.line,
                     one.used);
        }
        for (const auto* entry : nests_.in_order()) {
            const auto& [key, one] = *entry;
            out_.row("nests", key[0], key[1], key[2], one.count, one.taken, one.line);
        }
        const uint64_t cycles = deadlocks(threads);
        out_.row("end", line_, clock_, waits_, inverted_, cycles);
        return inverted_ > 0 || cycles > 0;
    }

    bool write_all() { return out_.write_all(); }

  private:
    // ---- which line may follow, and what happens

    void pass_to(uint64_t time) { clock_ = std::max(clock_, time); }

    bool follow(const Line& line) {
        if (line.what <= What::Unseen) return declare(line);
        if (line.what == What::Lost || line.what == What::End) {
            pass_to(line.time);
            has_ended_ = line.what == What::End;
            return has_ended_ || lose();
        }
        Thread* t = threads_.find(line.thread);
        if (!t) return false;
        switch (line.what) {
            case What::Blocks:
            case What::Resumes: return of_object(line, *t);
            case What::Priority:
            case What::Runs: return of_level(line, *t);
            case What::On: {
                Cpu& cpu = cpus_.at(line.number);
                if (t->is_on() || cpu.thread) return false;
                pass_to(line.time);
                return switch_on(*t, cpu);
            }
            case What::Off: pass_to(line.time); return switch_off(*t, line.is_ready);
            default: return of_mutex(line, *t);
        }
    }

    bool declare(const Line& line) {
        switch (line.what) {
            case What::Thread: return declare_thread(line);
            case What::Mutex: return declare_mutex(line);
            case What::Object:
                if (objects_.find(line.number)) return false;
                objects_.at(line.number);
                return true;
            default: return true;
        }
    }

    bool declare_thread(const Line& line) {
        if (threads_.size() == MOST_THREADS || threads_.find(line.thread)) return false;
        Thread& t = threads_.at(line.thread);
        t.number = uint32_t(line.thread);
        t.level = t.gets = line.level;
        return true;
    }

    bool declare_mutex(const Line& line) {
        if (mutexes_.find(line.number)) return false;
        Mutex& m = mutexes_.at(line.number);
        m.number = line.number;
        m.protocol = line.protocol;
        m.is_recursive = line.is_recursive;
        m.ceiling = line.level;
        return true;
    }

    bool of_mutex(const Line& line, Thread& t) {
        Mutex* found = mutexes_.find(line.number);
        if (!found) return false;
        Mutex& m = *found;
        const bool is_own = m.owner == &t;
        bool may_follow = t.is_idle();
        switch (line.what) {
            case What::Granted: may_follow |= t.awaits == &m; [[fallthrough]];
            case What::Took: may_follow &= !m.owner || (is_own && m.is_recursive); break;
            case What::Waits: may_follow &= !is_own || !m.is_recursive; break;
            case What::GaveUp: may_follow = t.awaits == &m; break;
            case What::Released: may_follow &= is_own; break;
            default: may_follow = m.protocol == Protocol::Protect;
        }
        if (!may_follow) return false;
        pass_to(line.time);
        switch (line.what) {
            case What::Waits: return begin_wait(t, m);
            case What::GaveUp: return give_up(t, m);
            case What::Released: return release(t, m);
            case What::Ceiling: return set_ceiling(m, line.level);
            default: return lock(line, t, m);
        }
    }

    bool of_object(const Line& line, Thread& t) {
        if (line.what == What::Blocks) {
            if (!t.is_idle() || !objects_.find(line.number)) return false;
            pass_to(line.time);
            t.object = line.number;
            t.block_line = line_;
            t.block_began = clock_;
            t.block_level = t.level;
        } else {
            const Thread* by = line.by ? threads_.find(line.by) : nullptr;
            if (t.object != line.number || (line.by && !by) || by == &t) return false;
            pass_to(line.time);
            end_block(t, line_, line.ended, by);
        }
        if (!t.contended.is_empty()) changed_.push_back(&t);
        return look_again();
    }

    bool of_level(const Line& line, Thread& t) {
        pass_to(line.time);
        if (line.what == What::Priority) {
            t.level = line.level;
            changed_.push_back(&t);
            return look_again();
        }
        t.runs = line.level;
        know(t);
        compare(t);
        if (t.is_on()) turn(*t.cpu);
        return true;
    }

    bool lock(const Line& line, Thread& t, Mutex& m) {
        if (m.owner) {
            ++m.depth;
            return true;
        }
        if (t.awaits) {
            leave(t);
            end_wait(t, m, line_);
        } else if (line.what == What::Granted) {
            nest(t, m);
        }
        m.owner = &t;
        m.depth = 1;
        m.grant = line_;
        m.since = clock_;
        m.level = t.level;
        m.off_before = t.off_until(clock_);
        t.owned.add(m);
        if (!m.waiters.is_empty()) t.contended.add(m);
        if (m.protocol == Protocol::Protect) {
            if (!t.ceilings) t.ceilings = std::make_unique<Ceilings>();
            t.ceilings->add(m.ceiling);
        }
        if (m.protocol == Protocol::Protect || !m.waiters.is_empty()) changed_.push_back(&t);
        return look_again();
    }

    bool begin_wait(Thread& t, Mutex& m) {
        if (m.owner != &t) nest(t, m);
        if (m.owner && m.waiters.is_empty()) m.owner->contended.add(m);
        m.waiters.add(t);
        t.awaits = &m;
        Wait& wait = t.wait;
        wait.line = line_;
        wait.began = clock_;
        wait.level = t.level;
        wait.owner = m.owner ? m.owner->number : 0;
        wait.its_level = m.owner ? m.owner->level : 0;
        wait.grant = m.owner ? m.grant : 0;
        wait.now.clock = wait.meanwhile.clock = clock_;
        changed_.push_back(&t);
        look_again();
        wait.gets = t.gets;
        return true;
    }

    bool give_up(Thread& t, Mutex& m) {
        leave(t);
        end_wait(t, m, line_);
        if (m.owner) changed_.push_back(m.owner);
        changed_.push_back(&t);
        return look_again();
    }

    bool release(Thread& t, Mutex& m) {
        if (--m.depth) return true;
        const bool is_protect = m.protocol == Protocol::Protect;
        if (is_protect) t.ceilings->remove(m.ceiling);
        if (is_protect || !m.waiters.is_empty()) changed_.push_back(&t);
        if (!m.waiters.is_empty()) t.contended.remove(m);
        for (Thread& waiter : m.waiters) changed_.push_back(&waiter);
        t.owned.remove(m);
        m.owner = nullptr;
        end_section(t, m);
        return look_again();
    }

    bool set_ceiling(Mutex& m, uint8_t level) {
        if (m.owner) {
            m.owner->ceilings->remove(m.ceiling);
            m.owner->ceilings->add(level);
            changed_.push_back(m.owner);
        }
        m.ceiling = level;
        return look_again();
    }

    bool switch_on(Thread& t, Cpu& cpu) {
        know(t);
        end_off(t);
        be_late(t);
        t.cpu = &cpu;
        cpu.thread = &t;
        turn(cpu);
        for (Thread& waiting : t.held_up) stand_in(waiting);
        return true;
    }

    bool switch_off(Thread& t, bool is_ready) {
        know(t);
        if (t.is_on()) {
            t.cpu->thread = nullptr;
            turn(*t.cpu);
        }
        if (!t.is_off) t.off_since = clock_;
        t.is_off = true;
        t.is_ready = is_ready;
        be_late(t);
        for (Thread& waiting : t.held_up) stand_in(waiting);
        return true;
    }

    // It isn't known any more what the kernel does.
    bool lose() {
        for (Thread* t : known_) {
            if (!t->is_on()) continue;
            t->cpu->thread = nullptr;
            turn(*t->cpu);
        }
        std::sort(known_.begin(), known_.end(), is_lower_number);
        for (Thread* t : known_) {
            end_off(*t);
            be_late(*t);
            t->cpu = nullptr;
            t->runs = UNKNOWN;
            t->is_known = false;
            compare(*t);
        }
        known_.clear();
        return true;
    }

    void know(Thread& t) {
        if (!t.is_known) known_.push_back(&t);
        t.is_known = true;
    }

    void end_off(Thread& t) {
        t.off_for = t.off_until(clock_);
        t.is_off = t.is_ready = false;
    }

    // A thread doesn't wait for its mutex any more.
    void leave(Thread& t) {
        Mutex& m = *t.awaits;
        m.waiters.remove(t);
        if (m.owner && m.waiters.is_empty()) m.owner->contended.remove(m);
        t.awaits = nullptr;
    }

    void nest(Thread& t, Mutex& m) {
        for (Mutex& outer : t.owned) {
            Nest& nest = nests_.at({t.number, outer.number, m.number});
            if (!nest.count++) nest = {1, outer.grant, line_};
        }
    }

    // ---- what a line changes for those that wait

    // Looks at the component of each thread that the line changed, once. Returns true.
    bool look_again() {
        for (Thread* t : changed_) {
            if (t->gathered == line_) continue;
            if (!t->blocker() && t->contended.is_empty()) {
                t->passed_on = t->own();
                look_at(*t, nullptr);
                continue;
            }
            Thread* runner = gather(*t);
            pass_on(!runner);
            for (Thread* member : component_) look_at(*member, runner);
        }
        changed_.clear();
        for (Thread* t : moved_) turn(*t->cpu);
        moved_.clear();
        if (compared_.size() > 1) std::sort(compared_.begin(), compared_.end(), is_lower_number);
        for (Thread* t : compared_) compare(*t);
        compared_.clear();
        return true;
    }

    // Gathers a component, each thread after its blocker. Returns where all its ways end, or null.
    Thread* gather(Thread& from) {
        ++walks_;
        Thread* last = &from;
        last->passed = walks_;
        Thread* owner = last->blocker();
        for (; owner && owner->passed != walks_; owner = last->blocker()) {
            last = owner;
            last->passed = walks_;
        }
        component_.clear();
        add_to_component(*last);
        for (size_t i = 0; i < component_.size(); ++i)
            for (Mutex& mutex : component_[i]->contended)
                for (Thread& waiter : mutex.waiters) add_to_component(waiter);
        return owner ? nullptr : last;
    }

    void add_to_component(Thread& t) {
        if (t.gathered == line_) return;
        t.gathered = line_;
        t.passed_on = t.own();
        component_.push_back(&t);
    }

    // Works out what each thread of the component gets.
    void pass_on(bool is_cycle) {
        const auto pass = [](const Thread& t) {
            Thread& owner = *t.awaits->owner;
            if (t.awaits->protocol == Protocol::Inherit && owner.passed_on < t.passed_on)
                owner.passed_on = t.passed_on;
        };
        for (size_t i = component_.size(); --i > 0;) pass(*component_[i]);
        if (!is_cycle) return;
        // The first one has all that reaches it now, and passes it once around the cycle.
        Thread& first = *component_.front();
        pass(first);
        for (Thread* t = first.blocker(); t != &first; t = t->blocker()) pass(*t);
    }

    // The blame of those before it on its way is known: they were looked at earlier.
    State state_of(Thread& t, Thread* runner) const {
        if (!runner || runner == &t) return {};
        if (runner->object) return {Kind::Stalled, runner->object, runner->number};
        if (runner->gets >= t.gets) return {runner->level < t.gets ? Kind::Lower : Kind::Nothing};
        Mutex* blame = t.awaits;
        while (blame->owner->gets >= t.gets) blame = blame->owner->wait.blame;
        t.wait.blame = blame;
        return {Kind::Inverted, blame->number, runner->number, runner->gets};
    }

    // Notes what a thread gets now, and what holds of its wait. The runner is null around a cycle.
    void look_at(Thread& t, Thread* runner) {
        if (t.gets != t.passed_on && t.runs == UNKNOWN && t.is_on()) moved_.push_back(&t);
        t.gets = t.passed_on;
        if (t.runs != UNKNOWN || t.ran.line) compared_.push_back(&t);
        if (!t.awaits) return;
        change(t.wait, t.wait.now, state_of(t, runner));
        hold_up(t, t.wait.now.state.kind() == Kind::Inverted ? runner : nullptr);
        stand_in(t);
    }

    // Something else holds of a wait from now on.
    void change(Wait& wait, Since& since, const State& to) {
        if (since.state == to) return;
        if (since.state.kind() != Kind::Nothing && clock_ > since.clock)
            wait.sums.add(since.state, clock_ - since.clock);
        since = {to, clock_};
    }

    // This is the runner for which a thread is inverted from now on, or null.
    void hold_up(Thread& t, Thread* runner) {
        Thread* before = std::exchange(t.wait.runner, runner);
        if (before == runner) return;
        if (before) {
            before->held_up.remove(t);
            be_late(*before);
        }
        if (runner) {
            runner->held_up.add(t);
            be_late(*runner);
        }
    }

    void be_late(Thread& runner) {
        const bool is_late = runner.is_ready && runner.cpu && !runner.held_up.is_empty();
        if (is_late == runner.is_late) return;
        runner.is_late = is_late;
        if (is_late) runner.cpu->late.add(runner);
        else runner.cpu->late.remove(runner);
    }

    // Notes which thread runs in place of a thread's runner.
    void stand_in(Thread& t) {
        const Thread* runner = t.wait.runner;
        const bool is_late = runner && runner->is_late;
        const Thread* there = is_late ? runner->cpu->thread : nullptr;
        State state;
        if (there && there != &t && there->running_level() < t.gets)
            state = {Kind::Meanwhile, there->number, 0, there->running_level()};
        change(t.wait, t.wait.meanwhile, state);
    }

    // Another thread is on a CPU, or it is run at another level.
    void turn(Cpu& cpu) {
        for (Thread& runner : cpu.late)
            for (Thread& waiting : runner.held_up) stand_in(waiting);
    }

    void compare(Thread& t) {
        const bool differs = t.runs != UNKNOWN && t.runs != t.gets;
        const bool is_same = differs && t.ran.level == t.runs && t.ran.gets == t.gets;
        if (t.ran.line && !is_same) end_ran(t, line_);
        if (differs && !t.ran.line) t.ran = {line_, clock_, t.runs, t.gets};
    }

    // ---- what ends

    void end_wait(Thread& t, Mutex& m, uint64_t until) {
        Wait& wait = t.wait;
        change(wait, wait.now, {});
        change(wait, wait.meanwhile, {});
        hold_up(t, nullptr);
        wait.sums.merge();
        const uint64_t inverted = wait.sums.of(Kind::Inverted);
        const uint64_t lower = inverted + wait.sums.of(Kind::Lower);
        ++waits_;
        inverted_ += inverted > 0;
        out_.row("wait", wait.line, until, t.number, m.number, wait.began, clock_ - wait.began,
                 wait.level, wait.gets, wait.owner, wait.its_level, wait.grant, inverted, lower,
                 wait.sums.of(Kind::Stalled));
        for (const auto& [state, time] : wait.sums.all()) {
            if (state.kind() == Kind::Inverted)
                out_.row("inverted", wait.line, state.what, state.runner(), state.level(), time);
            if (state.kind() == Kind::Stalled)
                out_.row("stalled", wait.line, state.what, state.runner(), time);
            if (state.kind() == Kind::Meanwhile)
                out_.row("meanwhile", wait.line, state.what, state.level(), time);
        }
        wait.sums.clear();
    }

    void end_block(Thread& t, uint64_t until, Ended ended, const Thread* by) {
        out_.row("blocked", t.block_line, until, t.number, t.object, t.block_began,
                 clock_ - t.block_began, t.block_level, uint64_t(ended), by ? by->number : 0,
                 by ? by->level : 0);
        t.object = 0;
    }

    void end_ran(Thread& t, uint64_t until) {
        const Ran ran = std::exchange(t.ran, {});
        if (clock_ > ran.began)
            out_.row("ran", ran.line, until, t.number, ran.began, clock_ - ran.began, ran.level,
                     ran.gets);
    }

    void end_section(Thread& t, Mutex& m) {
        Section& section = sections_.at({t.number, m.number, m.level});
        const uint64_t lasted = clock_ - m.since;
        const uint64_t used = lasted - (t.off_until(clock_) - m.off_before);
        if (!section.count++ || lasted > section.longest) {
            section.longest = lasted;
            section.line = m.grant;
        }
        section.used = std::max(section.used, used);
    }

    // Writes the cycles of threads that wait for each other. Returns how many there are.
    uint64_t deadlocks(const std::vector<Thread*>& threads) {
        std::vector<Thread*> firsts;
        const uint64_t before = walks_;
        for (Thread* t : threads) {
            for (++walks_; t && t->passed <= before; t = t->blocker()) t->passed = walks_;
            if (!t || t->passed != walks_) continue;
            Thread* lowest = t;
            for (Thread* u = t->blocker(); u != t; u = u->blocker())
                if (u->number < lowest->number) lowest = u;
            firsts.push_back(lowest);
        }
        std::sort(firsts.begin(), firsts.end(), is_lower_number);
        for (Thread* first : firsts) {
            out_.begin("deadlock");
            out_.add(first->number);
            for (Thread* t = first->blocker(); t != first; t = t->blocker()) out_.add(t->number);
            out_.end();
        }
        return firsts.size();
    }

    // ---- what is known

    uint64_t line_ = 0, clock_ = 0, walks_ = 0, waits_ = 0, inverted_ = 0;
    bool has_ended_ = false;
    Table<uint64_t, Thread> threads_;
    Table<uint64_t, Mutex> mutexes_;
    Table<uint64_t, bool> objects_;
    Table<uint64_t, Cpu> cpus_;
    Table<Triple, Section> sections_;
    Table<Triple, Nest> nests_;
    Output out_;
    std::vector<Thread*> changed_;    // threads in each component that a line changed
    std::vector<Thread*> component_;  // the one that is looked at, each after its blocker
    std::vector<Thread*> moved_;      // threads on a CPU that get something else now
    std::vector<Thread*> compared_;   // threads whose level the kernel told
    std::vector<Thread*> known_;      // threads that the next `lost` concerns
};

// ---------------------------------------------------------------- standard input

// A block has whole lines, and what is left of a line is moved to its start. A valid line is
// shorter than a block by far.
constexpr size_t BLOCK = 1 << 18;
constexpr size_t PADDING = 64;  // a word that is looked for may be longer than what is left

enum class Text { Valid, Invalid, Unread };

Text read_all(Rows& rows) {
    std::vector<char> block(BLOCK + PADDING);
    char* const begin = block.data();
    for (size_t kept = 0;;) {
        const size_t got = std::fread(begin + kept, 1, BLOCK - kept, stdin);
        if (std::ferror(stdin)) return Text::Unread;
        const bool is_last = kept + got < BLOCK;
        const char* const end = begin + kept + got;
        const void* newline = memrchr(begin, '\n', size_t(end - begin));
        const char* stop = newline ? static_cast<const char*>(newline) + 1 : begin;
        // The last line may lack its newline. A line that fills a block isn't valid.
        if (stop != end && (is_last || !newline)) {
            begin[end - begin] = '\n';
            stop = end + 1;
        }
        for (const char* at = begin; at < stop;)
            if (!rows.read(at)) return Text::Invalid;
        if (is_last) return rows.line() ? Text::Valid : Text::Invalid;
        kept = size_t(end - stop);
        std::memmove(begin, stop, kept);
    }
}

}  // namespace

int main() {
    constexpr int WRONG = 2;
    Rows rows;
    const Text text = read_all(rows);
    if (text == Text::Invalid) {
        const auto line = std::max<uint64_t>(rows.line(), 1);
        std::fprintf(stderr, "pim-findings: line %llu\n", static_cast<unsigned long long>(line));
        return WRONG;
    }
    if (text == Text::Unread) {
        std::perror("pim-findings: standard input");
        return WRONG;
    }
    const bool is_bad = rows.finish();
    if (!rows.write_all()) {
        std::perror("pim-findings: standard output");
        return WRONG;
    }
    return is_bad;
}
