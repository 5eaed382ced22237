#define _GNU_SOURCE
#include "wrappers.h"

#include "symbols.h"

#include <dlfcn.h>
#include <errno.h>
#include <stdatomic.h>
#include <stddef.h>
#include <stdlib.h>
#include <string.h>
#include <sys/mman.h>
#include <unwind.h>

enum {
    FIRST_RANGES = 1024,
    STEPS = 1024,
    STEP_SHIFT = 22,
    STEP_PROBES = 8,
    MOST_STEP = 4096, /* bytes */
    MOST_FRAMES = 8 + MOST_WRAPPERS, /* of this library there are fewer than 8 */
};

_Static_assert(STEPS == 1 << (32 - STEP_SHIFT), "the upper bits of a hash are a step");

bool wrappers_are_known;

/* ---- the functions ---- */

struct range {
    uintptr_t begin, end;
    bool has_fixed_frame;
};

static struct range *ranges; /* in ascending order once all are found */
static size_t range_count, range_room;

/* Returns whether an identifier is one of some names, as a whole. */
static bool is_one_of(const char *const *names, size_t count, const char *name, size_t length) {
    for (size_t i = 0; i < count; i++)
        if (strncmp(names[i], name, length) == 0 && !names[i][length]) return true;
    return false;
}

/* Returns whether an identifier of namespace std or __gnu_cxx is that of a class or a function that
 * locks or waits. A part of a name says nothing: std::discard_block_engine has "lock". What calls a
 * function of the program may have it inlined, and isn't: of std::thread there is join alone. */
static bool is_of_lock(const char *name, size_t length) {
    static const char *const names[] = {
        "mutex", "recursive_mutex", "timed_mutex", "recursive_timed_mutex",
        "shared_mutex", "shared_timed_mutex", "condition_variable", "condition_variable_any",
        "lock_guard", "unique_lock", "scoped_lock", "shared_lock", "lock", "try_lock",
        /* of libstdc++ */
        "__mutex_base", "__recursive_mutex_base", "__timed_mutex_impl", "__shared_mutex_cv",
        "__shared_mutex_pthread", "__condvar", "_Sp_locker", "__lock_impl", "__try_lock_impl",
        "__try_to_lock", "__mutex", "__recursive_mutex", "__scoped_lock",
        "__glibcxx_rwlock_rdlock", "__glibcxx_rwlock_tryrdlock", "__glibcxx_rwlock_timedrdlock",
        "__glibcxx_rwlock_wrlock", "__glibcxx_rwlock_trywrlock", "__glibcxx_rwlock_timedwrlock",
        "__glibcxx_rwlock_unlock",
        /* of libc++ */
        "__shared_mutex_base", "__lock_first", "__lock_external", "__unlock",
        "__libcpp_mutex_lock", "__libcpp_mutex_trylock", "__libcpp_mutex_unlock",
        "__libcpp_recursive_mutex_init", "__libcpp_recursive_mutex_lock",
        "__libcpp_recursive_mutex_trylock", "__libcpp_recursive_mutex_unlock",
        "__libcpp_condvar_wait", "__libcpp_condvar_timedwait", "__libcpp_condvar_signal",
        "__libcpp_condvar_broadcast",
    };
    if (is_one_of(names, sizeof names / sizeof *names, name, length)) return true;
    return length == strlen("thread") && strncmp(name, "thread4join", strlen("thread4join")) == 0;
}

static bool is_namespace(const char *name, size_t length) {
    static const char *const names[] = { "__gnu_cxx", "__detail", "_V2", "__1" };
    return is_one_of(names, sizeof names / sizeof *names, name, length);
}

/* Returns whether a function locks or waits for its caller, by its mangled name without "_Z": one
 * of namespace std or __gnu_cxx, or of libstdc++'s header gthr-default.h. So does what calls a
 * lambda of such a function, as std::apply that of a destructor. */
static bool locks_for_caller(const char *name) {
    char *text = (char *)name;
    size_t length = 0;
    bool is_standard = false;
    name += strspn(name, "ZNKVROL"); /* what qualifies it */
    do {
        if (length || strncmp(name, "St", 2) == 0) is_standard = true;
        if (strncmp(name, "St", 2) == 0) name += 2 + (name[2] == 'L');
        length = strtoul(name, &text, 10);
        if (length == 0 || strnlen(text, length) < length) return false;
        name = text + length;
    } while (is_namespace(text, length));
    if (!is_standard) return strncmp(text, "__gthread_", 10) == 0;
    if (is_of_lock(text, length)) return true;
    name += *name == 'I' ? 1 + (name[1] == 'v') : 0;
    return *name == 'Z' && locks_for_caller(name);
}

static bool is_wrapper(const char *name) {
    return strncmp(name, "_Z", 2) == 0 && locks_for_caller(name + 2);
}

/* Passes "St", or what stands for a part of the name before, as "S_" or "S1_". Returns NULL where
 * it is neither. */
static const char *pass_prefix(const char *name) {
    if (*name++ != 'S') return NULL;
    if (*name == 't') return name + 1;
    name += strspn(name, "0123456789ABCDEFGHIJKLMNOPQRSTUVWXYZ");
    return *name == '_' ? name + 1 : NULL;
}

/* Passes as many identifiers as there are. Returns NULL where the name ends within one. */
static const char *pass_identifiers(const char *name) {
    while (*name >= '0' && *name <= '9') {
        char *text;
        size_t length = strtoul(name, &text, 10);
        if (strnlen(text, length) < length) return NULL;
        name = text + length;
    }
    return name;
}

/* Passes the arguments of a template, up to their E, if all are of namespace std. Returns NULL
 * where they aren't, or it isn't sure. */
static const char *pass_standard(const char *name) {
    while (name && *name != 'E') {
        bool is_nested = *name == 'N', is_pack = *name == 'J';
        name = is_pack ? pass_standard(name + 1) : pass_prefix(name + is_nested);
        if (name && !is_pack) name = pass_identifiers(name);
        if (name && is_nested) name = *name == 'E' ? name + 1 : NULL;
    }
    return name ? name + 1 : NULL;
}

/* Passes a part of a nested name: identifiers, also of a static function or with a tag, the
 * arguments of a template, the number of a constructor or destructor. Returns NULL where it is
 * something else, or has an argument of the program. */
static const char *pass_part(const char *name) {
    if (*name == 'S') return pass_prefix(name);
    if (*name == 'I') return pass_standard(name + 1);
    if ((*name == 'C' || *name == 'D') && name[1]) return name + 2;
    name += *name == 'L' || *name == 'B';
    return *name >= '0' && *name <= '9' ? pass_identifiers(name) : NULL;
}

/* Returns whether the frame of such a function has a fixed size, by its mangled name: it can't have
 * code of the program inlined, as a predicate with an array of a size of its own, since none of its
 * arguments is of the program. */
static bool has_fixed_frame(const char *name) {
    size_t qualifiers = 2 + strspn(name + 2, "ZNKVROL");
    bool is_nested = memchr(name, 'N', qualifiers) != NULL;
    name += qualifiers;
    while (is_nested && name && *name != 'E') name = pass_part(name);
    if (is_nested) return name != NULL;
    name = pass_identifiers(strncmp(name, "St", 2) == 0 ? name + 2 : name);
    return name && (*name != 'I' || pass_standard(name + 1));
}

/* Makes room for further ranges. malloc may be the program's own. */
static bool make_room(void) {
    size_t room = range_room ? 2 * range_room : FIRST_RANGES;
    size_t had = range_room * sizeof *ranges, bytes = room * sizeof *ranges;
    const int rights = PROT_READ | PROT_WRITE, how = MAP_PRIVATE | MAP_ANONYMOUS;
    void *made = had ? mremap(ranges, had, bytes, MREMAP_MAYMOVE)
                     : mmap(NULL, bytes, rights, how, -1, 0);
    if (made == MAP_FAILED) return false;
    ranges = made;
    range_room = room;
    return true;
}

static void add_range(uintptr_t begin, size_t bytes, const char *name) {
    if (range_count == range_room && !make_room()) return;
    ranges[range_count++] = (struct range){ begin, begin + bytes, has_fixed_frame(name) };
}

/* Adds the functions of a file that is loaded. One that is stripped has those that it exports. The
 * program is the first, and what the kernel makes is in no folder. */
static int add_file(struct dl_phdr_info *info, size_t size, void *is_other) {
    struct symbols read;
    const char *path = *(bool *)is_other ? info->dlpi_name : "/proc/self/exe";
    (void)size;
    *(bool *)is_other = true;
    if (!strchr(path, '/')) return 0;
    if (!symbols_read(&read, path, SHT_SYMTAB) && !symbols_read(&read, path, SHT_DYNSYM)) return 0;
    for (size_t at = 0; at < read.count; at++) {
        const ElfW(Sym) *symbol = &read.its[at];
        bool is_function = ELF64_ST_TYPE(symbol->st_info) == STT_FUNC && symbol->st_size;
        const char *name = symbols_name(&read, at);
        if (is_function && symbol->st_shndx != SHN_UNDEF && is_wrapper(name))
            add_range(info->dlpi_addr + symbol->st_value, symbol->st_size, name);
    }
    symbols_forget(&read);
    return 0;
}

static int by_begin(const void *one, const void *other) {
    uintptr_t begin = ((const struct range *)one)->begin;
    uintptr_t its = ((const struct range *)other)->begin;
    return (begin > its) - (begin < its);
}

/* Returns the function in which a call is made that returns to this address, or NULL. */
static const struct range *range_of(uintptr_t place) {
    size_t from = 0, to = range_count; /* those before `from` begin before the place */
    while (from < to) {
        size_t middle = from + (to - from) / 2;
        if (ranges[middle].begin < place)
            from = middle + 1;
        else
            to = middle;
    }
    /* A call may be a function's last instruction. */
    return from > 0 && place <= ranges[from - 1].end ? &ranges[from - 1] : NULL;
}

bool wrappers_have(uintptr_t place) {
    return range_of(place) != NULL;
}

/* ---- the unwinder ---- */

static _Unwind_Reason_Code (*unwind)(_Unwind_Trace_Fn, void *);
static _Unwind_Word (*cfa_of)(struct _Unwind_Context *);
static _Unwind_Ptr (*ip_of)(struct _Unwind_Context *);

/* Loads the unwinder. Returns false where there is none, or it would take a lock: the loader's,
 * which a thread may hold while it waits for another one that asks for a mutex. */
static bool load_unwinder(void) {
    void *library = dlopen("libgcc_s.so.1", RTLD_NOW | RTLD_LOCAL);
    struct link_map *map;
    struct symbols read;
    if (!library || dlinfo(library, RTLD_DI_LINKMAP, &map) != 0) return false;
    if (!symbols_read(&read, map->l_name, SHT_DYNSYM)) return false;
    bool is_free = symbols_import(&read, "_dl_find_object");
    symbols_forget(&read);
    *(void **)&unwind = dlsym(library, "_Unwind_Backtrace");
    *(void **)&cfa_of = dlsym(library, "_Unwind_GetCFA");
    *(void **)&ip_of = dlsym(library, "_Unwind_GetIP");
    return is_free && unwind && cfa_of && ip_of;
}

/* ---- from a function to its caller ---- */

/* A place in such a function whose frame has a fixed size, and how many bytes further on the stack
 * it is where it says to which place the function returns. */
struct step {
    _Atomic uintptr_t place;
    _Atomic uint32_t bytes; /* 0: it isn't known */
};

static struct step steps[STEPS];

/* Returns the step of a place, or where there is room for it, or NULL. */
static struct step *step_of(uintptr_t place) {
    uint32_t slot = ((uint32_t)place * UINT32_C(0x9e3779b1)) >> STEP_SHIFT;
    for (int i = 0; i < STEP_PROBES; i++, slot = (slot + 1) % STEPS) {
        uintptr_t there = atomic_load_explicit(&steps[slot].place, memory_order_relaxed);
        if (there == place || there == 0) return &steps[slot];
    }
    return NULL;
}

/* Keeps a step, unless there is no room, another thread has just taken it, or it isn't one that a
 * fixed frame makes. */
static void keep(uintptr_t place, ptrdiff_t bytes) {
    uintptr_t none = 0;
    const struct range *function = range_of(place);
    if (!function || !function->has_fixed_frame || bytes <= 0 || bytes > MOST_STEP) return;
    struct step *step = step_of(place);
    if (!step) return;
    if (atomic_compare_exchange_strong(&step->place, &none, place) || none == place)
        atomic_store_explicit(&step->bytes, (uint32_t)bytes, memory_order_relaxed);
}

uintptr_t wrappers_pass(const uintptr_t *at) {
    for (int i = 0; i < MOST_WRAPPERS; i++) {
        const struct step *step = step_of(*at);
        if (!step || atomic_load_explicit(&step->place, memory_order_relaxed) != *at) break;
        at += atomic_load_explicit(&step->bytes, memory_order_relaxed) / sizeof *at;
    }
    return *at;
}

/* The frames from the recorder's own ones outwards. */
struct walk {
    uintptr_t call;       /* the place of the call */
    uintptr_t caller;     /* the place that is wanted, or 0 */
    uintptr_t before;     /* the last place in such a function, or 0 before the call's */
    const uintptr_t *at;  /* where it is on the stack, or NULL */
    unsigned frames;
};

/* Returns where on the stack the place of a frame is. On other machines than this one it needn't be
 * there. */
static const uintptr_t *slot_of(struct _Unwind_Context *frame) {
#ifdef __x86_64__
    const uintptr_t *at = (const uintptr_t *)cfa_of(frame) - 1;
    return *at == ip_of(frame) ? at : NULL;
#else
    (void)frame;
    return NULL;
#endif
}

static _Unwind_Reason_Code look(struct _Unwind_Context *frame, void *of) {
    struct walk *walk = of;
    uintptr_t place = ip_of(frame);
    if (++walk->frames > MOST_FRAMES) return _URC_END_OF_STACK;
    if (!walk->before && place != walk->call) return _URC_NO_REASON;
    const uintptr_t *at = slot_of(frame);
    if (walk->at && at) keep(walk->before, (const char *)at - (const char *)walk->at);
    walk->before = place;
    walk->at = at;
    if (wrappers_have(place)) return _URC_NO_REASON;
    walk->caller = place;
    return _URC_END_OF_STACK;
}

uintptr_t wrappers_unwind(const uintptr_t *at) {
    struct walk walk = { .call = *at };
    int error = errno;
    unwind(look, &walk);
    errno = error;
    return walk.caller;
}

void wrappers_find(void) {
    bool is_other = false;
    uintptr_t none = 0;
    dl_iterate_phdr(add_file, &is_other);
    wrappers_are_known = range_count > 0 && load_unwinder();
    if (!wrappers_are_known) return;
    qsort(ranges, range_count, sizeof *ranges, by_begin);
    wrappers_unwind(&none); /* what it calls is found now */
}
