#define _GNU_SOURCE
#include "shared.h"

#include "held.h"
#include "stacks.h"

#include <errno.h>
#include <fcntl.h>
#include <stdio.h>
#include <stdlib.h>
#include <string.h>
#include <sys/mman.h>
#include <sys/socket.h>
#include <sys/un.h>
#include <unistd.h>

#ifndef MADV_POPULATE_WRITE
#define MADV_POPULATE_WRITE 23
#endif

_Alignas(sizeof(union own_page)) union own_page log_own;
static struct header *made; /* also in a forked process */
__thread struct cursor log_cursor;
uint64_t log_step = 1;
_Atomic bool log_is_quiet;

static struct shared *shared; /* the memory, up to the end of its first part of slots */
static char *_Atomic parts[MOST_SLOTS / PART_SLOTS]; /* where the slots are; NULL: not mapped yet */
static uint64_t slots;        /* for how many chunks the memory has room */
static _Atomic uint64_t touched; /* slots below this one were touched by this process */
static _Atomic uint64_t touched_late[MOST_SLOTS / 64]; /* a bit for each of the others */
static _Atomic bool has_real_time;
static bool is_first_program; /* of those that the recording has started */
static bool are_chunks_shared; /* by threads, one after another */
static const struct record *next_when_begun; /* the record of the first thread */
static uint32_t process;

/* ---- the collector ---- */

/* Connects with a collector. The name has a zero byte in front if it is abstract. Returns the
 * descriptor, or -1 with errno set. */
static int reach_at(const char *name, size_t length) {
    struct sockaddr_un address = { .sun_family = AF_UNIX };
    errno = ENAMETOOLONG;
    if (length > sizeof address.sun_path) return -1;
    memcpy(address.sun_path, name, length);
    socklen_t bytes = (socklen_t)(offsetof(struct sockaddr_un, sun_path) + length);
    int collector = socket(AF_UNIX, SOCK_SEQPACKET | SOCK_CLOEXEC, 0);
    if (collector < 0 || connect(collector, (struct sockaddr *)&address, bytes) == 0)
        return collector;
    int error = errno;
    close(collector);
    errno = error;
    return -1;
}

/* Connects with the collector of a name: NAME of its abstract socket, or NAME:PATH, with the
 * path of another one. Returns the descriptor, or -1 with errno set. */
static int reach(const char *name) {
    char abstract[sizeof((struct sockaddr_un *)0)->sun_path + 1] = "";
    size_t length = strcspn(name, ":");
    errno = ENAMETOOLONG;
    if (length + 1 >= sizeof abstract) return -1;
    memcpy(abstract + 1, name, length);
    int collector = reach_at(abstract, 1 + length);
    if (collector >= 0 || !name[length]) return collector;
    const char *path = name + length + 1;
    return reach_at(path, strlen(path) + 1);
}

/* Receives the answer and, if it is a good one, the descriptor of the memory. Returns that or
 * -1. */
static int receive(int collector, struct answer *answer) {
    _Alignas(struct cmsghdr) char space[CMSG_SPACE(sizeof(int))];
    struct iovec part = { answer, sizeof *answer };
    struct msghdr message = {
        .msg_iov = &part, .msg_iovlen = 1, .msg_control = space, .msg_controllen = sizeof space };
    int memory = -1;
    ssize_t length = recvmsg(collector, &message, MSG_CMSG_CLOEXEC);
    if (length >= 0) errno = EPROTO;
    if (length != sizeof *answer) return -1;
    struct cmsghdr *part_of_it = CMSG_FIRSTHDR(&message);
    if (part_of_it && part_of_it->cmsg_type == SCM_RIGHTS)
        memcpy(&memory, CMSG_DATA(part_of_it), sizeof memory);
    return memory;
}

/* Maps the memory, and touches what isn't a slot. Linux does so from 5.14 on; with an older one
 * the calls that use it do. */
static bool map_memory(int memory, const struct answer *answer) {
    const int rights = PROT_READ | PROT_WRITE;
    void *mapped = mmap(NULL, shared_bytes(PART_SLOTS), rights, MAP_SHARED, memory, 0);
    if (mapped == MAP_FAILED) return false;
    madvise(mapped, sizeof *shared, MADV_POPULATE_WRITE);
    shared = mapped;
    slots = answer->slots;
    atomic_store(&parts[0], (char *)shared->slots);
    return true;
}

/* Returns whether a clock that is read twice in a row tells two times. Then so do two threads of
 * which one passes a mutex to the other. */
static bool has_fine_clock(void) {
    uint64_t before = clock_time();
    for (int i = 0; i < 64; i++) {
        uint64_t now = clock_time();
        if (now <= before) return false;
        before = now;
    }
    return true;
}

/* Gets and maps the memory of a log. Returns whether there is one. */
static bool ask(const char *name) {
    const struct request request = { .version = SHARED_VERSION, .process = (uint32_t)getpid() };
    struct answer answer = { .version = 0 };
    bool is_mapped = false;
    int memory = -1, collector = reach(name);
    bool is_reached = collector >= 0 &&
                      send(collector, &request, sizeof request, MSG_NOSIGNAL) == sizeof request;
    if (is_reached) memory = receive(collector, &answer);
    if (memory >= 0) is_mapped = map_memory(memory, &answer);
    is_first_program = answer.is_first;
    are_chunks_shared = answer.is_shared;
    log_step = has_fine_clock() ? 0 : 1;
    if (is_mapped && answer.is_contended) held_start(shared);
    if (is_mapped && answer.has_stacks) stacks_start();
    if (is_mapped) is_mapped = send(collector, "m", 1, MSG_NOSIGNAL) == 1;
    if (!is_mapped && answer.version == 0)
        dprintf(STDERR_FILENO, "pim-record: process %d isn't recorded: the recorder: %s\n",
                (int)getpid(), strerror(errno));
    if (memory >= 0) close(memory);
    if (collector >= 0) close(collector);
    return is_mapped;
}

/* ---- slots ---- */

/* Maps a part behind the one before. More than one is seldom used, and a program that locks its
 * memory locks what is mapped. No descriptor is there any more; but a mapping of shared memory
 * can be made anew, and longer, from its last page on. */
static bool map_part(uint64_t part) {
    if (atomic_load(&log_is_quiet)) return false;
    char *last_page = atomic_load(&parts[part - 1]) + PART_BYTES - PAGE, *none = NULL;
    char *mapped = mremap(last_page, 0, PAGE + PART_BYTES, MREMAP_MAYMOVE);
    if (mapped == MAP_FAILED) return false;
    if (!atomic_compare_exchange_strong(&parts[part], &none, mapped + PAGE))
        munmap(mapped, PAGE + PART_BYTES); /* another thread was quicker */
    return true;
}

/* Returns where a slot is, or NULL where it can't be mapped. */
static char *address_of(uint64_t slot) {
    uint64_t part = slot / PART_SLOTS;
    for (uint64_t i = atomic_load(&parts[part]) ? part : 1; i <= part; i++)
        if (!atomic_load(&parts[i]) && !map_part(i)) return NULL;
    return atomic_load(&parts[part]) + slot % PART_SLOTS * CHUNK_BYTES;
}

/* Has the pages of slots there, so that a lack of memory ends the log and not the program.
 * Linux does so from 5.14 on; an older one says EINVAL. Without a system call, each page comes as
 * it is used. */
static bool touch(uint64_t slot, uint64_t count) {
    while (count > 0) {
        uint64_t here = PART_SLOTS - slot % PART_SLOTS;
        char *memory = address_of(slot);
        if (here > count) here = count;
        if (!memory) return false;
        bool is_asked = !atomic_load(&log_is_quiet);
        if (is_asked && madvise(memory, here * CHUNK_BYTES, MADV_POPULATE_WRITE) != 0 &&
            errno != EINVAL)
            return false;
        slot += here;
        count -= here;
    }
    return true;
}

/* Touches all slots below one. Those that had no chunk yet can be used by all then. */
static void touch_slots(uint64_t wanted) {
    uint64_t from = atomic_load(&touched), first = atomic_load(&shared->next_slot);
    if (wanted > slots) wanted = slots;
    if (from >= wanted) return;
    if (from < first) touch(from, (first < wanted ? first : wanted) - from);
    while (first < wanted &&
           !atomic_compare_exchange_weak(&shared->next_slot, &first, wanted)) continue;
    if (first < wanted && !touch(first, wanted - first)) return;
    for (uint64_t slot = first; slot < wanted; slot++)
        atomic_fetch_or(&shared->free[slot / 64], UINT64_C(1) << slot % 64);
    atomic_store(&touched, wanted);
}

/* Returns how many slots can be used, up to FREE_SLOTS. */
static unsigned count_free(uint64_t used) {
    unsigned count = 0;
    for (uint64_t word = 0; word * 64 < used && count < FREE_SLOTS; word++)
        count += (unsigned)__builtin_popcountll(atomic_load(&shared->free[word]));
    return count;
}

void log_prepare(void) {
    int error = errno;
    if (atomic_load(&log_is_quiet)) return;
    touch_slots(MANY_SLOTS);
    uint64_t used = atomic_load(&shared->next_slot);
    if (used < slots && count_free(used) < FREE_SLOTS) touch_slots(used + FREE_SLOTS);
    errno = error;
}

void log_has_real_time(void) {
    atomic_store(&has_real_time, true);
    log_prepare();
}

void log_is_real_time(bool is_real_time) {
    log_cursor.is_real_time = is_real_time;
    if (is_real_time) log_has_real_time();
}

void log_be_quiet(void) {
    int error = errno;
    log_prepare();
    for (uint64_t part = 1; part < QUIET_PARTS && part * PART_SLOTS < slots; part++)
        if (!atomic_load(&parts[part]) && !map_part(part)) break;
    atomic_store(&log_is_quiet, true);
    errno = error;
}

/* Pages that are mapped stay so in a forked process, but each has to be touched there anew. */
void log_is_forked(uint32_t forked) {
    log_header = made;
    process = forked;
    atomic_store(&touched, 0);
    for (uint64_t slot = 0; slot < atomic_load(&shared->next_slot) && slot < slots; slot += 64)
        atomic_store(&touched_late[slot / 64], 0);
    if (!atomic_load(&log_is_quiet)) madvise(shared, sizeof *shared, MADV_POPULATE_WRITE);
}

/* ---- making the log ---- */

static const char log_magic[8] = LOG_MAGIC;

static uint32_t read_command(char *into) {
    int file = open("/proc/self/cmdline", O_RDONLY | O_CLOEXEC);
    if (file < 0) return 0;
    ssize_t bytes = read(file, into, COMMAND_BYTES);
    close(file);
    return bytes < 0 ? 0 : (uint32_t)bytes;
}

static uint64_t realtime(void) {
    struct timespec now;
    clock_gettime(CLOCK_REALTIME, &now);
    return (uint64_t)now.tv_sec * 1000000000u + (uint64_t)now.tv_nsec;
}

/* Has a forked process begin without the log. Only memory without a file can be had so. */
static void wipe_on_fork(void) {
    const int rights = PROT_READ | PROT_WRITE, how = MAP_PRIVATE | MAP_ANONYMOUS | MAP_FIXED;
    if (mmap(&log_own, sizeof log_own, rights, how, -1, 0) == MAP_FAILED) return;
    madvise(&log_own, sizeof log_own, MADV_WIPEONFORK);
}

void log_make(void) {
    const char *name = getenv("PIM_RECORD");
    if (!name || !ask(name)) return;
    struct header *header = &shared->header;
    memcpy(header->magic, log_magic, sizeof log_magic);
    header->version = LOG_VERSION;
    header->byte_order = LOG_BYTE_ORDER;
    header->header_bytes = HEADER_BYTES;
    header->record_bytes = sizeof(struct record);
    header->chunk_records = CHUNK_RECORDS;
    header->known = inner_known;
    header->contents = HAS_PLACES | (log_step ? 0 : HAS_TIMES);
    header->process = process = (uint32_t)getpid();
    header->parent = (uint32_t)getppid();
    header->began_monotonic = clock_time();
    header->began_realtime = realtime();
    header->command_bytes = read_command(header->command);
    touch_slots(FEW_SLOTS);
    atomic_store(&header->next_thread, 1);
    /* Last: the collector takes the header from now on. */
    atomic_store(&header->next_number, log_step ? log_step : 1);
    wipe_on_fork();
    log_header = made = header;
}

void log_has_begun(void) {
    next_when_begun = log_cursor.next;
}

bool log_remove_unused(void) {
    bool is_used = atomic_load(&log_header->next_thread) > 2 || log_cursor.next != next_when_begun;
    if (is_used || is_first_program) return false;
    atomic_store(&shared->is_unused, 1);
    return true;
}

/* ---- chunks ---- */

/* Returns the number of a slot that the collector has given back, or that was touched ahead, from
 * `first` on, or `slots`. The lowest come first: they are in the CPU's cache. */
static uint64_t take_free_slot(uint64_t first) {
    uint64_t used = atomic_load(&shared->next_slot);
    for (uint64_t word = first / 64; word * 64 < used; word++) {
        uint64_t bits = atomic_load_explicit(&shared->free[word], memory_order_relaxed);
        while (bits) {
            uint64_t lowest = bits & -bits;
            bits = atomic_fetch_and_explicit(&shared->free[word], ~lowest, memory_order_acquire);
            if (bits & lowest) return word * 64 + (uint64_t)__builtin_ctzll(lowest);
        }
    }
    return slots;
}

/* Returns the number of a slot that had no chunk yet, or `slots`: the collector couldn't keep
 * up. */
static uint64_t take_fresh_slot(void) {
    if (atomic_load(&shared->next_slot) >= slots) return slots;
    return atomic_fetch_add(&shared->next_slot, 1);
}

/* Returns a slot for a chunk of the calling thread, or `slots`. */
static uint64_t take_slot(void) {
    bool is_limited = atomic_load(&has_real_time) && !log_cursor.is_real_time;
    uint64_t slot = take_free_slot(is_limited ? OWN_SLOTS : 0);
    if (slot == slots) slot = take_fresh_slot();
    return slot == slots && is_limited ? take_free_slot(0) : slot;
}

/* Touches a slot, but for one that this process has touched. */
static bool touch_late(uint64_t slot) {
    uint64_t bit = UINT64_C(1) << slot % 64;
    if (slot < atomic_load(&touched) || atomic_load(&touched_late[slot / 64]) & bit) return true;
    if (!touch(slot, 1)) return false;
    atomic_fetch_or(&touched_late[slot / 64], bit);
    return true;
}

/* Returns where a slot is that is to be used, or NULL where it can't be had. One that nobody has
 * touched ahead is touched here. */
static char *use_slot(uint64_t slot) {
    return slot < slots && touch_late(slot) ? address_of(slot) : NULL;
}

static void give_back_slot(uint64_t slot) {
    atomic_fetch_or(&shared->free[slot / 64], UINT64_C(1) << slot % 64);
}

/* Where a thread's records begin: in a chunk of its own, or behind those of others. */
struct beginning {
    char *chunk; /* NULL where there is no room */
    uint64_t slot, used;
    uint64_t place; /* of a new chunk in the file, from 1 on */
};

/* Begins in a new chunk. */
static struct beginning in_new_chunk(void) {
    struct beginning begun = { .slot = slots };
    struct header *header = log_header;
    uint64_t chunks = atomic_load(&header->chunks);
    if (atomic_load(&header->next_chunk) >= chunks) return begun;
    begun.slot = take_slot();
    char *memory = use_slot(begun.slot);
    if (!memory) return begun;
    begun.place = atomic_fetch_add(&header->next_chunk, 1) + 1;
    if (begun.place <= chunks)
        begun.chunk = memory;
    else
        give_back_slot(begun.slot); /* other threads were quicker */
    return begun;
}

/* Begins in a chunk that an ended thread left. */
static struct beginning in_left_chunk(void) {
    struct beginning begun = { .chunk = NULL };
    bool is_wanted = are_chunks_shared && !atomic_load(&log_is_quiet);
    for (size_t i = 0; is_wanted && !begun.chunk && i < MOST_LEFT; i++) {
        uint64_t left = atomic_load_explicit(&shared->left[i], memory_order_relaxed);
        if (left) left = atomic_exchange(&shared->left[i], 0);
        if (!left) continue;
        begun.slot = (left >> 16) - 1;
        begun.used = left & 0xffff;
        begun.chunk = use_slot(begun.slot);
    }
    return begun;
}

/* Puts the head of the thread's records. */
static void put_head(const struct beginning *begun) {
    struct record *records = (struct record *)begun->chunk;
    struct chunk_head *head = (struct chunk_head *)&records[begun->used];
    if (log_cursor.thread == 0)
        log_cursor.thread = (uint32_t)atomic_fetch_add(&log_header->next_thread, 1);
    head->process = process;
    head->task = log_cursor.task;
    head->thread = log_cursor.thread;
    head->index = log_cursor.chunks++;
    atomic_store_explicit(&head->place, begun->place, memory_order_relaxed);
    atomic_store_explicit(&head->mark, CHUNK_MARK, memory_order_release);
    log_cursor.slot = begun->slot;
    log_cursor.next = &records[begun->used + 1];
    log_cursor.end = &records[CHUNK_RECORDS];
}

bool log_open_chunk(void) {
    struct beginning begun = { .chunk = NULL };
    int error = errno;
    if (log_cursor.chunks == 0) begun = in_left_chunk();
    if (!begun.chunk) begun = in_new_chunk();
    if (begun.chunk) put_head(&begun);
    errno = error;
    return begun.chunk != NULL;
}

/* Says to the collector that the thread's chunk gets no more records, and why. */
static void mark_chunk(uint64_t why) {
    struct chunk_head *head = (struct chunk_head *)(log_cursor.end - CHUNK_RECORDS);
    atomic_fetch_or_explicit(&head->place, why, memory_order_release);
}

void log_renew_chunk(void) {
    if (!log_enter()) return;
    if (log_cursor.next != log_cursor.end) mark_chunk(CHUNK_HAS_NEXT);
    log_cursor.next = log_cursor.end = NULL;
    log_open_chunk();
    log_end();
}

static void count_lost(void) {
    atomic_fetch_add(&log_header->lost, log_cursor.lost);
    log_cursor.lost = 0;
}

/* Leaves the thread's chunk to another thread. Returns false if enough are left. */
static bool leave(void) {
    uint64_t used = CHUNK_RECORDS - (uint64_t)(log_cursor.end - log_cursor.next);
    uint64_t left = (log_cursor.slot + 1) << 16 | used;
    for (size_t i = 0; i < MOST_LEFT; i++) {
        uint64_t none = 0;
        bool is_free = atomic_load_explicit(&shared->left[i], memory_order_relaxed) == 0;
        if (is_free && atomic_compare_exchange_strong(&shared->left[i], &none, left)) return true;
    }
    return false;
}

/* Gives the thread's chunk to another thread, if that is wanted and can be, or to the collector. */
static void end_chunk(bool may_leave) {
    if (!log_begin()) return;
    if (log_cursor.lost) count_lost();
    bool is_full = log_cursor.next == log_cursor.end; /* the collector has it already, or another */
    bool is_long = log_cursor.end - log_cursor.next >= LEAST_LEFT;
    bool is_left = may_leave && is_long && leave();
    if (!is_full && !is_left) mark_chunk(CHUNK_IS_CLOSED);
    log_cursor.next = log_cursor.end = NULL;
    log_end();
}

void log_close_chunk(void) {
    end_chunk(false);
}

void log_leave_chunk(void) {
    end_chunk(are_chunks_shared && !atomic_load(&log_is_quiet));
}

void log_lose(uint64_t time) {
    uint64_t number = log_next_number(time);
    uint64_t first = atomic_load(&log_header->first_lost);
    while (first == 0 || number < first)
        if (atomic_compare_exchange_weak(&log_header->first_lost, &first, number)) break;
    if (++log_cursor.lost == MOST_LOST) count_lost();
}

/* ---- texts ---- */

static void write_part(const char *text, size_t length) {
    struct text_record *record = (struct text_record *)log_room(0);
    if (!record) return;
    memcpy(record->text, text, length);
    record->event = EVENT_TEXT;
    record->length = (uint8_t)length;
    log_number((struct record *)record, 0);
}

void log_put_text(struct record first, const char *text, size_t most) {
    size_t length = strnlen(text, most < LONGEST_TEXT ? most : LONGEST_TEXT);
    if (!log_begin()) return;
    first.value = (uint32_t)length;
    first.time = clock_time();
    log_write(first);
    for (size_t at = 0; at < length; at += TEXT_BYTES)
        write_part(text + at, length - at < TEXT_BYTES ? length - at : TEXT_BYTES);
    log_end();
}
