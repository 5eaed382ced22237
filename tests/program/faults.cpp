// One call of a program that does not do what was asked: LD_PRELOAD loads this beside the program.
//
// FAULT_CALL names the call: alloc, thread (its start), read (of standard input) or write (to
// standard output).
// FAULT_KIND says what happens to it: fail, interrupt, nothing (0 bytes) or short (a single byte);
// an alloc or a thread fails.
// FAULT_AT is the number of the call that it happens to, counted from 1 over all threads, or 0 for
// each of them.
//
// If FAULT_CALL is sizes, nothing happens to any call, and the size of each allocation is written to
// standard error, one a line.

#include <dlfcn.h>
#include <pthread.h>
#include <sys/syscall.h>
#include <unistd.h>

#include <atomic>
#include <cerrno>
#include <cstdio>
#include <cstdlib>
#include <string_view>

extern "C" void* __libc_malloc(size_t size);
extern "C" void* __libc_realloc(void* block, size_t size);

namespace {

std::string_view variable(const char* name) {
    const char* value = std::getenv(name);
    return value ? value : "";
}

// Counts a call, and returns whether it is one that something happens to.
bool is_chosen(std::string_view call) {
    static std::atomic<long> calls = 0;
    if (variable("FAULT_CALL") != call) return false;
    const long at = std::atol(std::getenv("FAULT_AT"));
    return at == 0 || ++calls == at;
}

// Returns whether an allocation is to fail. Writes its size, if that is asked for.
bool fails(size_t size) {
    if (variable("FAULT_CALL") == "sizes") {
        char line[32];
        const int count = std::snprintf(line, sizeof line, "%zu\n", size);
        syscall(SYS_write, 2, line, count);
    }
    return is_chosen("alloc");
}

// Makes a call on a stream, or lets happen to it what is asked for.
ssize_t transfer(long call, bool is_chosen, int stream, const void* bytes, size_t count) {
    const std::string_view kind = is_chosen ? variable("FAULT_KIND") : "";
    if (kind == "nothing") return 0;
    if (kind == "fail" || kind == "interrupt") {
        errno = kind == "fail" ? EIO : EINTR;
        return -1;
    }
    return syscall(call, stream, bytes, kind == "short" && count > 0 ? 1 : count);
}

}  // namespace

extern "C" ssize_t read(int stream, void* bytes, size_t count) {
    return transfer(SYS_read, stream == 0 && is_chosen("read"), stream, bytes, count);
}

extern "C" ssize_t write(int stream, const void* bytes, size_t count) {
    return transfer(SYS_write, stream == 1 && is_chosen("write"), stream, bytes, count);
}

extern "C" int pthread_create(pthread_t* thread, const pthread_attr_t* attributes,
                              void* (*run)(void*), void* argument) {
    static const auto start =
        reinterpret_cast<decltype(&pthread_create)>(dlsym(RTLD_NEXT, "pthread_create"));
    return is_chosen("thread") ? EAGAIN : start(thread, attributes, run, argument);
}

extern "C" void* malloc(size_t size) { return fails(size) ? nullptr : __libc_malloc(size); }

extern "C" void* realloc(void* block, size_t size) {
    return fails(size) ? nullptr : __libc_realloc(block, size);
}
