/* The trace hooks of a made-up RTOS: they print facts as text, of which pim-report --facts says who
 * was held up. docs/FACTS.md says what the lines are. The RTOS calls each hook with the scheduler
 * locked, and numbers threads and mutexes from 1 on. */
#include <stdio.h>

typedef unsigned long long Nanoseconds;
typedef unsigned Thread, Mutex, Level;

static Nanoseconds now; /* of a real one: its clock */

static void trace_begin(void) { puts("facts 1"); }
static void trace_thread(Thread t, Level l, const char *name) { printf("thread %u %u %s\n", t, l, name); }
static void trace_mutex(Mutex m, const char *name) { printf("mutex %u inherit %s\n", m, name); }
static void trace_lock(Thread t, Mutex m) { printf("%llu %u granted %u\n", now, t, m); }
static void trace_block(Thread t, Mutex m) { printf("%llu %u waits %u\n", now, t, m); }
static void trace_timeout(Thread t, Mutex m) { printf("%llu %u gave-up %u\n", now, t, m); }
static void trace_unlock(Thread t, Mutex m) { printf("%llu %u released %u\n", now, t, m); }
static void trace_priority(Thread t, Level l) { printf("%llu %u priority %u\n", now, t, l); }
static void trace_end(void) { printf("%llu end\n", now); }

/* What the RTOS does as it runs three threads: log holds the map for 4 ms, plan waits for it, and
 * spare gives up after 1 ms. */
int main(void)
{
    trace_begin();
    trace_thread(1, 10, "log");
    trace_thread(2, 30, "plan");
    trace_thread(3, 20, "spare");
    trace_mutex(1, "map_lock");
    now = 500, trace_lock(1, 1);
    now = 1000500, trace_block(2, 1);
    now = 2000500, trace_block(3, 1);
    now = 3000500, trace_timeout(3, 1);
    now = 4000500, trace_unlock(1, 1), trace_lock(2, 1);
    now = 4100500, trace_priority(1, 5);
    now = 5000500, trace_unlock(2, 1);
    trace_end();
    return 0;
}
