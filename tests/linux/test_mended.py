"""linux/mended: in a text of its places, in kernels' sources."""
import difflib
import pathlib
import random
import re
import shutil

from tests.linux.cases import LINUX, LinuxCase, setUpModule
from tests.shared.checks import answer, program

import compare
import fuzz
import races
import walker

# What the changes look for, without the rest.
RTMUTEX = """static int rt_mutex_adjust_prio_chain(int a,
				      int b)
{
	struct rt_mutex_waiter *prerequeue_top_waiter;
	/*
	 * Check.
	 */
	if (orig_waiter && !rt_mutex_owner(orig_lock))
		goto out_unlock_pi;
	if (top_waiter) {
		if (!task_has_pi_waiters(task))
			goto out_unlock_pi;
		/* why */
		if (top_waiter != task_top_pi_waiter(task)) {
			one();
			if (b)
				two();
		}
	}

	/* why */
	if (rt_waiter_node_equal(&waiter->tree, task_to_waiter_node(task))) {
		three();
	}
	if (lock == orig_lock) {
		raw_spin_unlock(&lock->wait_lock);
		goto out_unlock_pi;
	}

	/* [7] Requeue. */
	rt_mutex_dequeue(lock, waiter);

	/*
	 * Update.
	 */
	rt_mutex_enqueue(lock, waiter);

	/* [11] requeue */
	if (a) {
		four();
	} else {
		/*
		 * Nothing changed. No need.
		 */
	}
	/*
	 * If the current waiter is not the top waiter on the lock,
	 * stop.
	 */
	if (!detect_deadlock && waiter != top_waiter)
		five();
}

static int
try_to_take_rt_mutex(int a)
{
	if (rt_mutex_has_waiters(lock))
		rt_mutex_enqueue_pi(task, rt_mutex_top_waiter(lock));
	raw_spin_unlock(&task->pi_lock);
}

static void remove_waiter(int a)
{
	if (rt_mutex_has_waiters(lock))
		rt_mutex_enqueue_pi(owner, rt_mutex_top_waiter(lock));
}
"""
API = """void rt_mutex_adjust_pi(int a)
{
	if (!waiter || rt_waiter_node_equal(&waiter->tree, task_to_waiter_node(task))) {
		one();
	}
}
"""
# The first change, without its comments.
WALK = """	struct rt_mutex_waiter *prerequeue_top_waiter;
	struct rt_waiter_node before;
	if (orig_waiter && !rt_mutex_owner(orig_lock))
		detect_deadlock = false;
	if (top_waiter && !task_has_pi_waiters(task))
		goto out_unlock_pi;
	if (ret && waiter == orig_waiter)
		goto out_unlock_pi;
	if (!requeue && !detect_deadlock)
		goto out_unlock_pi;
	if (lock == orig_lock) {
		if (!requeue) {
			raw_spin_unlock(&lock->wait_lock);
			goto out_unlock_pi;
		}
		detect_deadlock = false;
	}
	if (!rt_waiter_node_equal(&waiter->tree, task_to_waiter_node(task))) {
		rt_mutex_dequeue(lock, waiter);
		rt_mutex_enqueue(lock, waiter);
	}
	before = *task_to_waiter_node(task);
	if (a) {
		four();
	} else {
	}
	requeue = !rt_waiter_node_equal(&before, task_to_waiter_node(task));
	if (!detect_deadlock && !requeue)
		five();
"""
# What the others take away, and what they add.
MENDED = {
    "2": (["	if (rt_mutex_has_waiters(lock))"],
          ["	if (rt_mutex_has_waiters(lock)) {", "		rt_mutex_set_owner(lock, task);",
           "		rt_mutex_adjust_prio(lock, task);", "	}"]),
    "3": (["	if (rt_mutex_has_waiters(lock))"] * 2,
          ["	if (rt_mutex_has_waiters(lock)) {",
           "		waiter_clone_prio(rt_mutex_top_waiter(lock), task);", "	}",
           "	if (rt_mutex_has_waiters(lock)) {",
           "		waiter_clone_prio(rt_mutex_top_waiter(lock), owner);", "	}"]),
}
TAKEN = """	if (rt_mutex_has_waiters(lock)) {
		waiter_clone_prio(rt_mutex_top_waiter(lock), task);
		rt_mutex_enqueue_pi(task, rt_mutex_top_waiter(lock));
		rt_mutex_set_owner(lock, task);
		rt_mutex_adjust_prio(lock, task);
	}
	raw_spin_unlock(&task->pi_lock);
"""


def code_of(text):
    """Returns the lines that aren't empty or comments."""
    return re.sub(r"(?m)^\s*$\n", "", re.sub(r"(?s)/\*.*?\*/", "", text))


class Mended(LinuxCase):
    def test_the_change_of_a_walk(self):
        """The first change is made in the walk, and where sched_setscheduler begins one."""
        file, api = self.folder / "rtmutex.c", self.folder / "rtmutex_api.c"
        script_file = LINUX / "mended/mend"
        file.write_text(RTMUTEX)
        api.write_text(API)
        status, out, _ = answer([script_file, "--ways", "1", file])
        walk, _, rest = out.decode().partition("\n}")
        self.same("the first change", (status, code_of(walk.partition("{\n")[2] + "\n")), 0, WALK)
        self.same("it has no other place", rest, RTMUTEX.partition("\n}")[2])
        self.same("it says why", walk.count("/*"), RTMUTEX.count("/*") + 2)
        status, out, _ = answer([script_file, "--ways", "1", api])
        self.same("the first change of the other file", (status, out.decode()), 0,
                  re.sub(r"if \(.*\) {", "if (!waiter) {", API))
        status, out, _ = answer([script_file, "--ways", "2,3", api])
        self.same("the others have no place there", (status, out.decode()), 0, API)

    def test_each_change_is_made_where_it_belongs(self):
        """Each change is made where it belongs; where it doesn't fit, nothing is printed."""
        file, script_file = self.folder / "rtmutex.c", LINUX / "mended/mend"
        file.write_text(RTMUTEX)
        for way, (gone, new) in MENDED.items():
            status, out, _ = answer([script_file, "--ways", way, file])
            lines = list(difflib.ndiff(RTMUTEX.splitlines(), out.decode().splitlines()))
            less, more = ([line[2:] for line in lines if line[0] == sign] for sign in "-+")
            self.same(f"the change for way {way}", (status, less, more), 0, gone, new)
        status, out, _ = answer([script_file, file])
        self.check("all changes", None if status == 0 and TAKEN in out.decode() else out.decode())
        again = self.folder / "again.c"
        again.write_bytes(out)
        cases = {"a mended file": (again, "prio_chain has 0 places for a change, not one"),
                 "another file": (script_file, "there is no function rt_mutex_adjust_prio_chain"),
                 "no file": (self.folder / "none", "No such file")}
        double, place = self.folder / "double.c", RTMUTEX.split("\n{\n")[2].partition("	raw")[0]
        double.write_text(RTMUTEX.replace("	raw_spin_unlock", f"{place}	raw_spin_unlock"))
        cases["a place twice"] = (double, "try_to_take_rt_mutex has 2 places for a change, not one")
        for name, (path, wanted) in cases.items():
            status, out, err = answer([script_file, path])
            self.same(f"no change: {name}", (status, out, wanted in err.decode()), 2, b"", True)
        for words in ("4", "", "1-3", "12", "1,", "1,,2", "1, 2"):
            status, _, err = answer([script_file, "--ways", words, file])
            said = f"argument --ways: '{words}' isn't a list of 1, 2 and 3, as 1,2\n"
            self.same(f"no ways: '{words}'", (status, err.decode().endswith(said)), 2, True)

    def own_code(self, source, pim):
        """What the code of a source does in user space, as it is and mended."""
        programs = {}
        for ways in ("", "123"):
            programs[ways] = walker.build(source, ways, source / f"ways{ways}")
            for name, schedule in races.SCHEDULES.items():
                text = races.text_of(schedule)
                wrong, count = walker.orders(programs[ways], text, schedule.calls, 3)
                is_in_kernel = not ways and name != "released"
                self.same(f"{source.name}, ways '{ways}': the schedule {name}", (wrong > 0, count > 0),
                          is_in_kernel, True)
        rng, apart = random.Random(6), dict.fromkeys(programs, 0)
        for _ in range(200):
            text, wanted = compare.Text(fuzz.random_source(rng, "inherit")), []
            for done in compare.reported(pim, text):
                now = {**(wanted[-1] if wanted else text.bases), **done.changes}
                wanted.append(now)
            wanted = [[it[t] for t in sorted(it)] for it in wanted]
            for ways, program in programs.items():
                apart[ways] += walker.performed(program, text) != wanted
        self.same(f"{source.name}: mended, it agrees with pim on 200 random texts, and as it is not",
                  (apart["123"], apart[""] > 0), 0, True)

    def patched(self, source, files):
        """The patch makes of the files of 6.12 what the script makes of them."""
        copy = source.parent / "patched"
        (copy / "kernel/locking").mkdir(parents=True)
        wanted = []
        for file in files:
            shutil.copy(file, copy / "kernel/locking")
            wanted.append(answer([LINUX / "mended/mend", file])[1])
        patch = LINUX / "mended/linux-6.12.117.patch"
        status, _, err = answer(["patch", "-s", "-p1", "-d", copy, "-i", patch])
        got = [(copy / "kernel/locking" / file.name).read_bytes() for file in files]
        self.same("the patch for 6.12 makes the changes", (status, err, got), 0, b"", wanted)

    def test_installed_sources_are_mended(self):
        """The changes can be made in each source that Debian's packages have put here, and mend it."""
        archives = sorted(pathlib.Path("/usr/src").glob("linux-source-*.tar.xz"))
        if not archives:
            return self.skip("the changes in a kernel's source", "no linux-source is installed")
        for archive in archives:
            place = f"{archive.name.partition('.tar')[0]}/kernel/locking"
            names = [f"{place}/{name}" for name in ("rtmutex.c", "rtmutex_api.c", "rtmutex_common.h")]
            # It reads no further.
            command = ["tar", "-xf", archive, "-C", self.folder, "--occurrence=1", *names]
            answer(command)
            for name, ways in ((names[0], "1"), (names[0], "2"), (names[0], "3"), (names[0], "1,2,3"),
                               (names[1], "1")):
                status, out, err = answer([LINUX / "mended/mend", "--ways", ways, self.folder / name])
                is_changed = out != (self.folder / name).read_bytes()
                self.same(f"the change {ways} in {name}", (status, err, is_changed), 0, b"", True)
            if archive.name.startswith("linux-source-6.12."):
                self.patched(self.folder / "linux-source-6.12", [self.folder / name for name in names[:2]])
            self.own_code(self.folder / archive.name.partition(".tar")[0], program())
