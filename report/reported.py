"""What a report of pim says of the threads and mutexes of some facts, step by step."""
import re

CHANGE = re.compile(r"  task (\d+) at (\d+) \S.*")


class Rejected(Exception):
    """Which step pim doesn't do as it was recorded."""


class Reported:
    """`owner`, `awaits` and `gets` are after the first `made` steps, by the numbers of facts."""

    def __init__(self, window, report):
        self.threads = {str(number): thread for thread, number in window.tasks.items()}
        self.mutexes = {str(number): mutex for mutex, number in window.mutexes.items()}
        self.level_of = {str(one): level for level, one in window.priorities.items()}
        self.gets = {thread: window.begin.level[thread] for thread in window.tasks}
        self.owner, self.awaits, self.made = {}, {}, 0
        self.lines = [*report.decode(errors="replace").splitlines(), ""]
        self.at = 0

    def read(self, steps):
        """Reads what the report says of the next steps."""
        for step in steps:
            self.made += 1
            request, _, reply = step.partition(" = ")
            line = self.lines[self.at]
            if line != f"{self.made} {reply}":
                raise Rejected(f"pim answers '{line}' to step {self.made}, {step}")
            self.at += 1
            self.change(*request.split(), reply=reply.split())
            while change := CHANGE.fullmatch(self.lines[self.at]):
                self.at += 1
                thread, priority = change.groups()
                self.gets[self.threads.get(thread)] = self.level_of.get(priority, "another one")

    def is_over(self):
        """Returns whether the report has nothing more than that all steps are accepted."""
        return self.lines[self.at:-1] == [f"accepted {self.made}"]

    def change(self, actor, operation, *numbers, reply):
        """What a reply says of owners and waits."""
        thread, word = self.threads[actor], reply[0]
        if word == "withdrawn":
            del self.awaits[self.threads[numbers[0]]]
        if operation not in ("lock", "try", "unlock"):
            return
        mutex = self.mutexes[numbers[0]]
        if word == "granted":
            self.owner[mutex] = thread
        elif word == "queued":
            self.awaits[thread] = mutex
        elif word in ("freed", "handed"):
            del self.owner[mutex]
        if word == "handed":
            self.owner[mutex] = self.threads[reply[1]]
            del self.awaits[self.owner[mutex]]

    def difference(self, world):
        """Says where a world of facts differs, or returns None."""
        for what, said, wanted in (("owner of mutex", self.owner, world.owner),
                                   ("mutex awaited by thread", self.awaits, world.awaits),
                                   ("level of thread", self.gets, world.gets)):
            if said != wanted:
                one = next(one for one in {**said, **wanted} if said.get(one) != wanted.get(one))
                return f"the {what} {one} is {said.get(one)} by pim, {wanted.get(one)} by the facts"
        return None
