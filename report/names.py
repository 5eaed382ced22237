"""What threads, mutexes and objects are called: by their names, with numbers where needed."""
import re
from collections import Counter

from words import listed, place_and_function

KINDS = {"rwlock": "read-write lock", "condition": "condition variable"}


class Names:
    def __init__(self, facts):
        self.facts = facts
        self.of_threads = Counter(thread.name for thread in facts.threads.values())
        self.of_mutexes = Counter(mutex.name for mutex in facts.mutexes.values())
        self.stems = {number: self.stem_of(thread.name) for number, thread in facts.threads.items()}

    def thread(self, number):
        name = self.facts.threads[number].name
        if name == "-":
            return f"thread {number}"
        return name if self.of_threads[name] == 1 else f"{name}[{number}]"

    def at(self, number, level):
        """Returns a thread with its level. A thread that isn't a real-time one has level 0."""
        return f"{self.thread(number)} ({level})"

    def threads(self, pairs, most=3, levels=True):
        """Returns threads with levels, those of one name together: '16 threads worker (20)'."""
        groups = {}
        for thread, level in pairs:
            name = self.facts.threads[thread].name
            groups.setdefault(name if name != "-" else thread, []).append((thread, level))
        said = []
        for name, group in groups.items():
            if len(group) > 2:
                said.append(f"{len(group)} threads {name}{self.range_of(group) * levels}")
            else:
                said += [self.at(*one) if levels else self.thread(one[0]) for one in group]
        return listed(said, most)

    @staticmethod
    def range_of(group):
        """Returns ' (20)' or ' (20 to 40)'."""
        least, top = min(level for _, level in group), max(level for _, level in group)
        return f" ({top})" if least == top else f" ({least} to {top})"

    @staticmethod
    def stem_of(name):
        """Returns the name of a thread without a number at its end, as those of a pool have."""
        return re.sub(r"[\d_.:/-]*\d$", "", name) if name != "-" else "-"

    def mutex(self, number):
        name = self.facts.mutexes[number].name
        if name == "-":
            return f"mutex {number}"
        return name if self.of_mutexes[name] == 1 else f"{name}#{number}"

    def mutexes(self, numbers):
        """Returns some mutexes: more than two from one place by that place."""
        numbers = list(numbers)
        places = {self.facts.mutexes[one].place for one in numbers}
        if len(numbers) > 2 and len(places) == 1 and places != {""}:
            return f"{len(numbers)} mutexes of {place_and_function(places.pop())}"
        return listed(self.mutex(one) for one in numbers)

    def protocol(self, number):
        """Returns the protocol as pthread.h has it."""
        return f"PTHREAD_PRIO_{self.facts.mutexes[number].protocol.upper()}"

    def origin(self, number):
        """Returns ', initialised at controller.c:31' if that is known."""
        place = self.facts.mutexes[number].place
        if not place:
            return ""
        is_line = re.search(r":\d+(\(|$)", place)
        return f", {'initialised at' if is_line else 'from'} {place_and_function(place)}"

    def object(self, number):
        one = self.facts.objects[number]
        if one.kind == "thread":
            # A recorder that doesn't know which thread it is gives its address.
            is_known = one.name != "-" and not one.name.startswith("0x")
            return f"the end of {one.name}" if is_known else "the end of a thread"
        kind = KINDS.get(one.kind, one.kind)
        return f"{kind} {one.name if one.name != '-' else number}"

    def the_object(self, number):
        """Returns an object as it is in a sentence: 'the semaphore ready'."""
        name = self.object(number)
        return name if name.startswith("the ") else f"the {name}"
