"""Work that is spread over processes, one a processor, for tests of many runs of a program."""
import concurrent.futures
import multiprocessing
import os


def in_processes(work, items, piece=1):
    """What `work`, a function of the top of a file, answers to each item, in order. So many items at once go to a process."""
    begun = multiprocessing.get_context("fork")
    with concurrent.futures.ProcessPoolExecutor(len(os.sched_getaffinity(0)), begun) as pool:
        yield from pool.map(work, items, chunksize=piece)


class Tally:
    """How many comparisons held and how many failed, with a title of each that failed, until they are said."""

    def __init__(self):
        self.passed, self.failed, self.titles = 0, 0, []

    def tell(self, holds, title):
        self.passed += bool(holds)
        self.failed += not holds
        if not holds:
            self.titles.append(title)

    def add(self, other):
        """Counts what another tally has, which may come from another process."""
        self.passed += other.passed
        self.failed += other.failed
        self.titles += other.titles

    def say(self):
        """The titles of what failed and the counts, as a test's last lines; whether all held."""
        for title in self.titles:
            print(f"FAILED: {title}")
        print(f"{self.passed} passed, {self.failed} failed")
        return self.failed == 0
