"""Counts what job files reach: refusals by number, mistakes told apart; of accepted ones fields and
variables in no clause."""

from collections import Counter

import jobfile
from mistakes import told_apart
from turned import NAMES


def in_no_clause(calls):
    """The job's variables that stand in no clause, rising."""
    used = {lit // 2 for lit in calls.lits[: calls.job.literals]}
    return [variable for variable in range(calls.job.variables) if variable not in used]


def field_name(word, numbers):
    """What an accepted field is counted as; a sum by its operation."""
    return f"linear {NAMES[numbers[0]]}" if word == "linear" else word


class Counted:
    """The judge's answers to job files, counted."""

    def __init__(self, driver):
        self.driver = driver
        self.files = Counter()
        self.refusals = Counter()
        self.fields = Counter()
        self.mistakes = Counter()
        self.free = Counter({"a": 0, "their last": 0})

    def count_free(self, calls):
        """Accepted files by their variables that stand in no clause."""
        free = in_no_clause(calls)
        self.free["a"] += free != []
        self.free["their last"] += calls.job.variables - 1 in free

    def answer(self, name, data):
        """The print of a file; it is counted under a name."""
        text, calls = jobfile.answer(self.driver, data)
        accepted = not text.startswith(b"refused")
        self.files[name, "accepted" if accepted else "refused"] += 1
        if accepted:
            self.fields.update(field_name(*field) for field in jobfile.fields(data))
            self.count_free(calls)
        else:
            self.refusals[int(text.split()[2])] += 1
        self.mistakes.update(told_apart(self.driver, data, text))
        return text

    def report(self):
        for name in dict.fromkeys(name for name, _ in self.files):
            accepted, refused = self.files[name, "accepted"], self.files[name, "refused"]
            print(f"{name:46}accepted: {accepted:5}  refused: {refused:5}")
        print(f"files: {sum(self.files.values())}, refused: {sum(self.refusals.values())}")
        rows = {"refused by number": self.refusals, "fields of accepted files": self.fields}
        for title, counts in rows.items():
            print(f"{title}: " + "  ".join(f"{key}: {n}" for key, n in sorted(counts.items())))
        for name, count in self.free.items():
            print(f"accepted files with {name} variable in no clause: {count}")
        for name, count in self.mistakes.items():
            print(f"files that tell apart {name}: {count}")
