"""The Rust driver as a subprocess that is kept open."""

import subprocess
from itertools import accumulate


class Driver:
    """Asks the driver; `at` is the job that it holds, so that a job is sent only if it changed."""

    def __init__(self, path):
        pipe = subprocess.PIPE
        self.process = subprocess.Popen([path], stdin=pipe, stdout=pipe, text=True)
        self.at = None

    def ask(self, line, lines=1):
        self.process.stdin.write(line + "\n")
        self.process.stdin.flush()
        answer = [self.process.stdout.readline() for _ in range(lines)]
        if not answer[-1].endswith("\n"):
            raise RuntimeError("no answer to: " + line[:200])
        return [text[:-1] for text in answer]

    def open(self, job):
        self.ask(f"open {job.switches}")
        self.at = job

    def hold(self, job):
        """Makes the driver's job this one."""
        if self.at == job:
            return
        numbers = [job.switches, job.variables]
        for setting in job.settings[: job.count]:
            record = [setting.length, setting.low, setting.high, setting.offset]
            numbers += record + list(setting.used())
        self.ask("state " + " ".join(map(str, numbers)))
        self.at = job

    def call(self, job, word, numbers):
        """Runs a call: variables after it, its clauses and literals. It is not kept yet."""
        self.hold(job)
        (answer,) = self.ask(" ".join([word, *map(str, numbers)]))
        return [int(n) for n in answer.split()]

    def keep(self):
        """Keeps the last call: the numbers of a new setting, and the clauses."""
        self.at = None
        record, lengths, lits = [[int(n) for n in line.split()] for line in self.ask("keep", 3)]
        ends = list(accumulate(lengths, initial=0))
        return record, [lits[begin:end] for begin, end in zip(ends, ends[1:])]

    def read(self, job, setting, assignment):
        self.hold(job)
        bits = "".join(map(str, assignment))
        return int(self.ask(f"read {setting} {bits}")[0])

    def close(self):
        self.process.stdin.close()
        self.process.wait()
