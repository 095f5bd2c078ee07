#!/usr/bin/env python3
"""farm/run by the time that it would take on idle processors, reckoned from processor seconds, for machines that have other work.

    bench/reckoned.py WORDS..          the words of farm/run

The driver is farm/run's own. Its clock goes by what it takes of the processor itself and by what it waits. An engine that stands for GNU
parallel has W places: it runs a job by itself when it is handed out, holds its certificate back, and shows it once the job's processor
seconds have gone by from the time that a place was free. A job begins with a certificate that does not change, so what it makes does not depend
on when it runs. What is left out: that a driver's own work may hold up one of as many workers as there are processors, and that
processors share caches and memory.
"""
import heapq
import importlib.machinery
import importlib.util
import os
import pathlib
import resource
import subprocess
import sys
import time

sys.dont_write_bytecode = True
HERE = pathlib.Path(__file__).resolve().parent
STARTING = 0.02  # seconds that GNU parallel takes to start a job


def load(path):
    loader = importlib.machinery.SourceFileLoader("farm_run", str(path))
    module = importlib.util.module_from_spec(importlib.util.spec_from_loader("farm_run", loader))
    loader.exec_module(module)
    return module


def used():
    """Processor seconds of this process and of all that it has waited for."""
    return sum(part.ru_utime + part.ru_stime for part in map(resource.getrusage, (resource.RUSAGE_SELF, resource.RUSAGE_CHILDREN)))


class Clock:
    """Stands for the module `time`."""

    strftime, time = staticmethod(time.strftime), staticmethod(time.time)

    def __init__(self):
        self.waited, self.jobs, self.begin = 0.0, 0.0, used()

    def monotonic(self):
        return used() - self.begin - self.jobs + self.waited

    def sleep(self, seconds):
        self.waited += seconds


class Places:
    """Stands for GNU parallel."""

    LOOKS, AHEAD, SHORTEST, LONGEST = True, 200, 3.0, 60.0

    def __init__(self, farm, clock, folder, workers):
        self.farm, self.clock, self.folder, self.free, self.waiting, self.running, self.count = farm, clock, folder, [0.0] * workers, [], [], 0

    def begin(self):
        pass

    def give(self, jobs):
        self.waiting += [(job, self.clock.monotonic()) for job in jobs]

    def work(self, job, since):
        """Runs a job on the place that is free first."""
        before = used()
        with open(self.folder / "logs" / "jobs", "ab") as log:
            subprocess.run(["./work", job.start, job.leaf, str(job.steps), job.new + ".held"], cwd=self.folder, stdout=log, stderr=log, check=False)
        took = used() - before
        self.clock.jobs += took
        end = max(heapq.heappop(self.free), since) + STARTING + took
        heapq.heappush(self.free, end)
        heapq.heappush(self.running, (end, self.count, job, took))
        self.count += 1

    def ended(self):
        while self.waiting and self.free[0] <= self.clock.monotonic():
            self.work(*self.waiting.pop(0))
        ends = []
        while self.running and self.running[0][0] <= self.clock.monotonic():
            _, _, job, took = heapq.heappop(self.running)
            held = self.folder / (job.new + ".held")
            if held.exists():
                os.replace(held, self.folder / job.new)
            ends.append(self.farm.Ended(job, took))
        return ends

    def stop(self, is_done=False):
        pass


def main():
    farm, clock = load(HERE.parent / "farm" / "run"), Clock()
    farm.time = clock
    farm.engine = lambda name, processes, workers, hosts, options, is_dry: Places(farm, clock, processes.folder, workers)
    sys.argv += ["--alone", "0"]  # a search beside the others would be reckoned as the driver's own work
    sys.exit(farm.main())


main()
