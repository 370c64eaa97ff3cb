#!/usr/bin/env python3
"""Proves and builds the program and the crates below it, for ./txboard.

Crates are checked side by side, each once those that it uses are done, those with the longest chain above them first. rt keeps
the folders of all crates below the one that it checks to itself, so each crate is checked in a copy of its own. The first crate
may use all processors, and the others, one each, what it leaves. A line on standard error names each crate that is done. What is
done is kept, so a run that was interrupted goes on where it stopped. Crates of tests alone are left out.
"""
import os
import shutil
import signal
import subprocess
import sys
import tempfile
import time

PROGRAM = "txboard"
MEMORY_OF_A_JOB = 1536  # megabytes: what a job of the largest crates takes
TOP = os.path.dirname(os.path.dirname(os.path.abspath(__file__)))
SOURCES = ("src", "specs", "proofs")


def listed():
    """Each crate of crates.txt, with the crates of this repository that it uses."""
    uses = {}
    with open(f"{TOP}/crates.txt", encoding="utf-8") as lines:
        for line in lines:
            name, colon, libraries = line.partition("#")[0].partition(":")
            if colon:
                uses[name.split()[0]] = libraries.split()
    return {name: [it for it in libraries if it in uses] for name, libraries in uses.items()}


def needed(uses):
    """The program's crates alone, each after those that it uses."""
    order = []

    def visit(name):
        for below in uses[name]:
            visit(below)
        if name not in order:
            order.append(name)

    visit(PROGRAM)
    return order


def files_of(name):
    for part in SOURCES:
        for folder, _, files in os.walk(f"{TOP}/crates/{name}/{part}"):
            yield from (f"{folder}/{file}" for file in files)


def chains(order, uses):
    """For each crate how many bytes of sources the longest chain has that begins with it and ends with the program."""
    above = {name: 0 for name in order}
    chain = {}
    for name in reversed(order):
        chain[name] = above[name] + sum(map(os.path.getsize, files_of(name)))
        for below in uses[name]:
            above[below] = max(above[below], chain[name])
    return chain


def lanes():
    """How many processors there are, and for how many jobs there is memory."""
    with open("/proc/meminfo", encoding="ascii") as lines:
        sizes = {name: int(rest.split()[0]) for name, _, rest in (line.partition(":") for line in lines)}
    return len(os.sched_getaffinity(0)), max(1, sizes.get("MemAvailable", 0) // 1024 // MEMORY_OF_A_JOB)


def newest(order):
    """When the newest source was changed."""
    files = [f"{TOP}/crates.txt", *(file for name in order for file in files_of(name))]
    return max(os.stat(file).st_mtime_ns for file in files)


def link(source, target):
    """The same file a second time, or a copy on another file system."""
    try:
        os.link(source, target)
    except OSError:
        shutil.copy2(source, target)


def copied(name, below):
    """A copy of a crate and of what stands below it, as built, in which nothing else works."""
    top = tempfile.mkdtemp(prefix=f"txboard-{name}-")
    with open(f"{TOP}/crates.txt", encoding="utf-8") as lines, open(f"{top}/crates.txt", "w", encoding="utf-8") as own:
        own.writelines(line for line in lines if line.partition(":")[0].split()[:1] in [[it] for it in [*below, name]])
    for it in [*below, name]:
        parts = [*SOURCES, "data", "out" if it == name else "out/rlib"]
        for part in filter(lambda part: os.path.isdir(f"{TOP}/crates/{it}/{part}"), parts):
            shutil.copytree(f"{TOP}/crates/{it}/{part}", f"{top}/crates/{it}/{part}", copy_function=link,
                            ignore=shutil.ignore_patterns("build.log"))
    return top


def keep(name, top):
    """Takes what was made in a crate's copy, also of a check that was cut short."""
    out, made = f"{TOP}/crates/{name}/out", f"{top}/crates/{name}/out"
    for it in os.listdir(made) if os.path.isdir(made) else []:
        old = f"{out}/{it}"
        if os.path.isdir(old):
            shutil.rmtree(old)
        shutil.move(f"{made}/{it}", old)
    shutil.rmtree(top)


class Build:
    def __init__(self, uses):
        self.uses, self.order = uses, needed(uses)
        self.lanes, self.room = lanes()
        self.chain = chains(self.order, uses)
        self.left = sorted(self.order, key=lambda it: -self.chain[it])
        self.running, self.done = {}, []

    def below(self, name):
        """The crates that a crate stands on."""
        found = {it for low in self.uses[name] for it in [low, *self.below(low)]}
        return [it for it in self.order if it in found]

    def start(self, name, jobs):
        """Begins to check a crate; the program is linked too, and run once."""
        os.makedirs(f"{TOP}/crates/{name}/out", exist_ok=True)
        top = copied(name, self.below(name))
        words = ["rt", "lib", "--jobs", str(jobs)]
        if name == PROGRAM:
            words = ["rt", "run", "--jobs", str(jobs), "--", "hart", "data/p1.img", "0"]
        if jobs == 1:
            words = ["nice", *words]
        with open(f"{TOP}/crates/{name}/out/build.log", "wb") as log:
            process = subprocess.Popen(words, cwd=f"{top}/crates/{name}", stdin=subprocess.DEVNULL, stdout=log, stderr=log)
        self.left.remove(name)
        self.running[name] = process, jobs, top, time.monotonic()

    def start_ready(self):
        """The crate with the longest chain above it gets all processors, and others one job each, as far as there is memory."""
        for name in [it for it in self.left if all(below in self.done for below in self.uses[it])]:
            used = sum(jobs for _, jobs, *_ in self.running.values())
            is_first = not any(jobs > 1 for _, jobs, *_ in self.running.values())
            jobs = max(1, min(self.lanes, self.room - used)) if is_first else 1
            if self.running and (len(self.running) >= self.lanes or used + jobs > self.room):
                return
            self.start(name, jobs)

    def end(self):
        """Takes in the crates that are done; the name of one that wasn't proved, or None."""
        for name, (process, _, top, began) in list(self.running.items()):
            if process.poll() is None:
                continue
            del self.running[name]
            keep(name, top)
            if process.returncode:
                return name
            self.done.append(name)
            say(f"[{len(self.done)}/{len(self.order)}] {name} {time.monotonic() - began:.0f} s")
        return None

    def run(self):
        """Checks all crates; the name of the first that wasn't proved, or None."""
        try:
            while self.left or self.running:
                self.start_ready()
                time.sleep(0.1)
                failed = self.end()
                if failed:
                    return failed
        finally:
            for process, *_ in self.running.values():
                process.terminate()
            for name, (process, _, top, _) in self.running.items():
                process.wait()
                keep(name, top)
        return None


def say(line):
    print(line, file=sys.stderr, flush=True)


def tail(name):
    with open(f"{TOP}/crates/{name}/out/build.log", encoding="utf-8", errors="replace") as log:
        return "".join(log.readlines()[-20:])


def main():
    for it in (signal.SIGTERM, signal.SIGHUP):
        signal.signal(it, lambda number, _: sys.exit(128 + number))
    uses = listed()
    fresh = f"{TOP}/crates/{PROGRAM}/out/fresh"
    while True:
        build = Build(uses)
        seen = newest(build.order)
        say(f"txboard: proving and building {len(build.order)} crates, {build.lanes} jobs at a time. The first time takes some minutes; "
            "an interrupted run goes on where it stopped.")
        failed = build.run()
        if failed:
            sys.stderr.write(tail(failed))
            say(f"txboard: the program was not built: {failed} was not proved (crates/{failed}/out/build.log)")
            return 70
        # a source that was edited meanwhile may have been read before
        if newest(build.order) == seen:
            break
    with open(fresh, "w", encoding="ascii"):
        os.utime(fresh, ns=(seen, seen))
    return 0


if __name__ == "__main__":
    try:
        sys.exit(main())
    except KeyboardInterrupt:
        sys.exit(130)
