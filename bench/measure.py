"""Runs the built program and protoc on a source or a tree, and measures each run's time and peak memory."""

import os
import shutil
import subprocess
import sys
import tempfile
import time

TOP = os.path.dirname(os.path.dirname(os.path.realpath(__file__)))
WORKERS = 1, 2, 4


def program():
    """The built program, which is proved and built first where it isn't as new as its sources."""
    script = os.path.join(TOP, "protoscip")
    subprocess.run([script, "--version"], check=True, stdout=subprocess.DEVNULL)
    return os.path.join(TOP, "crates", "protoscip_cli", "out", "protoscip_cli")


def found(name, package):
    path = shutil.which(name)
    if path is None:
        sys.exit(f"needs {name} (Debian: {package})")
    return path


def protoc():
    """The compiler to compare with."""
    return found("protoc", "protobuf-compiler")


def gnu_time():
    """What measures a command's peak memory."""
    return found("time", "time")


def measured(command, source, folder, made=None):
    """Runs a command in a folder on a source as standard input, its output thrown away.

    Gives seconds of wall time and the peak memory in MiB. A command that fails ends the bench, with what it said.
    The file `made`, which the command makes, is taken away first: to empty one that was written a moment ago waits for
    the disk.
    """
    if made is not None and os.path.exists(made):
        os.remove(made)
    note = os.path.join(folder, "peak")
    # GNU time starts the command, since a child of python's own counts python's memory as its peak.
    timed = [gnu_time(), "--quiet", "--format=%M", f"--output={note}", *command]
    with open(source, "rb") as given:
        start = time.perf_counter()
        ran = subprocess.run(timed, stdin=given, stdout=subprocess.DEVNULL, stderr=subprocess.PIPE, cwd=folder)
        seconds = time.perf_counter() - start
    if ran.returncode != 0:
        sys.stderr.write(ran.stderr.decode(errors="replace"))
        sys.exit(f"{command[0]} ended with status {ran.returncode}")
    with open(note, encoding="ascii") as peak:
        return seconds, int(peak.read()) / 1024


def side_by_side(source, folder, runs):
    """The least time and the peak memory of `protoscip dump` and of protoc, in turn, over some runs."""
    name = os.path.basename(source)
    commands = [
        [program(), "dump"],
        [protoc(), "--descriptor_set_out=/dev/null", f"--proto_path={folder}", name],
    ]
    results = [[], []]
    for _ in range(runs):
        for result, command in zip(results, commands):
            result.append(measured(command, source, folder))
    return [(min(s for s, _ in result), max(m for _, m in result)) for result in results]


class Rows:
    """Trees, each with twice the sources of the one before, and what `index` and protoc take for them."""

    def __init__(self, runs):
        self.runs = runs
        self.rows = []
        print("seconds, MB/s, growth, MiB and its multiple of the tree; of index with 1, 2 and 4 workers, and of protoc")
        head = f" | {'s':>7} {'MB/s':>6} {'grow':>5} {'MiB':>6} {'x':>5}"
        print(f"{'N':>6} {'MB':>6}" + head * (len(WORKERS) + 1))

    def add(self, folder, paths, total):
        """Measures the tree in the folder, with these paths and so many bytes, and prints its row."""
        with tempfile.TemporaryDirectory() as room:
            now = self.measured(folder, paths, room)
        before = self.rows[-1][1] if self.rows else None
        line = f"{len(paths):>6} {total / 10**6:>6.2f}"
        for column, (seconds, memory) in enumerate(now):
            growth = f"{seconds / before[column][0]:.2f}" if before else "-"
            times = memory * 2**20 / total
            line += f" | {seconds:>7.3f} {total / 10**6 / seconds:>6.1f} {growth:>5} {memory:>6.0f} {times:>5.1f}"
        print(line, flush=True)
        self.rows.append((total, now))

    def measured(self, folder, paths, room):
        """The least seconds and the greatest memory of `index` with each number of workers, and of protoc, in turn."""
        listed, made = os.path.join(room, "paths"), os.path.join(room, "made")
        with open(listed, "w", encoding="ascii") as out:
            out.write("\n".join(paths) + "\n")
        commands = [[program(), "index", "--workers", str(workers), folder, made] for workers in WORKERS]
        commands.append([protoc(), "--include_source_info", f"--proto_path={folder}", f"--descriptor_set_out={made}",
                         f"@{listed}"])
        results = [[] for _ in commands]
        for _ in range(self.runs):
            for result, command in zip(results, commands):
                result.append(measured(command, os.devnull, room, made))
        return [(min(s for s, _ in result), max(m for _, m in result)) for result in results]

    def meet_targets(self):
        """Says of each target whether it is met, and gives whether all are."""
        total, last = self.rows[-1]
        ratio, wide = last[-1][0] / last[0][0], last[-1][0] / last[-2][0]
        growth = max(now[column][0] / then[column][0] for (_, then), (_, now) in zip(self.rows, self.rows[1:])
                     for column in range(len(WORKERS)))
        memory = max(memory for _, memory in last[:-1]) * 2**20 / total
        said = [
            (f"one worker is {ratio:.1f} times as fast as protoc; at least 5 is the target", ratio >= 5),
            (f"four workers are {wide:.1f} times as fast as protoc; at least 12 is the target", wide >= 12),
            (f"the time grows by {growth:.2f} at most for a doubling; at most 2.1 is the target", growth <= 2.1),
            (f"memory is {memory:.1f} times the sources; at most 8 is the target", memory <= 8),
        ]
        for text, met in said:
            print(("met:    " if met else "MISSED: ") + text)
        return all(met for _, met in said)
