"""What figures of a reader share: a program that reads one file is built in a copy of the crates, run, and measured.

No command calls the readers of libraries and netlists yet, so each script here brings a program of its own. See README.md.
"""

import multiprocessing
import os
import shutil
import subprocess
import sys

TOP = os.path.dirname(os.path.dirname(os.path.realpath(__file__)))
TIMES = 3
MEBIBYTE = 1 << 20
LENGTH = 10 * MEBIBYTE


def write(place, text):
    """Writes a text to a file, with the folders around it."""
    os.makedirs(os.path.dirname(place), exist_ok=True)
    with open(place, "w", encoding="utf-8") as file:
        file.write(text)


def copy_crates(folder, crate, needs, program, answers):
    """The crates of this repository in a folder, with one more, the program, and the answers in the proof of its `main`."""
    shutil.copytree(os.path.join(TOP, "crates"), os.path.join(folder, "crates"), ignore=shutil.ignore_patterns("out"))
    shutil.copy(os.path.join(TOP, "HANDLES"), folder)
    shutil.copy(os.path.join(TOP, "crates.txt"), folder)
    with open(os.path.join(folder, "crates.txt"), "a", encoding="ascii") as file:
        file.write(f"{crate}: {needs}\n")
    place = os.path.join(folder, "crates", crate)
    write(os.path.join(place, "src", "main.rt"), program)
    if answers:
        write(os.path.join(place, "proofs", "main", "Answers.antt"), answers)


def build(folder, crate, needs, program, answers=""):
    """The built program. Its first run, over no file, proves and builds it."""
    copy_crates(folder, crate, needs, program, answers)
    place = os.path.join(folder, "crates", crate)
    done = subprocess.run(["rt", "run"], cwd=place, capture_output=True, check=False, text=True)
    built = os.path.join(place, "out", crate)
    if not os.path.exists(built):
        sys.exit(f"the program was not built: {done.stdout[-2000:]}{done.stderr[-2000:]}")
    return built


def run(program, folder):
    """What the program writes, the processor time in seconds and the peak memory in KiB of its run, and its exit status."""
    process = subprocess.Popen([program], cwd=folder, stdout=subprocess.PIPE)
    told = process.stdout.read().decode().strip()
    _, status, usage = os.wait4(process.pid, 0)
    process.returncode = os.waitstatus_to_exitcode(status)
    return usage.ru_utime + usage.ru_stime, usage.ru_maxrss, told, process.returncode


# Runs the programs. It is made while this process is small: the peak of a run is never below the size of what begins it.
RUNNER = multiprocessing.Pool(1)


def measure(name, program, place, text, wanted):
    """Prints the best of some runs over a text, which stands in the file that the program reads. It returns the memory."""
    with open(place, "w", encoding="ascii") as file:
        file.write(text)
    folder = os.path.dirname(place)
    seconds, memory, told, status = min(RUNNER.apply(run, (program, folder)) for _ in range(TIMES))
    if status != 0 or told != wanted:
        sys.exit(f"{name}: it ended with {status} and wrote {told}")
    size = len(text) / MEBIBYTE
    each = f"{seconds / size:.3f} s and {memory / 1024 / size:.1f} MiB each"
    print(f"{name}, {size:.2f} MiB: {seconds:.2f} s, {memory / 1024:.1f} MiB ({each})", flush=True)
    return memory
