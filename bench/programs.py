"""The programs that are measured: how they are built and run."""
import os
import re
import shutil
import subprocess
import sys
import time

BENCH = os.path.dirname(os.path.realpath(__file__))
CRATE = os.path.join(os.path.dirname(BENCH), "crates", "clickpull")


def stop(why, status=1):
    print(f"bench/run: {why}", file=sys.stderr)
    sys.exit(status)


def build_clickpull(room):
    """Proves and builds clickpull by rt, and gives the path of the executable."""
    return build(CRATE, room)


def build(crate, room):
    """Proves and builds the program of this crate by rt, and gives the path of a copy of the executable."""
    # LLVM compiles it at -O3, whatever backend the environment names. rt then runs it, here on an empty script, and
    # says which file it runs.
    words = ["rt", "run", "--backend", "llvm"]
    ran = subprocess.run(words, cwd=crate, stdin=subprocess.DEVNULL, capture_output=True, text=True)
    found = re.search(r"^rt: running ([^;\n]+)", ran.stderr, re.M)
    if ran.returncode or not found:
        stop("rt run gave no program:\n" + ran.stderr[-2000:], 2)
    # A copy, since a later build may replace the file while this runs.
    return shutil.copy(os.path.join(crate, found[1]), os.path.join(room, os.path.basename(crate)))


def make_repository(room, program, used):
    """Makes a repository of a program, whose files stand in a folder of bench/, each with .txt after its name, and of what it uses: crates
    of this repository, which are copied, and of the toolchain. Gives the program's folder."""
    root = os.path.dirname(BENCH)
    shutil.copy(os.path.join(root, "HANDLES"), room)
    with open(os.path.join(root, "crates.txt")) as it:
        listed = [line for line in it if line.partition(":")[0] in used]
    with open(os.path.join(room, "crates.txt"), "w") as it:
        it.writelines([*listed, f"{program}: {' '.join(used)}\n"])
    for line in listed:
        name = line.partition(":")[0]
        shutil.copytree(os.path.join(root, "crates", name), os.path.join(room, "crates", name))
    crate = os.path.join(room, "crates", program)
    shutil.copytree(os.path.join(BENCH, program), crate)
    for folder, _, files in os.walk(crate):
        for name in files:
            os.rename(os.path.join(folder, name), os.path.join(folder, name.removesuffix(".txt")))
    return crate


def run(program, script, output, words=()):
    """Runs a program with these words and a script on standard input, and gives its time in seconds and its peak memory in KiB."""
    open(output, "wb").close()
    files = [(os.POSIX_SPAWN_OPEN, 0, script, os.O_RDONLY, 0), (os.POSIX_SPAWN_OPEN, 1, output, os.O_WRONLY, 0)]
    start = time.perf_counter()
    child = os.posix_spawn(program, [program, *words], {}, file_actions=files)
    _, status, usage = os.wait4(child, 0)
    seconds = time.perf_counter() - start
    if status:
        ended = f"signal {os.WTERMSIG(status)}" if os.WIFSIGNALED(status) else f"status {os.WEXITSTATUS(status)}"
        stop(f"{os.path.basename(program)} ended with {ended} at {os.path.basename(script)}")
    return seconds, usage.ru_maxrss
