"""What the scripts that count share: the programs, and the instructions that calls take."""

import concurrent.futures
import os
import re
import shutil
import signal
import subprocess
import sys
import tempfile

TOP = os.path.dirname(os.path.dirname(os.path.dirname(os.path.abspath(__file__))))
HERE = os.path.join(TOP, "tests", "costs")
VALGRIND = ["valgrind", "--tool=callgrind"]
# The C library copies and clears memory by what the processor has. Without these, it does so by
# instructions that each processor has, and by none that counts once for each byte.
WITHOUT = "-ERMS,-FSRM,-AVX2,-AVX512F,-AVX512VL,-AVX_Fast_Unaligned_Load"
COPYING = f"glibc.cpu.hwcaps={WITHOUT}"
# An allocation costs less if a block of its size was freed before. Without these lists, it costs as
# much behind other records as in a program of its own.
ALLOCATING = "glibc.malloc.tcache_count=0:glibc.malloc.mxfast=0"

# The most seconds of the processor that a run with some records takes; most take three.
SECONDS = 60


def stop(why):
    """Ends a script that cannot count."""
    name = os.path.relpath(os.path.abspath(sys.argv[0]), TOP)
    print(f"{name}: {why}", file=sys.stderr)
    sys.exit(2)


def wants():
    """Ends a script if a tool is missing."""
    compiler = os.environ.get("CC", "gcc").split()[0]
    for tool, package in ("valgrind", "valgrind"), ("make", "make"), (compiler, compiler):
        if shutil.which(tool) is None:
            stop(f"no {tool}: apt-get install {package}")


def crates_below(crate, dependencies=None):
    """The crate and those of the repository that it stands on."""
    if dependencies is None:
        dependencies = {}
        for line in open(f"{TOP}/crates.txt"):
            name, _, rest = line.partition(":")
            dependencies[name.split()[0]] = rest.split()
    found = [crate]
    for name in dependencies[crate]:
        if name in dependencies:
            found += [it for it in crates_below(name, dependencies) if it not in found]
    return found


def is_built(program):
    """Whether there is a program that LLVM compiled, which alone is counted. `rt ci` and `rt run`
    leave it there; what Rattle's own compiler made is left by `rt ci` beside it, as NAME.by-rattle,
    but by `rt run --backend rattle` under the same name. That inlines also functions with
    `inline(never)`, as the marks between which calls are counted."""
    if not os.path.exists(program):
        return False
    with open(program, "rb") as file:
        return b"backend=rattle" not in file.read()


def built(crate, *words):
    """A program of the repository. If there is none that LLVM compiled, or a source is newer, it is
    proved and built: `rt run` runs it with these words. It is taken as it is where BUILT_ONLY is
    set."""
    program = f"{TOP}/crates/{crate}/out/{crate}"
    if os.environ.get("BUILT_ONLY") and is_built(program):
        return program
    sources = [f"{TOP}/crates/{it}/src" for it in crates_below(crate)]
    newest = max(
        os.path.getmtime(os.path.join(folder, name))
        for source in sources
        for folder, _, names in os.walk(source)
        for name in names
    )
    if not is_built(program) or os.path.getmtime(program) < newest:
        stop_if_built_only(f"no {program} that LLVM compiled")
        if shutil.which("rt") is None:
            stop(f"no {program}, and no rt to build it: the Rattle toolchain is not on the PATH")
        run = ["rt", "run", "--backend", "llvm", *(["--", *words] if words else [])]
        where = {"cwd": f"{TOP}/crates/{crate}", "stdin": subprocess.DEVNULL}
        if subprocess.run(run, stdout=sys.stderr, **where).returncode:
            stop(f"{crate} is not proved")
    return program


def made(folder, target):
    """Makes a target of a Makefile; it is taken as it is where BUILT_ONLY is set."""
    words = ["make", "--no-print-directory", "-C", f"{TOP}/{folder}", target]
    if os.environ.get("BUILT_ONLY") and os.path.exists(f"{TOP}/{folder}/{target}"):
        return
    stop_if_built_only(f"no {folder}/{target}")
    if subprocess.run(words, stdout=sys.stderr).returncode:
        stop(f"{folder}/{target} is not made")


def stop_if_built_only(why):
    """Ends a script that would prove and build something, where the variable BUILT_ONLY is set."""
    if os.environ.get("BUILT_ONLY"):
        stop(why)


def compiled(source, to, *flags):
    """A program or a library of this folder in C."""
    compiler = os.environ.get("CC", "gcc").split()
    words = [*compiler, "-O2", "-Wall", "-Wextra", "-Werror", "-o", to, f"{HERE}/{source}", *flags]
    if subprocess.run(words).returncode:
        stop(f"{source} does not compile")
    return to


def record(operation, kind, parameter, times, text):
    """A record of the programs `sf_calls` and `calls`."""
    head = f"{operation} {kind} {parameter} {times} {len(text)}\n"
    return head.encode() + text + b"\n"


def tuned(*tunables):
    """The variables for a program whose C library is tuned so."""
    return {**os.environ, "GLIBC_TUNABLES": ":".join(tunables)}


def counted(program, records, folder):
    """The instructions of the calls of each record; `None` for a record at which the program fails
    or takes too long. The records behind that one are given to another run."""
    found = []
    while len(found) < len(records):
        first, is_late = counted_first(program, records[len(found) :], folder)
        found += first
        # A run that is late may have spent its time on other records.
        if len(found) < len(records) and not (is_late and first):
            found.append(None)
    return found


def counted_first(program, records, folder):
    """The instructions of the calls of each record that one run of the program finishes, and
    whether it took too long for more. The calls begin and end where the program calls `calls_begin`
    and `calls_end`."""
    source = tempfile.TemporaryFile(dir=folder)
    source.write(b"".join(records))
    source.seek(0)
    with tempfile.TemporaryDirectory(dir=folder) as work:
        flags = [
            "--zero-before=*calls_begin*",
            "--dump-before=*calls_end*",
            "--combine-dumps=yes",
            f"--callgrind-out-file={work}/counts",
        ]
        how = {"stdin": source, "capture_output": True, "env": tuned(COPYING, ALLOCATING)}
        limited = ["sh", "-c", f'ulimit -t {SECONDS}; exec "$@"', "", *VALGRIND, *flags, program]
        ran = subprocess.run(limited, **how)
        found = []
        if os.path.exists(f"{work}/counts"):
            with open(f"{work}/counts", "rb") as lines:
                found = [int(line.split()[1]) for line in lines if line.startswith(b"summary:")]
    is_late = ran.returncode == -signal.SIGKILL
    # If it ends by itself, the last count is of what comes after the last record.
    if not is_late:
        found = found[:-1]
    if len(found) > len(records) or not ran.returncode and len(found) < len(records):
        name = os.path.basename(program)
        stop(f"{name}: {len(found)} pairs of marks were found for {len(records)} records")
    return found, is_late


def counted_all(jobs, folder):
    """The instructions of many records, each with its program, side by side on all processors."""
    batches = []
    for program in sorted({it[0] for it in jobs}):
        places = [at for at, it in enumerate(jobs) if it[0] == program]
        # Long and short ones are mixed, so that all batches take about as long.
        count = max(1, len(places) // 40)
        batches += [(program, places[at::count]) for at in range(count)]
    found = [0] * len(jobs)
    with concurrent.futures.ThreadPoolExecutor(len(os.sched_getaffinity(0))) as pool:
        runs = [
            (places, pool.submit(counted, program, [jobs[at][1] for at in places], folder))
            for program, places in batches
        ]
        for places, run in runs:
            for at, count in zip(places, run.result()):
                found[at] = count
    return found


def instructions(words):
    """The instructions of a whole program."""
    with tempfile.TemporaryDirectory() as work:
        words = [*VALGRIND, f"--callgrind-out-file={work}/counts", *words]
        how = {"stdin": subprocess.DEVNULL, "capture_output": True, "env": tuned(COPYING)}
        ran = subprocess.run(words, **how)
    found = re.search(rb"Collected : (\d+)", ran.stderr)
    if ran.returncode or found is None:
        stop(f"{' '.join(words)} failed")
    return int(found[1])
