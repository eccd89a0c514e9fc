#!/usr/bin/env python3
"""The program beside other general parsers, on the same grammars and inputs, by characters: beside.py [OPTION ..]

    --program FILE   the program, else `iguana` of this repository
    --only A,B       these workloads alone
    --runs N         the least of N runs (else 3)
    --limit N        a run of more than N seconds is cut off (else 20)

Takes what is installed of Marpa (libmarpa-r2-perl), Bison (bison, gcc), Lark (python3-lark) and SWI-Prolog
(swi-prolog-nox), and prints a table in Markdown: processor time of the whole command, user and system, from start to
end, and its peak memory. The first row of each workload is an input so small that it shows the start alone. Memory of
less than about 12 MB can't be told: that is what the measuring process itself has.
"""

import argparse
import os
import resource
import shutil
import subprocess
import sys
import tempfile
import time

import emit
from workloads import BLOCKS, GRAMMARS, INPUTS, SIZES

HERE = os.path.dirname(os.path.abspath(__file__))
DRIVERS = os.path.join(HERE, "drivers")
MEMORY = 8 << 30
PROGRAMS = ["iguana", "marpa", "bison", "lark", "prolog"]


def write(folder, name, text):
    path = os.path.join(folder, name)
    os.makedirs(os.path.dirname(path), exist_ok=True)
    with open(path, "w", encoding="utf-8", newline="") as file:
        file.write(text)
    return path


def works(words):
    return shutil.which(words[0]) and subprocess.run(words, capture_output=True, check=False).returncode == 0


def python_with_lark():
    """The first Python on the path, or of the system, that has Lark."""
    folders = os.environ.get("PATH", "").split(os.pathsep) + ["/usr/bin"]
    pythons = [os.path.join(folder, "python3") for folder in folders]
    return next((p for p in pythons if os.path.exists(p) and works([p, "-c", "import lark"])), None)


def make(program, name, folder, own):
    """The words of a command before the name of the input; None where the program isn't there or can't take it."""
    rules = GRAMMARS.get(name)
    if program == "iguana":
        grammar = write(folder, f"{name}.ig", BLOCKS if rules is None else emit.iguana(rules))
        return [own, "forest", "--budget", "4000000", grammar]
    if program == "prolog":
        if not shutil.which("swipl"):
            return None
        grammar = os.path.join(DRIVERS, "blocks.pl") if rules is None else write(folder, f"{name}.pl", emit.prolog(rules))
        return ["swipl", "--stack-limit=7g", "--table-space=7g", "-g", "main", os.path.join(DRIVERS, "tabled.pl"), "--", grammar]
    if rules is None:
        return None
    if program == "marpa" and works(["perl", "-MMarpa::R2", "-e1"]):
        return ["perl", os.path.join(DRIVERS, "marpa.pl"), write(folder, f"{name}.marpa", emit.marpa(rules))]
    if program == "lark" and (python := python_with_lark()):
        return [python, os.path.join(DRIVERS, "lark_forest.py"), write(folder, f"{name}.lark", emit.lark(rules))]
    if program == "bison" and works(["bison", "--version"]) and works(["gcc", "--version"]):
        own_folder = os.path.join(folder, name)
        grammar = write(own_folder, "grammar.y", emit.bison(rules))
        built = os.path.join(own_folder, "run")
        subprocess.run(["bison", "-Wno-all", "-o", os.path.join(own_folder, "grammar.c"), grammar], check=True, capture_output=True)
        subprocess.run(["gcc", "-O2", "-w", f"-I{own_folder}", f"-I{DRIVERS}", os.path.join(DRIVERS, "bison_main.c"), "-o", built],
                       check=True)
        return [built]
    return None


def prepare():
    resource.setrlimit(resource.RLIMIT_AS, (MEMORY, MEMORY))
    hard = resource.getrlimit(resource.RLIMIT_STACK)[1]
    resource.setrlimit(resource.RLIMIT_STACK, (hard, hard))


def run(words, out, limit):
    """Seconds of processor time and MB of peak memory; or why there are none."""
    with open(out, "wb") as file:
        process = subprocess.Popen(words, stdout=file, stderr=subprocess.DEVNULL, stdin=subprocess.DEVNULL, preexec_fn=prepare)
        begun = time.monotonic()
        while True:
            done, raw, usage = os.wait4(process.pid, os.WNOHANG)
            if done:
                break
            if time.monotonic() - begun > limit:
                process.kill()
                os.wait4(process.pid, 0)
                process.returncode = -9
                return f"over {limit} s"
            time.sleep(0.002)
    process.returncode = os.waitstatus_to_exitcode(raw)
    if process.returncode != 0:
        return "not built" if words[1:2] == ["forest"] and process.returncode == 3 else f"fails ({process.returncode})"
    return usage.ru_utime + usage.ru_stime, usage.ru_maxrss / 1024


def least(words, out, limit, runs):
    """The least time and memory of several runs, or why there are none."""
    best = None
    for _ in range(runs):
        found = run(words, out, limit)
        if isinstance(found, str):
            return found
        best = found if best is None else tuple(map(min, best, found))
    return best


def measure(options, folder):
    """Yields the lines of the table."""
    yield "| Workload | Size | " + " | ".join(f"{program}: s, MB" for program in PROGRAMS) + " |"
    yield "|---|---|" + "---|" * len(PROGRAMS)
    for name, sizes in SIZES.items():
        if options.only and name not in options.only.split(","):
            continue
        commands = {program: make(program, name, folder, options.program) for program in PROGRAMS}
        for size in sizes:
            text = write(folder, "input", INPUTS[name](size))
            cells = []
            for program, words in commands.items():
                if words is None:
                    cells.append("")
                    continue
                found = least([*words, text], os.path.join(folder, "out"), options.limit, options.runs)
                if isinstance(found, str):
                    commands[program] = None
                    cells.append(found)
                else:
                    cells.append(f"{found[0]:.2f}, {found[1]:.0f}")
            yield f"| {name} | {size:,} | {' | '.join(cells)} |"


def main():
    parser = argparse.ArgumentParser(description=__doc__.split("\n", 1)[0])
    parser.add_argument("--program", default=os.path.join(HERE, "..", "iguana"))
    parser.add_argument("--only", default="")
    parser.add_argument("--runs", type=int, default=3)
    parser.add_argument("--limit", type=int, default=20)
    options = parser.parse_args()
    options.program = os.path.abspath(options.program)
    with tempfile.TemporaryDirectory() as folder:
        for line in measure(options, folder):
            print(line, flush=True)


if __name__ == "__main__":
    sys.exit(main())
