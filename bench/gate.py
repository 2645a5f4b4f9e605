"""Runs the gate and prints what each crate costs in processor minutes: its proof, its tests' proof, its edits.

    python3 bench/gate.py            the gate from nothing; its log goes to gate.log
    python3 bench/gate.py --kept     over what was kept: only what changed costs, where the kit keeps what it proved
    python3 bench/gate.py --kept NAME..   the same of these crates and those that they stand on

A kit that keeps what `rt ci` proved has the flag --anew; one without it proves all from nothing each time.

It looks at the running provers five times a second, so that the last fifth of a second of each isn't counted.
"""
import os
import resource
import subprocess
import sys
import time

TICKS = os.sysconf("SC_CLK_TCK")


def processes():
    """Of each process: its number with its start, and its processor seconds so far."""
    for number in filter(str.isdigit, os.listdir("/proc")):
        try:
            with open(f"/proc/{number}/stat") as stat:
                fields = stat.read().rpartition(") ")[2].split()
        except OSError:
            continue
        yield number, fields[19], (int(fields[11]) + int(fields[12])) / TICKS


def prover(number, run):
    """The crate that a process of the run proves and why, if it is a prover."""
    try:
        with open(f"/proc/{number}/cmdline") as line:
            words = line.read().split("\0")
        folder = os.readlink(f"/proc/{number}/cwd")
    except OSError:
        return None
    if not words[0].endswith("/rattle") or "--crate-name" not in words:
        return None
    is_edit = f"/rt-edit-{run.pid}-" in folder
    if not is_edit and not folder.startswith(os.getcwd()):
        return None
    kind = "tests" if "--test" in words else "edits" if is_edit else "proof"
    return words[words.index("--crate-name") + 1], kind


def watch(run):
    """The processor seconds of each crate and kind, and when its first and last prover was seen, until the run ends."""
    seen, kinds, spans, start = {}, {}, {}, time.time()
    while run.poll() is None:
        for number, begun, seconds in processes():
            key = number, begun
            # (a process is first seen before it has become a prover)
            if not kinds.get(key):
                kinds[key] = prover(number, run)
            if kinds[key]:
                seen[key] = max(seconds, seen.get(key, 0))
                first = spans.get(kinds[key][0], (time.time() - start,))[0]
                spans[kinds[key][0]] = first, time.time() - start
        time.sleep(0.2)
    costs = {}
    for key, seconds in seen.items():
        name, kind = kinds[key]
        costs.setdefault(name, dict.fromkeys(("proof", "tests", "edits"), 0))[kind] += seconds
    return costs, spans, time.time() - start


def keeps():
    """Whether this kit's gate keeps what it proved."""
    said = subprocess.run(["rt", "help"], stdin=subprocess.DEVNULL, capture_output=True, text=True)
    return "--anew" in said.stdout + said.stderr


def main():
    names = [word for word in sys.argv[1:] if word != "--kept"]
    flags = names if names or "--kept" in sys.argv or not keeps() else ["--anew"]
    with open("gate.log", "w") as log:
        run = subprocess.Popen(["rt", "ci", *flags], stdin=subprocess.DEVNULL, stdout=log, stderr=log)
        costs, spans, clock = watch(run)
    print("| crate | proof | tests | edits | by the clock |\n|---|---|---|---|---|")
    for name, of in sorted(costs.items()):
        first, last = spans[name]
        print(f"| `{name}` | {of['proof'] / 60:.1f} | {of['tests'] / 60:.1f} | {of['edits'] / 60:.1f} | {(last - first) / 60:.1f} |")
    sums = [sum(of[kind] for of in costs.values()) / 60 for kind in ("proof", "tests", "edits")]
    print(f"| all | {sums[0]:.1f} | {sums[1]:.1f} | {sums[2]:.1f} | {clock / 60:.1f} |")
    used = resource.getrusage(resource.RUSAGE_CHILDREN)
    print(f"\n{sum(sums):.0f} processor minutes of provers; {(used.ru_utime + used.ru_stime) / 60:.0f} in all")
    sys.exit(run.returncode)


if __name__ == "__main__":
    main()
