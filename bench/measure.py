#!/usr/bin/env python3
"""measure.py [-n RUNS] [-c] PROGRAM...: the load of SPEED-load.md on each program, in turn, RUNS times over.

Prints the least and the middle (median) CPU time of each, their ratios to the first program's, and whether the first lines (`sum`) of all and the
`own` lines of those that have slots are equal in every run; if not, or if a program fails, it ends with status 1.
With -c also the instructions that each executes, counted by callgrind (valgrind) in one run more.
The programs take turns, so that a busy machine slows all of them alike. The last line says how busy the machine was.
A program may be a command of several words, as "../tools/run bench_main", which runs on any processor; its time then counts the runner's shells and,
where x86-64 is emulated, the emulator, so that there only the sums say something.
"""
import os, re, subprocess, sys

LOAD = bytes.fromhex("01 0008 00 01 00000008 0020 000f4240 00000001")


def once(program):
    """CPU seconds and output of one run."""
    child = subprocess.Popen(program.split(), stdin=subprocess.PIPE, stdout=subprocess.PIPE)
    child.stdin.write(LOAD)
    child.stdin.close()
    out = child.stdout.read().decode()
    _, status, used = os.wait4(child.pid, 0)
    child.returncode = os.waitstatus_to_exitcode(status)
    if child.returncode != 0:
        sys.exit(f"{program} ended with {child.returncode}")
    return used.ru_utime + used.ru_stime, out


def instructions(program):
    """How many instructions one run executes."""
    command = ["valgrind", "--tool=callgrind", "--callgrind-out-file=/dev/null", *program.split()]
    said = subprocess.run(command, input=LOAD, capture_output=True).stderr.decode()
    return int(re.search(r"refs:\s+([\d,]+)", said).group(1).replace(",", ""))


def equal(title, lines):
    """Whether the lines are one and the same and begin with the title, said in words."""
    same = len(lines) == 1 and next(iter(lines)).startswith(title + " ")
    print(f"{title} equal: {next(iter(lines))}" if same else f"{title} DIFFERS: {sorted(lines)}")
    return same


def main():
    args = sys.argv[1:]
    runs, count = 15, False
    while args and args[0] in ("-n", "-c"):
        if args[0] == "-n":
            runs, args = int(args[1]), args[2:]
        else:
            count, args = True, args[1:]
    times = {p: [] for p in args}
    sums, owns = set(), set()
    for _ in range(runs):
        for p in args:
            seconds, out = once(p)
            times[p].append(seconds)
            lines = out.split("\n")
            sums.add(lines[0])
            owns.update(lines[1:-1])
    times = {p: sorted(t) for p, t in times.items()}
    middle = runs // 2
    first = times[args[0]]
    counts = {p: instructions(p) for p in args} if count else {}
    for p in args:
        t = times[p]
        line = f"{t[0] * 1000:8.1f} ms least {t[0] / first[0]:5.2f} times, {t[middle] * 1000:8.1f} ms middle {t[middle] / first[middle]:5.2f} times"
        if count:
            line += f", {counts[p] / 1e6:8.1f} million instructions {counts[p] / counts[args[0]]:5.2f} times"
        print(f"{line}  {p}")
    same = [equal("sum", sums), equal("own", owns)]
    print(f"{runs} runs each, load of the machine {os.getloadavg()[0]:.1f} on {os.cpu_count()} cores")
    sys.exit(0 if all(same) else 1)


main()
