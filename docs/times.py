#!/usr/bin/env python3
"""Times the program over tables that it makes itself, and prints the tables of docs/FIGURES.md.

usage: python3 docs/times.py PROGRAM rows|fragments|workers|filters [--rounds N] [--only NAME,..] [--folder FOLDER] [-- OPTION ..]

rows       wall time on one worker, of 100 000, 1 000 000 and 4 000 000 rows, from file to answer
fragments  wall time on one worker of each plan in one fragment and in several, with one task and with four, and its ratio
           to that of one fragment
workers    wall time of the plans in fragments with four tasks of four drivers, on 1, 2 and 4 workers, and the time of what
           follows the load: between the call and the return of `result_of` of the program, by probes of the kernel, for which
           the script has to run as root
filters    the same of the plans with dynamic filters, as they are and with the filters left out, on 1 and 4 workers

The plans are those of docs/plans. Tables are made once, in FOLDER (/tmp/zelgumber-times), from seeds, and a figure is the best
of N rounds (8), in each of which every command runs once. OPTIONs go to each run. Let nothing else run meanwhile: what the
host took of the processors is told at the end, and where that is more than a hundredth, trust the figures less.
"""

import argparse
import os
import platform
import random
import re
import subprocess
import sys
import time

HERE = os.path.dirname(os.path.abspath(__file__))
TRACING = "/sys/kernel/tracing"
# A workload: its plan, what makes its tables, and how many rows and keys these have.
WORKLOADS = {
    "star": ("star", "star", 2_000_000, 100),
    "demo": ("demo", "demo", 1_000_000, 0),
    "groups": ("groups", "groups", 1_000_000, 10),
    "many_groups": ("groups", "groups", 1_000_000, 100_000),
    "pricing": ("pricing", "items", 1_000_000, 0),
    "sort": ("sort", "wide", 1_000_000, 0),
    "topn": ("topn", "wide", 1_000_000, 0),
    "sum": ("sum", "numbers", 1_000_000, 0),
}


def hundredths(number):
    return f"{number // 100}.{number % 100:02d}"


def demo(rows, _keys, _whole):
    yield "orders", "customer,amount", (f"{row % 1000},{hundredths(row % 1000)}" for row in range(rows))
    yield "customers", "id,region", (f"{key},{('north', 'east', 'south', 'west')[key % 4]}" for key in range(900))


def star(rows, keys, whole):
    yield "fact", "k,v", (f"{whole(1_000_000)},{whole(1_000_000)}" for _ in range(rows))
    yield "dim", "id,name", (f"{key * 9973 % 1_000_000},name-{key % 10}" for key in range(keys))


def groups(rows, keys, whole):
    def cell(text):
        return r"\N" if whole(1000) == 0 else text

    yield "t", "g,v", (f"{cell(f'group-{whole(keys):06d}')},{cell(whole(2_000_001) - 1_000_000)}" for _ in range(rows))


def items(rows, _keys, whole):
    def day():
        return f"{1992 + whole(7)}-{1 + whole(12):02d}-{1 + whole(28):02d}"

    def row(count):
        return f"{day()},{'ANNR'[whole(4)]},{count},{hundredths(count * (90_000 + whole(20_001)))},0.{whole(11):02d}"

    yield "items", "day,flag,qty,price,disc", (row(1 + whole(50)) for _ in range(rows))


def wide(rows, _keys, whole):
    yield "t", "k,v,s", (f"{row * 7_368_787 % rows},{whole(1_000_000_000)},text {whole(100_000):05d}" for row in range(rows))


def numbers(rows, _keys, whole):
    yield "t", "a", (whole(2_000_001) - 1_000_000 for _ in range(rows))


MAKERS = {"demo": demo, "star": star, "groups": groups, "items": items, "wide": wide, "numbers": numbers}


def tables_of(folder, maker, rows, keys):
    """The words NAME=FILE for the tables, which are made where they are not there."""
    at = f"{folder}/{maker}-{rows}-{keys}"
    if not os.path.exists(f"{at}/whole"):
        os.makedirs(at, exist_ok=True)
        for name, header, lines in MAKERS[maker](rows, keys, random.Random(rows + keys).randrange):
            with open(f"{at}/{name}.csv", "w") as table:
                table.write(f"{header}\n")
                table.writelines(f"{line}\n" for line in lines)
        open(f"{at}/whole", "w").close()
    return [f"{it[:-4]}={at}/{it}" for it in sorted(os.listdir(at)) if it.endswith(".csv")]


def stolen():
    """What the host took so far of the processors' time, and all of it."""
    with open("/proc/stat") as it:
        spent = [int(word) for word in it.readline().split()[1:9]]
    return spent[7], sum(spent)


class Probes:
    """Probes at the call and the return of `result_of`, where the kernel lets this process set them."""

    def __init__(self, program):
        if os.path.exists(f"{TRACING}/events/zelgumber"):
            self.write("events/zelgumber/enable", "0")
        self.write("uprobe_events", "\n", os.O_TRUNC)
        at = f"{os.path.abspath(program)}:{self.place_of(program):#x}"
        for probe in (f"p:zelgumber/called {at}", f"r:zelgumber/returned {at}"):
            self.write("uprobe_events", f"{probe}\n", os.O_APPEND)
        self.write("events/zelgumber/enable", "1")

    def write(self, file, text, how=0):
        # (these files cannot be sought in, as open() does)
        at = os.open(f"{TRACING}/{file}", os.O_WRONLY | how)
        try:
            os.write(at, text.encode())
        finally:
            os.close(at)

    def place_of(self, program):
        """Where the function begins in the file."""
        told = subprocess.run(["nm", program], capture_output=True, text=True, check=True).stdout
        address = next(int(line.split()[0], 16) for line in told.splitlines() if re.search(r"results.*result_of", line))
        told = subprocess.run(["readelf", "-lW", program], capture_output=True, text=True, check=True).stdout
        for line in re.findall(r"LOAD +(0x\w+) (0x\w+) 0x\w+ (0x\w+)", told):
            offset, begin, size = (int(number, 16) for number in line)
            if begin <= address < begin + size:
                return address - begin + offset
        sys.exit("the program has no result_of")

    def clear(self):
        self.write("trace", "\n", os.O_TRUNC)

    def seconds(self):
        with open(f"{TRACING}/trace") as it:
            told = it.read()
        called, returned = (re.search(rf"(\d+\.\d+): {name}:", told) for name in ("called", "returned"))
        return float(returned[1]) - float(called[1])


def timed(command, probes):
    """The wall time of a run, and that of what follows its load."""
    if probes:
        probes.clear()
    began = time.perf_counter()
    ran = subprocess.run(command, stdout=subprocess.DEVNULL, stderr=subprocess.PIPE)
    took = time.perf_counter() - began
    if ran.returncode:
        sys.exit(f"{' '.join(command)}: {ran.stderr.decode()}")
    return took, probes.seconds() if probes else 0.0


def best_of(commands, rounds, probes=None):
    """The least wall time of each command, and the least time of what follows its load."""
    times = {key: [] for key in commands}
    for _ in range(rounds):
        for key, command in commands.items():
            times[key].append(timed(command, probes))
    return {key: tuple(map(min, zip(*found))) for key, found in times.items()}


class Bench:
    def __init__(self, given):
        self.given = given

    def command(self, name, ending, options, rows=None):
        plan, maker, usual, keys = WORKLOADS[name]
        words = tables_of(self.given.folder, maker, rows or usual, keys)
        return [self.given.program, "--plan", f"{HERE}/plans/{plan}{ending}.json", *options, *self.given.options, *words]

    def names(self, *usual):
        return self.given.only.split(",") if self.given.only else usual

    def rows(self):
        names, sizes = self.names("groups", "demo", "sort"), (100_000, 1_000_000, 4_000_000)
        alone = ["--workers", "1", "--tasks", "1", "--drivers", "1"]
        best = best_of({(name, size): self.command(name, "", alone, size) for size in sizes for name in names}, self.given.rounds)
        yield ["rows", *(f"`{name}`" for name in names)]
        for size in sizes:
            yield [str(size), *(f"{best[name, size][0]:.3f}" for name in names)]

    def fragments(self):
        names, one = self.names(*WORKLOADS), ["--tasks", "1", "--drivers", "1"]
        forms = {"one fragment": ("", one), "one task": ("_fragments", one), "four tasks": ("_fragments", ["--tasks", "4"])}
        forms["four tasks of one driver"] = ("_fragments", ["--tasks", "4", "--drivers", "1"])
        commands = {(name, form): self.command(name, ending, ["--workers", "1", *options])
                    for name in names for form, (ending, options) in forms.items()}
        best = best_of(commands, self.given.rounds)
        yield ["workload", *forms]
        for name in names:
            first = best[name, "one fragment"][0]
            found = [best[name, form][0] for form in forms]
            yield [f"`{name}`", f"{first:.3f} s", *(f"{it:.3f} s ({it / first:.2f})" for it in found[1:])]

    def workers(self):
        names, counts = self.names("star", "demo", "groups", "many_groups", "pricing"), (1, 2, 4)
        shape = ["--tasks", "4", "--drivers", "4", "--workers"]
        commands = {(name, count): self.command(name, "_fragments", [*shape, str(count)]) for name in names for count in counts}
        best = best_of(commands, self.given.rounds, Probes(self.given.program))
        yield ["workload", "wall, 1, 2 and 4 workers", "after the load", "with 2", "with 4"]
        for name in names:
            wall, after = ([best[name, count][at] for count in counts] for at in (0, 1))
            said = [", ".join(f"{it:.3f}" for it in part) + " s" for part in (wall, after)]
            yield [f"`{name}`", *said, f"{after[0] / after[1]:.2f}", f"{after[0] / after[2]:.2f}"]

    def bare(self, name):
        """The plan without its filters, in the folder of the tables."""
        to = f"{self.given.folder}/{name}_bare.json"
        with open(f"{HERE}/plans/{WORKLOADS[name][0]}_fragments.json") as plan, open(to, "w") as out:
            out.write(re.sub(r',"filters":\[[^]]*\]', "", plan.read()))
        return to

    def filters(self):
        names, counts = self.names("star", "demo"), (1, 4)
        shape = ["--tasks", "4", "--drivers", "4", "--workers"]
        commands = {(name, count, False): self.command(name, "_fragments", [*shape, str(count)]) for name in names for count in counts}
        for (name, count, _), command in list(commands.items()):
            commands[name, count, True] = [*command[:2], self.bare(name), *command[3:]]
        best = best_of(commands, self.given.rounds, Probes(self.given.program))
        yield ["workload", "workers", "with filters: wall, after the load", "without", "after the load, with to without"]
        for name in names:
            for count in counts:
                with_them, without = best[name, count, False], best[name, count, True]
                said = [", ".join(f"{it:.3f}" for it in part) + " s" for part in (with_them, without)]
                yield [f"`{name}`", str(count), *said, f"{with_them[1] / without[1]:.2f}"]


def arguments():
    options = argparse.ArgumentParser(usage=__doc__)
    options.add_argument("program")
    options.add_argument("what", choices=("rows", "fragments", "workers", "filters"))
    options.add_argument("--rounds", type=int, default=8)
    options.add_argument("--only")
    options.add_argument("--folder", default="/tmp/zelgumber-times")
    words, _, behind = " ".join(sys.argv[1:]).partition(" -- ")
    given = options.parse_args(words.split())
    given.options = behind.split()
    return given


def main():
    given = arguments()
    before = stolen()
    lines = list(getattr(Bench(given), given.what)())
    took, all_time = (now - then for now, then in zip(stolen(), before))
    lines.insert(1, ["---"] * len(lines[0]))
    print("\n".join(f"| {' | '.join(line)} |" for line in lines))
    print(f"\n{time.strftime('%Y-%m-%d')}, {os.cpu_count()} processors ({platform.machine()}), of which the host took {100 * took / all_time:.1f} %")


if __name__ == "__main__":
    main()
