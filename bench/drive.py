"""Runs the benchmark: drive.py peers-program results.json

Every peer does its timing loops itself and counts processor time. In each round every peer takes every workload once,
so that what disturbs the machine disturbs all alike; what is compared are the ratios within a round, and of those the
median is given, and beside a goal the spread: the ratios' first and third quartile.
"""
import json
import os
import shutil
import subprocess
import sys
from statistics import median, quantiles

import count
from workloads import (BYTE_COUNTS, CALLS, DIGIT_COUNTS, FIELD_COUNTS, PAIR_CALLS, SHEET_CALLS, USUAL, crowd_sum,
                       long_workloads, main_workloads, pairs, step_bound, tables, workloads)

ROUNDS = int(os.environ.get("BENCH_ROUNDS", "15"))
SLICE = int(float(os.environ.get("BENCH_MILLISECONDS", "3")) * 1e6)
CROWD = int(os.environ.get("BENCH_RECORDS", "1000000"))
CROWD_ROUNDS = int(os.environ.get("BENCH_CROWD_ROUNDS", "9"))
NAMES = {"ours": "ours", "plain": "plain C", "twin": "Rust twin", "tcl": "Tcl", "perl": "Perl", "python": "Python"}
TITLES = {"w1": "w1 small mark record", USUAL: "w1, area of 256 bytes", "w2": "w2 b4096; b*, 4096 bytes",
          "w3": "w3 s2000", "w4": "w4 a4096", "w5": "w5 64 fields of c", "i1000": "i1000", "I1000": "I1000", "c1000": "c1000", "q500": "500 doubles",
          "r1000": "1,000 singles", "a32768": "a32768", "b262144": "b32768; b*, 32,768 bytes", "s16000": "s16000",
          "b4096": "b4096, 512 bytes",
          "t8": "table of 8 slots", "t60000": "value of 60,000 bytes", "t500000": "value of 500,000 bytes",
          "same-w1": "w1 twice", "other-a4096": "a4096, one byte differs", "same-a4096": "a4096 twice"}
LIBRARIES = ("ours", "twin")
IN_C = (*LIBRARIES, "plain")
PLANS = ("plan", "kept")
PREPARED = ("w1", "w4", "w5")
PLAIN_GOAL = 1.1
KEPT_GOAL = 1.25
HAND_GOAL = 5.0
HAND_GOALS = {"pack": 4.6, "read": 1.25}
PLAN_TCL_GOALS = {("w5", "pack"): 2.3}
TWIN_GOAL = 1.0
COPY_GOAL = 2.0
MEMCMP_GOAL = 4.0
CROWD_GOAL = 0.9


STRIPS = ("w2", "b4096", "b262144")
STRIP_TCL_GOAL = 8.0
READ_TCL_GOAL = 8.0
TCL_GOAL = 2.0
LONG_STRINGS = ("w4", "a32768")
PLAIN_GOALS = {"r1000": 1.25}


def tcl_goal(name, call):
    if name in STRIPS:
        return STRIP_TCL_GOAL
    return READ_TCL_GOAL if call == "read" and name not in LONG_STRINGS else TCL_GOAL


def plain_goal(name):
    """How many times plain C's time ours may take."""
    return PLAIN_GOALS.get(name, PLAIN_GOAL)


def main_rows():
    """The calls in the main table. Of b4096, w2 has the packing already, and of the area of usual size w1."""
    for work in main_workloads() + long_workloads():
        for call in CALLS if work.name != USUAL else CALLS[1:]:
            yield work.name, call
        if work.name == "w2":
            yield "b4096", "read"


class Process:
    def __init__(self, *command):
        self.process = subprocess.Popen(command, stdin=subprocess.PIPE, stdout=subprocess.PIPE, text=True)

    def tell(self, line):
        self.process.stdin.write(line + "\n")

    def ask(self, line):
        self.tell(line)
        self.process.stdin.flush()
        answer = self.process.stdout.readline()
        if not answer:
            sys.exit(f"no answer to: {line}")
        return answer.strip()

    def close(self):
        self.process.stdin.close()
        self.process.wait()


def start_peers(program):
    """The processes, and for each peer the process that serves it."""
    here = os.path.dirname(os.path.abspath(__file__))
    native = Process(program)
    serving = {peer: native for peer in native.ask("peers").split()}
    if shutil.which("perl"):
        serving["perl"] = Process("perl", os.path.join(here, "peer.pl"))
    else:
        print("skipped: Perl (perl not found)")
    serving["python"] = Process(sys.executable, os.path.join(here, "peer.py"))
    for process in {native, serving.get("perl", native)}:
        for work in workloads():
            for line in work.lines():
                process.tell(line)
    for work, _, _ in library_cases():
        for line in work.lines():
            native.tell(line)
    return serving


def library_cases():
    """Workloads that only libraries with our interface know, with their calls and with the peer beside them."""
    for table in tables():
        yield table, SHEET_CALLS, "memcpy"
    for pair in pairs():
        yield pair, PAIR_CALLS, "memcmp" if pair.name == "same-a4096" else None


def knows(peer, name):
    """Whether a peer packs and reads a workload."""
    return peer in NAMES or (peer, name) == ("hand", "w1") or (peer in PLANS and name in PREPARED)


def cases(peers):
    """What is timed: peer, workload, call."""
    for work in workloads():
        for call in CALLS:
            for peer in peers:
                if knows(peer, work.name) or (peer, work.name) == ("memcpy", "w4"):
                    yield peer, work.name, call
    for work, calls, beside in library_cases():
        for call in calls:
            for peer in peers:
                if peer in LIBRARIES or peer == beside:
                    yield peer, work.name, call


def check_same(serving):
    """Every peer gives the same bytes and the same values as ours."""
    for work in workloads():
        for call in CALLS:
            expected = serving["ours"].ask(f"show ours {work.name} {call}")
            for peer, process in serving.items():
                if knows(peer, work.name) and process.ask(f"show {peer} {work.name} {call}") != expected:
                    sys.exit(f"{NAMES.get(peer, peer)} and ours differ on {work.name} {call}")
    for work, calls, beside in library_cases():
        for call in calls:
            for peer in (*LIBRARIES, beside):
                if peer in serving and peer != "memcpy":
                    check_result(serving, peer, work.name, call, work.expected(call))


def check_result(serving, peer, name, call, expected):
    if serving[peer].ask(f"show {peer} {name} {call}") != expected:
        sys.exit(f"{NAMES.get(peer, peer)} gives a wrong result on {name} {call}")


def calls_per_slice(serving, case):
    peer, name, call = case
    n = 1
    while True:
        spent = int(serving[peer].ask(f"time {peer} {name} {call} {n}"))
        if spent > SLICE / 4:
            return max(1, int(n * SLICE / spent))
        n *= 4


def run_rounds(serving):
    """Nanoseconds of one call, for each case a list with one entry a round."""
    todo = list(cases(serving))
    counts = {case: calls_per_slice(serving, case) for case in todo}
    times = {case: [] for case in todo}
    for _ in range(ROUNDS):
        for case in todo:
            peer, name, call = case
            n = counts[case]
            times[case].append(int(serving[peer].ask(f"time {peer} {name} {call} {n}")) / n)
    return times


def crowd_records(peer):
    """How many records a peer packs and reads: the slow ones fewer."""
    return CROWD if peer in IN_C else CROWD // 5 if peer == "tcl" else CROWD // 20


def run_crowd(serving):
    """Records in a second, packed and read, for each peer and number of threads."""
    cores = len(os.sched_getaffinity(0))
    todo = [(peer, threads) for peer in serving if peer in NAMES
            for threads in ((1, cores) if peer in (*IN_C, "tcl") and cores > 1 else (1,))]
    rates = {case: ([], []) for case in todo}
    for _ in range(CROWD_ROUNDS):
        for peer, threads in todo:
            records = crowd_records(peer)
            packing, reading, total = map(int, serving[peer].ask(f"crowd {peer} {threads} {records}").split())
            if total != crowd_sum(records):
                sys.exit(f"{NAMES[peer]} read wrong marks")
            rates[peer, threads][0].append(records / packing * 1e9)
            rates[peer, threads][1].append(records / reading * 1e9)
    return rates


def ratios(times, peer, name, call, own="ours"):
    """The peer's time over ours, one entry a round; empty where the peer is missing."""
    return [theirs / mine for theirs, mine in zip(times.get((peer, name, call), []), times[own, name, call])]


def ratio(times, peer, name, call, own="ours"):
    """Median over the rounds of the peer's time over ours; None where the peer is missing."""
    found = ratios(times, peer, name, call, own)
    return median(found) if found else None


def three(value):
    """Three digits of a number."""
    return f"{value:#.3g}".rstrip(".")


def text(value):
    return "-" if value is None else three(value) + "x"


def spread(values):
    """The first and the third quartile."""
    if len(values) < 2:
        return ""
    low, _, high = quantiles(values, n=4, method="inclusive")
    return f" ({three(low)} to {three(high)})"


def goal_text(values, goal):
    """A goal for a peer's time over ours, whether the median meets it, and the spread."""
    if not values:
        return "-"
    return f">={goal:.2f} {'met' if median(values) >= goal else 'MISSED'}{spread(values)}"


def print_main(times):
    print(f"\nOne call. Each peer's time over ours: above 1, ours is quicker. Medians of the ratios of {ROUNDS}")
    print("rounds; beside a goal, in brackets, the ratios' first and third quartile.")
    print(f"{'workload':26} {'call':5} {'ours ns':>9} {'Tcl':>7} {'goal':>30} {'plain C':>8} {'goal':>30}"
          f" {'Rust twin':>10} {'Perl':>7} {'Python':>7}")
    for name, call in main_rows():
        tcl, plain, twin, perl, python = (ratio(times, peer, name, call)
                                          for peer in ("tcl", "plain", "twin", "perl", "python"))
        print(f"{TITLES[name]:26} {call:5} {median(times['ours', name, call]):9.0f}"
              f" {text(tcl):>7} {goal_text(ratios(times, 'tcl', name, call), tcl_goal(name, call)):>30}"
              f" {text(plain):>8} {goal_text(ratios(times, 'plain', name, call), 1 / plain_goal(name)):>30}"
              f" {text(twin):>10} {text(perl):>7} {text(python):>7}")
    for call in CALLS:
        print(f"w1 written out by hand beside {call}: {text(ratio(times, 'hand', 'w1', call))} of our time, goal"
              f" {goal_text(ratios(times, 'hand', 'w1', call), 1 / HAND_GOAL)}")
    for call in CALLS:
        print(f"memcpy of the 4,096 bytes of w4 beside {call}: {text(ratio(times, 'memcpy', 'w4', call))} of our time")
    print("Goals: Tcl's time at least 2 times ours, in reading and for strips of digits 8 times, but for one long")
    print(f"string; our time at most {PLAIN_GOAL} times plain C's (its at least {1 / PLAIN_GOAL:.2f} of ours), 1.25 times for"
          " singles, which the")
    print(f"hardware converts for plain C; for w1 at most {HAND_GOAL:.0f} times that of the layout written out by hand.")
    print("Python's struct has no digit fields: w1, w2 and b4096 add the usual conversions by int, format and fromhex.")


def print_plans(times):
    print("\nLayouts prepared once (curlew_prepare). Each one's time over ours by the plan: ours by the layout, plain C")
    print("that keeps its fields and looks at them no more, the layout written out by hand, Tcl.")
    print(f"{'workload':26} {'call':5} {'plan ns':>9} {'layout':>7} {'plain C':>8} {'goal':>30} {'by hand':>8}"
          f" {'goal':>30} {'Tcl':>7} {'goal':>30}")
    for name in PREPARED:
        for call in CALLS:
            goals = {"kept": 1 / KEPT_GOAL, "hand": 1 / HAND_GOALS[call], "tcl": PLAN_TCL_GOALS.get((name, call))}
            shown = " ".join(f"{text(ratio(times, peer, name, call, 'plan')):>{width}}"
                             f" {plan_goal(times, peer, name, call, goal):>30}"
                             for (peer, goal), width in zip(goals.items(), (8, 8, 7)))
            print(f"{TITLES[name]:26} {call:5} {median(times['plan', name, call]):9.0f}"
                  f" {text(ratio(times, 'ours', name, call, 'plan')):>7} {shown}")


def plan_goal(times, peer, name, call, goal):
    return goal_text(ratios(times, peer, name, call, "plan"), goal) if goal else "-"


def print_counts(counts):
    if counts is None:
        print("\nskipped: instructions and taken jumps (valgrind not found)")
        return
    print("\nInstructions and taken jumps of one call of ours, counted by callgrind")
    print(f"{'workload':26} {'call':5} {'instructions':>13} {'taken jumps':>12}")
    for (name, call), (instructions, jumps) in counts.items():
        print(f"{TITLES[name]:26} {call:5} {instructions:13,} {jumps:12,}")


def print_beside(times, peer, name, call, goal=None):
    """A call's time, the twin's and another peer's over ours."""
    twin, other = (ratio(times, beside, name, call) for beside in ("twin", peer))
    beside = goal_text(ratios(times, peer, name, call), goal) if goal else "-"
    print(f"{TITLES[name]:28} {call:11} {median(times['ours', name, call]):9.0f} {text(twin):>10}"
          f" {goal_text(ratios(times, 'twin', name, call), 1 / TWIN_GOAL):>30} {text(other):>10} {beside:>30}")


def print_sheets(times):
    print("\nSheets, beside the twin and beside memcpy of the sheet's bytes. Each one's time over ours.")
    print(f"{'table':28} {'call':11} {'ours ns':>9} {'Rust twin':>10} {'goal':>30} {'memcpy':>10} {'goal':>30}")
    for table in tables():
        for call in SHEET_CALLS:
            print_beside(times, "memcpy", table.name, call, 1 / COPY_GOAL if table.name != "t8" else None)
    print(f"Goals: our time at most {TWIN_GOAL} times the twin's, and at most {COPY_GOAL:.0f} times memcpy's for the"
          " long values.")


def print_pairs(times):
    print("\nTwo copies of a record compared, beside the twin and beside two of our readings and memcmp. Time over ours.")
    print(f"{'copies':28} {'call':11} {'ours ns':>9} {'Rust twin':>10} {'goal':>30} {'memcmp':>10} {'goal':>30}")
    for pair in pairs():
        for call in PAIR_CALLS:
            print_beside(times, "memcmp", pair.name, call, 1 / MEMCMP_GOAL)
    print(f"Goals: our time at most {TWIN_GOAL} times the twin's, and at most {MEMCMP_GOAL:.0f} times that of memcmp"
          " and two readings.")


def print_growth(times, peers, letter, sizes, what, bound=None):
    print(f"\n{what}, nanoseconds a call (medians)")
    print(f"{'':>8}" + "".join(f" {NAMES[peer] + ' ' + call:>15}" for peer in peers for call in CALLS)
          + (f" {'steps at most':>15}" if bound else ""))
    for size in sizes:
        row = [median(times[peer, f"{letter}{size}", call]) for peer in peers for call in CALLS]
        row += [bound(size)] if bound else []
        print(f"{size:8}" + "".join(f" {value:15.0f}" for value in row))


def print_crowd(rates):
    print(f"\n{CROWD:,} candidates' records of 46 bytes (layout of w1), values put in and marks taken out, records a second")
    print("(Tcl, Perl and Python on fewer records; Tcl with an interpreter for each thread)")
    print(f"medians of {CROWD_ROUNDS} rounds, in brackets the first and third quartile in millions")
    print(f"{'':12} {'threads':>7} {'packed':>32} {'read':>32}")
    for (peer, threads), both in rates.items():
        packing, reading = (f"{median(rate):,.0f}{spread([one / 1e6 for one in rate])}" for rate in both)
        print(f"{NAMES[peer]:12} {threads:7} {packing:>32} {reading:>32}")
    for call, which in zip(CALLS, range(2)):
        beside = [own / theirs for own, theirs in zip(rates["ours", 1][which], rates["plain", 1][which])]
        print(f"{call}, one thread, our records over plain C's: {text(median(beside))},"
              f" goal {goal_text(beside, CROWD_GOAL)}")


def run_counts(program):
    """Instructions and taken jumps of each call on each main workload; None without valgrind."""
    if not count.available():
        return None
    return {(work.name, call): count.count(program, work, call) for work in main_workloads() for call in CALLS}


def results(times, rates, peers):
    """What the plot needs."""
    return {
        "peers": [[peer, NAMES[peer]] for peer in peers],
        "ratios": [{"name": f"{name} {call}", "goals": {"tcl": tcl_goal(name, call), "plain": 1 / plain_goal(name)},
                    **{peer: ratio(times, peer, name, call) for peer in peers}}
                   for name, call in main_rows()],
        "growth": {letter: {f"{peer} {call}": [[size, median(times[peer, f"{letter}{size}", call])] for size in sizes]
                            for peer in peers for call in CALLS}
                   for letter, sizes in (("f", FIELD_COUNTS), ("s", BYTE_COUNTS), ("b", DIGIT_COUNTS))},
        "bound": [[count, step_bound(count)] for count in DIGIT_COUNTS],
        "crowd": [[peer, threads, crowd_records(peer), *map(median, both)] for (peer, threads), both in rates.items()],
    }


def main():
    program, kept = sys.argv[1:]
    serving = start_peers(program)
    peers = [peer for peer in NAMES if peer in serving]
    check_same(serving)
    print("every peer gives the same bytes and values on every workload")
    times = run_rounds(serving)
    rates = run_crowd(serving)
    counts = run_counts(program)
    for process in set(serving.values()):
        process.close()
    print_main(times)
    print_plans(times)
    print_counts(counts)
    print_sheets(times)
    print_pairs(times)
    print_growth(times, peers, "f", FIELD_COUNTS, "Growth by fields: 1 to 64 fields of c")
    print_growth(times, peers, "s", BYTE_COUNTS, "Growth by bytes: one field of s, 16 to 32,768 bytes of record")
    print_growth(times, peers, "b", DIGIT_COUNTS, "Growth by digits: one field of b, 8 to 4,096 digits", step_bound)
    print_crowd(rates)
    with open(kept, "w", encoding="utf-8") as file:
        json.dump(results(times, rates, peers), file, indent=1)


main()
