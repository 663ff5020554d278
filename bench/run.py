#!/usr/bin/env python3
"""The benchmark: python3 bench/run.py [--limit SECONDS] [--no-solvers] [--only PART]   (from the repository's top; not part of the gate)

Builds the find program and the static library, runs both on the sheets of bench/sheets, on load sheets and on random sheets, checks each answer
against bench/expected.txt where there is one, and times cvc5 and z3 on the same sheet in the same run where they are installed. Writes
bench/RESULTS.md with the machine, a summary, a table of the families and one of the sheets of each part; a run with --only writes it to target/bench
instead. Writes target/bench/times.png, a plot of time against the number of terms, where matplotlib is there.
"""
import argparse
import collections
import datetime
import os
import pathlib
import re
import statistics
import subprocess
import sys
import time

sys.path.insert(0, "bench")
import sheets  # noqa: E402
import smt  # noqa: E402

OUT = pathlib.Path("target/bench")
PAGE = "RESULTS.md"
ABOUT_TIMES = ['Times are of whole processes, from start to end; "in process" below is the time of one call of the library.']
ABOUT_RATIOS = [
    "A ratio is the solver's time divided by that of the find program; the smallest is the worst. Where the limit was hit, it counts as the time; a sheet",
    "on which both hit it has no ratio. A solver is asked for the smallest sum of sizes only, one sum after the other (cvc5 incrementally; z3 afresh each",
    "time, faster on most sheets that were tried both ways); find also gives the sizes, codes and tables that come first.",
]
# One sheet: where it is from, its number of terms, find's first line (None where the limit was hit), the seconds of the program and of a call in
# process, and each solver's first line and seconds.
Row = collections.namedtuple("Row", "part family name terms line program call solvers")


def build():
    OUT.mkdir(parents=True, exist_ok=True)
    subprocess.run(["tests/build.sh"], check=True, stdout=subprocess.DEVNULL)
    subprocess.run(["cc", "-O2", "-o", str(OUT / "loop"), "bench/loop.c", "target/staticlib/libgateway.a"], check=True)


def cases():
    """(part, family, name, bytes) of each sheet."""
    for path in sorted(pathlib.Path("bench/sheets").glob("*.sheet")):
        yield "Sheets of bench/sheets", re.match(r"[a-z]+", path.stem).group(), path.stem, path.read_bytes()
    for seed in range(8):
        for k, n, m in ((3, 10, 30), (6, 20, 80), (16, 32, 128)):
            yield "Load sheets", f"load_{n}", f"load_k{k}_n{n}_{seed}", sheets.load_sheet(seed + 1, k, n, m)
    for seed in range(8):
        for terms in (10, 20, 40, 80, 128):
            sheet = sheets.random_sheet(seed, 1 + seed % 4, terms, min(128, terms), 0.6)
            yield "Random sheets", f"random_{terms}", f"random_{terms}_{seed}", sheet


def ours(path, limit):
    """The first line and the seconds of one run of the program, and the seconds of a call in process."""
    started = time.monotonic()
    try:
        done = subprocess.run(["target/bin/find"], stdin=path.open("rb"), capture_output=True, timeout=limit)
    except subprocess.TimeoutExpired:
        return None, limit, limit
    seconds = time.monotonic() - started
    loop = subprocess.run([OUT / "loop", path, "0.05"], capture_output=True, text=True, timeout=2 * limit + 1).stdout.split("\n")
    line = done.stdout.decode().split("\n")[0]
    if loop[0] != line:
        sys.exit(f"{path}: the program says {line}, the library {loop[0]}")
    return line, seconds, float(loop[1]) / 1e6


def measured(part, family, name, data, solvers, limit):
    path = OUT / "sheet"
    path.write_bytes(data)
    sheet = sheets.Sheet(data)
    others = {}
    line, program, call = ours(path, limit)
    for solver, command in solvers.items():
        answer, spent = smt.smallest_sum(solver, command, sheet, limit)
        others[solver] = answer, spent if answer else limit
    return Row(part, family, name, len(sheet.terms), line, program, call, others)


def ratio(row, solver):
    """How many times as long as the program the solver took; None where both hit the limit."""
    answer, spent = row.solvers[solver]
    return spent / row.program if answer or row.line else None


def shown(seconds):
    if seconds < 1e-3:
        return f"{seconds * 1e6:.1f} µs"
    return f"{seconds * 1e3:.1f} ms" if seconds < 1 else f"{seconds:.2f} s"


def within(answer, seconds, limit):
    return shown(seconds) if answer else f"over {limit:g} s"


def shown_ratio(row, solver):
    value = ratio(row, solver)
    if value is None:
        return ""
    bound = "at least " if not row.solvers[solver][0] else "at most " if not row.line else ""
    return f"{bound}{value:.1f}" if value >= 1 else f"{bound}{value:.3f}"


def table(head, rows):
    return ["| " + " | ".join(cells) + " |" for cells in (head, ["---"] * len(head), *rows)] + [""]


def sheet_head(solvers):
    return ["sheet", "terms", "answer", "in process", "program", *(word for s in solvers for word in (s, "ratio"))]


def sheet_cells(row, limit):
    cells = [row.name, str(row.terms), row.line or "", within(row.line, row.call, limit), within(row.line, row.program, limit)]
    for solver in row.solvers:
        cells += [within(*row.solvers[solver], limit), shown_ratio(row, solver)]
    return cells


def group_table(title, groups, solvers):
    """A table with a line for each group of rows. Where the limit was hit, it counts as the time."""
    head = [title, "sheets", "median in process", "longest in process", "median program", *(word for s in solvers for word in (f"median {s}", "median ratio"))]
    rows = []
    for name, group in groups.items():
        cells = [name, str(len(group)), shown(statistics.median(r.call for r in group)), shown(max(r.call for r in group))]
        cells.append(shown(statistics.median(r.program for r in group)))
        for solver in solvers:
            ratios = [x for x in (ratio(r, solver) for r in group) if x is not None]
            cells += [shown(statistics.median(r.solvers[solver][1] for r in group)), f"{statistics.median(ratios):.1f}" if ratios else ""]
        rows.append(cells)
    return table(head, rows)


def grouped(rows, key):
    groups = collections.defaultdict(list)
    for row in rows:
        groups[key(row)].append(row)
    return groups


def by_terms(row):
    return next(f"{low} to {high} terms" for low, high in ((0, 9), (10, 40), (41, 128)) if row.terms <= high)


def summary(rows, solvers, limit):
    """How many sheets are answered within the limit, by find and by each solver, and how much longer a solver takes."""
    lines = []
    for solver in ("find", *solvers):
        times = [(r.line, r.program) if solver == "find" else r.solvers[solver] for r in rows]
        done = [spent for answer, spent in times if answer]
        cells = [solver, f"{len(done)} of {len(rows)}", shown(statistics.median(spent for _, spent in times)), shown(max(done)) if done else "", "", ""]
        compared = [] if solver == "find" else [r for r in rows if ratio(r, solver) is not None]
        if compared:
            worst = min(compared, key=lambda r: ratio(r, solver))
            cells[4:] = [f"{statistics.median(ratio(r, solver) for r in compared):.1f}", f"{shown_ratio(worst, solver)} ({worst.name})"]
        lines.append(cells)
    return table(["", f"within {limit:g} s", "median", "longest within", "median ratio", "worst ratio"], lines)


def faults(rows, limit):
    """(title, entries): answers that are not the expected ones or not a solver's, sheets over the limit, sheets where a solver is faster."""
    expected = dict(line.split(" ", 1) for line in pathlib.Path("bench/expected.txt").read_text().splitlines() if line)
    wrong, late, slower = [], [], []
    for r in rows:
        if r.line is None:
            late.append(r.name)
        elif r.name in expected and r.line != expected[r.name]:
            wrong.append(f"{r.name}: {r.line}, not {expected[r.name]}")
        for solver, (answer, spent) in r.solvers.items():
            if answer and r.line and answer != r.line:
                wrong.append(f"{r.name}: {r.line}, but {solver} says {answer}")
            if answer and r.program > spent:
                slower.append(f"{r.name}: {within(r.line, r.program, limit)}, {solver} {shown(spent)}")
    return [("Wrong answers", wrong), (f"Over {limit:g} s", late), ("Slower than a solver", slower)]


def machine():
    """Cores, processor and memory."""
    model = re.search(r"model name\s*: (.*)", pathlib.Path("/proc/cpuinfo").read_text())
    memory = re.search(r"MemTotal:\s*(\d+) kB", pathlib.Path("/proc/meminfo").read_text())
    return f"{os.cpu_count()} cores, {model.group(1) if model else 'unknown processor'}, {int(memory.group(1)) / 2**20:.0f} GiB of memory"


def solvers_line(solvers, asked):
    if not asked:
        return "left out of this run (`--no-solvers`)"
    there = [f"{solver} {smt.version(command)}" + " (its library, by bench/z3.c)" * (OUT in pathlib.Path(command).parents) for solver, command in solvers.items()]
    absent = [solver for solver in smt.SOLVERS if solver not in solvers]
    if not there:
        return "no solver was installed on this machine, so that the times are our own alone"
    return ", ".join(there) + (f"; {' and '.join(absent)} was not installed on this machine" if absent else "")


def page(rows, solvers, options):
    toolchain = subprocess.run(["rt", "version"], check=True, capture_output=True, text=True).stdout.strip()
    lines = [
        "# Results of the benchmark",
        "",
        "Written by `python3 bench/run.py`; not to be edited.",
        "",
        f"- Date: {datetime.datetime.now(datetime.timezone.utc):%Y-%m-%d}",
        f"- Machine: {machine()}",
        f"- Toolchain: `{toolchain}`",
        f"- Solvers: {solvers_line(solvers, not options.no_solvers)}",
        f"- Limit: {options.limit:g} s for each sheet and program",
        "",
        "## Summary",
        "",
        *summary(rows, solvers, options.limit),
        *(ABOUT_TIMES + ABOUT_RATIOS if solvers else ABOUT_TIMES),
        "",
    ]
    for title, entries in faults(rows, options.limit):
        lines += [f"{title}: {len(entries)}.", "", *(f"- {entry}" for entry in entries), *([""] if entries else [])]
    lines += ["## By the number of terms", "", *group_table("terms", grouped(sorted(rows, key=lambda r: r.terms), by_terms), solvers)]
    for part, group in grouped(rows, lambda r: r.part).items():
        lines += [f"## {part}: families", "", *group_table("family", grouped(group, lambda r: r.family), solvers)]
    for part, group in grouped(rows, lambda r: r.part).items():
        lines += [f"## {part}", "", *table(sheet_head(solvers), [sheet_cells(r, options.limit) for r in group])]
    return "\n".join(lines).rstrip("\n") + "\n"


def plot(rows, solvers, limit):
    try:
        import matplotlib

        matplotlib.use("Agg")
        import matplotlib.pyplot as pyplot
    except ImportError:
        print("no plot: matplotlib is not installed")
        return
    figure, axes = pyplot.subplots(figsize=(9, 6))
    axes.scatter([r.terms for r in rows], [r.call for r in rows], s=14, label="find, in process")
    for solver in solvers:
        axes.scatter([r.terms for r in rows], [r.solvers[solver][1] for r in rows], s=14, marker="x", label=solver)
    axes.set(yscale="log", xlabel="terms", ylabel="seconds", title=f"time against the number of terms (limit {limit:g} s)")
    axes.legend()
    figure.savefig(OUT / "times.png", dpi=120)
    print(OUT / "times.png")


def main():
    parser = argparse.ArgumentParser()
    parser.add_argument("--limit", type=float, default=20)
    parser.add_argument("--no-solvers", action="store_true")
    parser.add_argument("--only", default="", help="only sheets whose name has this part")
    options = parser.parse_args()
    build()
    solvers = {} if options.no_solvers else smt.programs(OUT)
    rows = []
    print("\n".join(table(sheet_head(solvers), [])[:-1]))
    for part, family, name, data in cases():
        if options.only in name:
            rows.append(measured(part, family, name, data, solvers, options.limit))
            print("| " + " | ".join(sheet_cells(rows[-1], options.limit)) + " |", flush=True)
    if not rows:
        sys.exit(f"no sheet has {options.only} in its name")
    written = (OUT if options.only else pathlib.Path("bench")) / PAGE
    written.write_text(page(rows, solvers, options))
    print("\n" + "\n".join(summary(rows, solvers, options.limit)))
    for title, entries in faults(rows, options.limit):
        print("\n  ".join([f"{title}: {len(entries)}", *entries]))
    print(written)
    plot(rows, solvers, options.limit)
    sys.exit(bool(faults(rows, options.limit)[0][1]))


if __name__ == "__main__":
    main()
