#!/usr/bin/env python3
"""How much stack a call of find takes: python3 bench/stack.py [--random N] [--limit SECONDS]   (from the repository's top; not part of the gate)

Calls find on a painted stack (bench/stack.c) over the sheets of bench/sheets, sheets whose search goes deep, and random sheets of 8 fields and 128
expressions; a call that is late counts as far as it came. Prints the deepest calls, and what no call can exceed by the frames of the compiled code.
"""
import argparse
import pathlib
import re
import subprocess
import sys

sys.path.insert(0, "bench")
import sheets  # noqa: E402

OUT = pathlib.Path("target/bench")
# The deepest chain of calls, and how often each function stands in it at most. A level of descend decides one of 128 terms more, a level of hunt raises
# the sum of the lowest sizes of 8 sorts, which begins at 8 and ends at 128, and pairs looks at three levels of arguments more.
CHAIN = {"find": 1, "sizes::sizes_parsed": 1, "least_sizes::hunt": 121, "least_sizes::look": 1, "solve::descend": 129, "propagate::propagate": 1, "pigeonhole::pairs": 4, "pigeonhole::values": 1}


def build():
    OUT.mkdir(parents=True, exist_ok=True)
    subprocess.run(["tests/build.sh"], check=True, stdout=subprocess.DEVNULL)
    subprocess.run(["cc", "-O2", "-pthread", "-o", OUT / "stack", "bench/stack.c", "target/staticlib/libgateway.a"], check=True)


def cases(count):
    """(name, bytes) of each sheet."""
    for path in sorted(pathlib.Path("bench/sheets").glob("*.sheet")):
        yield path.stem, path.read_bytes()
    yield "deep", sheets.deep_sheet()
    for products in ((15,), (13, 10), (8, 8, 6), (10, 9, 7), (7, 10, 10)):
        yield f"trade {products}", sheets.trade_sheet(*products)
    for seed in range(count):
        yield f"random_{seed}", sheets.random_sheet(seed, 8, 128, 16 * (1 + seed % 8), (1.0, 0.95, 0.9)[seed % 3])


def bound():
    """The frames of the chain added up: return address, pushes (those of arguments too) and room, from the disassembly."""
    text = subprocess.run(["objdump", "-dC", "--no-show-raw-insn", OUT / "stack"], check=True, capture_output=True, text=True).stdout
    bodies = dict(re.findall(r"<(.*)>:\n((?:.+\n)+)", text))
    rooms = {name: [int(room, 16) for room in re.findall(r"sub +\$0x([0-9a-f]+),%rsp", bodies[name])] for name in CHAIN}
    return sum(times * (8 + 8 * bodies[name].count("push ") + sum(rooms[name])) for name, times in CHAIN.items())


def main():
    parser = argparse.ArgumentParser()
    parser.add_argument("--random", type=int, default=400)
    parser.add_argument("--limit", type=int, default=3)
    options = parser.parse_args()
    build()
    calls = []
    for name, data in cases(options.random):
        (OUT / "sheet").write_bytes(data)
        call = [OUT / "stack", OUT / "sheet", str(options.limit)]
        answer, size = subprocess.run(call, check=True, capture_output=True, text=True).stdout.splitlines()
        calls.append((int(size), name, answer))
    calls.sort(reverse=True)
    for size, name, answer in calls[:12]:
        print(f"{size:9,d}  {name}: {answer}")
    print(f"{len(calls)} sheets, {sum(answer == 'late' for _, _, answer in calls)} late, most {calls[0][0]:,} bytes; the frames allow {bound():,}")


if __name__ == "__main__":
    main()
