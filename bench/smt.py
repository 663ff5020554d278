"""The same sheet for cvc5 (finite model finding over uninterpreted sorts) and for z3 (codes as numbers below a size): the smallest
sum of sizes, by asking for one sum after the other."""
import re
import shutil
import subprocess
import threading
import time


def terms_of(sheet):
    lines = []
    for i, (f, *args) in enumerate(sheet.terms):
        body = f"f{f}" if not args else f"(f{f} {' '.join(f't{a}' for a in args)})"
        lines.append((i, body))
    return lines


def literals_of(sheet):
    return [f"(assert (= t{a} t{b}))" if same else f"(assert (not (= t{a} t{b})))" for same, a, b in sheet.literals]


def cvc5_text(sheet):
    out = ["(set-logic UFCLIA)"]
    for s, (floor, ceiling) in enumerate(sheet.bounds):
        out += [f"(declare-sort S{s} 0)", f"(declare-fun n{s} () Int)"]
        out += [f"(declare-fun k{s}_{j} () S{s})" for j in range(floor)]
        if floor > 1:
            out.append(f"(assert (distinct {' '.join(f'k{s}_{j}' for j in range(floor))}))")
        out += [f"(assert (and (<= {floor} n{s}) (<= n{s} {ceiling})))", f"(assert (_ fmf.card S{s} {ceiling}))"]
        out += [f"(assert (=> (<= n{s} {k}) (_ fmf.card S{s} {k})))" for k in range(floor, ceiling)]
    for f, (result, *params) in enumerate(sheet.symbols):
        out.append(f"(declare-fun f{f} ({' '.join(f'S{p}' for p in params)}) S{result})")
    out += [f"(define-fun t{i} () S{sheet.sort(i)} {body})" for i, body in terms_of(sheet)]
    return out + literals_of(sheet)


def z3_text(sheet):
    out = ["(set-logic QF_UFLIA)"]
    for s, (floor, ceiling) in enumerate(sheet.bounds):
        out += [f"(declare-fun n{s} () Int)", f"(assert (and (<= {floor} n{s}) (<= n{s} {ceiling})))"]
    for f, (_, *params) in enumerate(sheet.symbols):
        out.append(f"(declare-fun f{f} ({' '.join('Int' for _ in params)}) Int)")
    for i, body in terms_of(sheet):
        out += [f"(define-fun t{i} () Int {body})", f"(assert (and (<= 0 t{i}) (< t{i} n{sheet.sort(i)})))"]
    return out + literals_of(sheet)


def sum_bound(sheet, n):
    names = [f"n{s}" for s in range(len(sheet.bounds))]
    return f"(assert (<= {names[0] if len(names) == 1 else '(+ ' + ' '.join(names) + ')'} {n}))"


# options, text of a sheet, and whether the sums are asked for incrementally: z3 was faster afresh on most sheets that were tried both ways
SOLVERS = {
    "cvc5": (["--incremental", "--finite-model-find", "--lang=smt2", "-q"], cvc5_text, True),
    "z3": (["-in", "-smt2"], z3_text, False),
}


def programs(folder):
    """The solvers of this machine, each with its program: the one that is installed or, where z3 has its library only, one built on it in the folder."""
    found = {solver: shutil.which(solver) for solver in SOLVERS}
    build = ["cc", "-O2", "-o", folder / "z3", "bench/z3.c", "-lz3"]
    if not found["z3"] and subprocess.run(build, stderr=subprocess.DEVNULL).returncode == 0:
        found["z3"] = str(folder / "z3")
    return {solver: program for solver, program in found.items() if program}


def version(program):
    text = subprocess.run([program, "--version"], capture_output=True, text=True).stdout
    number = re.search(r"\d+(\.\d+)+", text)
    return number.group() if number else "of an unknown version"


def smallest_sum(solver, program, sheet, limit):
    """The first line that find would print, or None where the limit was hit; and the seconds that it took."""
    options, text_of, incremental = SOLVERS[solver]
    text = "\n".join(text_of(sheet)) + "\n"
    once, before, behind = (text, "(push 1)\n", "(pop 1)\n") if incremental else ("", text, "(reset)\n")
    least = sum(b[0] for b in sheet.bounds)
    most = min(sheet.total, sum(b[1] for b in sheet.bounds))
    started = time.monotonic()
    if least > most or any(floor > ceiling for floor, ceiling in sheet.bounds):
        return "refused 11 0", 0.0
    process = subprocess.Popen([program, *options], stdin=subprocess.PIPE, stdout=subprocess.PIPE, stderr=subprocess.DEVNULL, text=True)
    timer = threading.Timer(limit, process.kill)
    timer.start()
    answer = None
    try:
        process.stdin.write(once)
        # nothing at the most: none at all, so that an unsatisfiable sheet is not asked for each sum in turn
        for n in [most, *range(least, most + 1)]:
            process.stdin.write(f"{before}{sum_bound(sheet, n)}\n(check-sat)\n{behind}")
            process.stdin.flush()
            reply = process.stdout.readline().strip()
            if reply == "unsat" and n == most:
                answer = "refused 11 0"
                break
            if reply not in ("sat", "unsat"):
                break
            if reply == "sat" and (n != most or least == most):
                answer = f"found {n}"
                break
        else:
            answer = f"found {most}"
    except BrokenPipeError:
        pass
    finally:
        timer.cancel()
        process.kill()
        process.wait()
    return answer, time.monotonic() - started
