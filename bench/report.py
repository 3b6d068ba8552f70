"""report.py LINES TABLE PLOT: writes the tables (Markdown) and the plot (SVG) of the lines that measure and over_files printed."""

import sys
import textwrap

from plot import plot
from results import BASELINES, CALLS, SCHEMES, WORKERS, Results

HOW = """# Speed, measured

Written by `bench/run`; the plot is `bench.svg`. The circuit has 128 inputs, 128 outputs and q gates, of which half are charged, in random
order; a gate's operands are any two wires before it. Each number is the best of {rounds} in {runs} of the program, in
nanoseconds of the process's own time. A round goes over all circuits and operations, and at each the library and the baselines have
one turn each, one after the other, so that what else the machine does meets all of them; who is first changes from round to round.
Where a program's memory lies is settled when it starts, and changes times by some percent: hence more than one run. A ratio is that of
the two bests, over all runs; beside it is its range over single rounds, without the outer tenths. Times differ from machine to machine
and from hour to hour; ratios less, instructions hardly.

The baselines are the same work in C (`bench/*.c`): the same files in and out, the same refusals tried first. Tables: four tables of
256 words, the fixed key's schedule made once, two blocks side by side. Fixsliced: AES in bit planes, with no look-up and no branch by a
secret, four blocks in eight words of 64 bits, four calls at a time; it does not evaluate. AES-NI: the processor's instructions, up to four
blocks side by side. All take a bit times a block by a mask and use that doubling and σ are linear. Under scheme 4 all expand two keys for a
charged gate: tables and AES-NI, garbling and evaluating, round by round beside the blocks that these encipher; fixsliced before them, by
look-ups, since these keys are public, and puts them in planes. Compiled by gcc with `-O3 -march=native`, fixsliced without AVX-512; the library
is built for plain x86-64. In the same runs all that they write was compared with the library's, byte for byte, decoding too and with both
marks of the material, on each circuit measured, on one with gates that use one operand too, on one garbled with four run numbers other
than 0, on one whose outputs are named, on 2,100 calls with a bit of an argument changed, with every scheme byte and with marks that are
none. What is measured has run number 0, the circuit's mark 43 48 and, where nothing else is said, the material's mark 47 48.
"""

CHAINED = """Chained rounds: the library once more, made by `bench/chained`, with AES by SubBytes, ShiftRows, MixColumns and AddRoundKey one
after the other in place of look-ups in the four tables, which evaluate has. The bodies of two functions are all that differs in the source, and their
contracts are the same; they name the S-box for each block or two, which is about a hundredth of their instructions. Scheme 4's keys are expanded by the
tables in both, and garble is by planes in both. This form is proved like the library and
has its turn like a baseline, and what it writes was compared in the same way.
"""

MARKED = """q = 4,000, with 128 outputs; the library, garbling and decoding with either mark of the material in turn. With 47 4A garble
makes two hashes for each output and looks for two that are equal, and decode hashes each output's token. Decode's time has all that it
checks first of circuit and material in it.
"""

FILES = """The program, q = {q:,}: milliseconds by the clock, the best of {rounds} in one run of `rust/benches/over_files.rs`. The library's call has
its arguments in memory and its buffers made. The command is all that the program does with it, in the same process: it takes its words
apart, reads the files, checks the circuit, calls the library, writes files and gives them their names. The program is a process of
its own for each time; its start is one that prints its version alone. Each has its turn in each round, one right after the other. What
the command and the program wrote was compared with what the call wrote, byte for byte.
"""

COMPARISON = """The program's whole time for a comparison of two figures of 64 bits, `weighhare compare 1200 1500 --bits 64`, with its start in it: {program:.2f} ms;
its start alone: {start:.2f} ms.
"""

MACHINE = "Processor: {processor}. Compiler: {compiler}.\n"


def counted(number, noun):
    return f"{number} {noun}" if number == "1" else f"{number} {noun}s"


def wrapped(part):
    """A paragraph in lines of at most 118 columns; tables and headings stay."""
    paragraphs = part.strip().split("\n\n")
    keep = [p if p.startswith(("|", "#")) else textwrap.fill(p, 118, break_on_hyphens=False) for p in paragraphs]
    return "\n\n".join(keep)


def table(head, rows):
    lines = [head, ["---"] * len(head)] + rows
    return "\n".join("| " + " | ".join(line) + " |" for line in lines) + "\n"


def named(operation, scheme):
    return operation if operation == "check" else f"{operation}, scheme {scheme} ({SCHEMES[scheme]})"


def compared(results, key, worker, other):
    low, high = results.spread(key, worker, other)
    return f"**{results.ratio(key, worker, other):.2f}** ({low:.2f} to {high:.2f})"


def main_table(results, q):
    workers = results.workers()
    pairs = [("library", other) for other in workers if other in BASELINES]
    head = ["ns for a charged gate; check: for a gate"] + [WORKERS[worker] for worker in workers]
    head += [f"library : {WORKERS[other]}" for _, other in pairs]
    if "chained" in workers:
        pairs.append(("chained", "library"))
        head.append("chained rounds : library")
    rows = []
    for operation, scheme in CALLS + [("check", 3)]:
        key = (operation, scheme, q)
        row = [named(operation, scheme)] + [f"{results.best(key, worker):.1f}" if results.has(key, worker) else "" for worker in workers]
        rows.append(row + [compared(results, key, *pair) if results.has(key, *pair) else "" for pair in pairs])
    return table(head, rows)


def growth_table(results):
    rows = []
    for operation, scheme in CALLS + [("check", 3)]:
        for worker in ("library", "tables"):
            bests = [results.best((operation, scheme, q), worker) for q in results.sizes()]
            rows.append([named(operation, scheme), WORKERS[worker]] + [f"{best:.1f}" for best in bests])
    return table(["ns for a charged gate; check: for a gate", ""] + [f"q = {q:,}" for q in results.sizes()], rows)


def instruction_table(results):
    rows = []
    for operation, scheme in CALLS + [("check", 3)]:
        counts = results.instructions[operation, scheme, 4000]
        gates = 4000 if operation == "check" else 2000
        row = [f"{counts[worker] / gates:.0f}" if worker in counts else "" for worker in results.workers()]
        ratios = [f"**{counts['library'] / counts[other]:.2f}**" if other in counts else "" for other in ("tables", "fixsliced")]
        rows.append([named(operation, scheme)] + row + ratios)
    head = ["instructions for a charged gate; check: for a gate"] + [WORKERS[worker] for worker in results.workers()]
    return table(head + ["library : " + WORKERS[other] for other in ("tables", "fixsliced")], rows)


def repeated_table(results):
    rows = []
    for scheme in SCHEMES:
        key = ("repeated", scheme, 4000)
        bests = [f"{results.best(key, form):.1f}" for form in ("bytes", "gates")]
        rows.append([named("evaluate", scheme)] + bests + [compared(results, key, "gates", "bytes")])
    return table(["ns for a charged gate", "by its bytes", "by its gates already read", "gates : bytes"], rows)


def marked_table(results):
    rows = []
    for operation, scheme in [(operation, scheme) for operation in ("garble", "decode") for scheme in SCHEMES]:
        key = (f"{operation}-marked", scheme, 4000)
        bests = [f"{results.best(key, mark):.1f}" for mark in ("colours", "hashes")]
        rows.append([named(operation, scheme)] + bests + [compared(results, key, "hashes", "colours")])
    return table(["ns for a charged gate; decode: for an output", "47 48", "47 4A", "47 4A : 47 48"], rows)


def both_row(results, scheme, q):
    """Garble and evaluate together: the sums of the bests."""
    keys = [(f"{operation} over files", scheme, q) for operation in ("garble", "evaluate")]
    library, command, program = (sum(results.best(key, worker) for key in keys) for worker in ("library", "command", "program"))
    return [f"both, scheme {scheme}", f"{library:.2f}", f"{command:.2f}", f"**{command / library:.2f}**", f"{program:.2f}", ""]


def files_table(results, q):
    rows = []
    for operation, scheme in CALLS:
        key = (f"{operation} over files", scheme, q)
        library, command, program, start = (f"{results.best(key, worker):.2f}" for worker in ("library", "command", "program", "start"))
        ratio = compared(results, key, "command", "library")
        rows.append([named(operation, scheme), library, command, ratio, program, start])
    rows += [both_row(results, scheme, q) for scheme in SCHEMES]
    return table(["ms", "the library's call", "the command, in one process", "command : call", "the program, a process", "its start"], rows)


def over_files(results, q):
    comparison = ("compare over files", 3, 253)
    bests = {worker: results.best(comparison, worker) for worker in ("program", "start")}
    intro = FILES.format(q=q, rounds=counted(results.about["rounds"], "round"))
    return ["## Over files", intro, files_table(results, q), COMPARISON.format(**bests)]


def how(results):
    about = results.about
    parts = [HOW.format(rounds=counted(about["rounds"], "round"), runs=counted(about["runs"], "run"))]
    if "chained" in results.workers():
        parts.append(CHAINED)
    return parts + [MACHINE.format(**about)]


def report(results):
    parts = how(results)
    largest = max(results.sizes())
    parts += [f"## q = {largest:,}", main_table(results, largest)]
    parts += ["## How the cost grows", growth_table(results)]
    if results.instructions:
        counted = f"Counted by {results.about['valgrind']}, q = 4,000. The baselines are built with `-march=x86-64-v3` for this.\n"
        parts += ["## Instructions", counted, instruction_table(results)]
    if ("repeated", 3, 4000) in results.times:
        parts += ["## One circuit, run a hundred times", "q = 4,000; the library, the same tokens and material each time.\n"]
        parts += [repeated_table(results)]
    if ("garble-marked", 3, 4000) in results.times:
        parts += ["## With hashes of the outputs' tokens", MARKED, marked_table(results)]
    if ("garble over files", 3, largest) in results.times:
        parts += over_files(results, largest)
    return "\n\n".join(wrapped(part) for part in parts) + "\n"


def main(lines, table_path, plot_path):
    results = Results(lines)
    with open(table_path, "w", encoding="utf-8") as file:
        file.write(report(results))
    with open(plot_path, "w", encoding="utf-8") as file:
        file.write(plot(results))
    print(report(results))


main(*sys.argv[1:])
