"""Makes the derived files of the sample, and checks them.

    python3 make_sample.py [CRATES]     CRATES is ../../crates unless given

Reads shore.book, shore.lst, calibrate.job, undo.job and smooth.job in
CRATES/recover/data. Writes there shore.img, counts.rec, heights.rec and
smooth.rec anew, and beside it args and stdout, what `recover` is given and must
print. Prints what the runs took. tools/sample-data copies the files to the other
programs that read them.
"""

import os
import sys

import machine

CRATES = sys.argv[1] if len(sys.argv) > 1 else os.path.join(
    os.path.dirname(os.path.abspath(__file__)), "..", "..", "crates")
DATA = os.path.join(CRATES, "recover", "data")
JOBS = ("calibrate.job", "undo.job", "smooth.job")


def path(name):
    return os.path.join(DATA, name)


def read(name):
    with open(path(name), "rb") as file:
        return file.read()


def write(name, content):
    with open(path(name), "wb") as file:
        file.write(content)


def write_lines(name, lines):
    """A text of the program `recover`, beside its data."""
    with open(os.path.join(CRATES, "recover", name), "w", newline="") as file:
        file.write("".join(line + "\n" for line in lines))


def halfwords(values):
    return b"".join((v % 65536).to_bytes(2, "big") for v in values)


def towards_zero(numerator, denominator):
    size = abs(numerator) // denominator
    return size if numerator >= 0 else -size


def height(count):
    """The calibration as a plain formula, beside the machine."""
    return towards_zero((count - 2048) * 13, 8)


def smoothed(heights):
    """The running means of one record, the same way."""
    means = [towards_zero(sum(heights[i - 1:i + 2]), 3) for i in range(1, len(heights) - 1)]
    return [heights[0], *means, heights[-1]]


def half_away(value):
    return int(value + 0.5) if value >= 0 else -int(-value + 0.5)


def tell(name, job, runs):
    print(name)
    for number, run in enumerate(runs, 1):
        assert machine.halted(run), run.stop
        print(f"  record {number}: {run.steps} steps, stopped {run.stop}")
    print("  registers after the last, A B X Y Z S L FM N ZR OF CA:")
    print(f"  {runs[-1].registers}")
    assert all(run.registers.of == 0 for run in runs)
    assert 3 * max(run.steps for run in runs) <= job.turns[0] * job.turns[1]


def main():
    book = machine.read_book(read("shore.book"))
    assert len(book.a) == 31 and len(book.l) == 13 and len(book.b) == 2
    image, said = machine.assemble(book, read("shore.lst").decode("ascii"))
    write("shore.img", image)
    print(f"shore.img: {len(said)} halfwords")

    # what must come out, by the formulas alone
    counts = [i * 1597 % 4096 for i in range(4096)]
    assert sorted(counts) == list(range(4096))
    heights = [height(c) for c in counts]
    means = [mean for at in range(0, 4096, 1024) for mean in smoothed(heights[at:at + 1024])]
    sums = [sum(heights[i - 1:i + 2]) for i in range(1, 4095) if 0 < i % 1024 < 1023]
    assert min(sums) < 0 < max(sums) and any(s < 0 and s % 3 for s in sums)
    records = {"counts.rec": counts, "heights.rec": heights, "smooth.rec": means}
    for name, values in records.items():
        write(name, halfwords(values))

    # what comes out, all jobs in one hall
    jobs = [machine.parse_job(read(name).decode("ascii")) for name in JOBS]
    machine.check_bays(jobs)
    contents = [read(job.records) for job in jobs]
    lines = []
    for name, job, runs in zip(JOBS, jobs, machine.run_jobs(book, bytearray(image), jobs, contents)):
        tell(name, job, runs)
        expected = read(job.results.replace(".out", ".rec"))
        assert b"".join(run.result for run in runs) == expected, name
        lines += machine.block(name, job, runs)
    write_lines("args", ["shore.book", "shore.img", *JOBS])
    write_lines("stdout", lines)

    wrong = [c for c in counts if half_away(height(c) / 1.625) + 2048 != c]
    print(f"a division by 1.625 and rounding gets {len(wrong)} of {len(counts)} wrong")
    print(f"  the lowest: {min(wrong)}, the highest: {max(wrong)}")


main()
