"""What `bench/run parallel` measures: 1, 2, 4, 8 and 64 threads of `sectc run`, each of which does the same work.

A time is told for the work of one thread: where threads run side by side, the clock's is the shorter the more there are.
"""
import os
import resource
import statistics
import subprocess
import time

THREADS = [1, 2, 4, 8, 64]
# The fuel of each thread, as much as may be given. No row uses it up.
FUEL = "1000000"
RUNS = 3
BEGIN, END = "<!-- bench/run parallel -->", "<!-- end of bench/run parallel -->"

ADD = "v = %s.bal; v = v + 1; %s.bal = v;"


def threads(count, locals_, body):
    """So many threads, each with the body for its number."""
    return " ".join("thread t%d { int i; %s %s }" % (i, locals_, body(i)) for i in range(count))


def accounts(count):
    return "record Acct { int bal; } %s " % " ".join("global Acct a%d;" % i for i in range(count))


def repeated(times, body):
    return "while (i < %d) { %s i = i + 1; }" % (times, body)


def short(count, times):
    """Sections of 3 acts, each thread's on an object of its own."""
    return accounts(count) + threads(count, "int v;", lambda number: repeated(
        times, "atomic { %s }" % (ADD % (("a%d" % number,) * 2))))


def looped(turns):
    """What makes sections of 5 acts a turn of a loop, each thread's on an object of its own."""
    def make(count, times):
        return accounts(count) + threads(count, "int v; int j;", lambda number: repeated(
            times, "j = 0; atomic { while (j < %d) { %s j = j + 1; } }" % (turns, ADD % (("a%d" % number,) * 2))))
    return make


def transfers(count, times):
    """Sections that add to two accounts, of 64 in a ring: threads that are neighbours share one."""
    return accounts(64) + threads(count, "int v;", lambda number: repeated(times, "atomic { %s %s }" % (
        ADD % (("a%d" % number,) * 2), ADD % (("a%d" % ((number + 1) % 64),) * 2))))


def readers(count, times):
    """Sections that walk a list of 50, under the key of its class. Whoever comes first makes it."""
    make = ("atomic { p = head.next; if (p == null) { i = 0; while (i < 50) { n = new Node; n.next = p; p = n; "
            "i = i + 1; } head.next = p; } } i = 0; p = null; n = null;")
    walk = "atomic { p = head.next; while (p != null) { v = p.val; p = p.next; } }"
    return "record Node { int val; Node next; } global Node head; " + threads(
        count, "int v; Node p; Node n;", lambda number: make + repeated(times, walk))


def contended(count, times):
    """Sections of 3 acts, all on one object."""
    body = "atomic { %s }" % (ADD % ("a0", "a0"))
    return accounts(1) + threads(count, "int v;", lambda number: repeated(times, body))


def local(count, times):
    """Sums outside sections."""
    return threads(count, "int v;", lambda number: repeated(times, "v = v + i;"))


# What is measured: its name, what makes it, and how often each thread goes through the body.
ROWS = [
    ("sections of 3 acts", short, 12800),
    ("sections of 40 acts", looped(8), 12800),
    ("sections of 400 acts", looped(80), 2400),
    ("sections of 8,000 acts", looped(1600), 120),
    ("transfers of two accounts", transfers, 12800),
    ("readers of a list of 50", readers, 4800),
    ("contention on one object", contended, 12800),
    ("local code", local, 320000),
]


def once(program, source):
    """The time on the clock and of the processors of one run, in milliseconds."""
    before, begun = resource.getrusage(resource.RUSAGE_CHILDREN), time.monotonic()
    subprocess.run([program, "run", "--fuel", FUEL], input=source, stdout=subprocess.DEVNULL, check=True)
    clock, after = time.monotonic() - begun, resource.getrusage(resource.RUSAGE_CHILDREN)
    spent = after.ru_utime + after.ru_stime - before.ru_utime - before.ru_stime
    return clock * 1000, spent * 1000


def measured(program, source, count):
    """The medians of some runs of so many threads, for the work of one of them."""
    runs = [once(program, source) for _ in range(RUNS)]
    return tuple(statistics.median(times) / count for times in zip(*runs))


def table(programs, share, told):
    """The lines of the table: for each row and each program, by its name, the clock and the processors' time."""
    lines = ["| what | program | %s |" % " | ".join("%d" % count for count in THREADS),
             "|---|---|%s" % ("---|" * len(THREADS))]
    for name, make, times in ROWS:
        for label, program in programs:
            cells = []
            for count in THREADS:
                source = make(count, max(1, int(times * share))).encode()
                cells.append("%.1f / %.1f" % measured(program, source, count))
            lines.append("| %s | %s | %s |" % (name, label, " | ".join(cells)))
            told(lines[-1])
    return lines


def put(lines, path):
    """Puts the table into a document, in the place of the one that stands there."""
    with open(path) as file:
        text = file.read()
    head, rest = text.split(BEGIN + "\n")
    _, tail = rest.split(END + "\n")
    with open(path + ".new", "w") as file:
        file.write("%s%s\n%s\n%s\n%s" % (head, BEGIN, "\n".join(lines), END, tail))
    os.replace(path + ".new", path)
