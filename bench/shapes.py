"""Programs that `run` measures, each made for a size."""
import math
import random


def declared(kind, names):
    return " ".join("%s %s;" % (kind, name) for name in names)


def named(letter, count):
    return ["%s%d" % (letter, i) for i in range(count)]


def record(name, fields, first=""):
    return "record %s { %s%s }\n" % (name, first, declared(name, fields))


def comments(size):
    """One line of 64 bytes after another."""
    return ("//" + "c" * 61 + "\n") * (size // 64)


def blanks(size):
    """256 sections, with a line feed and blanks behind each word, as many as fill the size."""
    words = sections(256).split()
    return ("\n" + " " * ((size - sum(map(len, words))) // len(words) - 1)).join(words)


def long_names(count):
    """Loads and sums of locals, whose names are as long as names may be."""
    chance = random.Random(1)
    fields, globals_, locals_ = ([name.ljust(32, "_") for name in named(kind, many)]
                                 for kind, many in (("field", 16), ("global", 256), ("local", 64)))
    body = ["%s = %s.%s; %s = %s + %s;"
            % (chance.choice(locals_), chance.choice(globals_), chance.choice(fields), chance.choice(locals_),
               chance.choice(locals_), chance.choice(locals_)) for _ in range((count - 1) // 2)]
    return ("record %s { %s }\n%s thread t { %s atomic { %s } }"
            % ("R" * 32, declared("int", fields), declared("global " + "R" * 32, globals_), declared("int", locals_),
               " ".join(body)))


def assignments(count):
    """One section of sums over two locals: nothing is locked."""
    return "thread t { int a; int b; atomic { %s } }" % ("a = b; b = a + 1; " * (count // 2))


def straight(count):
    """One section without a branch: loads, sums and stores over 30 globals."""
    chance = random.Random(1)
    names = named("g", 30)
    body = ["a = %s.bal; b = a + %d; c = b * 0; %s.cnt = c;"
            % (chance.choice(names), chance.randrange(100), chance.choice(names)) for _ in range((count - 1) // 4)]
    return ("record Acct { int bal; int cnt; }\n%s thread t { int a; int b; int c; atomic { %s } }"
            % (declared("global Acct", names), " ".join(body)))


def references(count):
    """One section without a branch: stores and loads through 32 locals, to which 16 globals are assigned anew."""
    chance = random.Random(1)
    names, roots = named("x", 32), named("g", 16)
    begun = ["%s = %s;" % (name, roots[i % 16]) for i, name in enumerate(names)]
    body = ["%s.next = %s; v = %s.val; %s = %s; %s.val = v;"
            % (*(chance.choice(names) for _ in range(4)), chance.choice(roots), chance.choice(names))
            for _ in range((count - len(begun)) // 4)]
    return ("%s%s thread t { %s int v; %s atomic { %s } }"
            % (record("Node", ["next"], "int val; "), declared("global Node", roots), declared("Node", names),
               " ".join(begun), " ".join(body)))


def walks(count):
    """Loops in loops, 24 deep: each walks a list from where the one around it stands."""
    chance = random.Random(1)
    names, roots, fields = named("p", 24), named("h", 8), ["next", "prev", "up"]
    nests = []
    for _ in range(count // 120):
        bases = [chance.choice(roots)] + names
        opened = " ".join("%s = %s.%s; while (%s != null) { v = %s.val; s = s + v;"
                          % (name, base, chance.choice(fields), name, name) for base, name in zip(bases, names))
        nests.append("%s %s" % (opened, " ".join("%s = %s.next; }" % (name, name) for name in reversed(names))))
    return ("%s%s thread t { %s int v; int s; atomic { %s } } "
            "thread w { Node x; atomic { x = new Node; h0.next = x; x.prev = h1; h1.up = x; } }"
            % (record("Node", fields, "int val; "), declared("global Node", roots), declared("Node", names),
               " ".join(nests)))


def paths(count):
    """A loop in a loop over chains of three objects behind each of many globals."""
    names = named("g", count // 4)
    made, used = [], []
    for i, name in enumerate(names):
        x, y, z = ("%s%d" % (letter, i % 6) for letter in "xyz")
        made.append("%s = new B; %s = new C; %s = new D; %s.a = %s; %s.b = %s; %s.c = %s;"
                    % (x, y, z, name, x, x, y, y, z))
        used.append("x = %s.a; y = x.b; z = y.c; v = z.val; v = v + 1; z.val = v;" % name)
    locals_ = " ".join("B x%d; C y%d; D z%d;" % (i, i, i) for i in range(6))
    return ("record D { int val; } record C { D c; int k; } record B { C b; int k; } record A { B a; int k; }\n%s "
            "thread make { %s atomic { %s } } thread use { B x; C y; D z; int i; int j; int v; "
            "atomic { while (i < 10) { while (j < 10) { %s j = j + 1; } i = i + 1; } } }"
            % (declared("global A", names), locals_, " ".join(made), " ".join(used)))


def stepped(roots, fields):
    """Objects of these globals and one more, all linked; from each global three fields are gone along that tests
    choose, so that paths are many."""
    linked = ["%s.%s = x;" % (name, field) for name in ["x"] + roots for field in fields]
    step = " ".join("if (c == %d) { q = p.%s; }" % (i, field) for i, field in enumerate(fields))
    walked = " ".join("p = %s; q = null; %s q = p.f0;" % (root, (step + " p = q; ") * 3) for root in roots)
    return ("%s%s thread m { N x; atomic { x = new N; %s } } thread t { N p; N q; int c; atomic { %s } }"
            % (record("N", fields), declared("global N", roots), " ".join(linked), walked))


def forest(count):
    """So many objects of 12 fields."""
    return stepped(named("g", count), named("f", 12))


def tree(count):
    """One object of so many fields."""
    return stepped(["root"], named("f", count))


def alias(count):
    """A loop of stores and loads through 60 locals, any of which may refer to the object of any other."""
    chance = random.Random(1)
    names, roots = named("x", 60), named("g", 8)
    begun = " ".join("%s = %s;" % (name, roots[i % 8]) for i, name in enumerate(names))
    body = ["%s.%s = %s; v = %s.val; %s.val = v;"
            % (chance.choice(names), chance.choice(["next", "prev", "up"]), *(chance.choice(names) for _ in range(3)))
            for _ in range(count)]
    return ("%s%s thread t { %s int i; int v; %s atomic { while (i < 3) { %s i = i + 1; } } }"
            % (record("Node", ["next", "prev", "up"], "int val; "), declared("global Node", roots),
               declared("Node", names), begun, " ".join(body)))


def points(count):
    """Copies, loads, stores and new objects of eight records, among the locals of four threads."""
    chance = random.Random(1)
    records = " ".join("record R%d { int v; R%d a; R%d b; R%d c; }" % (i, i, (i + 1) % 8, i) for i in range(8))
    globals_ = named("g", 128)
    threads = []
    for thread in range(4):
        body = [one_of_eight(chance, globals_) for _ in range(count // 4)]
        locals_ = " ".join("R%d x%d;" % (i % 8, i) for i in range(56))
        threads.append("thread t%d { %s atomic { %s } }" % (thread, locals_, " ".join(body)))
    return "%s %s %s" % (records, " ".join("global R%d %s;" % (i % 8, g) for i, g in enumerate(globals_)),
                         " ".join(threads))


def one_of_eight(chance, globals_):
    """A statement whose sides are of one record: local i, and global i, refer to the record i modulo 8."""
    of = chance.randrange(8)

    def local(record_):
        return "x%d" % (record_ % 8 + 8 * chance.randrange(7))

    return chance.choice([
        lambda: "%s = new R%d;" % (local(of), of),
        lambda: "%s = %s;" % (local(of), local(of)),
        lambda: "%s = %s;" % (local(of), chance.choice(globals_[of::8])),
        lambda: "%s = %s.a;" % (local(of), local(of)),
        lambda: "%s = %s.b;" % (local(of + 1), local(of)),
        lambda: "%s.a = %s;" % (local(of), local(of)),
        lambda: "%s.b = %s;" % (local(of), local(of + 1)),
        lambda: "%s.c = %s;" % (local(of), local(of)),
    ])()


def copies(count):
    """Copies from local to local in 64 threads, against the order in which what they refer to moves."""
    names, globals_ = named("x", 64), named("g", 256)
    threads = []
    for thread in range(64):
        moved = names[: count // 64 - 1]
        body = ["%s = %s;" % (name, other) for name, other in zip(moved, moved[1:])]
        threads.append("thread t%d { %s %s %s = %s; atomic { x0.next = %s; } }"
                       % (thread, declared("Node", names), " ".join(body), moved[-1], globals_[4 * thread],
                          globals_[4 * thread + 3]))
    return "%s%s %s" % (record("Node", ["next"]), declared("global Node", globals_), "\n".join(threads))


def records(count):
    """Objects of 64 records, whose 16 fields are each of another record: made, stored into and loaded from."""
    chance = random.Random(1)
    kinds = " ".join("record R%d { %s }" % (i, " ".join("R%d f%d;" % ((i + j) % 64, j) for j in range(16)))
                     for i in range(64))
    body = []
    for _ in range(count // 4):
        one, field, other = chance.randrange(64), chance.randrange(16), chance.randrange(16)
        to = (one + field) % 64
        stored = "x%d = new R%d; x%d.f%d = g%d;" % (one, one, one, field, to + 64 * chance.randrange(4))
        body.append("%s x%d = x%d.f%d; x%d = x%d.f%d;" % (stored, to, one, field, (to + other) % 64, to, other))
    return ("%s %s thread t { %s atomic { %s } }"
            % (kinds, " ".join("global R%d g%d;" % (i % 64, i) for i in range(256)),
               " ".join("R%d x%d;" % (i, i) for i in range(64)), " ".join(body)))


def sites(count):
    """One site for each four statements; the others are copies, loads and stores among 64 locals of one record."""
    chance = random.Random(1)
    names, fields = named("p", 64), named("n", 15)
    globals_ = named("g", count // 16)
    made = count // 4 - len(globals_)
    body = ["%s = %s;" % (names[i % 64], name) for i, name in enumerate(globals_)]
    body += ["%s = new N;" % names[i % 64] for i in range(made)]
    for _ in range((count - len(body) - 1) // 3):
        one, other, field = chance.choice(names), chance.choice(names), chance.choice(fields)
        body.append("%s = %s; %s = %s.%s; %s.%s = %s;" % (one, other, other, one, field, one, field, other))
    return ("%s%s thread t { %s atomic { %s } }"
            % (record("N", fields, "int val; "), declared("global N", globals_), declared("N", names), " ".join(body)))


def waves(count):
    """What a field refers to moves along 240 globals against the order of the text, and is read again and again."""
    globals_, others, threads = named("g", 240), named("s", 11), []
    for thread in range(4):
        body = ["x%d = %s.f; %s.f = x%d;" % (i, globals_[238 - 60 * thread - i], globals_[239 - 60 * thread - i], i)
                for i in range(60) if 60 * thread + i < 239]
        threads.append("thread c%d { %s atomic { %s } }" % (thread, declared("N", named("x", 60)), " ".join(body)))
    chain = " ".join("s%d.h = s%d;" % (i, i + 1) for i in range(10))
    body = "p = new N; " * 700 + "y = p.f; " * count + "g0.f = r; r = q.h; q = g239.f; %s g0.f = s0;" % chain
    return ("record N { N f; N h; }\n%s %s thread last { N p; N q; N r; N y; atomic { %s } }"
            % (declared("global N", globals_ + others), " ".join(threads), body))


def sections(count):
    """Sections of 13 statements with a loop and a branch, in two threads."""
    section = ("atomic { q = p; while (q != null) { v = q.val; q = q.n0; } p.n0 = q; p = q.n1; q.n1 = p; p.val = v; "
               "v = q.val; if (v < 9) { q = p.n0; r = q.n1; r.val = v; } } ")
    threads = " ".join("thread t%d { N p; N q; N r; int v; p = a; q = b; r = b; %s }" % (i, section * (count // 2))
                       for i in range(2))
    return "%sglobal N a; global N b; %s" % (record("N", ["n0", "n1"], "int val; "), threads)


def pairs(count):
    """So many sections of 64 threads, each of which goes by two of eight lists, reads there and writes."""
    chance = random.Random(2)
    names = named("g", 8)
    filled = " ".join("p = new N; q = new N; p.n0 = q; %s.n0 = p; %s.n1 = q;" % (name, name) for name in names)
    parts = []
    for thread in range(64):
        bodies = ["p = %s.n0; q = p.n0; v = q.val; q = %s.n1; q.val = v; v = %s.val; v = p.val; p.val = v;"
                  % tuple(chance.choice(names) for _ in range(3)) for _ in range(count // 64)]
        bodies[0] = filled if thread == 0 else bodies[0]
        sections_ = " ".join("atomic { %s }" % body for body in bodies)
        parts.append("thread t%d { N p; N q; int v; %s }" % (thread, sections_))
    return "%s%s %s" % (record("N", ["n0", "n1"], "int val; "), declared("global N", names), "\n".join(parts))


def long_sections(count):
    """Sections that take as long as each other: in a loop each goes on by any of five fields, three times, from any of
    fourteen locals. The records of the three fields differ, so that no path becomes the lock on a class."""
    fields, names = range(5), ["a%d" % i for i in range(14)]
    records = " ".join("record %s { %s }" % (kind, " ".join("%s %s%d;" % (of, field, i) for i in fields))
                       for kind, of, field in (("C", "D", "h"), ("B", "C", "g"), ("A", "B", "f")))
    filled = " ".join("%s.%s%d = %s;" % (one, field, i, other)
                      for one, field, other in (("c", "h", "d"), ("b", "g", "c"), ("root", "f", "b")) for i in fields)
    begun = " ".join("%s = root;" % name for name in names)
    turned = " ".join("%s = %s;" % (name, other) for name, other in zip(names, names[1:] + names[:1]))
    gone = " ".join("if (v == %d) { %s = %s.%s%d; }" % (i, one, other, field, i)
                    for one, other, field in (("b", "a0", "f"), ("c", "b", "g"), ("d", "c", "h")) for i in fields)
    section = "atomic { %s while (v < 9) { %s %s v = d.val; } }" % (begun, turned, gone)
    threads = ["thread t%d { %s B b; C c; D d; int v; %s }" % (i, declared("A", names), section * (count // 4))
               for i in range(4)]
    return ("record D { int val; } %s global A root; thread m { B b; C c; D d; "
            "atomic { d = new D; c = new C; b = new B; %s } } %s" % (records, filled, " ".join(threads)))


def procedure(number, parameters, body):
    return "proc p%02d(%s) { %s}\n" % (number, parameters, body)


def procedures(size):
    """As many procedures as there may be, of sums and of calls of the next one, in so many bytes. The thread calls the
    last, which does nothing."""
    step = "t = n; n = t + 1; call p%02d(n); "
    rounds = (size // 64 - 40) // len(step % 0)
    long_ones = "".join(procedure(i, "int n", "int t; " + step % (i + 1) * rounds) for i in range(63))
    return "%s%sthread t { atomic { call p63(1); } }" % (long_ones, procedure(63, "int n", ""))


def doubled(count, called):
    """So many procedures, each of which calls the one before it twice, and a thread that calls one of them."""
    above = "".join(procedure(i, "", "call p%02d(); " % (i - 1) * 2) for i in range(1, count))
    return "%s%sthread t { atomic { call p%02d(); } }" % (procedure(0, "", "int x; "), above, called)


def tower(count):
    """As many procedures as there may be, each of which calls the one before it twice; the thread calls the one that
    comes to so many calls of the first, a power of two."""
    return doubled(64, count.bit_length() - 1)


def high_tower(count):
    """So many procedures, each of which calls the one before it twice; the thread calls the last."""
    return doubled(count, count - 1)


def chain(size):
    """Procedures each of which calls the next, far more than there may be, in so many bytes."""
    return "".join("proc p%05d(){call p%05d();}\n" % (i, i + 1) for i in range(size // 30))


def contention(count):
    """So many threads that add to the object of one global, each in four sections."""
    section = "atomic { t = a.bal; t = t + 1; a.bal = t; } " * 4
    threads = " ".join("thread t%d { int t; %s}" % (i, section) for i in range(count))
    return "record Acct { int bal; } global Acct a; %s" % threads


def counting(states):
    """Two threads that add to one counter, each so often that there are about so many states between their sections."""
    rounds = math.isqrt(states) - 1
    section = "atomic { t = a.bal; t = t + 1; a.bal = t; t = 0; }"
    threads = " ".join("thread t%d { int i; int t; while (i < %d) { %s i = i + 1; } }" % (i, rounds, section)
                       for i in range(2))
    return "record Acct { int bal; } global Acct a; %s" % threads


def rounds(count, locals_, body):
    """64 threads, each of which does so many times what the body is for its number."""
    return " ".join("thread t%d { int i; %s while (i < %d) { %s i = i + 1; } }" % (i, locals_, count, body(i))
                    for i in range(64))


def adding(count, globals_):
    """64 threads, in turn over the globals; each adds 1 to the object of its own so many times, a section a time."""
    def added(number):
        name = globals_[number % len(globals_)]
        return "atomic { v = %s.bal; v = v + 1; %s.bal = v; }" % (name, name)

    return "record Acct { int bal; } %s %s" % (declared("global Acct", globals_), rounds(count, "int v;", added))


def one_for_all(count):
    """64 threads that contend for one object."""
    return adding(count, ["a"])


def one_for_each(count):
    """64 threads that share nothing."""
    return adding(count, named("a", 64))


def making(count):
    """64 threads that make eight objects a round, refer to the last by one object and read by another."""
    made = "p = new Node; p.val = i; " * 8
    body = "atomic { %sa.next = p; } atomic { p = b.next; if (p != null) { v = p.val; } }" % made
    return "%s%s %s" % (record("Node", ["next"], "int val; "), declared("global Node", ["a", "b"]),
                        rounds(count, "int v; Node p;", lambda number: body))


def working(count):
    """64 threads that make twenty sums of locals a round, and store the last in one object."""
    body = "%satomic { a.bal = v; }" % ("v = v + i; " * 20)
    return "record Acct { int bal; } global Acct a; %s" % rounds(count, "int v;", lambda number: body)
