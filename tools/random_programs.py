"""Random programs of a few threads with short sections, for the scripts that compare what `sectc` says of them."""


def statement(chance, globals_):
    """A statement of a section, over the locals x, y and t."""
    base = chance.choice(["x", "y"] + globals_)
    return chance.choice([
        "t = %s.v;" % base, "t = %s.v;" % base, "%s.v = t;" % base, "x = %s.next;" % base, "y = %s.next;" % base,
        "%s.next = %s;" % (base, chance.choice(["x", "y"] + globals_)), "x = new N;", "y = x;", "t = t + 1;"])


def section(chance, globals_):
    if chance.random() < 0.03:
        return "atomic all { }"
    lines = [statement(chance, globals_) for _ in range(chance.randrange(0, 5))]
    if chance.random() < 0.15:
        lines.append("while (x != null) { t = x.v; x = x.next; }")
    return "atomic { %s }" % " ".join(lines)


def thread(chance, name, globals_):
    """A thread, and how many sections it has."""
    parts = []
    count = chance.randrange(1, 4)
    for _ in range(count):
        for local in ("x", "y"):
            if chance.random() < 0.7:
                parts.append("%s = %s;" % (local, chance.choice(globals_)))
        parts.append(section(chance, globals_))
    return "thread %s { N x; N y; int t; %s }\n" % (name, " ".join(parts)), count


def program(chance):
    """A source text, and the numbers of each thread's sections."""
    globals_ = ["g%d" % i for i in range(chance.randrange(1, 4))]
    text = "record N { int v; N next; }\n" + " ".join("global N %s;" % g for g in globals_) + "\n"
    sections, first = [], 0
    for number in range(chance.randrange(2, 5)):
        more, count = thread(chance, "t%d" % number, globals_)
        text += more
        sections.append(range(first, first + count))
        first += count
    return text, sections
