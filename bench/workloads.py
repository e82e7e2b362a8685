"""The programs that `bench/c` measures: fourteen workloads, each for so many threads that do so many operations each.

The language has neither arrays nor random numbers. An object is picked by comparing a number with bounds, and numbers
come from `x * 3 + 7` modulo 10,007.
"""
MODULUS = 10007


def next_of(x):
    return f"{x} = {x} * 3; {x} = {x} + 7; while ({MODULUS} <= {x}) {{ {x} = {x} - {MODULUS}; }}"


def picked(x, count, leaf, first=0, low=0, high=MODULUS):
    """Does what `leaf` makes of one of so many numbers, by the value of x."""
    if count == 1:
        return leaf(first)
    half = count // 2
    cut = low + (high - low) * half // count
    return (f"if ({x} < {cut}) {{ {picked(x, half, leaf, first, low, cut)} }} "
            f"else {{ {picked(x, count - half, leaf, first + half, cut, high)} }}")


def seeds(number):
    return f"r = {17 + 1234 * number}; q = {4711 + 777 * number};"


def globals_of(record, names):
    return "".join(f"global {record} {name};\n" for name in names)


def threads(count, make):
    return "".join(f"thread t{number} {{ {make(number)} }}\n" for number in range(count))


def turns(work):
    """Work inside a section that touches no object."""
    return f"w = 0; while (w < {work}) {{ w = w + 1; u = u + 0; }}" if work else ""


ACCOUNT = "record Acct { int bal; }\n"
ITEM = "record Item { int key; Item next; }\n"
TREE = "record Tree { int key; Tree left; Tree right; }\n"


def disjoint(count, times, work=0):
    """Sections that share nothing: each thread adds to an account of its own."""
    return ACCOUNT + globals_of("Acct", [f"a{i}" for i in range(count)]) + threads(
        count, lambda t: f"int i; int v; int u; int w; while (i < {times}) {{ i = i + 1; "
        f"atomic {{ v = a{t}.bal; v = v + 1; {turns(work)} a{t}.bal = v; }} }}")


def transfers(count, times, accounts, work=0):
    """Each section takes from one account and gives to another."""
    pick_x = picked("r", accounts, lambda i: f"x = a{i};")
    pick_y = picked("q", accounts, lambda i: f"y = a{i};")
    return ACCOUNT + globals_of("Acct", [f"a{i}" for i in range(accounts)]) + threads(
        count, lambda t: f"Acct x; Acct y; int i; int r; int q; int v; int u; int w; {seeds(t)} while (i < {times}) {{ "
        f"i = i + 1; {next_of('r')} {next_of('q')} {pick_x} {pick_y} atomic {{ v = x.bal; v = v - 1; x.bal = v; "
        f"{turns(work)} v = y.bal; v = v + 1; y.bal = v; }} }}")


def counter(count, times):
    """All threads add to one account."""
    return ACCOUNT + globals_of("Acct", ["a"]) + threads(
        count, lambda t: f"int i; int v; while (i < {times}) {{ i = i + 1; "
        "atomic { v = a.bal; v = v + 1; a.bal = v; } }")


def listed(count, times, writes):
    """So many of 10,007 sections put an item in front of a list; the others walk along fifty."""
    put = "n = new Item; n.key = r; p = head.next; n.next = p; head.next = n;"
    walk = ("p = head.next; c = 0; while (p != null) { v = p.key; if (v == r) { f = f + 1; } p = p.next; c = c + 1; "
            "if (c == 50) { p = null; } }")
    fill = f"c = 0; while (c < 50) {{ c = c + 1; atomic {{ {put} }} }}"
    return ITEM + globals_of("Item", ["head"]) + threads(
        count, lambda t: f"Item p; Item n; int i; int r; int q; int v; int c; int f; {seeds(t)} {'' if t else fill} "
        f"while (i < {times}) {{ i = i + 1; {next_of('r')} "
        f"if (r < {writes}) {{ atomic {{ {put} }} }} else {{ atomic {{ {walk} }} }} }}")


def tree_operation(writes):
    find = ("atomic { p = root.right; while (p != null) { v = p.key; if (v == q) { p = null; f = f + 1; } else { "
            "if (q < v) { p = p.left; } else { p = p.right; } } } }")
    put = ("atomic { b = root; p = root.right; d = 1; while (p != null) { b = p; v = p.key; if (q < v) { p = p.left; "
           "d = 0; } else { if (v == q) { p = null; d = 2; } else { p = p.right; d = 1; } } } if (d != 2) { "
           "n = new Tree; n.key = q; if (d == 0) { b.left = n; } else { b.right = n; } } }")
    return f"if (r < {writes}) {{ {put} }} else {{ {find} }}"


TREE_LOCALS = "Tree p; Tree b; Tree n; int v; int d; int f;"


def grown():
    """Each thread puts three hundred keys into the tree first."""
    return f"while (i < 300) {{ i = i + 1; {next_of('q')} {tree_operation(MODULUS)} }} i = 0;"


def tree(count, times, writes):
    """An ordered tree: so many of 10,007 sections insert, the others search."""
    return TREE + globals_of("Tree", ["root"]) + threads(
        count, lambda t: f"{TREE_LOCALS} int i; int r; int q; {seeds(t)} {grown()} while (i < {times}) {{ i = i + 1; "
        f"{next_of('r')} {next_of('q')} {tree_operation(writes)} }}")


BUCKETS = 8


def hash_operation(writes):
    """On one of eight buckets. Each has locals of its own: by one for all their items would be one class."""
    def leaf(b):
        put = (f"atomic {{ m{b} = new Item; m{b}.key = q; z{b} = h{b}.next; m{b}.next = z{b}; h{b}.next = m{b}; }}")
        find = (f"atomic {{ z{b} = h{b}.next; c = 0; while (z{b} != null) {{ v = z{b}.key; if (v == q) {{ z{b} = null; "
                f"f = f + 1; }} else {{ z{b} = z{b}.next; c = c + 1; if (c == 30) {{ z{b} = null; }} }} }} }}")
        return f"if (r < {writes}) {{ {put} }} else {{ {find} }}"
    return picked("q", BUCKETS, leaf)


HASH_LOCALS = " ".join(f"Item z{b}; Item m{b};" for b in range(BUCKETS))


def table(count, times, writes):
    """A hash table: so many of 10,007 sections insert, the others search."""
    return ITEM + globals_of("Item", [f"h{b}" for b in range(BUCKETS)]) + threads(
        count, lambda t: f"{HASH_LOCALS} int c; int v; int f; int i; int r; int q; {seeds(t)} while (i < {times}) {{ "
        f"i = i + 1; {next_of('r')} {next_of('q')} {hash_operation(writes)} }}")


def both(count, times, writes):
    """A tree and a hash table by turns."""
    return ITEM + TREE + globals_of("Item", [f"h{b}" for b in range(BUCKETS)]) + globals_of("Tree", ["root"]) + threads(
        count, lambda t: f"{TREE_LOCALS} {HASH_LOCALS} int c; int o; int i; int r; int q; {seeds(t)} {grown()} "
        f"while (i < {times}) {{ i = i + 1; {next_of('r')} {next_of('q')} o = 1 - o; "
        f"if (o == 0) {{ {tree_operation(writes)} }} else {{ {hash_operation(writes)} }} }}")


# What is measured: its name, what makes it of the number of threads and of operations, and how many operations a thread
# does at most.
WORKLOADS = [
    ("disjoint objects", disjoint, 500000),
    ("disjoint objects, long", lambda count, times: disjoint(count, times, 100), 100000),
    ("transfers, 64 accounts", lambda count, times: transfers(count, times, 64), 200000),
    ("transfers, 64 accounts, long", lambda count, times: transfers(count, times, 64, 100), 60000),
    ("transfers, 2 accounts", lambda count, times: transfers(count, times, 2), 200000),
    ("one counter", counter, 500000),
    ("list, 5 % inserts", lambda count, times: listed(count, times, MODULUS // 20), 40000),
    ("list, 75 % inserts", lambda count, times: listed(count, times, MODULUS * 3 // 4), 40000),
    ("tree, 2 % inserts", lambda count, times: tree(count, times, MODULUS // 50), 60000),
    ("tree, 50 % inserts", lambda count, times: tree(count, times, MODULUS // 2), 60000),
    ("hash table, 5 % inserts", lambda count, times: table(count, times, MODULUS // 20), 60000),
    ("hash table, 50 % inserts", lambda count, times: table(count, times, MODULUS // 2), 60000),
    ("tree and hash table, 5 % inserts", lambda count, times: both(count, times, MODULUS // 20), 50000),
    ("tree and hash table, 50 % inserts", lambda count, times: both(count, times, MODULUS // 2), 50000),
]
