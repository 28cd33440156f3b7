"""Large texts that the scripts here have opened."""

GROUP = """\
/* Group {n}: what a client asks of the server. */
const LIMIT_{n} = {limit};
enum status_{n} {{
    OK_{n} = 0,
    AGAIN_{n} = 11,
    DENIED_{n} = 13
}};
struct entry_{n} {{
    unsigned int ident;
    string name<LIMIT_{n}>;
    opaque cookie[8];
    status_{n} state;
    entry_{n} *next;
}};
union reply_{n} switch (status_{n} state) {{
case OK_{n}:
    entry_{n} *entries;
case AGAIN_{n}:
    unsigned hyper until;
default:
    void;
}};
typedef reply_{n} replies_{n}<LIMIT_{n}>;

"""


def mixed(size):
    """Groups of definitions of each kind, as many as have at most `size` bytes."""
    groups, length, number = [], 0, 0
    while True:
        group = GROUP.format(n=number, limit=1000 + number % 9000).encode("ascii")
        if length + len(group) > size:
            return b"".join(groups)
        groups.append(group)
        length += len(group)
        number += 1


def constants(lines):
    """So many lines, each with a constant."""
    return b"".join(b"const C%07d = %d;\n" % (i, 1_000_000 + i) for i in range(lines))


def long_struct(lines):
    """One struct with so many lines, each with a field."""
    return b"struct s {\n" + b"".join(b"    int f%07d;\n" % i for i in range(lines)) + b"};\n"


def shared(uses, types, size):
    """So many sizes by one constant, as many structs that hold one struct, so many types that stand for one type, and
    groups of at most so many bytes behind them, with a constant in the middle that nobody uses."""
    head = b"const MANY = 7;\nstruct shared { int a; };\ntypedef int renamed;\n"
    sizes = (b"typedef opaque sized_%d[MANY];\n" % i for i in range(uses))
    holders = (b"struct holder_%d { shared one; };\n" % i for i in range(uses))
    aliases = (b"typedef renamed alias_%d;\n" % i for i in range(types))
    groups = mixed(size)
    middle = groups.index(b"/* Group", len(groups) // 2)
    lone = b"const LONE = 1;\n"
    return b"".join([head, *sizes, *holders, *aliases, groups[:middle], lone, groups[middle:]])
