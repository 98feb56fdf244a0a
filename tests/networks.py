"""What is tried of tools/order: networks in BIF, good and bad, and the programs that are written; and with a built program the masses of
networks beside sums over all settings of their nodes."""
import itertools
import pathlib
import random
import subprocess
from fractions import Fraction

import calling
import source

ORDER = source.ROOT / "tools" / "order"
NETWORKS = source.ROOT / "examples" / "networks"

HEAD = "network n {\n  property x y ;\n}\n"
COIN = "variable a { type discrete [ 2 ] { no, yes }; }\nprobability ( a ) { table 0.75, 0.25; }\n"
DIE = "variable if { type discrete [ 3 ] { 1 2 3 }; } probability ( if ) { table 1 1 1; } // a name that is reserved, parts that are no shares\n"
CHILD = (
    "variable b.c { type discrete [ 2 ] { no, yes }; }\n"
    'probability ( b.c | a, if ) { /* a default */ (no, 1) 0.5, 0.5; (no, 2) 1.0, 0.0; (yes, "1") 5e-1, .5; default 0, 1; }\n'
)
MANY = f"variable m {{ type discrete [ 17 ] {{ {', '.join(f'v{i}' for i in range(17))} }}; }} probability ( m ) {{ table {', '.join(map(str, range(1, 18)))}; }}\n"
# A text, the words of the call, and what is printed, or a part of the reason where nothing is.
WRITTEN = [
    (HEAD + COIN, "--query a", "# 1 of 1 nodes, at most 2 states\n# a: no, yes\nchoice 1/4 { a := 1; } or { }\nreturn a;\n", ""),
    (HEAD + COIN + DIE, "--query if", "# 1 of 2 nodes, at most 3 states\n# if: 1, 2, 3\nchoose { 1: { } | 1: { if_ := 1; } | 1: { if_ := 2; } }\nreturn if_;\n", ""),
    (
        HEAD + CHILD.replace("variable", COIN + DIE + "variable", 1),
        "--query a --observe b.c=yes --as-written",
        "# 3 of 3 nodes, at most 12 states\n# a: no, yes\nchoice 1/4 { a := 1; } or { }\n# if: 1, 2, 3\n"
        "choose { 1: { } | 1: { if_ := 1; } | 1: { if_ := 2; } }\n# b.c: no, yes\nif a = 0 {\n  if if_ = 0 {\n"
        "    choice 1/2 { b_c := 1; } or { }\n  } else {\n    if if_ = 1 {\n      b_c := 0;\n    } else {\n      b_c := 1;\n    }\n  }\n} else {\n  if if_ = 0 {\n"
        "    choice 1/2 { b_c := 1; } or { }\n  } else {\n    b_c := 1;\n  }\n}\nobserve b_c = 1;\nif_ := 0;\nb_c := 0;\nreturn a;\n",
        "",
    ),
    (
        HEAD + MANY,
        "--query m",
        f"# 1 of 1 nodes, at most 17 states\n# m: {', '.join(f'v{i}' for i in range(17))}\nchoose {{ 1: {{ }} | "
        + " | ".join(f"{i + 1}: {{ m := {i}; }}" for i in range(1, 15))
        + " | 33: {\n  choice 17/33 { m := 16; } or { m := 15; }\n} }\nreturn m;\n",
        "",
    ),
    (HEAD + COIN, "--query b", None, "there is no node b"),
    (HEAD + COIN, "--query a --observe a", None, "'a' is no NODE=VALUE"),
    (HEAD + COIN, "--query a --observe a=yes a=no", None, "'a=no' is no NODE=VALUE, or the second of its node"),
    (HEAD + COIN + COIN, "--query a", None, "line 6: a stands twice"),
    (HEAD + COIN.replace("[ 2 ]", "[ 3 ]"), "--query a", None, "line 4: a has not 3 values"),
    (HEAD + COIN.replace("table 0.75, 0.25", "table 0.75"), "--query a", None, "line 5: a row of a has not 2 probabilities"),
    (HEAD + COIN.replace("0.75, 0.25", "0, 0"), "--query a", None, "of which one at least is above 0"),
    (HEAD + COIN.replace("0.75", "-0.75"), "--query a", None, "'-0.75' is no probability"),
    (HEAD + COIN.replace("0.25;", f"0.{'1' * 20};"), "--query a", None, "a row of a has too many digits"),
    (HEAD + COIN.split("\n")[0], "--query a", None, "a has no table"),
    (HEAD + COIN + COIN.split("\n")[1], "--query a", None, "line 6: a has two tables"),
    (HEAD + COIN.replace("( a )", "( a | a )").replace("table", "(no)"), "--query a", None, "a has a parent twice, or is its own"),
    (HEAD + COIN + DIE + CHILD.replace("default 0, 1;", ""), "--query a", None, "b.c has no row for no, 3"),
    (HEAD + COIN + DIE + CHILD.replace("(no, 2)", "(no, 4)"), "--query a", None, "(no, 4) are no values of the parents"),
    (HEAD + COIN + DIE + CHILD.replace("(no, 2)", "(no, 1)"), "--query a", None, "a row of b.c stands twice"),
    (HEAD + COIN + DIE + CHILD.replace("(no, 2)", "table"), "--query a", None, "b.c has parents, and a table without their values"),
    (HEAD + COIN + CHILD, "--query a", None, "there is no node if"),
    (HEAD + COIN + "/* ", "--query a", None, "line 6: a quoted word or a comment has no end"),
    (HEAD + COIN.replace("};", "}"), "--query a", None, "line 4: ; is missing, before '}'"),
    (COIN, "--query a", None, "line 1: network is missing, before 'variable'"),
    ("", "--query a", None, "line 1: network is missing, before 'the end'"),
    (
        HEAD + "".join(f"variable {a} {{ type discrete [ 1 ] {{ x }}; }} probability ( {a} | {b} ) {{ (x) 1; }}\n" for a, b in ("ab", "ba")),
        "--query a",
        None,
        "a depends on itself",
    ),
]

# The nodes of alarm (Beinlich, Suermondt, Chavez and Cooper, 1989) in the order of its list: the count of values, and the parents.
ALARM = """hypovolemia 2; lvfailure 2; errlowoutput 2; errcauter 2; insuffanesth 2; anaphylaxis 2; kinkedtube 2; fio2 2; pulmembolus 2; intubation 3;
disconnect 2; minvolset 3; history 2 lvfailure; lvedvolume 3 hypovolemia lvfailure; cvp 3 lvedvolume; pcwp 3 lvedvolume; strokevolume 3 hypovolemia lvfailure;
tpr 3 anaphylaxis; pap 3 pulmembolus; shunt 2 intubation pulmembolus; ventmach 4 minvolset; venttube 4 disconnect ventmach;
ventlung 4 intubation kinkedtube venttube; press 4 intubation kinkedtube venttube; minvol 4 intubation ventlung; ventalv 4 intubation ventlung;
pvsat 3 fio2 ventalv; artco2 3 ventalv; expco2 4 artco2 ventlung; sao2 3 pvsat shunt; catechol 2 artco2 insuffanesth sao2 tpr; hr 3 catechol;
hrbp 3 errlowoutput hr; hrekg 3 errcauter hr; hrsat 3 errcauter hr; co 3 hr strokevolume; bp 3 co tpr"""


def written(folder, text, words):
    """What order prints of a network and says, and its status."""
    path = folder / "network.bif"
    path.write_text(text, encoding="utf-8")
    run = subprocess.run([ORDER, path, *words.split()], capture_output=True, text=True, timeout=calling.SECONDS)
    return run.stdout, run.stderr, run.returncode


def is_written(folder, text, words, printed, reason):
    out, said, status = written(folder, text, words)
    return (out, status) == ("", 1) and reason in said if printed is None else (out, said, status) == (printed, "", 0)


# ---- networks that are made here: nodes with their count of values, parents, and parts for each setting of the parents


def bif_of(nodes):
    lines = ["network made {", "}"]
    for name, (count, parents, rows) in nodes.items():
        lines.append(f"variable {name} {{ type discrete [ {count} ] {{ {', '.join(f'v{i}' for i in range(count))} }}; }}")
        lines.append(f"probability ( {' | '.join([name, ', '.join(parents)] if parents else [name])} ) {{")
        for setting, parts in rows.items():
            lines.append(f"  {'(' + ', '.join(f'v{i}' for i in setting) + ')' if parents else 'table'} {', '.join(map(str, parts))};")
        lines.append("}")
    return "\n".join(lines) + "\n"


def made(shape, parts_of):
    """Nodes of a shape, names with their count and parents, with parts for each setting."""
    out = {}
    for name, (count, parents) in shape.items():
        settings = itertools.product(*(range(shape[it][0]) for it in parents))
        out[name] = count, parents, {setting: parts_of(count) for setting in settings}
    return out


def random_nodes(chance):
    shape = {}
    for i in range(chance.randint(2, 7)):
        shape[f"n{i}"] = chance.randint(1, 3), chance.sample(list(shape), min(len(shape), chance.randint(0, 3)))
    names = chance.sample(list(shape), len(shape))

    def parts(count):
        row = [chance.choice([0, 1, 1, 2, 7]) for _ in range(count)]
        return row if any(row) else [1] * count

    nodes = made(shape, parts)
    return {name: nodes[name] for name in names}


def masses(nodes, query, observed):
    """The fraction of each value of a node where others are observed, by the sum over all settings of all nodes; none where these never come."""
    sums = {}
    for setting in itertools.product(*(range(count) for count, _, _ in nodes.values())):
        value = dict(zip(nodes, setting))
        if any(value[name] != seen for name, seen in observed.items()):
            continue
        weight = Fraction(1)
        for name, (_, parents, rows) in nodes.items():
            parts = rows[tuple(value[it] for it in parents)]
            weight *= Fraction(parts[value[name]], sum(parts))
        sums[value[query]] = sums.get(value[query], 0) + weight
    whole = sum(sums.values())
    return [f"value {value} mass {share.numerator}/{share.denominator}" for value in sorted(sums) if (share := sums[value] / whole if whole else 0)]


def has_masses(zar, folder, nodes, query, observed, *words):
    """Whether the program of a network, in the order that is found and in that of the file, has the masses of the network."""
    wanted = masses(nodes, query, observed)
    seen = " ".join(["--observe", *(f"{name}=v{value}" for name, value in observed.items())]) if observed else ""
    for order in ("", "--as-written"):
        text, _, status = written(folder, bif_of(nodes), f"--query {query} {seen} {order}")
        (folder / "network.gcl").write_text(text, encoding="utf-8")
        run = subprocess.run([zar, "mass", folder / "network.gcl"], capture_output=True, text=True, timeout=calling.SECONDS)
        if status or (run.stdout.splitlines() != wanted if wanted else not run.stderr.startswith("error E15 ")):
            return False
    return True


def yes(*shares):
    """Rows of a node with two values, the first of them in hundredths."""
    return [(share, 100 - share) for share in shares]


def table(parents, rows):
    return 2, parents, dict(zip(itertools.product(range(2), repeat=len(parents)), rows))


# Asia (Lauritzen and Spiegelhalter, 1988), with the value yes before no.
ASIA = {
    "asia": table([], yes(1)),
    "tub": table(["asia"], yes(5, 1)),
    "smoke": table([], yes(50)),
    "lung": table(["smoke"], yes(10, 1)),
    "bronc": table(["smoke"], yes(60, 30)),
    "either": table(["lung", "tub"], yes(100, 100, 100, 0)),
    "xray": table(["either"], yes(98, 5)),
    "dysp": table(["bronc", "either"], yes(90, 80, 70, 10)),
}


def asia_has_its_masses(zar, folder):
    words = [ORDER, NETWORKS / "asia.bif", "--query", "lung", "--observe", "dysp=yes", "xray=yes"]
    (folder / "asia.gcl").write_text(subprocess.run(words, capture_output=True, text=True, timeout=calling.SECONDS).stdout, encoding="utf-8")
    run = subprocess.run([zar, "mass", folder / "asia.gcl"], capture_output=True, text=True, timeout=calling.SECONDS)
    return run.stdout.splitlines() == masses(ASIA, "lung", {"dysp": 0, "xray": 0})


# ---- orders


def states(folder, nodes, words):
    """The states at most that the head of a program tells."""
    return int(written(folder, bif_of(nodes), words)[0].split("\n")[0].split()[-2])


def alarm():
    cells = [it.split() for it in ALARM.split(";")]
    return made({name: (int(count), parents) for name, count, *parents in cells}, lambda count: [1] * count)


def orders_are_good(folder):
    names = [f"c{i}" for i in range(40)]
    chain = made({name: (2, names[i - 1 : i] if i else []) for i, name in enumerate(names)}, lambda count: [1] * count)
    shuffled = {name: chain[name] for name in random.Random(0).sample(names, len(names))}
    yield "a chain in any order has 4 states", states(folder, shuffled, "--query c39") == 4
    pairs = made({**{f"a{i}": (2, []) for i in range(20)}, **{f"b{i}": (2, [f"a{i}"]) for i in range(20)}, "c": (2, [])}, lambda count: [1] * count)
    seen = f"--query c --observe {' '.join(f'b{i}=v0' for i in range(20))}"
    yield "pairs in the order of the file have 2^21 states", states(folder, pairs, f"{seen} --as-written") == 2**21
    yield "pairs in another have 4 states or less", states(folder, pairs, seen) <= 4
    seen = "--query lvfailure --observe hrbp=v2 bp=v0 pcwp=v1"
    told = (source.ROOT / "docs/networks.md").read_text(encoding="utf-8")
    as_written, found = states(folder, alarm(), f"{seen} --as-written"), states(folder, alarm(), seen)
    yield "the states of alarm in docs/networks.md", f"{as_written:,} states" in told and f"{found} states" in told


def checks(zar, folder):
    for text, words, printed, reason in WRITTEN:
        yield f"order of {text!r} {words}", is_written(folder, text, words, printed, reason)
    yield from orders_are_good(folder)
    if zar:
        yield "the masses of asia", asia_has_its_masses(zar, folder)
        chance = random.Random(1)
        for i in range(20):
            nodes = random_nodes(chance)
            query, *others = chance.sample(list(nodes), min(len(nodes), chance.randint(1, 3)))
            observed = {name: chance.randrange(nodes[name][0]) for name in others}
            yield f"network {i} at random", has_masses(zar, folder, nodes, query, observed)
