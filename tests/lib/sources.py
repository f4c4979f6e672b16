"""What tests/pages, tests/definitions and tests/contracts share: the sources of the crates."""
import os
import re

TOP = os.path.dirname(os.path.dirname(os.path.dirname(os.path.abspath(__file__))))
CRATES = os.path.join(TOP, "crates")
# Crates without a public contract of their own.
PLAIN = ("test_scenarios", "test_parts", "test_rows", "test_components", "test_serve", "benches", "proxy_command_line", "proxy_main")

# The name of a public function without arguments and body, whose contract is a law.
LAW = r"^pub fn (\w+)(?:<.*>)?\(\)\n(?: .*\n)+\{\}$"


def text_of(path):
    with open(path, encoding="utf-8") as it:
        return it.read()


def files_of(crate, folder, suffix):
    """The files of a crate's folder, those of its folders too, as pairs of a name and a text."""
    found = []
    for at, _, names in os.walk(os.path.join(CRATES, crate, folder)):
        found += [os.path.join(at, name) for name in names if name.endswith(suffix)]
    return [(os.path.basename(path)[: -len(suffix)], text_of(path)) for path in sorted(found)]


def crates(but=()):
    """The crates but these."""
    return [name for name in sorted(os.listdir(CRATES)) if name not in but]


def sources(but=PLAIN):
    """The sources of each crate but these, as pairs of the crate's name and a text."""
    return [(crate, text) for crate in crates(but) for _, text in files_of(crate, "src", ".rt")]


def paths():
    """The path of each source of a crate."""
    return [os.path.join(at, name) for crate in crates() for at, _, names in os.walk(os.path.join(CRATES, crate, "src"))
            for name in names]


def named_by():
    """What each line of crates.txt names, by its crate."""
    lines = (line.split(":") for line in text_of(os.path.join(TOP, "crates.txt")).split("\n") if ":" in line and line[0] != "#")
    return {head.split()[0]: names.split() for head, names in lines}


def limits():
    """The value of each limit, by its name."""
    return {name: int(value) for _, source in files_of("limits", "src", ".rt")
            for name, value in re.findall(r"\bconst (\w+): [ui]\w+ = ([\d_]+);", source)}
