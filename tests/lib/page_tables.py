"""Compares tables of README.md, docs/OPERATING.md and docs/ARCHITECTURE.md with the sources, for tests/pages.

Each function of CHECKS yields a line for each difference.
"""
import json
import os
import re
import time

import applications
import sources
from sources import CRATES, TOP

# Settings whose values aren't numbers.
OTHERS = ("listen", "hosts", "weights", "tags")


def text_of(*path):
    with open(os.path.join(TOP, *path), encoding="utf-8") as it:
        return it.read()


def section(page, title):
    """The text of a page below a heading of the second level."""
    found = re.search(rf"^## {re.escape(title)}\n(.*?)(?=^## |\Z)", text_of(*page), re.S | re.M)
    return found[1] if found else ""


def rows(page, title):
    """The cells of each row of the tables there, without code marks."""
    for line in section(page, title).split("\n"):
        if line.startswith("|") and not line.startswith("|--"):
            yield [cell.strip().replace("`", "") for cell in line.strip().strip("|").split("|")]


def plain(number):
    return int(re.sub("[,_]", "", number))


OPERATING, ARCHITECTURE = ("docs", "OPERATING.md"), ("docs", "ARCHITECTURE.md")
# The constants that pages cite by their names.
CITED = r"`((?:MAX|LINGER|SIGNAL|TELL|STILL|GIVING|CONNECTING|VISIT)_\w+)`"


def limits():
    return {row[0]: plain(row[1]) for row in rows(OPERATING, "Limits") if row[0] != "Constant"}


def differences_of_limits():
    code, told = sources.limits(), limits()
    for name in sorted(code.keys() | told.keys()):
        if code.get(name) != told.get(name):
            yield f"OPERATING: {name} is {told.get(name)}, and the code has {code.get(name)}"
    for page in (OPERATING, ("docs", "ERRORS.md"), ARCHITECTURE):
        for cited in sorted(set(re.findall(CITED, text_of(*page))) - code.keys()):
            yield f"{page[-1]} cites {cited}, which the table of limits lacks"


def differences_of_numbers():
    """Each great number of README's limits is one of the table's, or the code's number of commands."""
    known = set(limits().values())
    for number in re.findall(r"\b\d[\d,]{2,}\b", section(("README.md",), "Limits")):
        if plain(number) not in known and number != "110":
            yield f"README: no limit is {number}"


def settings_in_code():
    """Least, most and default of each number, as texts."""
    source = text_of("crates", "proxy_config", "src", "table.rt")
    found = {}
    for key, least, most, default in re.findall(r'number\(file, "(\w+)", ([\w.]+), ([\w.]+), ([\w.]+(?:\([\w.]+\))?)\)', source):
        found[key] = (least.replace("_", "") if least[0].isdigit() else least, plain(most), default)
    return found


def differences_of_settings():
    code, sample = settings_in_code(), json.loads(text_of("redproxy.json"))
    manual = dict(re.findall(r'^\.BR (\w+) " \((.*?)\)"', text_of("packaging", "redproxy.json.5"), re.M))
    table = {row[0]: row for row in rows(OPERATING, "Settings") if row[0] != "Key"}
    if list(table) != list(sample):
        yield f"OPERATING has the settings {list(table)}, and redproxy.json {list(sample)}"
    for key in sample:
        if key not in code and key not in OTHERS:
            yield f"table.rt has no number {key}"
        if key not in manual:
            yield f"the manual page lacks {key}"
    for key, (least, most, default) in code.items():
        default = "300000" if default.startswith("base_ms") else default.replace("_", "")
        wanted = f"{least} to {most}"
        if table.get(key, ["", ""])[1].replace(",", "") != wanted:
            yield f"OPERATING: {key} goes from {wanted}"
        if not re.match(rf"{default}(?!\d)", table.get(key, ["", "", ""])[2].replace(",", "")) or sample.get(key) != int(default):
            yield f"OPERATING or redproxy.json: the default of {key} is {default}"
        if manual.get(key) != f"{wanted}, {default}":
            yield f"the manual page: {key} has ({wanted}, {default})"


def metrics_in_code():
    return set(re.findall(r'name: "((?:redproxy|process)_\w+)"', text_of("crates", "proxy_pages", "src", "metric.rt")))


def differences_of_metrics():
    code = metrics_in_code()
    told = {row[0].split("{")[0] for row in rows(OPERATING, "Numbers while it runs") if row[0].startswith(("redproxy_", "process_"))}
    for name in sorted(code - told):
        yield f"OPERATING lacks the metric {name}"
    for name in sorted(told - code):
        yield f"OPERATING has the metric {name}, and the code hasn't"


def differences_of_lines():
    """Each line of `serve` on standard error, but for its last one."""
    told = [re.sub(r"<.*?>", "<>", row[0]) for row in rows(OPERATING, "Serving")]
    for _, source in sources.sources():
        for line in re.findall(r'eprintln!\(rt;\s*"\{tag\}(redproxy: .*?)"', source):
            start = re.sub(r"\{.*?\}", "<>", line).removesuffix("<>")
            if not any(row.startswith(start) for row in told):
                yield f"OPERATING lacks the line: {line}"


def differences_of_symptoms():
    """What the table of symptoms has one look at: each quotation with a blank is of a line, and each metric the code's."""
    lines, metrics = [row[0] for row in rows(OPERATING, "Serving")], metrics_in_code()
    cells = [row.split("|")[2] for row in section(OPERATING, "By symptom").split("\n") if row.startswith("|")]
    if not cells:
        yield "OPERATING has no table of symptoms"
    for quoted in (quoted for cell in cells for quoted in re.findall(r"`([^`]*)`", cell)):
        if " " in quoted and not any(quoted in line for line in lines):
            yield f"OPERATING: no line has '{quoted}'"
        for name in sorted({*re.findall(r"redproxy_\w+", quoted)} - metrics):
            yield f"OPERATING: a symptom names {name}, which isn't a metric"


def differences_of_commands():
    sources = [text_of("crates", "command_table", "src", name) for name in ("entries.rt", "names.rt")]
    count = sum(len(re.findall(r'"[a-z]+"', source)) for source in sources)
    for page, title in ((OPERATING, "What is answered"), (("README.md",), "What differs from twemproxy and Envoy")):
        if f"{count} commands" not in section(page, title):
            yield f"{page[-1]}: there are {count} commands"


def differences_of_tests():
    """Each test that the table of attacks names."""
    for row in rows(OPERATING, "Hostile use"):
        for name in re.findall(r"[a-z_]+(?:/[a-z_]+)?(?: [a-z0-9]+)?", row[2]) if row[0] != "Attack" else ():
            file, _, word = name.partition(" ") if name.startswith("tests/") else ("tests/with_redis", "", name)
            pattern = rf"^def test_\w*{word}" if word else ""
            if not os.path.exists(os.path.join(TOP, file)) or not re.search(pattern, text_of(file), re.M):
                yield f"OPERATING names a test that isn't there: {name}"


def application_rows():
    """The rows of applications."""
    return [row for row in rows(OPERATING, "Coming from twemproxy") if len(row) == 4 and row[0] != "Application"]


def differences_of_applications():
    """Each application's row has what is due of it. Its version stands behind its name."""
    due = {name: applications.cells_of(features, applications.as_due(features)) for name, _, _, features in applications.APPLICATIONS}
    told = {row[0].rsplit(" ", 1)[0]: row[1:] for row in application_rows()}
    if list(due) != list(told):
        yield f"OPERATING has rows of the applications {list(told)}, and tests/works_with runs {list(due)}"
    for name in due.keys() & told.keys():
        if due[name] != told[name]:
            yield f"OPERATING's row of {name} has {told[name]}, and due is {due[name]}"


def differences_of_speeds():
    """Each row of speeds is the last line of its own file in bench/log, with its date, and no file is without a row."""
    day = re.search(r"\d+ \w+ \d{4}", section(OPERATING, "Speed"))
    date = time.strftime("%Y-%m-%d", time.strptime(day[0], "%d %B %Y")) if day else ""
    told = {"-".join(row[:2]).lower().replace(" ", "-") + ".csv": [date, *(cell.replace(",", "") for cell in row[2:])]
            for row in rows(OPERATING, "Speed") if row[0] != "Command"}
    logged = {name: text_of("bench", "log", name).split()[-1].split(",") for name in os.listdir(os.path.join(TOP, "bench", "log"))}
    for name in sorted(told.keys() | logged.keys()):
        last = logged.get(name, ["", ""])
        if told.get(name) != [last[0], *last[2:]]:
            yield f"OPERATING's speeds have {told.get(name)}, and the last line of bench/log/{name} {last}"


def differences_of_crates():
    """The crates of ARCHITECTURE's table, and the sources that the page names."""
    listed = {line.split(":")[0].split()[0] for line in text_of("crates.txt").split("\n") if ":" in line and line[0] != "#"}
    told = {name for row in rows(ARCHITECTURE, "The crates") for name in re.findall(r"\w+", row[0])}
    for name in sorted(listed - told):
        yield f"ARCHITECTURE lacks the crate {name}"
    files = [os.path.relpath(os.path.join(at, name), CRATES) for at, _, names in os.walk(CRATES) for name in names]
    for name in sorted(set(re.findall(r"[\w/]+\.(?:rt|antt)\b", text_of(*ARCHITECTURE)))):
        if "NAME" not in name and not any(f"/{file}".endswith(f"/{name}") for file in files):
            yield f"ARCHITECTURE names a file that isn't there: {name}"


def differences_of_drawings():
    """Each name of code and each file in a drawing: in those of ARCHITECTURE and PROVED, and at the head of a source."""
    texts = sources.sources(but=())
    code = {word for _, text in texts for word in re.findall(r"\w+", re.sub(r"(?m)//.*$", "", text))} | {*sources.crates()}
    paths = sources.paths()
    drawings = [(name, drawn) for name in ("ARCHITECTURE", "PROVED")
                for kind, drawn in re.findall(r"^```(\w*)\n(.*?)^```$", text_of("docs", name + ".md"), re.S | re.M) if not kind]
    for crate, text in texts:
        drawings += [(crate, drawn) for drawn in re.findall(r"//! ```text\n(.*?)//! ```", text, re.S)]
    for where, drawn in drawings:
        for file in sorted({*re.findall(r"[\w/]+\.rt", drawn)}):
            if not any(path.endswith("/" + file) for path in paths):
                yield f"{where} draws a file that isn't there: {file}"
        # (words that only code is made of: with a line below, or with a second capital)
        drawn = re.sub(r"[\w/]+\.rt", "", drawn)
        for name in sorted({*re.findall(r"\b(?:\w+_\w+|[A-Z][a-z]+[A-Z]\w*|\w+::\w+)\b", drawn)}):
            if not {*name.split("::")} <= code:
                yield f"{where} draws what isn't there: {name}"


CHECKS = (
    differences_of_drawings,
    differences_of_limits,
    differences_of_numbers,
    differences_of_settings,
    differences_of_metrics,
    differences_of_lines,
    differences_of_symptoms,
    differences_of_commands,
    differences_of_tests,
    differences_of_speeds,
    differences_of_applications,
    differences_of_crates,
)
