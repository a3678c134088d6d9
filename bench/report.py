#!/usr/bin/env python3
"""report.py [ROWS]: measures the built programs beside those that are installed, and writes the tables and plots of
docs/BENCHMARKS.md: what stands between `<!-- table NAME -->` and `<!-- end -->`.

Each number is the median of three rounds, in which the programs alternate, of single changes the least; ROWS, 1,048,576 if left out, is what is
loaded. Peers: sqlite3, miller, datamash, pandas and data.table, where they are installed. For quiet minutes: some ten."""

import os
import pathlib
import re
import shutil
import statistics
import subprocess
import sys
import tempfile

import steps
import views

HERE = pathlib.Path(__file__).resolve().parent
ROOT = HERE.parent
PAGE = ROOT / "docs/BENCHMARKS.md"
PROGRAM = str(ROOT / "crates/dfviews/out/dfviews")
SHELL = str(ROOT / "crates/dfshell/out/dfshell")
PYTHON = "/usr/bin/python3"
ROUNDS = 3
SIZES = (10_000, 100_000, 1_000_000)

REGIONS = "SELECT region, count(*), sum(qty), min(CAST(qty AS INTEGER)), max(CAST(qty AS INTEGER)) FROM rows GROUP BY region"
KEYS = "SELECT key, count(*), sum(amount) FROM rows GROUP BY key"
PANDAS = "import pandas as pd; f = pd.read_csv('{0}'); print(f.groupby('{1}', sort=False)['{2}'].agg([{3}]).to_csv())"
TABLE = "library(data.table); f <- fread('{0}', nThread=4); fwrite(f[, .({3}), by={1}], '/dev/null')"
FLOOR = r"""
#include <stdio.h>
#include <stdlib.h>
#include <string.h>
/* Sums the second field by the number at the end of the first: what a loop by hand takes. */
int main(int words, char **word) {
  FILE *file = fopen(word[1], "rb");
  static char bytes[1 << 26];
  size_t length = fread(bytes, 1, sizeof bytes - 1, file);
  long sums[100] = {0}, counts[100] = {0};
  char *at = memchr(bytes, '\n', length) + 1;
  while (at < bytes + length) {
    char *comma = memchr(at, ',', 64);
    int group = atoi(comma - 2);
    sums[group] += atol(comma + 1);
    counts[group]++;
    at = (char *)memchr(comma, '\n', 128) + 1;
  }
  for (int group = 0; group < 100; group++)
    if (counts[group]) printf("%d %ld %ld\n", group, counts[group], sums[group]);
}
"""


def run(command, folder):
    """The seconds and megabytes of a command, or none where it fails."""
    asked = [sys.executable, str(HERE / "measure.py"), "it", *command]
    told = subprocess.run(asked, cwd=folder, capture_output=True, text=True, check=False).stdout
    found = re.search(r"([\d.]+) s +(\d+) MB +status (\d)", told)
    return (float(found[1]), int(found[2])) if found and found[3] == "0" else None


def medians(commands, folder):
    """The median seconds and megabytes of each of these commands, by its name. In each round each is run once."""
    rounds = [{name: run(command, folder) for name, command in commands.items()} for _ in range(ROUNDS)]
    return {name: tuple(map(statistics.median, zip(*(r[name] for r in rounds)))) for name in commands if all(r[name] for r in rounds)}


def ours(name, document):
    return {f"{name} {workers}": [PROGRAM, document, "--workers", str(workers)] for workers in (1, 2, 4)}


def peers(folder):
    """The commands of the programs that are installed: for 64 regions, and for a thousand keys."""
    asked = {"regions": ("regions.csv", "region", "qty", REGIONS), "keys": ("rows.csv", "key", "amount", KEYS)}
    commands = {}
    for view, (file, by, of, query) in asked.items():
        least = view == "regions"
        if shutil.which("sqlite3"):
            commands[f"sqlite3 {view}"] = ["sqlite3", ":memory:", ".mode csv", f".import {file} rows", query]
        if shutil.which("mlr"):
            kinds = "count,sum,min,max" if least else "count,sum"
            commands[f"miller {view}"] = ["mlr", "--icsv", "--ocsv", "stats1", "-a", kinds, "-f", of, "-g", by, file]
        if subprocess.run([PYTHON, "-c", "import pandas"], capture_output=True, check=False).returncode == 0:
            kinds = "'size', 'sum', 'min', 'max'" if least else "'size', 'sum'"
            commands[f"pandas {view}"] = [PYTHON, "-c", PANDAS.format(file, by, of, kinds)]
        if shutil.which("Rscript"):
            kinds = f".N, sum({of}), min({of}), max({of})" if least else f".N, sum({of})"
            commands[f"data.table {view}"] = ["Rscript", "-e", TABLE.format(file, by, of, kinds)]
    if shutil.which("cc"):
        (folder / "floor.c").write_text(FLOOR)
        if subprocess.run(["cc", "-O2", "-o", "floor", "floor.c"], cwd=folder, check=False).returncode == 0:
            commands["C loop regions"] = ["./floor", "regions.csv"]
    return commands


def load_table(folder):
    """The table of loads, and what the plot shows: a name and seconds."""
    named = {"by 64 regions": "regions.toml", "by a thousand keys": "grouped.toml", "filtered": "filtered.toml", "no view": "sales.toml"}
    commands = peers(folder)
    for name, document in named.items():
        commands |= ours(name, document)
    found = medians(commands, folder)
    lines = ["| Program and view | Seconds by 1, 2 and 4 workers | Megabytes, by four |", "|---|---|---|"]
    for name in named:
        times = ", ".join(f"{found[f'{name} {workers}'][0]:.2f}" for workers in (1, 2, 4))
        lines.append(f"| `dfviews`, {name} | {times} | {found[f'{name} 4'][1]:.0f} |")
    for name in commands:
        program, _, view = name.rpartition(" ")
        if view in ("regions", "keys") and name in found:
            shown = {"regions": "by 64 regions", "keys": "by a thousand keys"}[view]
            lines.append(f"| {program}, {shown} | {found[name][0]:.2f} | {found[name][1]:.0f} |")
    bars = [(f"dfviews, {w} worker{'s' * (w > 1)}", found[f"by 64 regions {w}"][0]) for w in (1, 2, 4)]
    bars += [(name.rpartition(" ")[0], found[name][0]) for name in found if name.endswith(" regions")]
    return lines, bars


def steps_table(rows):
    """The table of single steps over so many rows."""
    lines = ["| Step | 1 worker | 4 workers | pandas |", "|---|---|---|---|"]
    for name, seconds in steps.measured(PROGRAM, rows, ROUNDS, steps.STEPS):
        cells = " | ".join("-" if s is None else f"{s:.2f}" for s in seconds)
        lines.append(f"| {name} | {cells} |")
    return lines


def live_table(folder):
    """The table of single changes under a group-by, and what the plot shows."""
    preloaded = views.library(folder)
    step = views.STEPS["group-by"]
    (folder / "rows.toml").write_text(views.DOCUMENT + views.VIEW.replace("STEP", step))
    kinds = ("append", "replace", "delete")
    lines = ["| Rows | Append | Replace | Delete | SQLite: append | SQLite: replace | SQLite: delete |", "|---|---|---|---|---|---|---|"]
    plot = []
    for rows in SIZES:
        # Behind a million rows a change weighs less than the noise of a load: the least of each session is taken.
        own = views.measured(SHELL, folder, rows, preloaded, kinds, ROUNDS)[1:4]
        peer = [min(numbers) for numbers in zip(*(views.in_sqlite(rows)[1:4] for _ in range(ROUNDS)))]
        lines.append(f"| {rows:,} | " + " | ".join(f"{number:.1f}" for number in own + peer) + " |")
        plot.append((rows, own, peer))
    return lines, plot


def machine():
    """What was measured on."""
    cpu = re.search(r"model name\s*: (.*)", pathlib.Path("/proc/cpuinfo").read_text())
    memory = int(re.search(r"MemTotal: +(\d+)", pathlib.Path("/proc/meminfo").read_text())[1]) // 2**20
    told = [f"{cpu[1] if cpu else 'a processor'}, {os.cpu_count()} processors, {memory} GB"]
    asked = {
        "SQLite": ["sqlite3", "--version"],
        "miller": ["mlr", "--version"],
        "pandas": [PYTHON, "-c", "import pandas; print(pandas.__version__)"],
        "data.table": ["Rscript", "-e", "cat(as.character(packageVersion('data.table')))"],
    }
    for name, command in asked.items():
        if shutil.which(command[0]):
            answer = subprocess.run(command, capture_output=True, text=True, check=False)
            version = re.search(r"\d+\.[\d.]+\d", answer.stdout)
            if answer.returncode == 0 and version:
                told.append(f"{name} {version[0]}")
    return ["; ".join(told) + "."]


STYLE = """<style>
text { font: 13px sans-serif; fill: #24292f } rect.own { fill: #0b6bcb } rect.peer { fill: #8a94a0 }
path { fill: none; stroke-width: 2 } path.own { stroke: #0b6bcb } path.peer { stroke: #8a94a0 } path.axis { stroke: #8a94a0; stroke-width: 1 }
@media (prefers-color-scheme: dark) { text { fill: #e6edf3 } rect.own { fill: #6cb6ff } path.own { stroke: #6cb6ff } }
</style>"""


def bars_svg(bars):
    """Bars of seconds, the quickest first."""
    most = max(seconds for _, seconds in bars)
    lines = [f'<svg xmlns="http://www.w3.org/2000/svg" viewBox="0 0 640 {30 * len(bars) + 10}">', STYLE]
    for at, (name, seconds) in enumerate(sorted(bars, key=lambda bar: bar[1])):
        kind = "own" if name.startswith("dfviews") else "peer"
        width = max(1, round(380 * seconds / most))
        lines.append(f'<text x="180" y="{30 * at + 23}" text-anchor="end">{name}</text>')
        lines.append(f'<rect class="{kind}" x="190" y="{30 * at + 9}" width="{width}" height="18"/>')
        lines.append(f'<text x="{196 + width}" y="{30 * at + 23}">{seconds:.2f} s</text>')
    return "\n".join([*lines, "</svg>", ""])


def lines_svg(plot):
    """Microseconds of a change by the rows that stand: a line for each kind, ours and SQLite's."""
    most = max(number for _, own, peer in plot for number in own + peer)
    lines = ['<svg xmlns="http://www.w3.org/2000/svg" viewBox="0 0 640 300">', STYLE, '<path class="axis" d="M60 20V250H420"/>']
    spots = [80 + 160 * at for at in range(len(plot))]
    for x, (rows, _, _) in zip(spots, plot):
        lines.append(f'<text x="{x}" y="270" text-anchor="middle">{rows:,}</text>')
    lines.append(f'<text x="54" y="24" text-anchor="end">{most:.0f}</text><text x="54" y="254" text-anchor="end">0</text>')
    lines.append('<text x="240" y="292" text-anchor="middle">rows that stand; microseconds of a change</text>')
    ends = []
    for side, kind, who in ((1, "own", "dfshell"), (2, "peer", "SQLite")):
        for at, change in enumerate(("append", "replace", "delete")):
            heights = [250 - round(230 * point[side][at] / most) for point in plot]
            way = "L".join(f"{x} {y}" for x, y in zip(spots, heights))
            lines.append(f'<path class="{kind}" d="M{way}"/>')
            ends.append((heights[-1], f"{who}: {change}"))
    # From the lowest up, so far apart that all can be read.
    free = 300
    for height, name in sorted(ends, reverse=True):
        free = min(height + 4, free - 16)
        lines.append(f'<text x="410" y="{free}">{name}</text>')
    return "\n".join([*lines, "</svg>", ""])


def put(text, name, lines):
    """The page with these lines in the place of a table."""
    pattern = rf"(<!-- table {name} -->\n).*?(<!-- end -->)"
    return re.sub(pattern, lambda found: found[1] + "\n".join(["", *lines, "", ""]) + found[2], text, flags=re.DOTALL)


def main():
    rows = int(sys.argv[1]) if len(sys.argv) > 1 else 1_048_576
    with tempfile.TemporaryDirectory() as name:
        folder = pathlib.Path(name)
        subprocess.run([sys.executable, str(HERE / "make.py"), str(rows), name], check=True)
        load, bars = load_table(folder)
        live, plot = live_table(folder)
    tables = {"machine": machine(), "load": load, "live": live}
    tables["steps"] = steps_table(131_072)
    tables["large"] = steps_table(rows)
    text = PAGE.read_text()
    for name, lines in tables.items():
        text = put(text, name, lines)
    PAGE.write_text(text)
    (ROOT / "docs/load.svg").write_text(bars_svg(bars))
    (ROOT / "docs/live.svg").write_text(lines_svg(plot))


if __name__ == "__main__":
    main()
