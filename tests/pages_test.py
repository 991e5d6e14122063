#!/usr/bin/env python3
"""Sentences of the documents that can be held to something else: the annotated run of docs/BENCH.md to its example, the numbers of docs/REFUSALS.md to
the header, the words that it shows for 14 to the examples that it links, and every link to a file. Last line 'N passed, M failed'."""
import pathlib
import re
import sys

sys.dont_write_bytecode = True
TOP = pathlib.Path(__file__).resolve().parent.parent
sys.path.insert(0, str(TOP / "tools"))
import benchtext

passed = failed = 0


def check(name, wrong):
    global passed, failed
    passed, failed = passed + (not wrong), failed + bool(wrong)
    print("%s %s%s" % ("FAILED" if wrong else "ok", name, ": %s" % wrong if wrong else ""))


def read(name):
    return (TOP / name).read_text(encoding="utf-8")


def cells(row):
    return [c.strip() for c in row.strip().strip("|").split(" | ")]


def annotated_run():
    records, lines = [], []
    for row in read("docs/BENCH.md").partition("## A run, annotated")[2].splitlines():
        if row.startswith("| ") and not row.startswith("| record,"):
            parts = row.split("|")
            records += re.findall(r"`([^`]*)`", parts[1])
            lines += re.findall(r"`([^`]*)`", parts[2])
    example = TOP / "examples" / "11-annotated-run"
    check("BENCH: the records of the annotated run are the example's", benchtext.pack("\n".join(records)) != example.with_suffix(".bench").read_bytes() and records)
    check("BENCH: its lines are what the example prints", lines != example.with_suffix(".out").read_text(encoding="utf-8").splitlines() and lines)


def refusals():
    rows = {int(c[0]): c for c in map(cells, re.findall(r"^\| \d+ \|.*$", read("docs/REFUSALS.md"), re.M))}
    check("REFUSALS: a row for each number from 1 to 24", sorted(set(range(1, 25)) ^ set(rows)))
    numbers = {int(n) for n in re.findall(r"^  GRESOMUND_\w+ = (\d+)", read("include/gresomund.h").partition("enum gresomund_number")[2].partition("}")[0], re.M)}
    check("REFUSALS: the header has 0 to 21, and 22 to 24 are the model's", sorted(numbers ^ set(range(0, 22))))
    # each word in hex stands in the example whose link follows it
    wrong, words = [], 0
    for before, link in re.findall(r"([^()]*)\(\[example \d+\]\(\.\./([^)]*)\)\)", rows[14][3]):
        text = read(link)
        for word in re.findall(r"\b[0-9A-F]{8}\b", before):
            words += 1
            if not re.search(r"^GW [0-9A-F]{7}C %s" % word, text, re.M):
                wrong.append("%s is no word 3 in %s" % (word, link))
    check("REFUSALS: the words of 14 stand in the examples that it links", wrong or (words < 4 and "%d words" % words))


def links():
    dead = []
    for page in [TOP / "README.md", TOP / "CONTRIBUTING.md", *TOP.glob("docs/*.md"), *TOP.glob("tests/*.md"), *TOP.glob("examples/**/*.md")]:
        for link in re.findall(r"\]\(([^)#]+)\)", page.read_text(encoding="utf-8")):
            if "://" not in link and not (page.parent / link).exists():
                dead.append("%s: %s" % (page.relative_to(TOP), link))
    check("every link names a file", dead)


annotated_run()
refusals()
links()
print("%d passed, %d failed" % (passed, failed))
sys.exit(failed != 0)
