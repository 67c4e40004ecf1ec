#!/usr/bin/env python3
"""Draws docs/crates.svg from crates.txt: tools/picture.py [--check]

An arrow leads from each crate to those that use it, except where a longer way leads there anyway. It asks for `dot`
(Graphviz). With --check it draws nothing, asks for nothing, and fails where the picture that is there has other crates
or arrows than crates.txt.
"""
import html
import pathlib
import re
import subprocess
import sys

TOP = pathlib.Path(__file__).resolve().parent.parent
PICTURE = TOP / "docs" / "crates.svg"
# what belongs together, by the layers of docs/architecture.md
GROUPS = {
    "texts": ("dumpi_text", "dumpi_calls", "text_cuts"),
    "the input of a run": ("command_line", "comm_groups", "comm_calls", "comm_makings", "text_layouts", "run_files", "side_by_side", "run_inputs"),
    "knowledge and its answer": ("trace_know", "trace_ops", "trace_pair", "trace_stuck", "trace_wait", "trace_node", "trace_check"),
    "nodes that exchange what they know": ("trace_wire", "trace_world", "trace_crew", "trace_cluster"),
    "for people": ("call_words", "text_notes", "diagnosis_value", "trace_diagnosis", "trace_report", "diagnosis_words", "page_words", "call_table"),
}


def uses():
    """Each crate of the program with the crates that it uses."""
    lines = (TOP / "crates.txt").read_text().splitlines()
    listed = dict(it.split(":", 1) for it in lines if ":" in it and not it.startswith("#"))
    listed = {name.split()[0]: names.split() for name, names in listed.items()}
    return {name: [it for it in names if it in listed] for name, names in listed.items() if not name.endswith("_tests")}


def below(crates, name):
    """All crates that a crate stands on."""
    return {deeper for it in crates[name] for deeper in {it} | below(crates, it)}


def arrows(crates):
    """The crates that another uses, but for those that it stands on in any case."""
    for name, used in crates.items():
        for it in used:
            if not any(it in below(crates, other) for other in used if other != it):
                yield it, name


def graph(crates):
    """The picture in the language of dot."""
    yield "digraph crates {"
    yield '  rankdir=TB; nodesep=0.25; ranksep=0.45; node [shape=box, style=filled, fillcolor=white, fontname="Helvetica", fontsize=12, height=0.3];'
    yield '  graph [fontname="Helvetica", fontsize=12]; edge [arrowsize=0.6, color="#555555"];'
    for at, (words, names) in enumerate(GROUPS.items()):
        yield f'  subgraph cluster_{at} {{ label="{words}"; style="rounded,filled"; color="#cccccc"; fillcolor="#f4f4f4";'
        yield "    " + " ".join(f"{it};" for it in names if it in crates) + " }"
    for name in crates:
        yield f"  {name};"
    for source, user in sorted(arrows(crates)):
        yield f"  {source} -> {user};"
    yield "}"


def faults():
    """What the picture has otherwise than crates.txt."""
    crates = uses()
    titles = {html.unescape(it) for it in re.findall(r"<title>([^<]*)</title>", PICTURE.read_text())}
    wanted = set(crates) | {f"{source}->{user}" for source, user in arrows(crates)}
    there = {it for it in titles if it != "crates" and not it.startswith("cluster_")}
    return sorted([f"it lacks {it}" for it in wanted - there] + [f"it has {it}" for it in there - wanted])


def main():
    if "--check" in sys.argv[1:]:
        found = faults()
        for it in found:
            print(f"{PICTURE.relative_to(TOP)}: {it}: tools/picture.py draws it anew")
        return 1 if found else 0
    words = "\n".join(graph(uses()))
    drawn = subprocess.run(["dot", "-Tsvg"], input=words, capture_output=True, text=True, check=True).stdout
    PICTURE.write_text(drawn)
    return 0


if __name__ == "__main__":
    sys.exit(main())
