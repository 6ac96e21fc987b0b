"""The drawing of the crates in their layers, made of crates.txt. Read by tools/pictures."""
from collections.abc import Mapping

from office_kit.docs.definitions import ROOT, Fault, crates_of_the_program
from office_kit.gate.crates import crates_of

# The layers, the highest first: what a layer is for, its colour, and its crates.
LAYERS = [
    ("The program", "#e4e7eb", ["procure_config", "procure_programs", "procure"]),
    ("HTTP: requests, routes, responses", "#fbdfdf", ["office_wire", "office_requests", "office_http"]),
    ("Commands and queries", "#fbdfdf", ["office_plans", "office_desk"]),
    ("Stores: in memory, in SQL", "#ece3f4", ["office_memory", "office_sums", "office_changes", "office_store", "office_ledger", "office_tables"]),
    ("Publication", "#fdebcf", ["ocds_merge", "ocds_release", "office_publications"]),
    ("Rules of the commands", "#dcf0dd", ["tender_papers", "office_machine", "tender_core", "award_core"]),
    ("Values and records", "#dbe9f6", ["office_values", "office_commands", "office_base", "keyed_table"]),
]
HEAD = """\
// The crates of the program in their layers: an arrow leads from a crate to one that it uses. Crates that are used by way
// of another one have no arrow of their own. Made by `tools/pictures` of crates.txt, not by hand.
digraph crates {
  rankdir=TB; newrank=true; ranksep=0.45; nodesep=0.15; bgcolor="#ffffff"; pad=0.2;
  graph [fontname="Helvetica,Arial,sans-serif", fontsize=12, fontcolor="#24292f"];
  node [fontname="Helvetica,Arial,sans-serif", fontsize=12, fontcolor="#24292f", shape=box, style="filled,rounded",
        fillcolor="#ffffff", color="#57606a", height=0.3, margin="0.1,0.04"];
  edge [color="#6e7781", arrowsize=0.6];
"""


def layer_of_crates(below: Mapping[str, set[str]]) -> dict[str, int]:
    """The layer of each crate. Each crate of the program must be in one layer, and no crate may use one of a layer above its own."""
    layer_of = {crate: number for number, (_, _, crates) in enumerate(LAYERS) for crate in crates}
    apart = crates_of_the_program() ^ set(layer_of)
    if apart:
        raise Fault(f"office_kit/docs/drawn_crates.py: only in a layer, or only in the program: {', '.join(sorted(apart))}")
    upward = [f"{crate} uses {it}" for crate in layer_of for it in below[crate] if layer_of[it] < layer_of[crate]]
    if upward:
        raise Fault(f"office_kit/docs/drawn_crates.py: a crate uses one of a layer above its own: {', '.join(sorted(upward))}")
    return layer_of


def crates_dot() -> str:
    """The source of the drawing: a box for each layer, edges that keep it above the next one, and arrows. Those inside of a layer don't move a crate to another
    height."""
    below = crates_of(ROOT)
    layer_of = layer_of_crates(below)
    lines = []
    for number, (title, colour, crates) in enumerate(LAYERS):
        lines += [f'  subgraph cluster_{number} {{ label="{title}"; labeljust=l; style="filled,rounded"; color="{colour}"; fillcolor="{colour}";',
                  f"    {{ rank=same; {'; '.join(crates)}; }}", "  }"]
    for (_, _, upper), (_, _, lower) in zip(LAYERS, LAYERS[1:]):
        lines.append(f"  {{ {' '.join(upper)} }} -> {{ {' '.join(lower)} }} [style=invis];")
    for crate, layer in layer_of.items():
        by_way = set[str]().union(*(below[used] for used in below[crate]))
        for used in sorted(below[crate] - by_way):
            lines.append(f"  {crate} -> {used}{' [constraint=false]' if layer == layer_of[used] else ''};")
    return HEAD + "\n".join([*lines, "}"]) + "\n"
