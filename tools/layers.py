#!/usr/bin/env python3
"""Draws the layers of crates as crates.txt has them: docs/pictures/layers.svg.

    tools/layers.py            draws it anew
    tools/layers.py --check    fails where the picture is not that of crates.txt, or a crate names one that few may name

A band is a layer, the lowest one at the bottom. Within a band a crate stands above, or on the same line to the right of, those of its
layer that it stands on. The title of a box, which browsers show under the pointer, names the crates that it stands on and doesn't reach
by another one. ROOMS says in which layer a crate stands: a new crate is put into one of them. FEW has what each crate above would load
whole, where a public type or function speaks of it, and the crates that may name it.
"""
import pathlib
import sys
from xml.sax.saxutils import escape

TOP = pathlib.Path(__file__).resolve().parent.parent
PICTURE = TOP / "docs/pictures/layers.svg"
WIDTH, LEFT = 1040, 270  # of the picture, and of the layers' names, in pixels
BOX, GAP, LETTER = 24, 8, 7.1  # the height of a box, what is between boxes and lines, and the width of a letter in it
ROOMS = {  # a room's title: its colour, and its crates
    "theory: definitions and laws": ("#fff3c4", "bp_theory search_laws stronger_laws"),
    "texts and models": ("#d9ead3", "lp_token lp_syntax lp_parser bp_model name_table lp_semantics lp_read dec_syntax dec_read dec_components dec_write dec_find dec_propose bp_gen"),
    "blocks and cuts": ("#cfe2f3", "block_program block_build block_form cut_sums round_cut block_class column_assignment disagg"),
    "pricing problems and dual bounds": (
        "#d0e0e3", "pricing_problem enumeration search_price knapsack_table knap_price layer_graph state_graph shortest_path variable_order state_price reduced_costs block_pricers lagr_bound"),
    "heuristics: nothing proved rests on how good they are": (
        "#eeeeee", "hash_index col_pool exact_simplex master_gap master_lp basis_factor dual_simplex restricted_master compact_relaxation primal_heuristics node_memory column_generation diving cut_separation node_heuristics"),
    "branch and bound": ("#f4cccc", "open_nodes branch_tree node_bound node_eval bp_search crew_steps bp_crew tree_merge"),
    "certificates": ("#ead1dc", "cert_format cert_parser cert_write cert_text cert_line_check cert_check tree_load cert_load cert_walk cert_input cert_file cert_stream"),
    "files, words and reports": ("#fce5cd", "bp_shelf bp_real notes cli_orders bp_words report_lines bp_report cert_report frontend"),
    "commands": ("#d9d2e9", "search_start search_outcome cmd_solve cmd_check cmd_decompose cmd_certificates cmd_gen cmd_demo bp_cli bprice"),
}
FEW = {  # a crate, of the kit or of this repository, and those that may name it in crates.txt
    "indexmap": "name_table block_class",
    "name_table": "lp_semantics lp_read dec_syntax dec_read dec_write dec_find test_texts test_pricing",
}
TESTS = "test_texts test_io test_pricing test_simplex test_cli test_scripts".split()  # not drawn


def named():
    """Each crate with those that it names, of the kit too."""
    lines = [line.split(":") for line in (TOP / "crates.txt").read_text().splitlines() if line.strip()]
    return {name: below.split() for name, below in lines}


def crates(names):
    """Each crate with those that it stands on, as far as they are of this repository."""
    return {name: [it for it in below if it in names] for name, below in names.items()}


def strays(names):
    """A line for each crate that names one that only few may name."""
    return [f"{name} names {it}, and only these may: {few}" for it, few in FEW.items() for name, below in names.items() if it in below and name not in few.split()]


def reach(stands_on):
    """Each crate with all that it stands on, directly or by others."""
    reached = {}

    def reach_from(name):
        if name not in reached:
            reached[name] = set(stands_on[name]).union(*(reach_from(it) for it in stands_on[name]))
        return reached[name]

    for name in stands_on:
        reach_from(name)
    return reached


def depths(names, stands_on):
    """For each crate of a layer the length of the longest chain of crates of this layer that ends with it."""
    depth = {}

    def depth_of(name):
        if name not in depth:
            depth[name] = 1 + max((depth_of(it) for it in stands_on[name] if it in names), default=-1)
        return depth[name]

    for name in names:
        depth_of(name)
    return depth


def lines_of(names, stands_on):
    """The crates of a layer in lines from the bottom up, each a list of names with where their boxes begin and how wide they are."""
    depth = depths(names, stands_on)
    lines, at = [[]], LEFT
    for name in sorted(names, key=lambda it: depth[it]):
        width = round(len(name) * LETTER) + 14
        if at + width > WIDTH - 2 * GAP:
            lines.append([])
            at = LEFT
        lines[-1].append((name, at, width))
        at += width + GAP
    return lines


def draw(stands_on):
    room_of = {crate: title for title, (_, names) in ROOMS.items() for crate in names.split()}
    lost = [it for it in stands_on if it not in room_of and it not in TESTS]
    if lost:
        sys.exit(f"tools/layers.py: no room has {', '.join(lost)}: put each into one of ROOMS, or into TESTS")
    reached = reach(stands_on)
    parts, top = [], GAP
    for number, (title, (colour, names)) in reversed(list(enumerate(ROOMS.items(), 1))):
        lines = lines_of([it for it in names.split() if it in stands_on], stands_on)
        words = title.split(": ")
        high = max(len(lines), len(words)) * (BOX + GAP) + GAP
        parts.append(f'<rect x="{GAP}" y="{top}" width="{WIDTH - 2 * GAP}" height="{high}" rx="6" fill="#ffffff" stroke="#999999"/>')
        parts += [f'<text x="{2 * GAP}" y="{top + 24 + 18 * at}" font-size="{13 if at == 0 else 11}">{f"{number}  " if at == 0 else ""}{escape(word)}</text>'
                  for at, word in enumerate(words)]
        for up, line in enumerate(lines):
            y = top + high - (up + 1) * (BOX + GAP)
            for name, x, width in line:
                below = [it for it in stands_on[name] if not any(it in reached[other] for other in stands_on[name])]
                parts.append(f'<g><title>{name}{": " + " ".join(below) if below else ""}</title>'
                             f'<rect x="{x}" y="{y}" width="{width}" height="{BOX}" rx="4" fill="{colour}" stroke="#666666"/>'
                             f'<text x="{x + width / 2:.1f}" y="{y + 16}" font-size="12" text-anchor="middle">{name}</text></g>')
        top += high + GAP
    head = f'<svg xmlns="http://www.w3.org/2000/svg" width="{WIDTH}" height="{top}" viewBox="0 0 {WIDTH} {top}" font-family="Helvetica, Arial, sans-serif" fill="#222222">'
    return "\n".join([head, f'<rect width="{WIDTH}" height="{top}" fill="#ffffff"/>', *parts, "</svg>", ""])


def main(words):
    names = named()
    picture = draw(crates(names))
    if words == ["--check"]:
        if strays(names):
            sys.exit("\n".join(f"tools/layers.py: {it}" for it in strays(names)))
        if not PICTURE.exists() or picture != PICTURE.read_text():
            sys.exit("tools/layers.py: docs/pictures/layers.svg is not that of crates.txt: run tools/layers.py")
        return
    if words:
        sys.exit(__doc__)
    PICTURE.write_text(picture)


if __name__ == "__main__":
    main(sys.argv[1:])
