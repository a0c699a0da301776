#!/usr/bin/env python3
"""Plots time and memory against the size of the input, as SVG: plot.py PICTURE < FIGURES

bench.py runs it with matplotlib (Debian's python3-matplotlib). FIGURES, in JSON, is a list of file,
program, size, seconds and memory. Both axes are logarithmic, so linear growth is a straight line.
"""
import json
import sys

import matplotlib
from matplotlib.figure import Figure

ACROSS, NONE = 5, float("nan")
KINDS = {3: "processor seconds", 4: "greatest memory, bytes"}  # (by their place in a row)


def picture(rows):
    """Returns a figure with a panel of time and one of memory for each file."""
    names, programs = (list(dict.fromkeys(row[at] for row in rows)) for at in (0, 1))
    bands = -(-len(names) // ACROSS)
    figure = Figure(figsize=(13, 5 * bands))
    for at, name in enumerate(names):
        for down, (place, kind) in enumerate(KINDS.items()):
            panel = 1 + at % ACROSS + ACROSS * (2 * (at // ACROSS) + down)
            axes = figure.add_subplot(2 * bands, ACROSS, panel, title=name)
            axes.set(ylabel="" if at % ACROSS else kind, xlabel="bytes" if down else "")
            for number, program in enumerate(programs):
                own = (row for row in rows if row[:2] == [name, program])
                found = sorted((row[2], max(row[place], 1e-3)) for row in own)
                axes.loglog(*zip(*found or [(NONE, NONE)]), ".-", color=f"C{number}", label=program)
            every = [max(row[place], 1e-3) for row in rows]
            axes.set_ylim(min(every) / 2, max(every) * 2)
            axes.minorticks_off()
            axes.grid(color="#dddddd")
    figure.legend(figure.axes[0].lines, programs, loc="upper left", ncol=len(programs))
    figure.tight_layout(rect=(0, 0, 1, 0.97))
    return figure


if __name__ == "__main__":
    matplotlib.rcParams.update({"svg.fonttype": "none", "svg.hashsalt": "plistconv"})
    picture(json.load(sys.stdin)).savefig(sys.argv[1], format="svg", metadata={"Date": None})
