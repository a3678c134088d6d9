#!/usr/bin/env python3
"""way_of_a_change.py: draws docs/way_of_a_change.svg, the way of a change from a loader to a reader."""

import pathlib

PAGE = pathlib.Path(__file__).with_suffix(".svg")
STYLE = """
  text { font: 13px system-ui, sans-serif; fill: #1f2328; } .small { font-size: 11px; fill: #57606a; }
  rect { fill: #f6f8fa; stroke: #57606a; } .lock { fill: none; stroke-dasharray: 5 4; } path { stroke: #57606a; fill: none; }
  .head { fill: #57606a; stroke: none; }
  @media (prefers-color-scheme: dark) {
    text { fill: #e6edf3; } .small { fill: #9198a1; } rect { fill: #161b22; stroke: #9198a1; } .lock { fill: none; }
    path { stroke: #9198a1; } .head { fill: #9198a1; }
  }
"""
# Of each box its left, its top, its width, its title and what stands below.
BOXES = [
    (10, 60, 136, "loader", "a chunk, and a desk"),
    (10, 130, 136, "loader", "a list of numbers"),
    (10, 200, 136, "loader", "rows for others"),
    (200, 130, 136, "check", "refused as a whole,"),
    (366, 60, 146, "frame", "the new table shares"),
    (366, 200, 146, "views", "each prepares by the"),
    (542, 130, 136, "publish", "a version: all views"),
    (708, 130, 136, "commit", "moves, no memory;"),
    (542, 290, 136, "reader", "takes the newest one"),
    (708, 290, 136, "reader", "never an older one"),
]
MORE = {(200, 130): "and nothing changed", (366, 60): "all blocks but few", (366, 200): "delta, beside the old", (542, 130): "of one moment", (708, 130): "the desk counts"}
# Of each arrow where it begins and where it ends.
ARROWS = [
    ((146, 87), (200, 147)), ((146, 157), (200, 157)), ((146, 227), (200, 167)), ((336, 147), (366, 97)), ((439, 114), (439, 200)),
    ((512, 227), (542, 167)), ((678, 157), (708, 157)), ((610, 184), (610, 290)), ((630, 184), (760, 290)),
]


def box(left, top, width, title, below):
    more = MORE.get((left, top), "")
    lines = [f'<rect x="{left}" y="{top}" width="{width}" height="54" rx="6"/>', f'<text x="{left + 10}" y="{top + 19}">{title}</text>']
    lines += [f'<text class="small" x="{left + 10}" y="{top + 34 + 13 * at}">{text}</text>' for at, text in enumerate([below, more]) if text]
    return "\n".join(lines)


def arrow(start, end):
    return f'<path d="M{start[0]} {start[1]} L{end[0]} {end[1]}" marker-end="url(#head)"/>'


def main():
    parts = [
        '<svg xmlns="http://www.w3.org/2000/svg" viewBox="0 0 870 360" role="img" aria-label="The way of a change from a loader to a reader">',
        f"<style>{STYLE}</style>",
        '<defs><marker id="head" markerWidth="8" markerHeight="8" refX="7" refY="4" orient="auto"><path class="head" d="M0 0 L8 4 L0 8 Z"/></marker></defs>',
        '<rect class="lock" x="190" y="30" width="670" height="240" rx="10"/>',
        '<text class="small" x="200" y="48">under the lock of the hall: staged, and then made as a whole</text>',
        *[arrow(*ends) for ends in ARROWS],
        *[box(*one) for one in BOXES],
        '<text class="small" x="370" y="320">readers wait for nobody</text>',
        "</svg>",
    ]
    PAGE.write_text("\n".join(parts) + "\n")


if __name__ == "__main__":
    main()
