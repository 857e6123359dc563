"""Pictures of a dataset as SVG and as DOT, written here."""

import re
from xml.sax.saxutils import escape

COLOURS = ["#4477aa", "#ee6677", "#228833", "#ccbb44", "#66ccee", "#aa3377", "#ee8866", "#44bb99", "#bbaa55", "#7777cc"]
PLAIN = "#4477aa"
LINE, LANE, EDGE = 26, 22, 24
UNPRINTED = re.compile("[^\t -\ud7ff\ue000-\ufffd\U00010000-\U0010ffff]")


def shown(text, most=70):
    """Gives a text as XML can have it, on one line."""
    text = UNPRINTED.sub("\ufffd", text.replace("\t", " "))
    return escape(text if len(text) <= most else text[: most - 1] + "…")


class Picture:
    """A picture, as `svg` and as `dot`. A notebook shows it, and `save` writes it."""

    def __init__(self, svg, dot):
        self.svg, self.dot = svg, dot

    def _repr_svg_(self):
        return self.svg

    def __str__(self):
        return self.svg

    def save(self, path):
        with open(path, "w", encoding="utf-8") as out:
            out.write(self.dot if str(path).endswith((".dot", ".gv")) else self.svg)


def drawing(width, height, parts, title):
    head = f'<svg xmlns="http://www.w3.org/2000/svg" width="{width}" height="{height}" viewBox="0 0 {width} {height}" role="img">'
    style = "<style>text{font-family:sans-serif;font-size:13px;fill:#222}.faint{fill:#666}.head{font-weight:bold;font-size:15px}</style>"
    background = f'<rect width="{width}" height="{height}" fill="#fff"/>'
    return "\n".join([head, f"<title>{shown(title)}</title>", style, background, *parts, "</svg>", ""])


def text(x, y, said, kind=""):
    return f'<text x="{x}" y="{y}"' + (f' class="{kind}"' if kind else "") + f">{said}</text>"


# ---- versions


def is_free(lane, first, last, lanes):
    """Whether no version between these two stands in a lane."""
    return all(lanes.get(vid) != lane for vid in range(first + 1, last))


def lanes_of(log):
    """Gives each version a lane, the first one in which nothing stands between it and its first parent."""
    lanes = {}
    for version in log:
        first = version.parents[0] if version.parents else version.vid
        lane = lanes.get(first, 0)
        if not is_free(lane, first, version.vid, lanes):
            lane = next(it for it in range(len(log) + 1) if is_free(it, first - 1 if it != lane else first, version.vid, lanes))
        lanes[version.vid] = lane
    return lanes


def edge_of(parent, child, lanes, places):
    """Gives the way of an edge: down the lane of its lower end, or else of its upper one, or else straight across."""
    (px, py), (x, y) = places[parent], places[child]
    half = LINE / 2
    if is_free(lanes[child], parent, child, lanes):
        return f"M{px},{py} C{px},{py + half} {x},{py + half} {x},{py + LINE} V{y}"
    if is_free(lanes[parent], parent, child, lanes):
        return f"M{px},{py} V{y - LINE} C{px},{y - half} {x},{y - half} {x},{y}"
    return f"M{px},{py} C{px},{py + LINE} {x},{y - LINE} {x},{y}"


def colours_of(layout):
    if len(layout.partitions) < 2:
        return {}
    return {vid: (part.id, COLOURS[at % len(COLOURS)]) for at, part in enumerate(layout.partitions) for vid in part.versions}


def history(cvd, log, layout):
    lanes, colours = lanes_of(log), colours_of(layout)
    places = {it.vid: (EDGE + LANE * lanes[it.vid], 58 + LINE * at) for at, it in enumerate(log)}
    words = EDGE + LANE * (max(lanes.values(), default=0) + 1)
    edges, nodes, widest = [], [], 0
    for version in log:
        x, y = places[version.vid]
        for parent in version.parents:
            edges.append(f'<path d="{edge_of(parent, version.vid, lanes, places)}" fill="none" stroke="#999" stroke-width="1.6"/>')
        part, colour = colours.get(version.vid, (None, PLAIN))
        told = f"version {version.vid}, parents {', '.join(map(str, version.parents)) or 'none'}" + (f", partition {part}" if part else "")
        nodes.append(f'<circle cx="{x}" cy="{y}" r="6.5" fill="{colour}" stroke="#fff" stroke-width="1.5"><title>{told}</title></circle>')
        counts = f"{version.rows:,} rows, {version.new:,} new"
        message = shown(version.message)
        tail = f' <tspan class="faint">{counts}' + (f", partition {part}" if part else "") + "</tspan> "
        nodes.append(text(words, y + 4.5, f"{version.vid}{tail}{message}"))
        widest = max(widest, len(counts) + len(version.message[:70]) + 22)
    title = text(EDGE - 8, 28, shown(f"{cvd}: {len(log)} versions"), "head")
    width = int(words + 7.4 * widest) + EDGE
    svg = drawing(width, 58 + LINE * len(log) + 6, [title, *edges, *nodes], f"versions of {cvd}")
    return Picture(svg, history_dot(cvd, log, colours))


def label(*lines):
    return '"' + "\\n".join(it.replace("\\", "\\\\").replace('"', '\\"') for it in lines) + '"'


def history_dot(cvd, log, colours):
    lines = [f"digraph {label(cvd)} {{", "  rankdir=BT; node [shape=box, style=filled, fillcolor=white];"]
    for version in log:
        said = label(str(version.vid), f"{version.rows} rows, {version.new} new", UNPRINTED.sub("?", version.message))
        colour = colours.get(version.vid, (None, None))[1]
        lines.append(f"  {version.vid} [label={said}" + (f', color="{colour}", penwidth=3' if colour else "") + "];")
    lines += [f"  {version.vid} -> {parent};" for version in log for parent in version.parents]
    return "\n".join([*lines, "}", ""])


# ---- partitions


def bar(x, y, width, colour, told):
    return f'<rect x="{x}" y="{y}" width="{max(width, 1):.1f}" height="11" fill="{colour}"><title>{told}</title></rect>'


def storage(cvd, layout, log):
    read = [part.records * len(part.versions) for part in layout.partitions]
    most = max([1, *read])
    x, wide, parts = 190, 420, []
    for at, part in enumerate(layout.partitions):
        y = 66 + 40 * at
        parts.append(text(EDGE - 8, y + 15, f"partition {part.id}, {len(part.versions)} versions"))
        for down, count, colour, told in [(0, part.records, "#4477aa", "stored"), (13, read[at], "#ccbb44", "read")]:
            parts.append(bar(x, y + down, wide * count / most, colour, f"partition {part.id}: {count:,} records {told}"))
            parts.append(text(x + wide * count / most + 6, y + down + 10, f"{count:,}", "faint"))
    members = sum(it.rows for it in log)
    said = f"{layout.stored:,} records stored; {layout.cost:,} read by a checkout of each version, which have {members:,} rows together"
    if layout.plan:
        said += f"; {layout.plan.steps:,} steps to come"
    head = [
        text(EDGE - 8, 28, shown(f"{cvd}: {len(layout.partitions)} partitions"), "head"),
        text(EDGE - 8, 48, said, "faint"),
        bar(x + wide - 60, 18, 11, "#4477aa", "stored") + text(x + wide - 44, 28, "stored", "faint"),
        bar(x + wide + 16, 18, 11, "#ccbb44", "read") + text(x + wide + 32, 28, "read", "faint"),
    ]
    height = 66 + 40 * len(layout.partitions) + 8
    svg = drawing(max(x + wide + 120, 40 + 7 * len(said)), height, head + parts, f"storage of {cvd}")
    return Picture(svg, storage_dot(cvd, layout))


def storage_dot(cvd, layout):
    lines = [f"digraph {label(cvd)} {{", "  rankdir=LR; node [shape=box];"]
    for part in layout.partitions:
        lines.append(f"  p{part.id} [label={label(f'partition {part.id}', f'{part.records} records')}, style=filled, fillcolor=lightblue];")
        lines += [f"  v{vid} [label={label(str(vid))}]; v{vid} -> p{part.id};" for vid in part.versions]
    return "\n".join([*lines, "}", ""])


# ---- the thresholds that a budget chooses from


def distinct(lines):
    """Gives the thresholds with the same division as lists, each with the first one's numbers."""
    found = []
    for line in lines:
        if found and found[-1][0][1:] == line[1:]:
            found[-1].append(line)
        else:
            found.append([line])
    return found


def named(group):
    return f"{group[0].p}/100" + (f" to {group[-1].p}/100" if len(group) > 1 else "")


def choices(cvd, split):
    chosen = int(split.chosen.split("/")[0])
    groups = distinct(split.lines)
    wide, high, x, y = 480, 260, 100, 66
    stored, cost = max(1, *(it.stored for it in split.lines)), max(1, *(it.cost for it in split.lines))
    places = [(x + wide * group[0].stored / stored, y + high - high * group[0].cost / cost) for group in groups]
    parts = [
        f'<path d="M {x} {y} V {y + high} H {x + wide}" fill="none" stroke="#666"/>',
        f'<path d="M {" L ".join(f"{at:.1f} {down:.1f}" for at, down in places)}" fill="none" stroke="#ccc"/>',
        text(x, y + high + 34, f"records stored, up to {stored:,}", "faint"),
        text(EDGE - 8, y - 8, f"records read by a checkout of each version, up to {cost:,}", "faint"),
    ]
    for (at, down), group in zip(places, groups):
        is_chosen = any(it.p == chosen for it in group)
        told = f"{named(group)}: {group[0].partitions:,} partitions, {group[0].stored:,} stored, {group[0].cost:,} read"
        colour = "#ee6677" if is_chosen else PLAIN
        parts.append(f'<circle cx="{at:.1f}" cy="{down:.1f}" r="{6 if is_chosen else 4}" fill="{colour}"><title>{shown(told)}</title></circle>')
        if is_chosen:
            parts.append(text(f"{at + 10:.1f}", f"{down - 8:.1f}", named(group)))
    head = [text(EDGE - 8, 28, shown(f"{cvd}: the hundred thresholds, and {split.chosen}, which was chosen"), "head")]
    svg = drawing(x + wide + 120, y + high + 52, head + parts, f"thresholds of {cvd}")
    return Picture(svg, choices_dot(cvd, groups, chosen))


def choices_dot(cvd, groups, chosen):
    lines = [f"digraph {label(cvd)} {{", "  rankdir=LR; node [shape=box];"]
    for at, group in enumerate(groups):
        colour = ", style=filled, fillcolor=lightblue" if any(it.p == chosen for it in group) else ""
        lines.append(f"  t{at} [label={label(named(group), f'{group[0].stored} stored', f'{group[0].cost} read')}{colour}];")
    lines += [f"  t{at} -> t{at + 1};" for at in range(len(groups) - 1)]
    return "\n".join([*lines, "}", ""])
