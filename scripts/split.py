"""The split of a tree of versions at a threshold, by the rule of docs/formats.md ("The parts at a threshold"), one edge after another. A
version is its rows, its tree parent, 0 for none, and how many it shares with that."""


def sums_of(nodes, part):
    """Gives R and E of a part, and how many versions and fresh records are under each of its versions."""
    under = {vid: [1, nodes[vid - 1][0] - nodes[vid - 1][2]] for vid in part}
    for vid in reversed(part[1:]):
        above = under[nodes[vid - 1][1]]
        above[0] += under[vid][0]
        above[1] += under[vid][1]
    return under[part[0]][1] + nodes[part[0] - 1][2], sum(nodes[vid - 1][0] for vid in part), under


def cut_of(nodes, part, p, q):
    """Gives the edge at which a part is cut, by its child, or None where the part stops."""
    records, members, under = sums_of(nodes, part)
    if p * records * len(part) <= q * members:
        return None
    found = []
    for vid in part[1:]:
        weight = nodes[vid - 1][2]
        if q * weight <= p * records:
            versions, fresh_records = under[vid]
            found.append((abs(len(part) - 2 * versions), abs(records - 2 * fresh_records - weight), vid))
    return min(found)[2]


def split_of(nodes, p, q):
    """Gives the parts of a tree, by their least versions, and how many cuts lead to one at most."""
    waiting, parts, depth = [(list(range(1, len(nodes) + 1)), 0)], [], 0
    while waiting:
        part, level = waiting.pop()
        child = cut_of(nodes, part, p, q)
        if child is None:
            parts.append(part)
            depth = max(depth, level)
            continue
        below = {child}
        for vid in part:
            if vid > child and nodes[vid - 1][1] in below:
                below.add(vid)
        waiting.append(([vid for vid in part if vid in below], level + 1))
        waiting.append(([vid for vid in part if vid not in below], level + 1))
    return sorted(parts), depth
