"""Lays out a graph in layers for tools/diagrams.py: each node is above all that it uses.

A line that passes a layer has a place of its own there, so that lines go round boxes. Nodes of a layer are in the order
of what is next to them, which leaves few crossings.
"""
from typing import NamedTuple

SWEEPS = 12


class Pass(NamedTuple):
    """The place of a line in a layer that it passes."""

    user: str
    used: str
    layer: int


def below(uses, node):
    """All that a node uses, by itself or through others."""
    return set(uses[node]).union(*(below(uses, it) for it in uses[node]))


def direct(uses):
    """What each node uses, without what something else that it uses does too."""
    return {
        node: [it for it in used if not any(it in below(uses, other) for other in used)] for node, used in uses.items()
    }


def layers_of(uses):
    """The layer of each node, from 0: as high as what uses it allows."""
    users = {node: [user for user, used in uses.items() if node in used] for node in uses}
    depths = {}

    def depth(node):
        if node not in depths:
            depths[node] = 1 + max((depth(user) for user in users[node]), default=-1)
        return depths[node]

    deepest = max(map(depth, uses))
    return {node: deepest - depth(node) for node in uses}


def routes_of(uses, layers):
    """Each line from a node to one that it uses: the nodes and the places on its way, from above."""
    for user, used in uses.items():
        for it in used:
            passed = [Pass(user, it, layer) for layer in range(layers[user] - 1, layers[it], -1)]
            yield [user, *passed, it]


def rows_of(layers, routes):
    rows = [[] for _ in range(1 + max(layers.values()))]
    for node, layer in layers.items():
        rows[layer].append(node)
    for route in routes:
        for place in route[1:-1]:
            rows[place.layer].append(place)
    return rows


def neighbours_of(routes):
    """What is next to each node or pass, in the row above it and in the row below it."""
    found = {}
    for route in routes:
        for upper, lower in zip(route, route[1:]):
            found.setdefault(upper, ([], []))[1].append(lower)
            found.setdefault(lower, ([], []))[0].append(upper)
    return found


def crossings(left, right, neighbours, at):
    """How many lines of two nodes of a row cross, with one at the left of the other."""
    return sum(
        at[it] > at[other]
        for side in (0, 1)
        for it in neighbours[left][side]
        for other in neighbours[right][side]
    )


def swap_pairs(row, neighbours, at):
    """Swaps nodes beside one another for as long as fewer lines cross by it."""
    is_better = True
    while is_better:
        is_better = False
        for place in range(len(row) - 1):
            left, right = row[place : place + 2]
            if crossings(right, left, neighbours, at) < crossings(left, right, neighbours, at):
                row[place : place + 2] = right, left
                is_better = True


def sort_rows(rows, neighbours):
    """Sorts each row by the mean place of what is next to its nodes, and then swaps pairs."""
    at = {node: (place + 1) / (len(row) + 1) for row in rows for place, node in enumerate(row)}
    for sweep in range(SWEEPS):
        for row in rows if sweep % 2 else reversed(rows):
            if sweep < SWEEPS // 2:
                row.sort(key=lambda it: mean(at, neighbours[it]))
            swap_pairs(row, neighbours, at)
            at.update({node: (place + 1) / (len(row) + 1) for place, node in enumerate(row)})


def mean(at, sides):
    places = [at[it] for side in sides for it in side]
    return sum(places) / len(places)


def packed(row, wanted, room, wide):
    """Places for a row, at the wanted ones or further right: each node has its room, and all are within the width."""
    places, edge = {}, 0.0
    for node in row:
        edge = max(wanted[node] - room(node) / 2, edge) + room(node)
        places[node] = edge - room(node) / 2
    edge = float(wide)
    for node in reversed(row):
        places[node] = min(places[node], edge - room(node) / 2)
        edge = places[node] - room(node) / 2
    return places


def spread(row, wanted, room, wide):
    """Places for a row near the wanted ones: between those of packing from the left and from the right."""
    left = packed(row, wanted, room, wide)
    right = packed(row[::-1], {it: wide - wanted[it] for it in row}, room, wide)
    return {it: (left[it] + wide - right[it]) / 2 for it in row}


def layout(uses, room, wide):
    """The rows from below, the place of each node and each pass along its row, and the routes."""
    lines = direct(uses)
    layers = layers_of(lines)
    routes = list(routes_of(lines, layers))
    rows, neighbours = rows_of(layers, routes), neighbours_of(routes)
    sort_rows(rows, neighbours)
    at = {node: wide * (place + 1) / (len(row) + 1) for row in rows for place, node in enumerate(row)}
    for _ in range(SWEEPS):
        for row in rows:
            at.update(spread(row, {it: mean(at, neighbours[it]) for it in row}, room, wide))
    return rows, at, routes
