"""Drawings as SVG: routes on a map, how soon each node is reached, travel time over the day. Standard library alone."""
