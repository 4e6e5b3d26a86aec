"""The cases by their subject."""
from cases import clients, limits, loops, node_loops, nodes, requests  # noqa: F401  (each adds its cases)
from running import CASES as ALL  # noqa: F401
