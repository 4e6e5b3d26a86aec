"""The cases by their subject."""
from cases import canary, large_values, loops, metrics, migrations, nodes, proxies, services, silence, the_program, want, watching  # noqa: F401  (each adds its cases)
from running import CASES as ALL  # noqa: F401
