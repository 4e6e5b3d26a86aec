"""The cases by their kind."""
from cases import counters, far, growth, legs, looks, readers, saying, silence, truth  # noqa: F401  (each adds its cases)
from running import CASES as ALL  # noqa: F401
