"""Where the repository stands, and the programs that were proved and built in it."""
import os

TOP = os.path.dirname(os.path.dirname(os.path.abspath(__file__)))
SOLERO = os.path.join(TOP, "crates", "solero", "out", "solero")
SOLERO_EXPLAIN = os.path.join(TOP, "crates", "solero_explain", "out", "solero_explain")
