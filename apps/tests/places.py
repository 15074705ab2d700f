"""Where things are, for the tests; the programs, the module and the reference can be imported once
this is."""
import os
import sys

TESTS = os.path.dirname(os.path.abspath(__file__))
APPS = os.path.dirname(TESTS)
ROOT = os.path.dirname(APPS)
EXAMPLES = os.path.join(ROOT, "examples")
SHEET = os.path.join(ROOT, "crates", "bench_sheet", "out", "bench_sheet")
MODULE = os.path.join(ROOT, "bindings", "python")

# What a program is run with.
ENVIRONMENT = {**os.environ, "PYTHONPATH": MODULE}

sys.path[:0] = [APPS, MODULE, os.path.join(ROOT, "tools")]
