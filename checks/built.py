"""The kinds of draws that the programs draw today: the one place that the checks, the examples that
are run, and bin/lint-draw-file go by. A head of another kind is refused as not built.

    python3 checks/built.py KIND    has status 0 where the kind is built, else 1
"""

import sys

BUILT = ("pairing", "group")

if __name__ == "__main__":
    sys.exit(0 if sys.argv[1:] and set(sys.argv[1:]) <= set(BUILT) else 1)
