"""python3 -m survey_gate: the command survey-gate."""

import sys

from .cli import main

if __name__ == "__main__":
    sys.exit(main())
