"""The repository's own tools: what the gate runs, what measures, what makes, and what these share. `tools/run` runs one."""

import os
from pathlib import Path

# The repository; rows of checks have small ones of their own.
TOP = Path(os.environ.get("TOOLS_TOP") or Path(__file__).resolve().parent.parent)
