"""Where this repository stands."""

from pathlib import Path

TOP = str(Path(__file__).resolve().parents[2])
TOOLS = str(Path(TOP, "tools"))
CRATES = str(Path(TOP, "crates"))
