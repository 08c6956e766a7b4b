"""Puts the package `jenwyllt` of this checkout on the path: the scripts here import it before they import what stands there."""
import sys
from pathlib import Path

sys.path.insert(0, str(Path(__file__).resolve().parents[1] / 'bindings' / 'python'))
