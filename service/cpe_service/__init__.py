"""A service for a team: which machines are affected by which advisories, since when, and why. docs/SERVICE.md says how
to use it.

It is tested, not proved. All verdicts are those of `cpe` and of the recipes' modules (cpe_recipes), as `scan.py` has
them.
"""
import sys
from pathlib import Path

# In a checkout the recipes are beside the folder of the service; in the Debian package too.
RECIPES = Path(__file__).resolve().parents[2] / "recipes"
if str(RECIPES) not in sys.path:
    sys.path.insert(0, str(RECIPES))
sys.dont_write_bytecode = True
