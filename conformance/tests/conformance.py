"""What the tests of the suite share: its folder, its cases, and its modules."""

import sys
from pathlib import Path

HERE = Path(__file__).resolve().parent
SUITE = HERE.parent
TOP = SUITE.parent
ADAPTERS = SUITE / "adapters"
sys.path[:0] = [str(SUITE), str(HERE), str(ADAPTERS), str(TOP / "tests" / "recipes")]

import run  # noqa: E402

CASES = list(run.read_cases(sorted((SUITE / "cases").glob("*.jsonl"))))
MODEL = (HERE / "model.py").read_text(encoding="utf-8")


def of_kinds(*kinds):
    return [it for it in CASES if it["kind"] in kinds]


def is_passed(model, case):
    """Whether a model, as the names of its module, answers a case right."""
    try:
        result = model["answer"](case["kind"], case["input"])
    except model["Refused"]:
        result = {"refused": True}
    except Exception:
        # (as an adapter it would have died)
        return False
    return run.judge(case, result, False)[0] is run.Outcome.PASSED


def made(source=MODEL):
    """The names of the model with this source."""
    names = {"__name__": "model"}
    exec(compile(source, "model.py", "exec"), names)
    return names
