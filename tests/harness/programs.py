"""The built programs that the suites run."""
import functools
import importlib.machinery
import importlib.util
import os
import pathlib
import types

from harness.case import TOP, BadCase


@functools.cache
def quick() -> types.ModuleType:
    """bin/quick, which compiles a program without a proof, and keeps it."""
    loader = importlib.machinery.SourceFileLoader("quick", str(TOP / "bin/quick"))
    module = importlib.util.module_from_spec(importlib.util.spec_from_loader("quick", loader))
    loader.exec_module(module)
    return module


def built(crate: str, variable: str) -> pathlib.Path:
    """The program of a crate: the file that the environment names, the one without a proof for
    `tests/run --quick`, or the proved one."""
    named = os.environ.get(variable)
    if named:
        return pathlib.Path(named).resolve()
    if os.environ.get("TESTS_QUICK"):
        return quick().found(getattr(quick(), crate.upper()))[0]
    path = TOP / f"crates/{crate}/out/{crate}"
    if not path.is_file():
        raise BadCase(
            f"{crate} isn't built: `rt ci` builds it, and `tests/run --quick` runs it "
            "without a proof"
        )
    return path


def are_proved() -> bool:
    """Whether the programs that run are the proved ones of this repository."""
    return [probe(), panel3270()] == [quick().PROBE.proved, quick().PANEL3270.proved]


@functools.cache
def probe() -> pathlib.Path:
    return built("probe", "PROBE")


@functools.cache
def panel3270() -> pathlib.Path:
    return built("panel3270", "PANEL3270")
