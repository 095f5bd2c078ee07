"""What the tests of the tools share: the program under test, which BPRICE names, and where things are."""
import importlib.machinery
import importlib.util
import os
import pathlib
import subprocess

TOP = pathlib.Path(__file__).resolve().parents[2]
PROGRAM = os.path.abspath(os.environ.get("BPRICE", TOP / "crates" / "bprice" / "out" / "bprice"))
os.environ["BPRICE"] = PROGRAM


def load_tool(path):
    """A tool as a module; its name need not end in `.py`."""
    name = path.name.removesuffix(".py").replace("-", "_")
    loader = importlib.machinery.SourceFileLoader(name, str(path))
    module = importlib.util.module_from_spec(importlib.util.spec_from_loader(name, loader))
    loader.exec_module(module)
    return module


def run(*words, **options):
    """What the program prints, and its status."""
    ran = subprocess.run([PROGRAM, *map(str, words)], capture_output=True, check=False, timeout=60, **options)
    return ran.stdout.decode("latin-1"), ran.returncode


def knows(*words):
    """Whether the program takes these words for a command line."""
    return run(*words)[1] != 2
