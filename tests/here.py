"""What every test starts from: where things are, tools/ on the path, and a tool that has no .py in its name as a module."""

import importlib.machinery
import importlib.util
import os
import sys

ROOT = os.path.dirname(os.path.dirname(os.path.abspath(__file__)))
TOOLS = os.path.join(ROOT, "tools")
EXAMPLES = os.path.join(ROOT, "examples")
# For a tool that is run as a command: it uses what comes with Python alone, and starts sooner so.
PYTHON = [sys.executable, "-S"]

sys.dont_write_bytecode = True
sys.path.insert(0, TOOLS)
import feeds  # noqa: E402, F401


def load(name):
    """The tool of that name."""
    loader = importlib.machinery.SourceFileLoader(name, os.path.join(TOOLS, name))
    module = importlib.util.module_from_spec(importlib.util.spec_from_loader(name, loader))
    loader.exec_module(module)
    return module


def example(name):
    """The text of an example."""
    with open(os.path.join(EXAMPLES, name + ".txt"), encoding="utf-8") as file:
        return file.read()


def examples(folder=""):
    """The names of all of them, or of those in a folder of theirs."""
    return sorted(name[:-4] for name in os.listdir(os.path.join(EXAMPLES, folder)) if name.endswith(".txt"))
