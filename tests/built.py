"""What the tests compile: each program once a run of the tests, however many of them use it."""

import atexit
import ctypes
import functools
import os
import shutil
import subprocess
import tempfile

from here import ROOT

SECOND = os.path.join(ROOT, "second", "second.c")
COMPILE = ["gcc", "-std=c11", "-Wall", "-Wextra", "-Werror"]
# With sanitizers, and what second_holds() says tested.
CHECKED = ["-O1", "-g", "-fsanitize=undefined,address", "-fno-sanitize-recover=all", "-DSECOND_CHECKED"]
# With the location for a target speed that document 01 has without R-2.
FIRST_CROSSING = "-DSECOND_FIRST_CROSSING"
# With the average grade that it has without R-11.
HUNDREDTHS = "-DSECOND_HUNDREDTHS"
# With the weight spread evenly, as it has it without R-1.
EVENLY = "-DSECOND_EVENLY"
# With the typed application time, as it has it without R-3.
TYPED = "-DSECOND_TYPED"


@functools.cache
def place():
    """A folder for what is made, gone when the tests end."""
    made = tempfile.mkdtemp()
    atexit.register(shutil.rmtree, made)
    return made


@functools.cache
def compiled(source, *words):
    """A source's object, for programs that share it."""
    path = os.path.join(place(), os.path.basename(source) + ".o")
    subprocess.run([*COMPILE, "-O2", *words, "-c", "-o", path, source], check=True)
    return path


def build(name, *words):
    path = os.path.join(place(), name)
    subprocess.run([*COMPILE, "-o", path, *words], check=True)
    return path


def library(name, *words):
    """A shared library, loaded."""
    return ctypes.CDLL(build(name, "-O2", "-shared", "-fPIC", *words))


@functools.cache
def second(*words):
    """The second program, or a build of it."""
    return build("second" + "".join(words), "-O2", *words, SECOND)


@functools.cache
def core(*words):
    """The second program's core, or a build of it, its functions to be called one by one."""
    made = library("core%s.so" % "".join(words), *words, "-DSECOND_NO_MAIN", SECOND, os.path.join(ROOT, "tests", "loss.c"))
    for name in ("root", "hundredths_up", "hundredths_down", "service_equalization", "nominal",
                 "cylinder", "emergency_cylinder", "air_cylinder", "brake_force", "step_time", "stop", "location", "walk",
                 "target_offset", "bits"):
        getattr(made, "second_" + name).restype = ctypes.c_int64
    made.loss_of.restype = ctypes.c_int64
    return made


@functools.cache
def checked():
    """The second program with sanitizers, for many feeds in one run."""
    return build("checked", *CHECKED, "-Dmain=second_main", SECOND, os.path.join(ROOT, "tests", "many.c"))


@functools.cache
def beyond(with_checks):
    """One walk of the second program, beyond what its readers let through: in its plain build, or the one with sanitizers."""
    return build("beyond-%d" % with_checks, *(CHECKED if with_checks else ["-O2"]), "-DSECOND_NO_MAIN", SECOND,
                 os.path.join(ROOT, "tests", "beyond.c"))
