"""Short texts that the tests of tools/feed begin with, and the command itself."""

import os
import subprocess

from here import PYTHON, TOOLS

TRAIN = """cars 10
axles 40
weight 1000
length 600
rated 200000
application 30000
recharge 50
set 9000
offset 500
"""                                 # nine lines
WHOLE = TRAIN + "profile 0\nprofile 40000\n"                        # eleven lines
SAMPLE = "sample 0 head 5000 speed 0.0 front 90.0 rear 90.0\n"


def run(words, data=b""):
    """Status, output and errors of the command."""
    done = subprocess.run([*PYTHON, os.path.join(TOOLS, "feed")] + words, input=data, stdout=subprocess.PIPE,
                          stderr=subprocess.PIPE, check=False)
    return done.returncode, done.stdout, done.stderr.decode()
