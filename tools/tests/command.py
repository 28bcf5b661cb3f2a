"""Runs tools/meadcinder as a user does."""

import pathlib
import subprocess
import sys

TOOLS = pathlib.Path(__file__).resolve().parent.parent
REPOSITORY = TOOLS.parent


def meadcinder(*words, given=b""):
    """Standard output, standard error and exit status."""
    command = [sys.executable, TOOLS / "meadcinder", *words]
    ended = subprocess.run(command, input=given, capture_output=True, check=False)
    return ended.stdout, ended.stderr.decode("utf-8"), ended.returncode
