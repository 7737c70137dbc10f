"""The types of the client, by mypy, which is installed where that can be done."""

import shutil
import subprocess

from packages import installed


def tests(top, everything):
    if not shutil.which("mypy") and installed("mypy"):
        return
    ran = subprocess.run(["mypy", "--strict", "--cache-dir=/dev/null", "stratbench"], cwd=f"{top}/clients/python", capture_output=True, text=True)
    yield "mypy --strict", "" if ran.returncode == 0 else ran.stdout
