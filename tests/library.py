"""The proved library for tests in Python that are run by hand."""
import ctypes
import os
import subprocess

ROOT = os.path.dirname(os.path.dirname(os.path.abspath(__file__)))


def library(folder):
    """The static library as a shared one in that folder, loaded."""
    made = os.path.join(folder, "tuffaleen.so")
    archive = subprocess.run([os.path.join(ROOT, "tests/native-library")], capture_output=True, text=True, check=True).stdout.strip()
    subprocess.run(["gcc", "-shared", "-o", made, "-Wl,--whole-archive", os.path.join(archive, "libtuffaleen_c.a"), "-Wl,--no-whole-archive"], check=True)
    return ctypes.CDLL(made)
