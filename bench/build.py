"""What bench/run measures, built: place, the static library, the baseline and the programs of bench/."""
import os
import shutil
import subprocess
import sys

from measure import ROOT, WORK

LIBRARY = "target/staticlib/libjizdovel.a"


def run(*words):
    """A step of the build. Its output is shown only where it fails."""
    print("building:", *words[:3], file=sys.stderr)
    done = subprocess.run(words, cwd=ROOT, env={**os.environ, "CARGO_TARGET_DIR": str(WORK / "baseline")},
                          stdout=subprocess.PIPE, stderr=subprocess.STDOUT, text=True)
    if done.returncode:
        sys.exit(f"{done.stdout}bench: {' '.join(map(str, words))} ended with {done.returncode}")


def has_lemon():
    """Whether the compiler finds LEMON's header (the package liblemon-dev)."""
    if not shutil.which("c++"):
        return False
    words = ["c++", "-E", "-x", "c++", "-include", "lemon/network_simplex.h", os.devnull]
    return subprocess.run(words, stdout=subprocess.DEVNULL, stderr=subprocess.DEVNULL).returncode == 0


def library():
    run("embed/library")


def program(name, out=None, archive=LIBRARY):
    """A program of bench/ that calls the static library, or another one."""
    run("cc", "-O2", "-Iembed", "-o", WORK / (out or name), f"bench/{name}.c", archive)


def build(baseline):
    """Builds everything. Whether LEMON is there is handed back."""
    run(".ci/quiet", "program", "place")
    library()
    run("cargo", "build", "--release", "--offline", "--locked", "--manifest-path", baseline / "Cargo.toml")
    run("cc", "-O2", "-o", WORK / "timed", "bench/timed.c")
    program("fits")
    program("searches")
    (WORK / "lemon").unlink(missing_ok=True)
    if has_lemon():
        run("c++", "-std=c++17", "-O3", "-o", WORK / "lemon", "bench/lemon.cc", "-llemon")
    return (WORK / "lemon").exists()
