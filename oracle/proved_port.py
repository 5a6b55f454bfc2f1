"""The port's programs and libraries, proved and built by rt, each in its crate's folder."""
import pathlib
import re
import shutil
import subprocess
import sys

TOP = pathlib.Path(__file__).resolve().parent.parent


def stop(said, top):
    sys.stderr.write(said)
    sys.exit(f"{pathlib.Path(sys.argv[0]).name}: the port{'' if top == TOP else f' in {top}'} is not proved")


def program(name, top=TOP, **words):
    """The path of a program. `rt run` says that it runs the program once it is built; how the run, on an empty input, ends says nothing."""
    folder = top / "crates" / name
    nothing = subprocess.DEVNULL
    run = subprocess.run(["rt", "run"], cwd=folder, stdin=nothing, stdout=nothing, stderr=subprocess.PIPE, text=True, errors="replace", **words)
    if f"rt: running out/{name};" not in run.stderr:
        stop(run.stderr, top)
    return folder / "out" / name


def static_library(name, room):
    """The folder of a library's archive: what `rt lib` makes of the static library NAME_c, under the name by which NAME is linked."""
    folder = TOP / "crates" / f"{name}_c"
    run = subprocess.run(["rt", "lib"], cwd=folder, stdout=subprocess.PIPE, stderr=subprocess.STDOUT, text=True, errors="replace")
    if run.returncode != 0:
        stop(run.stdout, TOP)
    room.mkdir(parents=True, exist_ok=True)
    shutil.copy(folder / "out" / f"lib{name}_c.a", room / f"lib{name}.a")
    return room


def copy(room):
    """The repository's crates in a folder outside it, without what rt made: it begins there with what it kept here."""
    shutil.rmtree(room, ignore_errors=True)
    shutil.copytree(TOP / "crates", room / "crates", ignore=lambda folder, _: ["out"] if pathlib.Path(folder).parent == TOP / "crates" else [])
    shutil.copy(TOP / "crates.txt", room)
