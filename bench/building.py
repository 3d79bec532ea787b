"""Builds the programs that are measured: am_tool, those of bench/programs over the repository's crates, and plain ones of Rust."""
import os
import shutil
import subprocess

import build
from build import PROGRAM, TOP


def am_tool():
    """Where am_tool is, which is built where it isn't."""
    if not os.path.exists(PROGRAM):
        subprocess.run([os.path.join(TOP, "am_tool"), "build"], check=True, stdout=subprocess.DEVNULL)
    return PROGRAM


def ours(name, folder):
    """Proves and builds a program, and all crates that it wants, and says where it is."""
    source = os.path.join(TOP, "bench", "programs", name)
    with open(os.path.join(source, "needs"), encoding="utf-8") as f:
        needs = f.read().split()
    crates = build.dependencies()
    build.copy_crates(build.with_below([it for it in needs if it in crates], crates), folder)
    with open(os.path.join(folder, "crates.txt"), "a", encoding="utf-8") as f:
        f.write("%s: %s\n" % (name, " ".join(needs)))
    place = os.path.join(folder, "crates", name)
    os.makedirs(os.path.join(place, "src"))
    shutil.copy(os.path.join(source, "main.rt.in"), os.path.join(place, "src", "main.rt"))
    crates = build.dependencies(folder)
    tree = {it: crates[it] for it in build.with_below([name], crates)}
    failed, _ = build.prove_rest(build.Kept(tree, folder))
    if failed:
        raise SystemExit(failed[-3000:])
    return os.path.join(folder, name)


def plain(name, folder):
    """Builds a plain program of Rust, and says where it is."""
    built = os.path.join(folder, name)
    subprocess.run(["rustc", "-C", "opt-level=3", "-o", built, os.path.join(TOP, "bench", name + ".rs")], check=True)
    return built
