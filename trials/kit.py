"""The kit's command `rt` as a module, for the scripts beside this one. It is found by the word `rt` of the shell."""
import contextlib
import fcntl
import importlib.machinery
import importlib.util
import os
import shutil
import subprocess
import sys

TOP = os.path.dirname(os.path.dirname(os.path.abspath(__file__)))


def rt_of_kit():
    place = shutil.which("rt")
    if not place:
        sys.exit("there is no word rt: this script needs the Rattle kit")
    loader = importlib.machinery.SourceFileLoader("rt_of_kit", os.path.realpath(place))
    spec = importlib.util.spec_from_loader("rt_of_kit", loader)
    made = importlib.util.module_from_spec(spec)
    sys.modules["rt_of_kit"] = made
    loader.exec_module(made)
    return made


def crates_here(rt):
    """The crates of this checkout by their names, as `rt ci` reads them."""
    os.chdir(TOP)
    rt.Crate.allowed = rt.handles_of(TOP)
    rt.Crate.cuts_libraries = True
    return {crate.name: crate for crate in rt.crates_of(TOP)}


@contextlib.contextmanager
def giving_alone():
    """Waits until no other script gives libraries to this checkout: where two do, the kit takes what is kept for damaged."""
    os.makedirs(f"{TOP}/out", exist_ok=True)
    with open(f"{TOP}/out/giving", "w", encoding="utf-8") as lock:
        fcntl.flock(lock, fcntl.LOCK_EX)
        yield


def libraries_that_lack(rt, crate, crates):
    """Gives the libraries below the crate to this checkout, and names those that are not kept, or stand on such."""
    with giving_alone():
        return lacking_of(rt, crate, crates)


def lacking_of(rt, crate, crates):
    kept, lacking = rt.Kept(list(crates.values())), []
    for library in crate.below():
        if any(one.name in lacking for one in library.below()):
            lacking.append(library.name)
            continue
        key, folder = kept.key(library), f"{library.folder}/out/rlib"
        note = f"{folder}/given"
        if not (os.path.isfile(note) and rt.rtlib.text_of(note) == key and os.path.isdir(f"{folder}/{library.name}.rlib")):
            # a library is never given into a folder that has one
            if not os.path.isdir(kept.place(library, False, key)):
                lacking.append(library.name)
                continue
            shutil.rmtree(folder, ignore_errors=True)
            if not kept.give(library, False, key):
                lacking.append(library.name)
                continue
            with open(note, "w", encoding="utf-8") as file:
                file.write(key)
        kept.is_built(library)
    return lacking


def begun_of(crate):
    """The folder in which checks of the crate leave what they proved, and from which the next one begins."""
    folder = f"{crate.folder}/out/incremental"
    os.makedirs(folder, exist_ok=True)
    return folder


def check(rt, crate, flags):
    jobs = [] if any(flag.startswith("--jobs") for flag in flags) else ["--jobs", "1"]
    words = [rt.rtlib.RATTLE, "check", *crate.words([*jobs, *flags], keeps=False), "--incremental", begun_of(crate)]
    return subprocess.run([*rt.rtlib.guarded(), *words], cwd=crate.folder, stdin=subprocess.DEVNULL).returncode
