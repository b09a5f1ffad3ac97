"""What the scripts beside this one take of the kit: its module of crates, with stamps that are remembered.

`rt` computes the stamp of each library below anew for each crate above it, which takes minutes in the high crates. A run
of these scripts takes the texts as they are when it begins. Python 3.8.
"""
import hashlib
import importlib.machinery
import importlib.util
import os
import shutil
import sys


def load(name, folder=None):
    """A script of the kit as a module."""
    folder = folder or os.path.dirname(os.path.realpath(shutil.which("rt") or sys.exit("there is no rt on the path")))
    loader = importlib.machinery.SourceFileLoader(name.replace("-", "_"), f"{folder}/{name}")
    module = importlib.util.module_from_spec(importlib.util.spec_from_loader(loader.name, loader))
    sys.modules[loader.name] = module
    loader.exec_module(module)
    return module


def own_stamp(crate, kit):
    """A sum of a crate's texts and of the stamps of its libraries, as the kit makes it."""
    made = hashlib.sha256(repr((crate.said, crate.has_c)).encode())
    with open(f"{kit.KIT}/WHAT", "rb") as file:
        made.update(file.read())
    for path in kit.files_of(crate.folder):
        with open(path, "rb") as file:
            made.update(repr((path.replace(crate.folder, ""), file.read())).encode())
    made.update(repr([library.stamp() for library in crate.deps]).encode())
    return made.hexdigest()


def remember(kit):
    """Has each crate's stamp and the list of those below it made once."""
    stamps, lists, list_below = {}, {}, kit.Crate.below

    def stamp(crate):
        if crate.folder not in stamps:
            stamps[crate.folder] = own_stamp(crate, kit)
        return stamps[crate.folder]

    def below(crate):
        if crate.folder not in lists:
            lists[crate.folder] = list_below(crate)
        return lists[crate.folder]

    kit.Crate.stamp, kit.Crate.below = stamp, below


def crates():
    """The module of the kit, and the crates of this folder by their names, lowest first."""
    sys.dont_write_bytecode = True
    kit = load("rt").rtlib
    remember(kit)
    # Its first call catches a signal, which only the main thread may.
    kit.guarded()
    found = sorted(kit.crates_below(os.getcwd()), key=lambda crate: len(crate.below()))
    return kit, {crate.name: crate for crate in found}
