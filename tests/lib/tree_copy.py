"""Copies the crates, to build them with a change. A test adds a crate more. Its sources are outside crates/ and end in
.in, so that the gate does not build them. The copy then includes libraries that are already built."""

import pathlib
import shutil
import subprocess

ROOT = pathlib.Path(__file__).resolve().parent.parent.parent


def copy_files(folder, *paths):
    """Copies the files of the repository below these paths into this folder."""
    names = subprocess.run(
        ["git", "ls-files", "-z", "--", *paths], cwd=ROOT, check=True, capture_output=True, text=True,
    ).stdout.split("\0")
    for name in filter(None, names):
        target = folder / name
        target.parent.mkdir(parents=True, exist_ok=True)
        shutil.copy2(ROOT / name, target)


def build_program(folder, file, text, other):
    """Builds the program in this folder without its proofs, with another text in place of one that a file of it has.
    Returns its path."""
    copy_files(folder, "build", "split_module", "crates", "crates.txt", "HANDLES")
    before = (folder / file).read_text()
    if text not in before:
        raise ValueError(f"{file} does not have {text}")
    (folder / file).write_text(before.replace(text, other))
    built = subprocess.run([folder / "build"], stdin=subprocess.DEVNULL, stdout=subprocess.PIPE, check=True, text=True)
    return pathlib.Path(built.stdout.rstrip("\n"))


def add_crate(folder, crate, sources, libraries):
    """Adds a crate over these libraries to the copy in this folder. `sources` is the folder of its sources below the
    root. Returns the crate's folder in the copy."""
    for source in (ROOT / sources).rglob("*.in"):
        target = folder / "crates" / crate / source.relative_to(ROOT / sources).with_suffix("")
        target.parent.mkdir(parents=True, exist_ok=True)
        shutil.copy2(source, target)
    with open(folder / "crates.txt", "a") as crates:
        crates.write(f"{crate}: {libraries}\n")
    return folder / "crates" / crate


def copy_tree(folder, crate, sources, libraries):
    """Copies the crates into this folder, with the libraries that are built, and adds a crate. Returns its folder."""
    copy_files(folder, "crates", "crates.txt", "HANDLES")
    for library in ROOT.glob("crates/*/out/rlib"):
        shutil.copytree(library, folder / library.relative_to(ROOT), dirs_exist_ok=True)
    return add_crate(folder, crate, sources, libraries)
