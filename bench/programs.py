"""Builds a program for a bench: its main file over crates of this repository, proved in a folder of its own."""
import os
import shutil
import subprocess

ROOT = os.path.dirname(os.path.dirname(os.path.abspath(__file__)))


def listed():
    """The lines of crates.txt: each crate with what it stands on."""
    with open(f"{ROOT}/crates.txt") as file:
        return dict(line.strip().split(":", 1) for line in file if ":" in line)


def below(crate, lines):
    """The crates of the repository that a crate stands on, each after those that it stands on itself."""
    found = []
    for part in lines[crate].split():
        if part in lines:
            found += [c for c in below(part, lines) + [part] if c not in found]
    return found


def built(folder, name, main, uses, proofs=None, files=None):
    """The path of the program NAME with this main file, these proofs and other files over the crates `uses`, built in the folder."""
    lines = listed()
    lines[name] = " " + " ".join(uses)
    crates = below(name, lines)
    for crate in crates:
        ignored = shutil.ignore_patterns("out", "must-fail")
        shutil.copytree(f"{ROOT}/crates/{crate}", f"{folder}/crates/{crate}", ignore=ignored)
    os.makedirs(f"{folder}/crates/{name}/src")
    with open(f"{folder}/crates/{name}/src/main.rt", "w") as file:
        file.write(main)
    others = {f"proofs/{path}": text for path, text in (proofs or {}).items()} | (files or {})
    for path, text in others.items():
        os.makedirs(os.path.dirname(f"{folder}/crates/{name}/{path}"), exist_ok=True)
        with open(f"{folder}/crates/{name}/{path}", "w") as file:
            file.write(text)
    with open(f"{folder}/crates.txt", "w") as file:
        file.write("".join(f"{crate}:{lines[crate]}\n" for crate in crates + [name]))
    crate = f"{folder}/crates/{name}"
    quiet = subprocess.DEVNULL
    subprocess.run(["rt", "run"], cwd=crate, input=b"", stdout=quiet, stderr=quiet, check=True)
    return f"{crate}/out/{name}"
