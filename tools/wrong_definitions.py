"""Tries the wrong definitions of wrong_definitions.txt: crate `rules` must refuse each by itself.

    python3 tools/wrong_definitions.py [--jobs N] [NAME...]

Each is put into a copy of crate `rules`, which is then checked: first with the proofs alone that are checked in a few seconds, then, if these accept it, whole.
Prints for each the proofs that refuse it, and at the end how many were tried. Ends with 1 where one was accepted, or where its text does not fit the definition.
With --whole only the whole crate is checked, and all proofs that refuse are told.
"""
import argparse
import os
import queue
import re
import shutil
import subprocess
import sys
import tempfile
import threading

QUICK = "Computes Cases Laws Congruence Lengths Packing Tests Past Cycles Causes Refusals FilesLeft RefusedLeaves Faults Brought".split()

HERE = os.path.dirname(os.path.abspath(__file__))
ROOT = os.path.dirname(HERE)


def blocks(text):
    """The wrong definitions: name, file, the text as it is, the wrong one."""
    for block in re.split(r"\n\s*\n", text):
        lines = [line for line in block.splitlines() if not line.startswith("#")]
        if not lines:
            continue
        old = "\n".join(line[2:] for line in lines if line.startswith("- "))
        new = "\n".join(line[2:] for line in lines if line.startswith("+ "))
        yield lines[0], lines[1], old, new


def copy_of_rules(folder, only=None):
    """A repository with crate `rules` alone, with all its proofs or only some."""
    os.makedirs(os.path.join(folder, "crates"))
    shutil.copytree(os.path.join(ROOT, "crates", "rules"), os.path.join(folder, "crates", "rules"), ignore=shutil.ignore_patterns("must-fail", "out"))
    with open(os.path.join(ROOT, "crates.txt"), encoding="utf-8") as file:
        line = next(line for line in file if re.match(r"rules\b", line))
    with open(os.path.join(folder, "crates.txt"), "w", encoding="utf-8") as file:
        file.write(line)
    if only:
        proofs = os.path.join(folder, "crates", "rules", "proofs")
        for name in os.listdir(proofs):
            if name.endswith(".antt") and name[:-5] not in only:
                os.remove(os.path.join(proofs, name))
        with open(os.path.join(proofs, "Lib.antt"), "w", encoding="utf-8") as file:
            file.writelines("pub mod %s\n" % name for name in only)


def check(folder):
    """Whether the crate is proved, and the text of the check."""
    run = subprocess.run(["rt", "check", "--jobs", "1"], cwd=os.path.join(folder, "crates", "rules"), stdout=subprocess.PIPE, stderr=subprocess.STDOUT, text=True)
    return run.returncode == 0, run.stdout


def verdict(proved, output):
    """What a check says of a wrong definition: the places of proofs that refuse it, or None where it is accepted."""
    if proved:
        return None
    places = re.findall(r"^\./(\S+?):\d+:\d+: error: `([^`]+)`", output, re.M)
    functions = re.findall(r"^fn (\S+): (?!proved)", output, re.M)
    names = []
    for path, name in places:
        names.append("%s %s" % (path, name))
    names += ["fn " + name for name in functions]
    return names or ["?"]


def attempt(folders, edit):
    """What is to be said of a wrong definition, and whether it is refused as it must be; it is tried in each folder until one refuses it."""
    for folder in folders:
        said, right = attempt_in(folder, edit)
        if said != "ACCEPTED":
            break
    return said, right


def attempt_in(folder, edit):
    name, file, old, new = edit
    path = os.path.join(folder, "crates", "rules", "specs", file + ".antt")
    with open(path, encoding="utf-8") as f:
        text = f.read()
    if text.count(old) != 1:
        return "does not fit: %d places" % text.count(old), False
    with open(path, "w", encoding="utf-8") as f:
        f.write(text.replace(old, new))
    try:
        refused = verdict(*check(folder))
    finally:
        with open(path, "w", encoding="utf-8") as f:
            f.write(text)
    if refused is None:
        return "ACCEPTED", False
    if not any(place.startswith(("proofs/", "fn ")) for place in refused) or any(place.startswith("specs/") for place in refused):
        return "no definition: %s" % ", ".join(refused[:3]), False
    return "refused by %s" % ", ".join(sorted(set(place for place in refused))[:4]), True


def main():
    parser = argparse.ArgumentParser()
    parser.add_argument("--jobs", type=int, default=2)
    parser.add_argument("--whole", action="store_true")
    parser.add_argument("names", nargs="*")
    arguments = parser.parse_args()
    with open(os.path.join(HERE, "wrong_definitions.txt"), encoding="utf-8") as file:
        edits = [edit for edit in blocks(file.read()) if not arguments.names or edit[0] in arguments.names]
    work = queue.Queue()
    for edit in edits:
        work.put(edit)
    failed = []
    with tempfile.TemporaryDirectory() as folder:
        places = []
        for n in range(arguments.jobs):
            whole, quick = os.path.join(folder, "whole%d" % n), os.path.join(folder, "quick%d" % n)
            copy_of_rules(whole)
            copy_of_rules(quick, QUICK)
            places.append([whole] if arguments.whole else [quick, whole])
        for place in sum(places, []):
            proved, output = check(place)
            if not proved:
                print("crate rules is not proved as it stands:\n" + output[-2000:])
                return 1

        def worker(place):
            while True:
                try:
                    edit = work.get_nowait()
                except queue.Empty:
                    return
                said, right = attempt(place, edit)
                if not right:
                    failed.append(edit[0])
                print("%s: %s" % (edit[0], said), flush=True)

        threads = [threading.Thread(target=worker, args=(place,)) for place in places]
        for thread in threads:
            thread.start()
        for thread in threads:
            thread.join()
    print("%d wrong definitions, %d refused" % (len(edits), len(edits) - len(failed)))
    if failed:
        print("not refused: " + ", ".join(failed))
    return 1 if failed else 0


if __name__ == "__main__":
    sys.exit(main())
