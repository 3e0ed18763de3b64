"""Compares the names of images with those that `nm` says, address by address: tools/expected/names_of_images.py [IMAGE ..]

Without images it takes each of both compilers in tests/runs/images. Each byte of the segments' memory in which a symbol is has the name that
tools/expected/symbols.py gives it; where `nm` knows a symbol at that address, of a size that covers it, the name is one of those. And each name
of `nm` that is a function, an object or a label stands for its address, or for several that `nm` has too. `nm` is NM of the environment, else
llvm-nm or riscv64-unknown-elf-nm, whichever there is. Ends with 0 where all agree.
"""

import glob
import os
import shutil
import subprocess
import sys

import symbols

RAM = 0x80000000
ROOT = os.path.dirname(os.path.dirname(os.path.dirname(os.path.abspath(__file__))))


def said_by_nm(nm, path):
    """Address, size, sort and name of each symbol."""
    out = subprocess.run([nm, "-S", path], capture_output=True, text=True, check=True).stdout
    for row in out.splitlines():
        words = row.split()
        if len(words) < 3:  # an undefined one
            continue
        address, size, sort, name = words if len(words) == 4 else (words[0], "0", *words[1:])
        yield int(address, 16), int(size, 16), sort, name


def differences(nm, path):
    with open(path, "rb") as it:
        found = [one for one in symbols.names_with_files(it.read()) or [] if one.address >= RAM]
    # Below RAM are places of thread-local variables, which are no addresses.
    said = [row for row in said_by_nm(nm, path) if row[2].lower() in "tbdrsvwgc" and row[0] >= RAM]
    have = {(one.address, one.name.decode()) for one in found}
    for address, _, _, name in said:
        if not name.startswith(("$", ".L")) and (address, name) not in have:
            yield f"{name} at {address:08x} isn't read"
    for address, name in have - {(address, name) for address, _, _, name in said}:
        yield f"{name} at {address:08x} isn't of nm"
    rows = [(one.name, one.address, one.size, one.kind, one.is_global) for one in found]
    for one in found:
        for address in range(one.address, one.address + max(one.size, 1)):
            name, behind = symbols.name_at(rows, address)
            covers = [text for at, size, _, text in said if at <= address < at + max(size, 1)]
            if name.decode() not in covers or address - behind not in [at for at, _, _, text in said if text == name.decode()]:
                yield f"{address:08x} is {name.decode()}+{behind}, and nm has {covers}"


def main(words):
    nm = os.environ.get("NM") or shutil.which("llvm-nm") or shutil.which("riscv64-unknown-elf-nm")
    paths = words or sorted(glob.glob(f"{ROOT}/tests/runs/images/c_*.elf"))
    bad = 0
    for path in paths:
        for text in differences(nm, path):
            print(f"{os.path.basename(path)}: {text}")
            bad += 1
    print(f"{len(paths)} images, {bad} differences")
    return 1 if bad else 0


if __name__ == "__main__":
    sys.exit(main(sys.argv[1:]))
