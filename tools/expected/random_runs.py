"""Random configurations, images, scripts and orders, from a seed.

    python3 tools/expected/random_runs.py write FOLDER [COUNT] [SEED] [wide|code]
        the inputs, and what the model here prints for them
    python3 tools/expected/random_runs.py compare PROGRAM [COUNT] [SEED] [wide|code]
        a built program beside the model
    python3 tools/expected/random_runs.py compare PROGRAM=OTHER [COUNT] [SEED] [wide|code]
        two built programs beside each other

With `wide` all cores have 9 to 16 harts and 17 to 32 actors. With `code` all programs write their own
code (code_runs.py), and more is compared: the history of the run, written as a trace, has to be the
model's, the program's `check` has to accept it with the same report, and its `plain` has to print the
same records in the order of retirement. Run K of a seed is the same whatever COUNT is. `compare`
prints the runs that differ and leaves their inputs in a folder that it names; it ends with status 1
where there is one.
"""

import os
import random
import subprocess
import sys
import tempfile

import code_runs
import image
import inputs
import limits
import program
from limits import ROLES
from plain import Plain
from random_words import TO_MEMORY, some_code


def some_config(r, wide=False):
    """The settings of a core; of one that is wide, which one in ten is in any case, with more than 8 harts and 16
    actors."""
    wide = wide or r.random() < 0.1
    ways = (
        list(ROLES),
        ["alu"],
        ["alu", "mul", "mem"],
        [r.choice(ROLES) for _ in range(r.randint(1, 16))],
        ["alu"] * 16,
    )
    wide_ways = (
        [r.choice(ROLES) for _ in range(r.randint(17, limits.MOST_ACTORS))],
        [r.choice(("alu", "mul", "mem")) for _ in range(limits.MOST_ACTORS)],
        ["front"] * 20 + list(ROLES),
    )
    return {
        "harts": r.choice((9, 10, 12, 15, 16, 16) if wide else (1, 1, 2, 2, 3, 4, 8)),
        "extra": r.choice((1, 16, 64, 256, 257, limits.MOST_EXTRA) if wide else (1, 2, 3, 8, 64, 256)),
        "queue": r.choice((4, 5, 16, 64)),
        "ram": r.choice((4096, 8192, 65536)),
        "limit": r.choice((0, 1, 17, 60, 1000, 100000, 1000000)) if r.random() < 0.4 else 1000000,
        "actors": r.choice(wide_ways if wide else ways),
    }


def with_memory_units(r, actors):
    """The actors, three of them at their end such that memory is accessed."""
    most = limits.MOST_ACTORS if len(actors) > 16 else 16
    return [*actors[: most - 3], "mem", "alu", r.choice(("mem", "mul"))]


def some_script(r, config, share_of_rounds):
    harts, roles = config["harts"], config["actors"]
    units = [k for k, role in enumerate(roles) if role in ("alu", "mul", "mem")] or [0]
    others = list(range(len(roles)))
    if r.random() < share_of_rounds:
        return some_rounds(r, harts, units, others if harts > 8 else [0])
    asks, calm = [], r.random()
    for _ in range(r.choice((10, 40, 100, 300))):
        letter = r.choice("FFFDDRRUUUUICTTT")
        actor = r.choice(units if letter in "ICU" else others)
        if r.random() < 0.03:
            actor = r.randrange(limits.MOST_ACTORS)
        hart = r.randrange(harts) if r.random() < 0.99 else r.randrange(limits.MOST_HARTS)
        word = f"{letter}{actor}.{hart}" if letter in "DRT" else f"{letter}{actor}"
        times = r.choice((1, 1, 2, 3, 4, 8)) if r.random() < calm else 1
        asks.append(word if times == 1 and r.random() < 0.9 else f"{word}*{times}")
    return r.choice((" ", "\n", "  ")).join(asks) + r.choice(("", "\n"))


def some_rounds(r, harts, units, others):
    """Rounds that take all harts some steps on, so that programs come to their ends. Units issue, and the others do
    the rest."""
    a_round = [f"F{r.choice(others)}*{r.randint(1, 8) * harts}"]
    for h in range(harts):
        a_round += [f"{letter}{r.choice(others)}.{h}*{r.randint(1, 8)}" for letter in "DR"]
    a_round += [f"{r.choice('UUUI')}{u}" for u in units for _ in range(r.randint(1, 8))]
    a_round += [f"C{u}" for u in units]
    a_round += [f"T{r.choice(others)}.{h}*{r.randint(1, 8)}" for h in range(harts)]
    return " ".join(a_round * r.choice((1, 3, 8, 20)))


WRONG = ("16", "17", "255", "256", "1000", "00", "01", "-0", "-1", "+1", "0x0", "a", "0,0", "0\t0")


def some_order(r, made, harts):
    """An order. Half of them have only steps that can be made; the others name any harts, ended
    ones too, and often one word that is no hart's number."""
    count, words = r.choice((0, 1, 10, 60, 300)), []
    if r.random() < 0.5:
        machine = Plain(made, harts)
        while len(words) < count and (going := machine.going()):
            words.append(r.choice(going))
            machine.step(words[-1])
    else:
        words = [r.randrange(harts) for _ in range(count)]
        if r.random() < 0.6:
            words.insert(r.randrange(count + 1), r.choice((*WRONG, harts)))
    return r.choice((" ", "\n", "  ")).join(map(str, words)) + r.choice(("", "\n", " "))


def config_text(config):
    return "".join(f"{key} = {value}\n".replace("'", '"') for key, value in config.items()).encode()


def some_options(r):
    found = [option for option in ("--records", "--show", "--looks") if r.random() < 0.6]
    return found + r.choice(([], [], ["--story"], ["--story", "--all"]))


def inputs_that_write_code(r):
    """The files of a run whose program writes its own code, and its words."""
    config = some_config(r)
    if r.random() < 0.8:
        config |= {"harts": r.choice((1, 1, 2, 2, 3, 4)), "extra": r.choice((8, 64)), "limit": 1000000}
    config["actors"] = with_memory_units(r, config["actors"])
    # Different rounds, so that what is fetched is now far ahead of what retires, and now near.
    parts = [some_script(r, config, 0.9) for _ in range(r.choice((1, 2, 4, 8)))]
    files = {
        "image.elf": code_runs.some_image(r),
        "config.toml": config_text(config),
        "script": " ".join(parts).encode(),
    }
    return files, ["step", "image.elf", "script", "--config", "config.toml", *some_options(r)]


def inputs_of(seed, k, kind=None):
    """The files of run k: name and bytes; and the words."""
    r = random.Random(f"{seed} {k}")
    if kind == "code":
        return inputs_that_write_code(r)
    config = some_config(r, kind == "wide")
    words = some_code(r)
    uses_memory = words[:2] == TO_MEMORY
    if uses_memory:
        config["actors"] = with_memory_units(r, config["actors"])
    entry = image.BASE + 4 * r.randrange(len(words)) if r.random() < 0.1 else image.BASE
    files = {
        "image.elf": image.build(words, entry=entry),
        "config.toml": config_text(config),
        "script": some_script(r, config, 0.8 if uses_memory else 0.4).encode(),
    }
    line = ["step", "image.elf", "script", "--config", "config.toml", *some_options(r)]
    if r.random() < 0.02:
        line = ["list", "image.elf"]
    elif r.random() < 0.25:
        made = image.load(files["image.elf"], config["ram"])
        files["order"] = some_order(r, made, config["harts"]).encode()
        line = ["plain", "image.elf", "order", "--config", "config.toml"]
        line += ["--records"] if r.random() < 0.6 else []
        line += r.choice(([], ["--story"], ["--story"], ["--story", "--all"]))
    return files, line


def prepare(folder, seed, k, kind):
    files, line = inputs_of(seed, k, kind)
    os.makedirs(folder, exist_ok=True)
    for name, data in files.items():
        with open(f"{folder}/{name}", "wb") as file:
            file.write(data)
    return line


def by_model(folder, line):
    here = os.getcwd()
    os.chdir(folder)
    try:
        out, err, status = program.run(line)
    finally:
        os.chdir(here)
    return "".join(f"{t}\n" for t in out), "".join(f"{t}\n" for t in err), status


def by_program(name, folder, line):
    words = [os.path.abspath(name), *line]
    done = subprocess.run(words, cwd=folder, capture_output=True, text=True, check=False)
    return done.stdout, done.stderr, done.returncode


def histories_agree(name, place, asked):
    """Whether the history of a run of the core is the model's, judged as it was made, and its records are
    those of the plain machine in the order of retirement."""
    settings = inputs.read_config(program.read_file(f"{place}/config.toml"))
    image_and_config = [f"{place}/image.elf", "--config", f"{place}/config.toml"]
    out, _, status = program.run(["step", image_and_config[0], f"{place}/script", *image_and_config[1:], "--records"])
    events = [text[5:] for text in out if text.startswith("done ")]
    report = "".join(f"{text}\n" for text in out if not text.startswith(("done ", "idle", "full", "none")))
    roles = " ".join(settings["actors"])
    head = f"smt-trace 3\nconfig {settings['harts']} {settings['extra']} {settings['queue']} {roles}\n"
    wanted = head + "".join(f"{text}\n" for text in events)
    by_program(name, place, [*asked, "--trace", "trace"])
    with open(f"{place}/trace", encoding="ascii") as file:
        found = file.read()
    checked = by_program(name, place, ["check", "image.elf", "trace", "--config", "config.toml", "--records"])
    records = [text for text in report.splitlines() if text[:2].strip().isdigit()]
    with open(f"{place}/order", "w", encoding="ascii") as file:
        file.write(" ".join(text.split()[0] for text in records))
    plain = by_program(name, place, ["plain", "image.elf", "order", "--config", "config.toml", "--records"])
    replayed = [text for text in plain[0].splitlines() if text[:2].strip().isdigit()]
    return found == wanted and checked == (report, "", status) and replayed == records and plain[2] == status


def write(folder, count, seed, kind):
    for k in range(count):
        place = f"{folder}/{k}"
        line = prepare(place, seed, k, kind)
        out, err, status = by_model(place, line)
        words = " ".join(line)
        texts = {"words": f"{words}\n", "stdout": out, "stderr": err, "status": f"{status}\n"}
        for name, text in texts.items():
            with open(f"{place}/{name}", "w", encoding="utf-8") as file:
                file.write(text)


def compare(names, count, seed, kind):
    first, _, second = names.partition("=")
    folder = tempfile.mkdtemp(prefix="random_runs.")
    differing, endings, refetches = [], {}, 0
    for k in range(count):
        place = f"{folder}/{k}"
        line = prepare(place, seed, k, kind)
        found = by_program(first, place, line)
        wanted = by_program(second, place, line) if second else by_model(place, line)
        endings[found[2]] = endings.get(found[2], 0) + 1
        refetches += wanted[0].count("\ndone G ")
        same = found == wanted
        if same and kind == "code" and not second and line[0] == "step":
            same = histories_agree(first, place, line)
        if not same:
            differing.append(k)
            print(f"run {k} of seed {seed} differs: {place}")
        else:
            for name in os.listdir(place):
                os.remove(f"{place}/{name}")
            os.rmdir(place)
    told = f"{count} runs, {len(differing)} differ; exit statuses {dict(sorted(endings.items()))}"
    print(f"{told}; {refetches} refetches")
    return 1 if differing else 0


def main(words):
    kind = words[-1] if words[-1:] in (["wide"], ["code"]) else None
    words = words[:-1] if kind else words
    if len(words) < 2 or words[0] not in ("write", "compare"):
        print(__doc__, file=sys.stderr)
        return 2
    count, seed = int(words[2]) if len(words) > 2 else 1000, int(words[3]) if len(words) > 3 else 1
    if words[0] == "compare":
        return compare(words[1], count, seed, kind)
    write(words[1], count, seed, kind)
    return 0


if __name__ == "__main__":
    sys.exit(main(sys.argv[1:]))
