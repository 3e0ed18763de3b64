#!/usr/bin/env python3
"""help_pages.py PROGRAM FOLDER [VERSION]: makes the manual page and the completions of three shells from the program's help.

Writes smtsim.1, smtsim.bash, _smtsim (for zsh) and smtsim.fish into the folder. Nothing in them is from elsewhere but the table of the
exit statuses, which is docs/FORMATS.md's, so they say what this very program says of itself. tools/install puts them in their places.
"""

import os
import re
import sys

import help_rows

ROOT = os.path.dirname(os.path.dirname(os.path.abspath(__file__)))


def roff(text):
    """Text as it stands in a manual page."""
    text = text.replace("\\", "\\e").replace("-", "\\-")
    return "\\&" + text if text.startswith((".", "'")) else text


def terms(rows):
    """A list of terms, each with its text."""
    for it in rows:
        words = ", ".join(f"\\fB{roff(word)}\\fR" for word in it.words)
        if it.value and it.words[0].startswith("-"):
            words += f" \\fI{it.value}\\fR"
        choices = f" (one of {', '.join(it.choices)})" if it.choices else ""
        yield from (".TP", words, roff(it.text + choices))


def as_it_is(lines):
    """Lines that are laid out already."""
    return [".PP", ".nf", *(roff(line) for line in lines), ".fi"] if lines else []


def exit_statuses():
    """The rows of the table of the exit statuses in docs/FORMATS.md."""
    with open(f"{ROOT}/docs/FORMATS.md", encoding="utf-8") as file:
        table = file.read().split("\n## The exit status\n")[1]
    return re.findall(r"^\| (\d+) \| (.*) \|$", table, re.M)


def manual(whole, commands, version):
    """The manual page."""
    out = [f'.TH SMTSIM 1 "" "smtsim {version}"', ".SH NAME", f"smtsim \\- {roff(whole.about)}", ".SH SYNOPSIS"]
    for number, it in enumerate(commands.values()):
        out += ([".br"] if number else []) + [f"\\fB{roff(it.usage)}\\fR"]
    out += [".SH COMMANDS"]
    for name, it in commands.items():
        out += [f".SS {name}", roff(it.about) + ".", *terms(it.files), *terms(it.options), *as_it_is(it.behind)]
    out += [".SH OPTIONS", *terms(whole.options)]
    out += [".SH CONFIGURATION", *as_it_is(whole.behind), ".SH EXIT STATUS"]
    for status, meaning in exit_statuses():
        out += [".TP", f"\\fB{status}\\fR", roff(meaning)]
    return "\n".join(out) + "\n"


def files_of(it):
    """What a value is, for a shell: one of some words, a folder, a file, or what only its writer knows."""
    if it.choices:
        return "choices"
    if it.value == "FOLDER":
        return "folders"
    return "files" if it.value in ("FILE", "IMAGE", "SCRIPT", "TRACE", "ORDER", "TEST", "OUT") else "own"


def bash(whole, commands):
    """bash's completion."""
    of_values, of_words = [], []
    for name, it in commands.items():
        for option in (it for it in it.options if it.value):
            does = {"choices": f'_smtsim_words "{" ".join(option.choices)}"', "own": ":"}
            does |= {"files": "_smtsim_files -f", "folders": "_smtsim_files -d"}
            of_values.append(f"    {'|'.join(f'{name}:{word}' for word in option.words)}) {does[files_of(option)]} ;;")
        of_words.append(f'    {name}:*) options="{" ".join(word for option in it.options for word in option.words)}" ;;')
    names = " ".join(it.name for it in whole.commands)
    first = " ".join([names, *(word for it in whole.options for word in it.words)])
    values, words = "\n".join(of_values), "\n".join(of_words)
    return f"""# bash's completion of smtsim, made by tools/help_pages.py of the program's help.
_smtsim_words() {{
    COMPREPLY=($(compgen -W "$1" -- "${{COMP_WORDS[COMP_CWORD]}}"))
}}

_smtsim_files() {{
    local IFS=$'\\n'
    COMPREPLY=($(compgen "$1" -- "${{COMP_WORDS[COMP_CWORD]}}"))
}}

# The value of an option, or else an option or a file of the command.
_smtsim() {{
    local options
    COMPREPLY=()
    if [ "$COMP_CWORD" -eq 1 ]; then
        _smtsim_words "{first}"
        return
    fi
    case ${{COMP_WORDS[1]}}:${{COMP_WORDS[COMP_CWORD-1]}} in
{values}
    help:*) _smtsim_words "{names}" ;;
{words}
    esac
    case ${{options:+${{COMP_WORDS[COMP_CWORD]}}.}} in
    '') ;;
    -*) _smtsim_words "$options" ;;
    *) _smtsim_files -f ;;
    esac
}}
complete -o filenames -F _smtsim smtsim
"""


def in_quotes(text):
    """Text within single quotes, as zsh has it."""
    return text.replace("'", "'\\''")


def zsh(whole, commands):
    """zsh's completion."""

    def says(text):
        return in_quotes(re.sub(r"([\[\]:])", r"\\\1", text))

    def value(it):
        does = {"choices": f"({' '.join(it.choices)})", "files": "_files", "folders": "_files -/", "own": " "}[files_of(it)]
        return f":{it.value.lower()}:{does}" if it.value else ""

    cases = []
    for name, it in commands.items():
        rows = [f"'{word}[{says(option.text)}]{value(option)}'" for option in it.options for word in option.words]
        rows += [f"'{number}:{says(file.text)}:_files'" for number, file in enumerate(it.files, 1)]
        cases += [f"    {name})", "      _arguments \\", *(f"        {row} \\" for row in rows[:-1]), f"        {rows[-1]}", "      ;;"]
    described = "\n".join(f"    '{it.name}:{in_quotes(it.text)}'" for it in whole.commands)
    cases = "\n".join(cases)
    return f"""#compdef smtsim
# zsh's completion of smtsim, made by tools/help_pages.py of the program's help.
_smtsim() {{
  local -a commands
  commands=(
{described}
  )
  if (( CURRENT == 2 )) || [[ $words[2] == help ]]; then
    _describe command commands
    return
  fi
  local command=$words[2]
  shift words
  (( CURRENT-- ))
  case $command in
{cases}
  esac
}}
_smtsim "$@"
"""


def fish(whole, commands):
    """fish's completion."""
    out = ["# fish's completion of smtsim, made by tools/help_pages.py of the program's help."]
    out += ["function __smtsim_has", "    set -l words (commandline -opc)", '    test "$words[2]" = "$argv[1]"', "end"]
    out += ["complete -c smtsim -f"]
    for it in whole.commands:
        out.append(f"complete -c smtsim -n '__smtsim_has \"\"' -a {it.name} -d '{fish_says(it.text)}'")
    out.append(f"complete -c smtsim -n '__smtsim_has help' -a '{' '.join(commands)}'")
    for name, it in commands.items():
        has = f"complete -c smtsim -n '__smtsim_has {name}'"
        if it.files:
            out.append(f"{has} -F")
        for option in it.options:
            words = " ".join(f"-l {word[2:]}" if word.startswith("--") else f"-s {word[1:]}" for word in option.words)
            does = {"choices": f" -x -a '{' '.join(option.choices)}'", "files": " -r -F", "own": " -x"}
            does["folders"] = " -x -a '(__fish_complete_directories)'"
            out.append(f"{has} {words}{does[files_of(option)] if option.value else ''} -d '{fish_says(option.text)}'")
    return "\n".join(out) + "\n"


def fish_says(text):
    """Text within single quotes, as fish has it."""
    return text.replace("\\", "\\\\").replace("'", "\\'")


def main(words):
    if not 2 <= len(words) <= 3:
        print("help_pages.py PROGRAM FOLDER [VERSION]", file=sys.stderr)
        return 2
    whole, commands = help_rows.of(words[0])
    made = {
        "smtsim.1": manual(whole, commands, words[2] if len(words) == 3 else ""),
        "smtsim.bash": bash(whole, commands),
        "_smtsim": zsh(whole, commands),
        "smtsim.fish": fish(whole, commands),
    }
    for name, text in made.items():
        with open(os.path.join(words[1], name), "w", encoding="utf-8") as file:
            file.write(text)
    return 0


if __name__ == "__main__":
    sys.exit(main(sys.argv[1:]))
