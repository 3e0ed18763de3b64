"""What `smtsim migrate` does, as docs/FORMATS.md says it: version 3 of a trace of version 1 or 2.

    python3 tools/expected/migrate.py TRACE OUT [--config FILE]

Written over the second judge's reader (judge_inputs.py). Where a file can't be written nothing is left of it.
"""

import contextlib
import os
import sys

from judge import contents, line_of
from judge_inputs import Refused, Settings, migrated, settings_of


def write(name, text):
    try:
        with open(name, "wb") as file:
            file.write(text)
    except OSError as failed:
        if os.path.isfile(name):
            with contextlib.suppress(OSError):
                os.remove(name)
        raise Refused("file", 5) from failed


def main(words):
    try:
        (trace, out), config, _ = line_of(words, ())
        settings = Settings() if config is None else settings_of(contents(config))
        text = migrated(settings, contents(trace))
        if out in (trace, config):
            raise Refused("file", 5)
        write(out, text)
    except Refused as refused:
        print(f"smtsim: {refused.said}", file=sys.stderr)
        return refused.status
    return 0


if __name__ == "__main__":
    sys.exit(main(sys.argv[1:]))
