"""A case that differs, made smaller while it still does."""

import re


def pieces(name, data):
    """A file's parts, of which some may be left out: its words, its lines, or its bytes."""
    if name in ("script", "order"):
        return [word + b" " for word in data.replace(b"\n", b" ").split(b" ") if word]
    if name.endswith(".elf"):
        return [data]
    if name.endswith(".litmus"):
        return re.findall(rb"\s+|[\w.]+|[^\w\s]", data)
    return data.splitlines(keepends=True)


def smaller_parts(parts, still):
    """The parts without as many as can be left out, half of them at first, then fewer."""
    size = len(parts) // 2
    while size >= 1:
        first = 0
        while first < len(parts):
            fewer = parts[:first] + parts[first + size :]
            if still(fewer):
                parts = fewer
            else:
                first += size
        size //= 2
    return parts


def smaller_line(case, differs):
    """The case without the options that it doesn't take to differ."""
    for option in ("--records", "--show", "--looks", "--all", "--story"):
        if option in case.line:
            fewer = case._replace(line=[word for word in case.line if word != option])
            case = fewer if differs(fewer) else case
    return case


def smaller(case, differs):
    case = smaller_line(case, differs)
    for name in sorted(case.files):

        def with_parts(parts, name=name):
            return case._replace(files={**case.files, name: b"".join(parts)})

        parts = pieces(name, case.files[name])
        if b"".join(parts) != case.files[name] and not differs(with_parts(parts)):
            continue
        case = with_parts(smaller_parts(parts, lambda fewer: differs(with_parts(fewer))))
    return case
