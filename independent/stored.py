"""Writes stored texts, or compares them with what the rules give."""


def stored(text):
    """The bytes of a text, which is a list of lines or already bytes."""
    return text if isinstance(text, bytes) else "".join(line + "\n" for line in text).encode()


def write_or_compare(folder, made, arguments, usage, tell=None):
    """Writes each text of `made` (lines or bytes for each file name) into the folder; with `--check` it compares
    instead, and with `--list` it calls `tell` where there is one. The answer is the program's exit code: 0, 1 where a
    stored text differs, 2 for other arguments."""
    if tell and arguments == ["--list"]:
        tell()
        return 0
    if arguments not in ([], ["--check"]):
        print(usage)
        return 2
    behind = 0
    for name, text in made.items():
        path, data = folder / name, stored(text)
        lines = data.count(b"\n")
        if not arguments:
            path.parent.mkdir(parents=True, exist_ok=True)
            path.write_bytes(data)
            print(f"{path.name}: {lines} lines, {len(data)} bytes")
        elif not path.is_file() or path.read_bytes() != data:
            print(f"{path.name} differs from what the rules give")
            behind += 1
        else:
            print(f"{path.name} agrees: {lines} lines")
    return 1 if behind else 0
