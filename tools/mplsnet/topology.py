"""Topologies as TOML (docs/FORMATS.md, "Topology")."""

KINDS = ("node", "link", "vrf", "site")


def value_text(value):
    """A value of a key: a text, a number, a truth, or an array of texts."""
    if isinstance(value, bool):
        return str(value).lower()
    if isinstance(value, str):
        return '"' + value.replace("\\", "\\\\").replace('"', '\\"') + '"'
    if isinstance(value, list):
        return "[" + ", ".join(map(value_text, value)) + "]"
    return str(value)


def topology_text(tables, comments=()):
    """The text of a topology's tables, with comments above."""
    lines = [f"# {comment}".rstrip() for comment in comments]
    lines += [f"{key} = {value_text(value)}" for key, value in tables.items() if key not in KINDS]
    for kind in KINDS:
        for entry in tables.get(kind, []):
            lines += ["", f"[[{kind}]]"] + [f"{key} = {value_text(value)}" for key, value in entry.items()]
    return "\n".join(lines) + "\n"
