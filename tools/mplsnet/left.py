"""What a network that is made has otherwise than its source: told by what that changes, most important first."""

from dataclasses import dataclass, field

REACH, PARTS, WAYS, LABELS, NUMBERS, UNKNOWN, UNREAD = range(7)
GROUPS = {
    REACH: "who reaches whom may differ",
    PARTS: "nodes and links differ",
    WAYS: "packets may go another way",
    LABELS: "labels and LDP differ",
    NUMBERS: "names and numbers differ, and nothing else by it",
    UNKNOWN: "not known here",
    UNREAD: "not read, and changes none of this",
}
SCREEN = 24  # lines
NAMED = 3  # places that a line names


@dataclass(frozen=True)
class Entry:
    """A thing that differs: its group, what is said of it, where it stands (a router or a link, and a line of a file), and the whole of that line."""

    group: int
    text: str
    where: str = ""
    line: int | None = None
    whole: str = ""

    def words(self):
        at = f"{self.where}{f' line {self.line}' if self.line else ''}"
        return f"{at}: {self.whole or self.text}" if at else self.whole or self.text


@dataclass
class Left:
    """All that differs, in the order in which it was found."""

    entries: list = field(default_factory=list)

    def tell(self, group, text, where="", line=None, whole=""):
        self.entries.append(Entry(group, text, where, line, whole))

    def lines(self, source, whole=False, most=SCREEN):
        """The lines that tell it: each entry, or no more lines than `most`, in which equal entries are one."""
        groups = {}
        for entry in sorted(self.entries, key=lambda entry: entry.group):
            groups.setdefault(entry.group, []).append(entry)
        if not groups:
            return []
        said = {group: list(dict.fromkeys(entry.words() for entry in found)) if whole else joined(found) for group, found in groups.items()}
        room = shared([len(found) for found in said.values()], most - 1 - len(said))
        cut = {group: found if whole else shortened(found, count) for (group, found), count in zip(said.items(), room)}
        head = f"what isn't as in {source}, most important first" + ("" if all(cut[group] == said[group] for group in said) else " (--all: each line)")
        return [f"{head}:", *(line for group, found in cut.items() for line in (f"  {GROUPS[group]}:", *(f"    {one}" for one in found)))]


def joined(entries):
    """A line for each thing that is said, with the places of which it is."""
    places = {}
    for entry in entries:
        places.setdefault(entry.text, {})[entry.where] = None
    return [with_places(text, [where for where in found if where]) for text, found in places.items()]


def with_places(text, places):
    if len(places) < 2:
        return f"{places[0]}: {text}" if places else text
    rest = f" and {len(places) - NAMED} more" if len(places) > NAMED else ""
    return f"{', '.join(places[:NAMED])}{rest}: {text}"


def shared(counts, lines):
    """How many lines each group gets: one at least, and then as many as it has, the first groups first."""
    given = [1] * len(counts)
    for at, count in enumerate(counts):
        more = max(0, min(count - 1, lines - sum(given)))
        given[at] += more
    return given


def shortened(lines, most):
    """At most so many lines; the last of them says how many are left out."""
    if len(lines) <= most:
        return lines
    if most < 2:
        return [f"{lines[0]}; and {len(lines) - 1} more"]
    return [*lines[: most - 1], f"and {len(lines) - most + 1} more"]
