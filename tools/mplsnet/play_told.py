"""The steps of a page of messages (`flood`, `reflect`): what each sends, takes and cuts, and what it changes in the nodes' tables."""

from mplsnet.files import Fault

MOST_STEPS = 100_000  # of a page


class Trace:
    """The steps so far. A flight is a message on its way from a node to another; a table's row stands under a key, its section's name first."""

    def __init__(self, script, nodes):
        self.script = script
        self.steps, self.flights, self.queues = [], [], {}
        self.tables = [{} for _ in range(nodes)]
        self.report, self.put_at = [], []  # the lines, and after how many steps each is put
        self.line, self.sent = 0, []

    def put(self, line):
        """A line of the report."""
        self.report.append(line)
        self.put_at.append(len(self.steps))

    def send(self, a, b, kind, rows, words=None):
        """A message is sent: on the page it is a chip with these rows of words, and in a table has these words."""
        self.sent.append(len(self.flights))
        self.queues.setdefault((a, b), []).append(len(self.flights))
        self.flights.append({"a": a, "b": b, "t": 0, "kind": kind, "rows": rows} | ({"words": words} if words else {}))

    def take(self, a, b):
        """The first message on its way from the one to the other, which arrives."""
        return self.queues[a, b].pop(0)

    def cut(self, a, b):
        """The messages on their way between the two, which are gone."""
        return self.queues.pop((a, b), []) + self.queues.pop((b, a), [])

    def done(self, step, tables):
        """A step is done: the tables of the nodes that it may have changed, whole."""
        if len(self.steps) >= MOST_STEPS:
            raise Fault(f"{self.script}: has more than {MOST_STEPS} steps, which is what a page takes")
        changed = {node: changes for node, table in tables.items() if (changes := changes_of(self.tables[node], table))}
        for node in changed:
            self.tables[node] = tables[node]
        step |= {"t": self.line, "send": self.sent} | ({"rows": changed} if changed else {})
        self.steps.append(step)
        self.sent = []
        return changed


def changes_of(before, after):
    """By key the rows that came and changed, and nothing where one went."""
    came = {key: row for key, row in after.items() if before.get(key) != row}
    return came | {key: None for key in before if key not in after}


def listed(words, most=6):
    """Words as a list of a sentence, the last ones counted where there are many."""
    words = list(words)
    if len(words) > most:
        words = [*words[: most - 1], f"{len(words) - most + 1} more"]
    return " and ".join([", ".join(words[:-1]), words[-1]] if len(words) > 1 else words)


def counted(number, what):
    return f"{number} {what}" if number == 1 else f"{number or 'no'} {what}s"
