"""The rules of topology and script (docs/FORMATS.md), each broken one told with its place and with what may have been meant.

The first that is told is the one by which the program refuses the file.
"""

import difflib
import re
from bisect import bisect_right
from dataclasses import dataclass, field

from mplsnet.toml import Array, NotToml, Table, plain, read


RULES = {
    1: "NotToml", 2: "UnknownKey", 3: "MissingKey", 4: "WrongKind", 5: "BadName", 6: "TwiceNamed", 7: "NoSuchName", 8: "SelfLink",
    9: "TwiceLinked", 10: "TwiceLoopback", 11: "BadCost", 12: "BadDelay", 13: "TwiceRd", 14: "BadTarget", 15: "PrefixTaken", 16: "TooMany",
}  # fmt: skip
SCRIPT_RULES = {1: "UnknownWord", 2: "WrongCount", 3: "BadNumber", 4: "NoSuchName", 5: "NotLinked", 6: "NotEdge"}

MOST_BYTES = 1_048_576
MOST_SCRIPT_BYTES, MOST_LINES = 67_108_864, 3_000_000
MOST = {"node": 256, "link": 1024, "vrf": 512, "site": 4096}
MOST_EDGES, MOST_PREFIXES, MOST_TARGETS = 64, 65_536, 16

TEXT, INTEGER, BOOLEAN, TEXTS, TABLES = "a text", "an integer", "a boolean", "an array of texts", "an array of tables"
KEYS = {
    "top": {"as": INTEGER, "notice_delay": INTEGER, "bgp_delay": INTEGER, "resolve": BOOLEAN, "node": TABLES, "link": TABLES, "vrf": TABLES, "site": TABLES},
    "node": {"name": TEXT, "loopback": TEXT},
    "link": {"a": TEXT, "b": TEXT, "cost": INTEGER, "delay": INTEGER, "loss": INTEGER, "life": INTEGER},
    "vrf": {"name": TEXT, "node": TEXT, "rd": TEXT, "import": TEXTS, "export": TEXTS},
    "site": {"name": TEXT, "vrf": TEXT, "prefixes": TEXTS},
}
REQUIRED = {"node": ["name", "loopback"], "link": ["a", "b"], "vrf": ["name", "node", "rd"], "site": ["name", "vrf"]}
RANGES = {"as": (1, 65_535), "notice_delay": (1, 1000), "bgp_delay": (1, 1000)}
# Of a link's numbers: the rule, the least, the most and the default.
FIGURES = {"cost": (11, 1, 65_535, 10), "delay": (12, 1, 1000, 1), "loss": (12, 0, 65_535, 0), "life": (12, 1, 1_000_000, 2000)}

# The lines of a script: kinds of names, texts and ranges of numbers behind the first words; what may be absent stands in brackets.
NUMBERS = {"K": (1, 4_294_967_295), "PLACE": (0, 4_294_967_295), "T": (0, 1_000_000), "TICKS": (1, 1_000_000), "N": (0, 4_000_000)}
NAMED = {"NODE": "node", "SITE": "site", "VRF": "vrf"}
LINK, EDGES = ["NODE", "NODE"], ["NODE", "NODE"]
FORMS = {
    "link up": LINK, "link down": LINK, "learn": ["NODE", *LINK], "ldp on": LINK, "ldp off": LINK, "hear ldp": LINK,
    "hear bgp": EDGES, "bgp up": EDGES, "bgp down": EDGES, "route add": ["SITE", "PREFIX"], "route del": ["SITE", "PREFIX"],
    "import add": ["VRF", "TARGET"], "import del": ["VRF", "TARGET"], "export add": ["VRF", "TARGET"], "export del": ["VRF", "TARGET"],
    "site up": ["SITE"], "site down": ["SITE"], "inject": ["SITE", "K"], "damage ldp": [*LINK, "K"], "damage bgp": [*EDGES, "K"], "carry": [*LINK, "PLACE"], "lose": [*LINK, "PLACE"],
    "tick": ["TICKS"], "run": ["T"], "drain": ["[N]"], "flush": [], "show links": [], "show tree": ["NODE"], "show ldp": [], "show bgp": [],
    "show vrf": ["VRF"], "show flight": [], "show frame": ["NODE", "K"],
}  # fmt: skip
OF_LINKS = {"link up": 0, "link down": 0, "learn": 1, "ldp on": 0, "ldp off": 0, "hear ldp": 0, "damage ldp": 0, "carry": 0, "lose": 0}
OF_EDGES = ["hear bgp", "bgp up", "bgp down", "damage bgp"]


@dataclass(frozen=True)
class Broken:
    """A rule that is broken: the words with which the program names it, what they mean here, and where (line and column from 1)."""

    rule: str
    place: str
    why: str
    line: int = 0
    column: int = 0

    def words(self, path):
        at = f"{path}:{self.line}:{self.column}" if self.line else str(path)
        return f"{at}: {self.rule}{' at ' + self.place if self.place else ''}: {self.why}"


# Texts.


def number(word, least, most):
    """The number that a word says, none where it isn't one or is out of range."""
    if re.fullmatch("0|[1-9][0-9]{0,19}", word) and least <= int(word) <= most:
        return int(word)
    return None


def address(word):
    parts = [number(part, 0, 255) for part in word.split(".")]
    return None if len(parts) != 4 or None in parts else int.from_bytes(bytes(parts), "big")


def prefix(word):
    first, slash, last = word.partition("/")
    at, length = address(first), number(last, 0, 32)
    if not slash or at is None or length is None or at & (1 << 32 - length) - 1:
        return None
    return at, length


def pair(word):
    """The kind and the two numbers of AS:N or ADDRESS:N."""
    first, colon, last = word.partition(":")
    asn, at = number(first, 0, 65_535), address(first)
    if colon and asn is not None and number(last, 0, 4_294_967_295) is not None:
        return "as", asn, int(last)
    if colon and at is not None and number(last, 0, 65_535) is not None:
        return "address", at, int(last)
    return None


def shown(at):
    return ".".join(str(byte) for byte in at.to_bytes(4, "big"))


def why_no_prefix(word):
    first, slash, last = word.partition("/")
    at, length = address(first), number(last, 0, 32)
    if at is None:
        return why_no_address(first)
    if not slash:
        return f"a prefix has a length; did you mean '{word}/32'?"
    if length is None:
        return "the length of a prefix is a number from 0 to 32, without a leading zero"
    return f"the bits past the length aren't zero; did you mean '{shown(at >> 32 - length << 32 - length)}/{length}'?"


def why_no_address(word):
    parts = word.split(".")
    if all(part.isdecimal() and part.isascii() for part in parts) and len(parts) == 4:
        plain = ".".join(str(int(part)) for part in parts)
        if address(plain) is not None:
            return f"a number has no leading zero; did you mean '{plain}'?"
    return "an address is four numbers from 0 to 255, joined by dots"


def why_no_pair(word):
    first, colon, last = word.partition(":")
    if not colon:
        return f"':' and a number are missing, as in '{word or 65000}:1'"
    if address(first) is not None:
        return "behind an address the number is from 0 to 65535"
    if number(first, 0, 65_535) is not None:
        return "behind an AS number the number is from 0 to 4294967295, without a leading zero"
    return "it is AS:N with an AS number from 0 to 65535, or ADDRESS:N"


def meant(word, known):
    """'; did you mean ..?' where one of the known is like the word."""
    lower = {name.lower(): name for name in known}
    close = lower.get(word.lower()) or next(iter(difflib.get_close_matches(word, known, 1, 0.6)), None)
    close = close or lower.get(next(iter(difflib.get_close_matches(word.lower(), lower, 1, 0.6)), None))
    return f"; did you mean '{close}'?" if close else ""


def meant_name(word, known):
    """What may be meant by a name, or else which there are, where these are few."""
    few = f"; there {'is' if len(known) == 1 else 'are'} {listed(list(known)) if known else 'none'}" if len(known) <= 8 else ""
    return meant(word, list(known)) or few


def listed(words):
    return ", ".join(words[:-1]) + f" and {words[-1]}" if len(words) > 1 else "".join(words)


def value_shown(value):
    """A value as it may have been written, cut short."""
    if isinstance(value, bool):
        return str(value).lower()
    if isinstance(value, (Array, Table)):
        return "[..]" if isinstance(value, Array) else "{..}"
    text = f'"{value}"' if type(value) is str else str(value)
    return text if len(text) <= 60 else text[:57] + ".."


def kind_shown(value):
    if isinstance(value, bool):
        return "a boolean"
    for kind, name in ((int, "an integer"), (float, "a number with a fraction"), (Table, "a table"), (Array, "an array")):
        if isinstance(value, kind):
            return name
    return "a text" if type(value) is str else "a date or a time"


def is_of_kind(value, kind):
    if kind == INTEGER:
        return type(value) is int
    if kind == BOOLEAN:
        return type(value) is bool
    if kind == TEXT:
        return type(value) is str
    return isinstance(value, Array) and all(type(one) is str if kind == TEXTS else isinstance(one, Table) for one in value)


# Topology.


@dataclass
class Topology:
    """What later entries and the script may name. A kind of which an entry couldn't be read is in `unread`: what isn't there
    may be that entry, so nothing is said of it. An edge is unread where a VRF's node is."""

    names: dict = field(default_factory=lambda: {"node": {}, "vrf": {}, "site": {}})  # of each kind: of each name its index
    loopbacks: dict = field(default_factory=dict)
    links: dict = field(default_factory=dict)  # of each pair of names the index
    rds: dict = field(default_factory=dict)
    edges: set = field(default_factory=set)
    taken: dict = field(default_factory=dict)  # of each VRF and prefix the site
    prefixes: int = 0
    unread: set = field(default_factory=set)


class TopologyRules:
    """Looks at a topology's bytes; what is broken is in `broken`, in the program's order, and what it has in `tables`."""

    def __init__(self, bytes_):
        self.broken, self.net, self.is_toml, self.tables = [], Topology(), False, {}
        if len(bytes_) > MOST_BYTES:
            self.broken.append(Broken("too large topology bytes", "", f"it has {len(bytes_):,} bytes, and may have {MOST_BYTES:,}"))
            return
        try:
            top, text = read(bytes_)
        except NotToml as error:
            self.starts = starts_of(bytes_.decode("utf-8", "replace"))
            self.found = []
            self.say(1, error.at, str(error))
            self.tell("top")
            return
        self.starts, self.found, self.is_toml, self.tables = starts_of(text), [], True, plain(top)
        self.look_at_top(top)
        for kind, look in (("node", self.look_at_node), ("link", self.look_at_link), ("vrf", self.look_at_vrf), ("site", self.look_at_site)):
            entries = top.get(kind, Array())
            if not is_of_kind(entries, TABLES):
                self.net.unread.add(kind)
                continue
            for index, entry in enumerate(entries):
                self.look_at(kind, index, entry, look)

    # What is said.

    def say(self, rule, at, why):
        self.found.append((rule, at, why))

    def tell(self, place, name=None):
        """What was found in an entry, the first rule by number first."""
        for rule, at, why in sorted(self.found):
            line = bisect_right(self.starts, at)
            entry = f"{place} '{name}'" if isinstance(name, str) else place
            self.broken.append(Broken(f"T{rule} {RULES[rule]}", entry, why, line, at - self.starts[line - 1] + 1))
        self.found = []

    # Tables.

    def look_at_top(self, top):
        self.look_at_keys("top", top)
        for kind, most in MOST.items():
            if isinstance(top.get(kind), Array) and len(top[kind]) > most:
                self.say(16, top[kind].places[most], f"there are {len(top[kind]):,} {kind}s, and may be {most:,}")
        for key, (least, most) in RANGES.items():
            if type(top.get(key)) is int and not least <= top[key] <= most:
                self.say(4, top.value_at[key], f"{key} = {top[key]}: it is from {least} to {most}")
        self.tell("top")

    def look_at(self, kind, index, entry, look):
        self.look_at_keys(kind, entry)
        for key in REQUIRED[kind]:
            if key not in entry:
                self.say(3, entry.at, f"the key '{key}' is missing; a {kind} has the keys {listed(list(KEYS[kind]))}")
        sound = {key: entry[key] for key, what in KEYS[kind].items() if key in entry and is_of_kind(entry[key], what)}
        look(index, entry, sound)
        self.tell(f"{kind} {index}", sound.get("name"))

    def look_at_keys(self, kind, table):
        for key, value in table.items():
            what = KEYS[kind].get(key)
            where = "the top table" if kind == "top" else f"a {kind}"
            if what is None:
                hint = meant(key, list(KEYS[kind])) or f"; its keys are {listed(list(KEYS[kind]))}"
                self.say(2, table.key_at[key], f"{where} has no key '{key}'{hint}")
            elif not is_of_kind(value, what):
                self.say_kind(table, key, value, what)

    def say_kind(self, table, key, value, what):
        at, hint = table.value_at[key], ""
        if what in (TEXTS, TABLES) and isinstance(value, Array):
            index = next(index for index, one in enumerate(value) if not (type(one) is str if what == TEXTS else isinstance(one, Table)))
            at = value.places[index]
            self.say(4, at, f"{key}: its element {index} is {kind_shown(value[index])}, and it is {what}")
            return
        if what == TABLES and isinstance(value, Table):
            hint = f"; write [[{key}]]"
        elif what == TEXTS and type(value) is str:
            hint = f"; write [{value_shown(value)}]"
        elif what == INTEGER and type(value) is str and number(value, 0, 2**63) is not None:
            hint = "; write it without quotes"
        elif what == TEXT and type(value) is int:
            hint = "; write it in quotes"
        self.say(4, at, f"{key} = {value_shown(value)}: it is {what}, and this is {kind_shown(value)}{hint}")

    # Entries.

    def look_at_name(self, kind, index, entry, sound):
        name = sound.get("name")
        if name is None:
            self.net.unread.add(kind)
            return
        if not re.fullmatch("[A-Za-z0-9._-]{1,32}", name):
            why = "a name isn't empty" if not name else f"a name has at most 32 characters, and this has {len(name)}" if len(name) > 32 else ""
            odd = next((c for c in name if not re.fullmatch("[A-Za-z0-9._-]", c)), "")
            self.say(5, entry.value_at["name"], f"name = {value_shown(name)}: {why or f'a name has letters, digits, - . _ alone, and no {odd!r}'}")
            self.net.names[kind].setdefault(name, index)
        elif name in self.net.names[kind]:
            self.say(6, entry.value_at["name"], f"name = \"{name}\": {kind} {self.net.names[kind][name]} has this name already")
        else:
            self.net.names[kind][name] = index

    def refer(self, entry, sound, key, kind):
        """The name that the key has, where it names one of the kind."""
        name = sound.get(key)
        if name is None or name in self.net.names[kind]:
            return name
        if kind not in self.net.unread:
            hint = meant_name(name, self.net.names[kind])
            self.say(7, entry.value_at[key], f"{key} = {value_shown(name)}: no {kind} has this name{hint}")
        return None

    def look_at_node(self, index, entry, sound):
        self.look_at_name("node", index, entry, sound)
        text = sound.get("loopback")
        if text is None:
            return
        at, loopback = entry.value_at["loopback"], address(text)
        if loopback is None:
            self.say(4, at, f"loopback = {value_shown(text)}: {why_no_address(text)}")
        elif loopback >> 24 in (0, 127) or loopback >> 28 in (14, 15):
            self.say(4, at, f"loopback = {value_shown(text)}: it is outside 0.0.0.0/8, 127.0.0.0/8, 224.0.0.0/4 and 240.0.0.0/4")
        elif loopback in self.net.loopbacks:
            self.say(10, at, f"loopback = {value_shown(text)}: node {self.net.loopbacks[loopback]} has it already")
        else:
            self.net.loopbacks[loopback] = f"{index} '{sound.get('name', '')}'"

    def look_at_link(self, index, entry, sound):
        ends = [self.refer(entry, sound, end, "node") for end in "ab"]
        if None in ends:
            self.net.unread.add("link")
        else:
            pair_ = frozenset(ends)
            if len(pair_) == 1:
                self.say(8, entry.value_at["b"], f"both ends are '{ends[0]}'")
            elif pair_ in self.net.links:
                self.say(9, entry.at, f"link {self.net.links[pair_]} joins '{ends[0]}' and '{ends[1]}' already")
            else:
                self.net.links[pair_] = index
        for key, (rule, least, most, _) in FIGURES.items():
            if key in sound and not least <= sound[key] <= most:
                self.say(rule, entry.value_at[key], f"{key} = {sound[key]}: it is from {least} to {most}")
        self.look_at_life(entry, sound)

    def look_at_life(self, entry, sound):
        """A frame isn't on the link for longer than its life."""
        life, delay = (sound.get(key, FIGURES[key][3]) for key in ("life", "delay"))
        if life < delay and 1 <= delay <= 1000 and life >= 1:
            self.say(12, entry.value_at.get("life", entry.at), f"life = {life}: it is at least the delay, which is {delay}")

    def look_at_vrf(self, index, entry, sound):
        self.look_at_name("vrf", index, entry, sound)
        node = self.refer(entry, sound, "node", "node")
        self.look_at_rd(index, entry, sound)
        for key in ("import", "export"):
            self.look_at_targets(key, entry, sound)
        if node is None:
            self.net.unread.add("edge")
        else:
            self.net.edges.add(node)
            if len(self.net.edges) == MOST_EDGES + 1:
                self.say(16, entry.value_at["node"], f"node = \"{node}\": it is the {MOST_EDGES + 1}th node with a VRF, and there may be {MOST_EDGES}")
                self.net.edges.discard(node)

    def look_at_rd(self, index, entry, sound):
        text = sound.get("rd")
        if text is None:
            return
        rd = pair(text)
        if rd is None:
            self.say(14, entry.value_at["rd"], f"rd = {value_shown(text)}: no route distinguisher: {why_no_pair(text)}")
        elif rd in self.net.rds:
            self.say(13, entry.value_at["rd"], f"rd = {value_shown(text)}: vrf {self.net.rds[rd]} has it already")
        else:
            self.net.rds[rd] = f"{index} '{sound.get('name', '')}'"

    def look_at_targets(self, key, entry, sound):
        seen = {}
        for text, at in zip(sound.get(key, []), sound[key].places if key in sound else []):
            target = pair(text)
            if target is None:
                self.say(14, at, f"{key}: {value_shown(text)} is no target: {why_no_pair(text)}")
            elif target in seen:
                self.say(14, at, f"{key}: {value_shown(text)} stands twice")
            seen[target] = at
        if len(sound.get(key, [])) > MOST_TARGETS:
            self.say(14, sound[key].places[MOST_TARGETS], f"{key}: there are {len(sound[key])} targets, and may be {MOST_TARGETS}")

    def look_at_site(self, index, entry, sound):
        self.look_at_name("site", index, entry, sound)
        vrf = self.refer(entry, sound, "vrf", "vrf")
        for text, at in zip(sound.get("prefixes", []), sound["prefixes"].places if "prefixes" in sound else []):
            of = prefix(text)
            if of is None:
                self.say(4, at, f"prefixes: {value_shown(text)} is no prefix: {why_no_prefix(text)}")
            elif vrf is not None and (vrf, of) in self.net.taken:
                self.say(15, at, f"prefixes: {value_shown(text)}: site {self.net.taken[vrf, of]} has it in the VRF '{vrf}' already")
            elif vrf is not None:
                self.net.taken[vrf, of] = f"{index} '{sound.get('name', '')}'"
        before, self.net.prefixes = self.net.prefixes, self.net.prefixes + len(sound.get("prefixes", []))
        if before <= MOST_PREFIXES < self.net.prefixes:
            at = sound["prefixes"].places[MOST_PREFIXES - before]
            self.say(16, at, f"with this one there are more than {MOST_PREFIXES:,} prefixes in all")


def counts(net):
    """How much a topology has, in the program's words."""
    return f"nodes {len(net.names['node'])} links {len(net.links)} vrfs {len(net.names['vrf'])} sites {len(net.names['site'])} prefixes {net.prefixes}"


def starts_of(text):
    """Where the lines of a text begin."""
    return [0, *(at + 1 for at, c in enumerate(text) if c == "\n")]


# Script.


class ScriptRules:
    """Looks at a script's bytes over a topology; what is broken is in `broken`, line by line."""

    def __init__(self, bytes_, net):
        self.broken, self.net, self.commands = [], net, 0
        self.firsts = list(dict.fromkeys(form.split()[0] for form in FORMS))
        if len(bytes_) > MOST_SCRIPT_BYTES:
            self.broken.append(Broken("too large script bytes", "", f"it has {len(bytes_):,} bytes, and may have {MOST_SCRIPT_BYTES:,}"))
            return
        lines = bytes_.split(b"\n")
        last = lines.pop()
        lines = [line.removesuffix(b"\r") for line in lines] + [last] * (last != b"")
        if len(lines) > MOST_LINES:
            self.broken.append(Broken("too large script lines", "", f"it has {len(lines):,} lines, and may have {MOST_LINES:,}"))
            return
        for self.line, self.text in enumerate(lines, 1):
            words = words_of(self.text)
            if words:
                self.commands += 1
                self.found = []
                self.look_at(words)
                self.tell()

    def say(self, rule, at, why):
        self.found.append((rule, at, why))

    def tell(self):
        for rule, at, why in sorted(self.found):
            column = len(self.text[:at].decode("utf-8", "replace")) + 1
            self.broken.append(Broken(f"S{rule} {SCRIPT_RULES[rule]}", f"line {self.line}", why, self.line, column))

    def look_at(self, words):
        (first, at), *given = words
        if first not in self.firsts:
            hint = meant(first, self.firsts) or f"; the first words are {listed(self.firsts)}"
            self.say(1, at, f"no line begins with {first!r}{hint}")
            return
        verb = first
        if first not in FORMS:
            seconds = [form.split()[1] for form in FORMS if form.split()[0] == first]
            if not given:
                self.say(2, at, f"behind '{first}' stands {' or '.join(seconds)}")
                return
            (second, second_at), *given = given
            verb = f"{first} {second}"
            if verb not in FORMS:
                self.say(1, second_at, f"behind '{first}' stands no {second!r}{meant(second, seconds) or '; but ' + ' or '.join(seconds)}")
                return
        self.look_at_words(verb, given, at)

    def look_at_words(self, verb, given, at):
        form = FORMS[verb]
        least = sum(not part.startswith("[") for part in form)
        if not least <= len(given) <= len(form):
            where = given[len(form)][1] if len(given) > len(form) else at
            self.say(2, where, f"the form is '{' '.join([verb, *form])}', and {len(given)} word{'s' * (len(given) != 1)} stand{'s' * (len(given) == 1)} behind '{verb}'")
            return
        known = [self.look_at_word(part.strip("[]"), *word) for part, word in zip(form, given)]
        if verb in OF_LINKS:
            self.look_at_link(*given[OF_LINKS[verb] :][:2], known[OF_LINKS[verb] :][:2])
        if verb in OF_EDGES:
            self.look_at_edges(given[:2], known[:2])

    def look_at_word(self, part, word, at):
        """Whether the word is of its form, and names what is there."""
        if part in NUMBERS:
            least, most = NUMBERS[part]
            if number(word, least, most) is None:
                self.say(3, at, f"{word!r} is no number from {least} to {most}, without sign or leading zero")
        elif part == "PREFIX" and prefix(word) is None:
            self.say(3, at, f"{word!r} is no prefix: {why_no_prefix(word)}")
        elif part == "TARGET" and pair(word) is None:
            self.say(3, at, f"{word!r} is no target: {why_no_pair(word)}")
        elif part in NAMED:
            kind = NAMED[part]
            if word in self.net.names[kind]:
                return True
            if kind not in self.net.unread:
                other = next((of for of, names in self.net.names.items() if word in names), None)
                hint = f"; it is a {other}" if other else meant_name(word, self.net.names[kind])
                self.say(4, at, f"no {kind} has the name {word!r}{hint}")
        return False

    def look_at_link(self, first, second, known):
        if all(known) and frozenset((first[0], second[0])) not in self.net.links and "link" not in self.net.unread:
            ends = sorted(other for pair_ in self.net.links if first[0] in pair_ for other in pair_ - {first[0]})
            hint = f"; links of '{first[0]}' lead to {listed(ends)}" if ends else f"; '{first[0]}' has no link"
            self.say(5, first[1], f"no link joins '{first[0]}' and '{second[0]}'{hint}")

    def look_at_edges(self, given, known):
        (first, _), (second, at) = given
        for (name, where), there in zip(given, known):
            if there and name not in self.net.edges and not self.net.unread & {"vrf", "edge"}:
                self.say(6, where, f"'{name}' is no edge: no VRF is at it")
        if all(known) and first == second:
            self.say(6, at, f"both edges are '{first}'")


def words_of(line):
    """The words of a line before its comment, each with its place among the bytes."""
    words = []
    for found in re.finditer(rb"[^ \t]+", line):
        if found[0].startswith(b"#"):
            break
        words.append((found[0].decode("utf-8", "surrogateescape"), found.start()))
    return words
