"""Reads TOML 1.1 as the program reads it, and keeps where each key and each value stands.

tomllib keeps no places, and reads TOML 1.0: an inline table over several lines is refused there, and is read by the program.
What is refused is NotToml, with its place; a place is a number of characters from the text's beginning.
"""

import re

DEEPEST = 80  # arrays and inline tables in one another, and the parts of a key


class NotToml(Exception):
    """Why a text isn't a TOML document, and where."""

    def __init__(self, at, why):
        super().__init__(why)
        self.at = at


class Moment(str):
    """A date, a time, or both, as it was written."""


class Array(list):
    """An array with the place of each element. `is_open` says that it is one of tables, made by [[headers]]."""

    def __init__(self, is_open=False):
        super().__init__()
        self.is_open, self.places = is_open, []

    def add(self, value, at):
        self.append(value)
        self.places.append(at)


class Table(dict):
    """A table: where it begins, what made it, and of each key where it and its value stand.

    What made it is 'implicit' (a header that passed through it), 'dotted' (a dotted key), 'header' (its own), or 'value'.
    """

    def __init__(self, at, made_by):
        super().__init__()
        self.at, self.made_by, self.key_at, self.value_at = at, made_by, {}, {}

    def put(self, key, key_at, value, value_at):
        self[key] = value
        self.key_at[key], self.value_at[key] = key_at, value_at


def read(bytes_):
    """The root table of the bytes, and their text."""
    try:
        text = bytes_.decode()
    except UnicodeDecodeError as error:
        raise NotToml(len(bytes_[: error.start].decode()), f"byte {bytes_[error.start]:02x} begins no character of UTF-8") from None
    return Reader(text).document(), text


def plain(value):
    """The value as dicts and lists, without places."""
    if isinstance(value, dict):
        return {key: plain(one) for key, one in value.items()}
    return [plain(one) for one in value] if isinstance(value, list) else value


class Reader:
    """What is left to be read begins at `at`."""

    def __init__(self, text):
        self.text, self.at = text, 1 if text.startswith("\ufeff") else 0

    # What stands between.

    def next(self, count=1):
        return self.text[self.at : self.at + count]

    def passes(self, mark):
        """Whether the mark stands here; it is passed over."""
        found = self.text.startswith(mark, self.at)
        self.at += len(mark) * found
        return found

    def run(self, pattern):
        """The text here that the pattern takes, which is passed over."""
        found = pattern.match(self.text, self.at)
        self.at = found.end()
        return found[0]

    def skip_blanks(self):
        self.run(BLANKS)

    def skip_lines(self):
        """Blanks, ends of lines and comments are passed over."""
        self.run(LINES)

    # The document.

    def document(self):
        root = Table(self.at, "header")
        table = root
        self.skip_lines()
        while self.at < len(self.text):
            start = self.at
            if self.next() == "[":
                table = self.header(root)
            else:
                self.pair(table)
            self.skip_blanks()
            if self.at < len(self.text) and not ENDS.match(self.text, self.at):
                raise NotToml(self.at, f"{self.shown()} stands after the {'header' if self.text[start] == '[' else 'value'}, where the line has to end")
            self.skip_lines()
        return root

    def shown(self):
        """What stands here, for what is said of it."""
        if self.at == len(self.text):
            return "the end of the file"
        return "the end of the line" if self.next() in "\r\n" else repr(self.next())

    def header(self, root):
        """The table that the header names."""
        start, marks = self.at, 2 if self.next(2) == "[[" else 1
        self.at += marks
        self.skip_blanks()
        *path, (key, at) = self.key()
        if not self.passes("]" * marks):
            raise NotToml(self.at, f"{self.shown()} stands where the header's {']' * marks} has to stand")
        inside = root
        for name, name_at in path:
            inside = through(inside, name, name_at)
        return self.named(inside, key, at, start, marks == 2)

    @staticmethod
    def named(inside, key, at, start, is_array):
        """The table of a header, at its last key."""
        found = inside.get(key)
        if found is None:
            table = Table(start, "header")
            value = table
            if is_array:
                value = Array(is_open=True)
                value.add(table, start)
            inside.put(key, at, value, start)
            return table
        if is_array and isinstance(found, Array) and found.is_open:
            found.add(Table(start, "header"), start)
            return found[-1]
        if not is_array and isinstance(found, Table) and found.made_by == "implicit":
            found.made_by, found.at = "header", start
            return found
        raise NotToml(at, f"'{key}' is there already, and not as {'an array of tables, [[' + key + ']]' if is_array else 'a table that may still be named'}")

    def pair(self, table):
        """A key and its value, into the table."""
        *path, (key, at) = self.key()
        if not self.passes("="):
            raise NotToml(self.at, f"{self.shown()} stands where '=' has to stand after the key '{key}'")
        self.skip_blanks()
        value_at = self.at
        value = self.value(DEEPEST)
        for name, name_at in path:
            table = dotted(table, name, name_at)
        if key in table:
            raise NotToml(at, f"the key '{key}' stands twice")
        table.put(key, at, value, value_at)

    def key(self):
        """The parts of a key, each with its place, and the blanks after it."""
        parts = []
        while True:
            at = self.at
            if len(parts) == DEEPEST:
                raise NotToml(at, f"the key has more than {DEEPEST} parts")
            if self.next() in ('"', "'") and self.next():
                parts.append((self.string_of_a_line(), at))
            else:
                parts.append((self.run(BARE), at))
                if not parts[-1][0]:
                    raise NotToml(at, f"{self.shown()} stands where a key has to stand")
            self.skip_blanks()
            if not self.passes("."):
                return parts
            self.skip_blanks()

    # Values.

    def value(self, depth):
        mark = self.next()
        if mark in ("[", "{") and depth == 0:
            raise NotToml(self.at, f"arrays and inline tables nest more than {DEEPEST} deep")
        if mark == "[":
            return self.array(depth - 1)
        if mark == "{":
            return self.inline(depth - 1)
        if mark in ('"', "'") and mark:
            return self.string(mark)
        return self.scalar()

    def array(self, depth):
        start, found = self.at, Array()
        self.at += 1
        while True:
            self.skip_lines()
            if self.passes("]"):
                return found
            at = self.at
            found.add(self.element(start, "array", depth), at)
            self.after_element("]", start, "array")

    def element(self, start, what, depth):
        if self.at == len(self.text):
            raise NotToml(start, f"the {what} isn't closed")
        return self.value(depth)

    def after_element(self, closing, start, what):
        self.skip_lines()
        if self.at == len(self.text):
            raise NotToml(start, f"the {what} isn't closed")
        if not self.passes(",") and self.next() != closing:
            raise NotToml(self.at, f"{self.shown()} stands where ',' or '{closing}' has to stand")

    def inline(self, depth):
        start, found = self.at, Table(self.at, "value")
        self.at += 1
        while True:
            self.skip_lines()
            if self.passes("}"):
                return found
            if self.at == len(self.text):
                raise NotToml(start, "the inline table isn't closed")
            self.member(found, depth)
            self.after_element("}", start, "inline table")

    def member(self, table, depth):
        *path, (key, at) = self.key()
        if not self.passes("="):
            raise NotToml(self.at, f"{self.shown()} stands where '=' has to stand after the key '{key}'")
        self.skip_blanks()
        value_at = self.at
        value = self.value(depth)
        for name, name_at in path:
            table = dotted(table, name, name_at)
        if key in table:
            raise NotToml(at, f"the key '{key}' stands twice")
        table.put(key, at, value, value_at)

    def scalar(self):
        at, word = self.at, self.run(WORD)
        if not word:
            raise NotToml(at, f"{self.shown()} stands where a value has to stand")
        value = scalar_of(word)
        if value is None:
            raise NotToml(at, f"{word!r} is no value: a text stands in quotes, and a number or a date has its own form")
        if isinstance(value, int) and not -(2**63) <= value < 2**63:
            raise NotToml(at, f"the integer {word} doesn't fit 64 bits")
        if isinstance(value, float) and value in (float("inf"), float("-inf")) and "inf" not in word:
            raise NotToml(at, f"the number {word} is too large")
        return value

    # Strings.

    def string(self, mark):
        return self.string_of_lines(mark) if self.next(3) == mark * 3 else self.string_of_a_line()

    def string_of_a_line(self):
        start, mark, found = self.at, self.next(), []
        self.at += 1
        while True:
            found.append(self.run(PLAIN[mark]))
            if self.passes(mark):
                return "".join(found)
            if mark == '"' and self.next() == "\\":
                found.append(self.escape(False))
            elif self.next() in ("", "\r", "\n"):
                raise NotToml(start, "the text isn't closed on its line")
            else:
                raise NotToml(self.at, f"the character {self.next()!r} can't stand in a text")

    def string_of_lines(self, mark):
        start, found = self.at, []
        self.at += 3
        self.run(ONE_END)
        while True:
            found.append(self.run(PLAIN_LINES[mark]))
            marks = len(self.run(MARKS[mark]))
            if marks > 5:
                raise NotToml(self.at - marks, f"{marks} marks {mark} stand in a row")
            found.append(mark * (marks if marks < 3 else marks - 3))
            if marks >= 3:
                return "".join(found)
            if marks:
                continue
            if mark == '"' and self.next() == "\\":
                found.append(self.escape(True))
            elif self.next(2) == "\r\n":
                found.append(self.run(ONE_END))
            elif not self.next():
                raise NotToml(start, "the text isn't closed")
            else:
                raise NotToml(self.at, f"the character {self.next()!r} can't stand in a text")

    def escape(self, is_of_lines):
        """What a backslash and what follows it stand for."""
        at = self.at
        if is_of_lines and CONTINUED.match(self.text, at):
            self.run(CONTINUED)
            return ""
        found = ESCAPE.match(self.text, at)
        code = found and next((int(digits, 16) for digits in found.groups()[:3] if digits), None)
        if not found or code is not None and (0xD800 <= code < 0xE000 or code > 0x10FFFF):
            raise NotToml(at, f"{self.next(2)!r} begins no escape of a text" if not found else f"{found[0]!r} is no character")
        self.at = found.end()
        return chr(code) if code is not None else LETTERS[found[4]]


BLANKS = re.compile(r"[ \t]*")
COMMENT = r"#[\t\x20-\x7e\x80-\U0010ffff]*(?=\r?\n|\Z)"
LINES = re.compile(rf"(?:[ \t\n]|\r\n|{COMMENT})*")
ENDS = re.compile(rf"\n|\r\n|{COMMENT}")
ONE_END = re.compile(r"(?:\r?\n)?")
BARE = re.compile(r"[A-Za-z0-9_-]*")
WORD = re.compile(r"[A-Za-z0-9_+.:-]*(?: (?=[0-9])[A-Za-z0-9_+.:-]*)?")
CHARACTERS = r"\t\x20-\x7e\x80-\U0010ffff"
PLAIN = {'"': re.compile(rf'(?:(?!["\\])[{CHARACTERS}])*'), "'": re.compile(rf"(?:(?!')[{CHARACTERS}])*")}
PLAIN_LINES = {'"': re.compile(rf'(?:(?!["\\])[\n{CHARACTERS}])*'), "'": re.compile(rf"(?:(?!')[\n{CHARACTERS}])*")}
MARKS = {mark: re.compile(f"{mark}*") for mark in "\"'"}
CONTINUED = re.compile(r"\\[ \t]*\r?\n(?:[ \t\n]|\r\n)*")
ESCAPE = re.compile(r'\\(?:x([0-9A-Fa-f]{2})|u([0-9A-Fa-f]{4})|U([0-9A-Fa-f]{8})|([befnrt"\\]))')
LETTERS = {"b": "\b", "e": "\x1b", "f": "\f", "n": "\n", "r": "\r", "t": "\t", '"': '"', "\\": "\\"}
DECIMAL = re.compile(r"[+-]?(?:inf|nan|(0|[1-9][0-9]*)(\.[0-9]+)?([eE][+-]?[0-9]+)?)")
PREFIXED = re.compile(r"0x[0-9A-Fa-f]+|0o[0-7]+|0b[01]+")
DATE = r"(?P<year>\d{4})-(?P<month>\d\d)-(?P<day>\d\d)"
TIME = r"(?P<hour>\d\d):(?P<minute>\d\d)(?::(?P<second>\d\d)(?:\.\d+)?)?"
OFFSET = r"(?:[Zz]|[+-](?P<hours>\d\d):(?P<minutes>\d\d))"
MOMENT = re.compile(rf"{DATE}(?:[Tt ]{TIME}{OFFSET}?)?", re.A)
TIME_ALONE = re.compile(TIME, re.A)


def through(table, key, at):
    """The table that a header passes through: any that is no value, and the last of an array of tables."""
    found = table.get(key)
    if found is None:
        found = Table(at, "implicit")
        table.put(key, at, found, at)
    if isinstance(found, Array) and found.is_open:
        return found[-1]
    if isinstance(found, Table) and found.made_by != "value":
        return found
    raise NotToml(at, f"'{key}' is a value, and no table that a header may pass through")


def dotted(table, key, at):
    """The table that a dotted key passes through: none that a header defined."""
    found = table.get(key)
    if found is None:
        found = Table(at, "dotted")
        table.put(key, at, found, at)
    if not isinstance(found, Table) or found.made_by not in ("implicit", "dotted"):
        raise NotToml(at, f"'{key}' is there already, and can't be added to by a dotted key")
    found.made_by = "dotted"
    return found


def scalar_of(word):
    """The value that a word writes, or none."""
    if word in ("true", "false"):
        return word == "true"
    if re.match(r"[0-9]+[-:]", word):
        return Moment(word) if is_moment(word) else None
    return number_of(word)


def number_of(word):
    digit = "[0-9A-Fa-f]" if word.startswith("0x") else "[0-9]"
    if re.search(rf"(?<!{digit})_|_(?!{digit})", word):
        return None
    plain = word.replace("_", "")
    if PREFIXED.fullmatch(plain):
        return int(plain, 0)
    found = DECIMAL.fullmatch(plain)
    if not found:
        return None
    return float(plain) if found[1] is None or found[2] or found[3] else int_of(plain)


def int_of(digits):
    """The integer; one of more digits than Python reads at once is past every range."""
    return int(digits) if len(digits) < 100 else 2**64


def is_moment(word):
    found = TIME_ALONE.fullmatch(word) if word[2:3] == ":" else MOMENT.fullmatch(word)
    if not found:
        return False
    part = {name: int(text) for name, text in found.groupdict().items() if text}
    most = {"hour": 23, "minute": 59, "second": 60, "hours": 23, "minutes": 59}
    if any(part.get(name, 0) > last for name, last in most.items()):
        return False
    return "month" not in part or 1 <= part["month"] <= 12 and 1 <= part["day"] <= days(part["year"], part["month"])


def days(year, month):
    if month == 2:
        return 29 if year % 4 == 0 and (year % 100 != 0 or year % 400 == 0) else 28
    return 30 if month in (4, 6, 9, 11) else 31
