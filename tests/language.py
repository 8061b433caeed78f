"""Reads a script of gcplay by the rules of docs/SCRIPTS.md, on its own: nothing here is taken from the program.

`read` gives a `Script`, or raises `Fault` with the line that the program has to write.
"""

import re

NAME = re.compile(rb"[a-z][a-z0-9_]{0,15}\Z")
NUMBER = re.compile(rb"[0-9]+\Z")
GREATEST = {"value": 4_294_967_295, "limit": 65_536, "times": 2_000_000, "fields": 16}

# The parts of each command: v is given, w is read, c is a name of the catalogue, the rest are numbers and a label.
FORMS = {
    b"new": ("v", "value"),
    b"let": ("v", "w"),
    b"nil": ("v",),
    b"set": ("w", "field", "w"),
    b"get": ("v", "w", "field"),
    b"cat": ("v", "c"),
    b"put": ("w", "value"),
    b"say": ("label", "w"),
    b"sum": ("label", "w", "field", "limit"),
    b"collect": (),
}
NOT_IN_CATALOGUE = (b"cat", b"say", b"sum", b"collect")


class Fault(Exception):
    """The text of the one fault of a script."""


class Section:
    """Its parts, season by season; a part is a list of (times, commands), a command a tuple of its words."""

    def __init__(self):
        self.parts = [[(1, [])]]
        self.names = {}


class Script:
    """Section 0 is the catalogue, also if the script has none."""

    def __init__(self, version):
        self.version = version
        self.fields = 4 if version == 1 else None
        self.sections = [Section()]
        self.started = None
        self.open = None

    def seasons(self):
        return max(len(section.parts) for section in self.sections)


def number_of(word, line):
    if not NUMBER.match(word):
        raise Fault(f"3 BadLine line {line}")
    return int(word)


def words_of_command(script, words, line):
    """The command's parts, once their forms are known to be right; numbers past their greatest value are told later."""
    form = FORMS.get(words[0])
    section = script.started
    if form is None or section is None or len(words) != len(form) + 1:
        raise Fault(f"3 BadLine line {line}")
    if section is script.sections[0] and words[0] in NOT_IN_CATALOGUE:
        raise Fault(f"3 BadLine line {line}")
    command = [words[0].decode()]
    for kind, word in zip(form, words[1:]):
        if kind in "vwc":
            if not NAME.match(word):
                raise Fault(f"3 BadLine line {line}")
            command.append(word.decode())
        elif kind == "label":
            if len(word) > 32:
                raise Fault(f"3 BadLine line {line}")
            command.append(word.decode())
        else:
            command.append(number_of(word, line))
    return form, command


def take_command(script, words, line):
    form, command = words_of_command(script, words, line)
    greatest = dict(GREATEST, field=script.fields - 1)
    for kind, part in zip(form, command[1:]):
        if kind in greatest and part > greatest[kind]:
            raise Fault(f"6 NumberTooLarge line {line}")
    names = script.started.names
    for kind, part in zip(form, command[1:]):
        if kind == "w" and part not in names or kind == "c" and part not in script.sections[0].names:
            raise Fault(f"4 UnknownName line {line}")
    if "v" in form and command[1] not in names:
        if len(names) == 32:
            raise Fault(f"5 TooManyNames line {line}")
        names[command[1]] = len(names)
    script.started.parts[-1][-1][1].append(tuple(command))


def start_section(script, words, line):
    if script.open is not None:
        raise Fault(f"7 RepeatOpen line {script.open}")
    if words[0] == b"catalogue":
        if script.started is not None:
            raise Fault(f"3 BadLine line {line}")
        script.started = script.sections[0]
        return
    if len(script.sections) == 33:
        raise Fault(f"8 TooManySections line {line}")
    script.started = Section()
    script.sections.append(script.started)


def take_repeat(script, words, line):
    if script.started is None or script.open is not None or len(words) != 2:
        raise Fault(f"3 BadLine line {line}")
    times = number_of(words[1], line)
    if times > GREATEST["times"]:
        raise Fault(f"6 NumberTooLarge line {line}")
    script.started.parts[-1].append((times, []))
    script.open = line


def take_season(script, line):
    if script.version != 3 or script.started is None or script.open is not None:
        raise Fault(f"3 BadLine line {line}")
    if len(script.started.parts) == 64:
        raise Fault(f"15 TooManySeasons line {line}")
    script.started.parts.append([(1, [])])


def take_fields(script, words, line):
    if words[0] != b"fields" or len(words) != 2 or number_of(words[1], line) == 0:
        raise Fault(f"3 BadLine line {line}")
    if int(words[1]) > GREATEST["fields"]:
        raise Fault(f"6 NumberTooLarge line {line}")
    script.fields = int(words[1])


def take_line(script, words, line):
    if script.fields is None:
        take_fields(script, words, line)
    elif words in ([b"catalogue"], [b"warehouse"]):
        start_section(script, words, line)
    elif words[0] == b"repeat":
        take_repeat(script, words, line)
    elif words == [b"end"] and script.open is not None:
        script.open = None
        script.started.parts[-1].append((1, []))
    elif words == [b"season"]:
        take_season(script, line)
    else:
        take_command(script, words, line)


def check_bytes(source):
    if len(source) > 1_048_576:
        raise Fault("11 TooLong")
    foreign = re.search(rb"[^\n -~]", source)
    if foreign:
        raise Fault(f"1 NotAscii offset {foreign.start()}")


def check_counts(script):
    commands = lines = 0
    for section in script.sections:
        for part in section.parts:
            for times, block in part:
                commands += times * len(block)
                lines += times * sum(command[0] in ("say", "sum") for command in block)
    if commands > 2_000_000:
        raise Fault("9 TooManyCommands")
    if lines > 65_536:
        raise Fault("10 TooManyLines")


def read(source):
    """The script of these bytes."""
    check_bytes(source)
    lines = source.split(b"\n")
    header = [word for word in lines[0].split(b" ") if word]
    if len(header) != 2 or header[0] != b"gcscript" or header[1] not in (b"1", b"2", b"3"):
        raise Fault("2 BadHeader")
    script = Script(int(header[1]))
    for line, text in enumerate(lines[1:], 2):
        words = [word for word in text.split(b" ") if word]
        if words and not words[0].startswith(b"#"):
            take_line(script, words, line)
    if script.fields is None:
        raise Fault("2 BadHeader")
    if script.open is not None:
        raise Fault(f"7 RepeatOpen line {script.open}")
    check_counts(script)
    return script


def converted(source):
    """What `convert` has to write."""
    if read(source).version != 1:
        return source
    rest = source.split(b"\n", 1)[1] if b"\n" in source else b""
    text = b"gcscript 2\nfields 4\n" + rest
    if len(text) > 1_048_576:
        raise Fault("14 ConvertedTooLong")
    return text
