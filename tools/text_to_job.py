#!/usr/bin/env python3
"""Turns the text form of a job into its bytes, and back with --back.

The text form is described in tools/README.md. Text that cannot be bytes is
refused with its line number. Whether the judge takes the job is not asked here,
so that refused jobs can be written too.
"""

import re
import sys

SIDES = {"left": 0, "right": 1}
GUARDS = {"=": 1, "!=": 2, "<": 3}
ACTIONS = {"silent": 0, "broadcast": 1, "receive": 2}
REGISTERS = {"first": 0, "second": 1}
CONSTANT = 2
LINK_KINDS = {"joined": 1, "apart": 2}
SETTING, ROW, LINK, PAIR = 1, 2, 3, 4

RECORD_BYTES = 64
STATE_BYTES = 24
UNIT_BYTES = 4
SLOTS = 6

TOKEN = re.compile(r"-?\d+|[a-z]+|!=|[(){},|<=]")


class BadText(Exception):
    """Text that is not in the text form."""


# ---------------------------------------------------------------- from text to bytes


class Words:
    """The words of a line, taken from the front."""

    def __init__(self, text: str):
        rest = TOKEN.sub("", text).strip()
        if rest:
            raise BadText(f"cannot read {rest.split()[0]!r}")
        self.words = TOKEN.findall(text)

    def next(self) -> str:
        """The word in front, or nothing at the end."""
        return self.words[0] if self.words else ""

    def take(self) -> str:
        if not self.words:
            raise BadText("the line ends too early")
        return self.words.pop(0)

    def expect(self, word: str) -> None:
        if self.next() != word:
            raise BadText(f"expected {word!r}, found {self.next() or 'the end'!r}")
        self.words.pop(0)

    def number(self, lowest: int, highest: int) -> int:
        word = self.take()
        if not re.fullmatch(r"-?\d+", word):
            raise BadText(f"expected a number, found {word!r}")
        if not lowest <= int(word) <= highest:
            raise BadText(f"{word} is not between {lowest} and {highest}")
        return int(word)

    def byte(self) -> int:
        return self.number(0, 255)

    def value(self) -> int:
        """The byte of a signed value."""
        return self.number(-128, 127) & 0xFF

    def one_of(self, names: dict) -> int:
        word = self.take()
        if word not in names:
            raise BadText(f"expected one of {', '.join(names)}, found {word!r}")
        return names[word]

    def end(self) -> None:
        if self.words:
            raise BadText(f"nothing more expected, found {self.next()!r}")


def take_set(words: Words) -> int:
    groups = 0
    words.expect("{")
    while words.next() != "}":
        groups |= 1 << words.number(0, 7)
        if words.next() != "}":
            words.expect(",")
    words.expect("}")
    return groups


def take_operand(words: Words) -> bytes:
    if words.next() in REGISTERS:
        return bytes([REGISTERS[words.take()], 0])
    return bytes([CONSTANT, words.value()])


def take_new_register(words: Words, kept: str) -> bytes:
    if words.next() == "keep":
        words.take()
        return bytes([REGISTERS[kept], 0])
    return take_operand(words)


def take_guard(words: Words) -> bytes:
    if words.next() != "if":
        return bytes(5)
    words.take()
    compared = take_operand(words)
    guard = words.one_of(GUARDS)
    return bytes([guard]) + compared + take_operand(words)


def take_action(words: Words) -> bytes:
    action = words.one_of(ACTIONS)
    if action == ACTIONS["silent"]:
        return bytes([action, 0, 0])
    return bytes([action]) + take_operand(words)


def take_row(words: Words) -> bytes:
    words.expect("at")
    row = bytes([words.byte()]) + take_guard(words) + take_action(words)
    words.expect("to")
    row += bytes([words.byte()])
    row += take_new_register(words, "first") + take_new_register(words, "second")
    return row + bytes(2)


def take_setting(words: Words) -> bytes:
    words.expect("range")
    setting = [words.value(), words.value()]
    for name, take in (("free", take_set), ("units", Words.byte), ("limit", Words.byte)):
        words.expect(",")
        words.expect(name)
        setting.append(take(words))
    return bytes(setting)


def take_link(words: Words) -> bytes:
    return bytes([words.one_of(LINK_KINDS), words.byte(), words.byte()])


def take_unit(words: Words) -> bytes:
    words.expect("(")
    unit = []
    for take in (Words.byte, Words.value, Words.value):
        unit.append(take(words))
        words.expect(",")
    unit.append(take_set(words))
    words.expect(")")
    return bytes(unit)


def take_state(words: Words) -> bytes:
    state = take_unit(words)
    while words.next() == "(":
        state += take_unit(words)
    if len(state) > STATE_BYTES:
        raise BadText(f"a state has at most {SLOTS} units")
    return state.ljust(STATE_BYTES, b"\0")


def take_pair(words: Words) -> bytes:
    left = take_state(words)
    words.expect("|")
    return left + take_state(words)


def whole(take, text: str) -> bytes:
    """What a reader makes of the text, which must have nothing behind it."""
    words = Words(text)
    taken = take(words)
    words.end()
    return taken


def row_bytes(text: str) -> bytes:
    """The 16 bytes of a row, for example of `at 0 broadcast -2 to 1 keep keep`."""
    return whole(take_row, text)


def link_bytes(text: str) -> bytes:
    return whole(take_link, text)


def state_bytes(text: str) -> bytes:
    return whole(take_state, text)


def raw_bytes(text: str, most: int) -> bytes:
    words = text.split()
    if not all(re.fullmatch(r"[0-9a-fA-F]{2}", word) for word in words):
        raise BadText("expected bytes of two hexadecimal digits")
    if len(words) > most:
        raise BadText(f"at most {most} bytes fit here")
    return bytes.fromhex(text)


def record_bytes(head: str, body: str) -> bytes:
    """The record of one line, with its zero bytes."""
    side, _, item = head.partition(" ")
    if head == "record":
        record = raw_bytes(body, RECORD_BYTES)
    elif head == "pair":
        record = bytes([PAIR, 0]) + whole(take_pair, body)
    elif side not in SIDES:
        raise BadText(f"no line begins with {head!r}")
    elif item == "":
        record = bytes([SETTING, SIDES[side]]) + whole(take_setting, body)
    elif item == "row":
        record = bytes([ROW, SIDES[side]]) + row_bytes(body)
    elif item == "link":
        record = bytes([LINK, SIDES[side]]) + link_bytes(body)
    else:
        raise BadText(f"no line begins with {head!r}")
    return record.ljust(RECORD_BYTES, b"\0")


def line_bytes(line: str) -> bytes:
    head, colon, body = line.partition(":")
    head = " ".join(head.split())
    if not colon:
        raise BadText("no colon")
    if head == "rest":
        return raw_bytes(body, RECORD_BYTES - 1)
    return record_bytes(head, body)


def job_bytes(text: str) -> bytes:
    """The bytes of a job in the text form."""
    data = b""
    for number, line in enumerate(text.splitlines(), 1):
        line = line.partition("#")[0].strip()
        if not line:
            continue
        try:
            if len(data) % RECORD_BYTES:
                raise BadText("nothing may follow the rest")
            data += line_bytes(line)
        except BadText as bad:
            raise BadText(f"line {number}: {bad}") from None
    return data


# ---------------------------------------------------------------- from bytes to text


def name_of(names: dict, number: int) -> str:
    return next((name for name, of in names.items() if of == number), "?")


def value_text(byte: int) -> str:
    return str(byte - 256 if byte >= 128 else byte)


def set_text(groups: int) -> str:
    return "{" + ",".join(str(g) for g in range(8) if groups >> g & 1) + "}"


def operand_text(operand: bytes, kept: str = "") -> str:
    if operand[0] == CONSTANT:
        return value_text(operand[1])
    name = name_of(REGISTERS, operand[0])
    return "keep" if name == kept else name


def setting_text(setting: bytes) -> str:
    lo, hi = value_text(setting[0]), value_text(setting[1])
    free, units, limit = set_text(setting[2]), setting[3], setting[4]
    return f"range {lo} {hi}, free {free}, units {units}, limit {limit}"


def row_text(row: bytes) -> str:
    guard = ""
    if row[1]:
        sign = name_of(GUARDS, row[1])
        guard = f" if {operand_text(row[2:4])} {sign} {operand_text(row[4:6])}"
    action = name_of(ACTIONS, row[6])
    if action != "silent":
        action += " " + operand_text(row[7:9])
    registers = f"{operand_text(row[10:12], 'first')} {operand_text(row[12:14], 'second')}"
    return f"at {row[0]}{guard} {action} to {row[9]} {registers}"


def link_text(link: bytes) -> str:
    return f"{name_of(LINK_KINDS, link[0])} {link[1]} {link[2]}"


def state_text(state: bytes, units: int) -> str:
    """The units of a state, and further slots as far as they are not zero."""
    shown = max(units, -(-len(state.rstrip(b"\0")) // UNIT_BYTES), 1)
    slots = [state[UNIT_BYTES * k : UNIT_BYTES * (k + 1)] for k in range(min(shown, SLOTS))]
    return " ".join(
        f"({s[0]},{value_text(s[1])},{value_text(s[2])},{set_text(s[3])})" for s in slots
    )


def readable_line(record: bytes, units: tuple) -> str:
    """The line of a record that may still turn out not to be readable."""
    kind, side, payload = record[0], name_of(SIDES, record[1]), record[2:]
    if kind == SETTING:
        return f"{side}: {setting_text(payload)}"
    if kind == ROW:
        return f"{side} row: {row_text(payload)}"
    if kind == LINK:
        return f"{side} link: {link_text(payload)}"
    left = state_text(payload[:STATE_BYTES], units[0])
    right = state_text(payload[STATE_BYTES : 2 * STATE_BYTES], units[1])
    return f"pair: {left} | {right}"


def raw_line(record: bytes) -> str:
    return "record: " + (record.rstrip(b"\0") or b"\0").hex(" ")


def record_line(record: bytes, units: tuple) -> str:
    """The readable line where it gives the same bytes again, and the raw bytes elsewhere."""
    line = readable_line(record, units)
    try:
        again = line_bytes(line)
    except BadText:
        return raw_line(record)
    return line if again == record else raw_line(record)


def job_text(data: bytes) -> str:
    """The text form of any bytes; job_bytes gives the same bytes again."""
    whole_bytes = len(data) - len(data) % RECORD_BYTES
    records = [
        data[begin : begin + RECORD_BYTES] for begin in range(0, whole_bytes, RECORD_BYTES)
    ]
    # Byte 5 of a setting is its count of units.
    units = tuple(record[5] for record in records[:2]) + (0, 0)
    lines = [record_line(record, units) for record in records]
    if data[whole_bytes:]:
        lines.append("rest: " + data[whole_bytes:].hex(" "))
    return "".join(line + "\n" for line in lines)


def main(arguments: list) -> int:
    if arguments == ["--back"]:
        sys.stdout.write(job_text(sys.stdin.buffer.read()))
        return 0
    if arguments:
        print("usage: text_to_job.py [--back] < input > output", file=sys.stderr)
        return 2
    try:
        sys.stdout.buffer.write(job_bytes(sys.stdin.read()))
    except BadText as bad:
        print(bad, file=sys.stderr)
        return 1
    return 0


if __name__ == "__main__":
    sys.exit(main(sys.argv[1:]))
