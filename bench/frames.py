"""The messages of a session's bytes, in Python, written from the rules alone.

A `Framer` takes bytes and finds inputs. An input is a JSON value as bench/admission.py has it,
or `Bad` with the words of its fault.
"""
import json_texts as T

LONGEST, DEEPEST = 1048576, 128
BLANKS, OPENERS, CLOSERS, QUOTES = b' \t\r\n', b'{[', b'}]', b'"\''
PLAIN = BLANKS + b':,' + bytes(range(ord('a'), ord('z') + 1))
NUMBER_FIRST, NUMBER_REST = b'0123456789-', b'0123456789+-.eE'
RESETS = {it for it in range(0x20) if it != 0x09} | {0xFE, 0xFF}
BACKSLASH = 0x5C


class Bad:
    """An input that is no JSON value, by its fault."""

    def __init__(self, fault):
        self.fault = fault


class Framer:
    """Takes the bytes of one session; the inputs found so far are kept in their order."""

    def __init__(self):
        self.inputs, self.skips = [], False
        self.begin()

    def begin(self):
        """Begins to look for a message."""
        self.message, self.level, self.in_number = bytearray(), 0, False
        self.quote, self.is_escaped = None, False

    def take(self, content):
        for byte in content:
            if self.skips:
                self.skips = byte not in RESETS
            elif self.level == 0:
                self.outside(byte)
            else:
                self.inside(byte)

    def bad(self, word, byte):
        """A fault at a byte ends the message."""
        self.inputs.append(Bad(word))
        self.skips = word != 'unbalanced' and byte not in RESETS
        self.begin()

    def outside(self, byte):
        if byte in OPENERS:
            self.message.append(byte)
            self.level = 1
        elif byte not in BLANKS:
            self.bad('unbalanced' if byte in CLOSERS else 'lex-error', byte)

    def inside(self, byte):
        if len(self.message) == LONGEST:
            return self.bad('too-long', byte)
        fault = self.fault_in_string(byte) if self.quote is not None else self.fault_of(byte)
        if fault:
            return self.bad(fault, byte)
        self.message.append(byte)
        if self.level == 0:
            self.end()

    def fault_in_string(self, byte):
        """The fault of a byte inside a string, or None; it may end the string."""
        if byte < 0x20 or byte in RESETS:
            return 'lex-error'
        if self.is_escaped:
            self.is_escaped = False
        elif byte == BACKSLASH:
            self.is_escaped = True
        elif byte == self.quote:
            self.quote = None
        return None

    def fault_of(self, byte):
        """The fault of a byte outside strings, or None; the level and what the byte begins are noted."""
        was_in_number = self.in_number
        self.in_number = byte in (NUMBER_REST if was_in_number else NUMBER_FIRST)
        if self.in_number or byte in PLAIN:
            return None
        if byte in QUOTES:
            self.quote = byte
        elif byte in CLOSERS:
            self.level -= 1
        elif byte not in OPENERS:
            return 'lex-error'
        elif self.level == DEEPEST:
            return 'too-deep'
        else:
            self.level += 1
        return None

    def end(self):
        """Reads the message, which is whole."""
        try:
            self.inputs.append(T.read(bytes(self.message)))
        except T.Fault as fault:
            self.inputs.append(Bad(str(fault)))
        self.begin()
