"""JSON texts as qmpd reads and prints them, in Python, written from the rules alone.

A value is as bench/admission.py has it. `read` takes bytes and gives a value, or raises the
first fault with its place. `Spelling` makes random texts of a value.
"""
import re

from admission import Number, is_whole

DEEPEST = 128
WORDS = {'true': True, 'false': False, 'null': None}
SHORT = {'"': '"', "'": "'", '\\': '\\', '/': '/', 'b': '\b', 'f': '\f', 'n': '\n', 'r': '\r', 't': '\t'}
SHORT_OF = {value: key for key, value in SHORT.items()}
PRINTED = {'"': '\\"', '\\': '\\\\', '\b': '\\b', '\f': '\\f', '\n': '\\n', '\r': '\\r', '\t': '\\t'}
NUMBER = re.compile(r'-?(0|[1-9][0-9]*)(\.[0-9]+)?([eE][+-]?[0-9]+)?')
RUNS = [re.compile(rb'[0-9-][0-9+\-.eE]*'), re.compile(rb'[a-z]+')]


class Fault(Exception):
    """The first fault of a text: its word and its place."""

    def __init__(self, word, place):
        super().__init__(f'{word} {place}')


def number_of(text):
    """A whole number of 64 bits, or the text of another number."""
    if re.fullmatch('-?[0-9]+', text) and -2 ** 63 <= int(text) < 2 ** 64:
        return int(text)
    return Number(text)


class Reader:
    """Takes the tokens of a text from the left, each judged before what it may stand for."""

    def __init__(self, text):
        self.text, self.at = text, 0
        self.take()

    def take(self):
        """The next token: its place, its sort (a mark, `string`, `value` or `end`) and its value."""
        while self.text[self.at:self.at + 1] in (b' ', b'\t', b'\r', b'\n'):
            self.at += 1
        self.place = self.at
        first = self.text[self.at:self.at + 1].decode('latin1')
        if first == '':
            self.sort = 'end'
        elif first in '{}[]:,':
            self.sort, self.at = first, self.at + 1
        elif first in '"\'':
            self.sort, self.value = 'string', self.string(ord(first))
        else:
            self.sort, self.value = 'value', self.plain()

    def expected(self):
        raise Fault('expected', self.place)

    def plain(self):
        """A number or a word."""
        found = next((it for it in (run.match(self.text, self.at) for run in RUNS) if it), None)
        if found is None:
            self.expected()
        self.at, text = found.end(), found[0].decode()
        if text in WORDS:
            return WORDS[text]
        return number_of(text) if NUMBER.fullmatch(text) else self.expected()

    def string(self, quote):
        """The string that begins here; afterwards `at` is behind its quote."""
        out, self.at = [], self.at + 1
        while self.at < len(self.text):
            byte = self.text[self.at]
            if byte == quote:
                self.at += 1
                return ''.join(out)
            if byte < 0x20:
                raise Fault('expected', self.at)
            out.append(self.escape() if byte == 0x5C else self.code_point())
        raise Fault('expected', len(self.text))

    def code_point(self):
        for count in range(1, 5):
            try:
                found = self.text[self.at:self.at + count].decode()
            except UnicodeDecodeError:
                continue
            self.at += count
            return found
        raise Fault('bad-utf8', self.at)

    def escape(self):
        """The code point of an escape, or of two that are a pair of surrogates."""
        backslash = self.at
        first = self.unit(backslash)
        if first is None:
            kind = chr(self.text[backslash + 1]) if backslash + 1 < len(self.text) else ''
            if kind not in SHORT:
                raise Fault('bad-escape', backslash)
            self.at = backslash + 2
            return SHORT[kind]
        self.at = backslash + 6
        if not 0xD800 <= first < 0xE000:
            return chr(first)
        second = self.unit(self.at)
        if first >= 0xDC00 or second is None or not 0xDC00 <= second < 0xE000:
            raise Fault('bad-escape', backslash)
        self.at += 6
        return chr(0x10000 + (first - 0xD800) * 0x400 + second - 0xDC00)

    def unit(self, place):
        """The number of the escape of four digits at a place, or None."""
        found = re.compile(rb'\\u([0-9A-Fa-f]{4})').match(self.text, place)
        return int(found[1], 16) if found else None

    def whole(self):
        value = self.any(0)
        if self.sort != 'end':
            self.expected()
        return value

    def any(self, depth):
        """The value that begins with the token at hand; afterwards the token behind it is at hand."""
        if self.sort in ('string', 'value'):
            value = self.value
            self.take()
            return value
        if self.sort not in ('{', '[') or depth == DEEPEST:
            self.expected()
        inside = self.object if self.sort == '{' else self.array
        self.take()
        return inside(depth + 1)

    def array(self, depth):
        out = []
        while self.sort != ']' or out:
            out.append(self.any(depth))
            if self.is_last(']'):
                break
        self.take()
        return out

    def object(self, depth):
        out = {}
        while self.sort != '}' or out:
            if self.sort != 'string':
                self.expected()
            if self.value in out:
                raise Fault('duplicate', self.place)
            name = self.value
            self.take()
            if self.sort != ':':
                self.expected()
            self.take()
            out[name] = self.any(depth)
            if self.is_last('}'):
                break
        self.take()
        return out

    def is_last(self, closer):
        """Whether the closer is at hand; else a comma is, and it is taken."""
        if self.sort == closer:
            return True
        if self.sort != ',':
            self.expected()
        self.take()
        return False


def read(text):
    return Reader(text).whole()


def escaped(code):
    """A code unit, or a pair of surrogates, by its digits."""
    if code > 0xFFFF:
        return escaped(0xD800 + (code - 0x10000 >> 10)) + escaped(0xDC00 + (code & 0x3FF))
    return '\\u%04X' % code


def printed(value):
    """The one text of a value."""
    if isinstance(value, Number):
        return value.text
    if isinstance(value, str):
        return '"' + ''.join(PRINTED.get(it) or (it if 32 <= ord(it) < 127 else escaped(ord(it))) for it in value) + '"'
    if isinstance(value, list):
        return '[' + ', '.join(map(printed, value)) + ']'
    if isinstance(value, dict):
        return '{' + ', '.join(printed(name) + ': ' + printed(it) for name, it in value.items()) + '}'
    if is_whole(value):
        return str(value)
    return next(word for word, it in WORDS.items() if it is value)


class Spelling:
    """Random texts of values. With `repeats` a member of an object now and then stands twice."""

    def __init__(self, rnd, blanks, repeats=0.0):
        self.r, self.blanks, self.repeats = rnd, blanks, repeats

    def blank(self):
        return self.r.choice(self.blanks) if self.r.random() < 0.2 else ''

    def text(self, value):
        if isinstance(value, str):
            shown = self.string(value)
        elif isinstance(value, list):
            shown = '[' + ','.join(map(self.text, value)) + ']' if value else '[' + self.blank() + ']'
        elif isinstance(value, dict):
            shown = '{' + ','.join(self.members(value)) + '}' if value else '{' + self.blank() + '}'
        elif is_whole(value) and value == 0:
            shown = self.r.choice(['0', '0', '-0'])
        else:
            shown = printed(value)
        return self.blank() + shown + self.blank()

    def members(self, value):
        items = list(value.items())
        if items and self.r.random() < self.repeats:
            items.insert(self.r.randrange(len(items) + 1), self.r.choice(items))
        return [self.blank() + self.string(name) + self.blank() + ':' + self.text(it) for name, it in items]

    def string(self, value):
        quote = self.r.choice('"""""\'')
        return quote + ''.join(self.character(it, quote) for it in value) + quote

    def character(self, it, quote):
        digits, short = escaped(ord(it)), '\\' + SHORT_OF[it] if it in SHORT_OF else None
        if it in (quote, '\\') or ord(it) < 32:
            return short if short and self.r.random() < 0.8 else digits
        if self.r.random() < 0.96:
            return it
        return short or self.r.choice([digits, digits.lower()])
