"""Random values that fit a type or nearly do."""
import copy

import admission as A

# So many values inside a value: then lists are empty and optional members absent.
SIZE = 60
ENDS = sorted({end + by for pair in A.RANGES.values() for end in pair for by in (-1, 0, 1)})
WHOLE = [it for it in ENDS if -2 ** 63 <= it < 2 ** 64] + [0, 1, -1, 7]
OTHER = ['1.5', '-0.0', '1e0', '1E400', '-9223372036854775809', '18446744073709551616', '0.1e-7']
STRINGS = ['', 'a', 'v0', 'v1', 'none', 'qnull', 'oob', 'created', "it's", 'a"b\\c', 'é', '\u0000\n', '𝄞', 'null', 'tag']
ODD_NAMES = ['', 'x', 'id', 'a.b', 'c[0]', "it's", 'q"\\', 'é', '\n', '𝄞', 'x0 ']


class Values:
    """Random values that mostly fit a type, and such values changed a little."""

    def __init__(self, rnd, table):
        self.r, self.table = rnd, table
        types = [it for it in table.names('struct', 'union')]
        members = [m.name for it in types for m in table.members(('named', it))]
        self.names = members + ODD_NAMES
        values = [v for it in table.names('enum') for v, _ in table.values(it)]
        self.strings = values + STRINGS
        self.left = 0

    def p(self, chance):
        return self.r.random() < chance

    def number(self):
        return self.r.choice(WHOLE) if self.p(0.7) else A.Number(self.r.choice(OTHER))

    def any(self, depth=0):
        """Any value."""
        c = self.r.randrange(8 if depth < 3 else 6)
        if c < 3:
            return self.r.choice([None, True, False])
        if c == 3:
            return self.r.choice(self.strings)
        if c < 6:
            return self.number()
        if c == 6:
            return [self.any(depth + 1) for _ in range(self.r.randrange(4))]
        return {self.r.choice(self.names): self.any(depth + 1) for _ in range(self.r.randrange(4))}

    def fitting(self, type_, depth=0):
        """A value that mostly fits, where there is one that does not nest too deeply."""
        sort = self.table.sort(type_)
        self.left -= 1
        if type_ == A.ANY:
            return self.any()
        if sort == 'builtin':
            return self.plain(type_[1])
        if sort == 'enum':
            return self.r.choice([it for it, _ in self.table.values(type_[1])] or [''])
        if sort == 'array':
            count = self.r.randrange(4) if self.left > 0 else 0
            return [self.fitting(type_[1], depth + 1) for _ in range(count)]
        if sort == 'alternate':
            chosen = self.table.alternatives(type_)
            return self.fitting(self.r.choice(chosen), depth + 1) if chosen else self.any()
        return self.object(type_, depth)

    def plain(self, name):
        if name in A.RANGES:
            low, high = A.RANGES[name]
            return self.number() if self.p(0.1) else self.r.choice([low, high, 0, self.r.randint(low, high)])
        if name == 'number':
            return self.number()
        return {'str': self.r.choice(self.strings), 'bool': self.p(0.5), 'null': None}[name]

    def object(self, type_, depth):
        out = {}
        while type_ is not None and depth < 9:
            for member in self.table.members(type_):
                if not member.optional or self.left > 0 and self.p(0.5):
                    out[member.name] = self.fitting(member.type, depth + 1)
            tag = self.table.tag(type_)
            type_ = self.table.branches(type_).get(out.get(tag)) if tag is not None else None
        return self.shuffled(out) if self.p(0.4) else out

    def shuffled(self, value):
        items = list(value.items())
        self.r.shuffle(items)
        return dict(items)

    def places(self, value):
        """Each list or object in a value with the places in it."""
        keys = value.keys() if isinstance(value, dict) else range(len(value)) if isinstance(value, list) else ()
        for key in list(keys):
            yield value, key
            yield from self.places(value[key])

    def changed(self, value):
        """The value with one change."""
        holder = [copy.deepcopy(value)]
        within, key = self.r.choice(list(self.places(holder)))
        at = within[key]
        if isinstance(at, dict) and self.p(0.7):
            within[key] = self.changed_object(at)
        elif isinstance(at, list) and self.p(0.6):
            self.change_list(at)
        elif isinstance(at, str) and self.p(0.6):
            within[key] = self.r.choice(self.strings)
        elif A.is_whole(at) and self.p(0.7):
            within[key] = self.number()
        else:
            within[key] = self.any()
        return holder[0]

    def changed_object(self, value):
        items = list(value.items())
        c = self.r.randrange(4)
        if c == 0 and items:
            items.pop(self.r.randrange(len(items)))
        elif c == 1 and items:
            at = self.r.randrange(len(items))
            items[at] = (self.r.choice(self.names), items[at][1])
        elif c == 2:
            self.r.shuffle(items)
        else:
            items.insert(self.r.randrange(len(items) + 1), (self.r.choice(self.names), self.any(2)))
        return dict(items)

    def change_list(self, value):
        if value and self.p(0.5):
            value.append(copy.deepcopy(self.r.choice(value)))
        elif value and self.p(0.5):
            value.pop(self.r.randrange(len(value)))
        else:
            value.append(self.any(2))

    def nearly(self, type_):
        """A value that fits, or one with some changes."""
        self.left = SIZE
        value = self.fitting(type_)
        for _ in range(self.r.choice([0, 1, 1, 1, 2, 3])):
            value = self.changed(value)
        return value
