"""Random bind files of a schema: files without a fault, and changes that mostly make one."""
import copy

import admission as A
import bindings as B

# So many values inside a constant.
CONSTANT = 12
BIGGEST = 2 ** 32 - 1
SHAPES = [[], {}, '', None, True, 7, A.Number('1.5'), ['x'], {'x': {}}]
CONST = {'const': 1}
FAILS = ['no', '', "it's so", 'a "b" \\ é𝄞\u007f', '\u0000\n\t\b', "Tally 't' is full"]
# Bytes that break a text, or not, where they are put in.
PIECES = [b'\\ud800', b'\\ud834\\udd1e', b'\\udd1e', b'\\ud800\\n', b'\\x', b'\\', b"\\'", b'\\u12', b'\\u00e9',
          b'\xff', b'\xc3\xa9', b'\xc3', b'\xe2\x82', b'\xed\xa0\x80', b'\xf4\x90\x80\x80', b'\xc0\x80', b'\x00',
          b'\x1f', b'\x7f', b'\xef\xbb\xbf', b'//', b'true', b'tru', b'null', b'nulll', b'0', b'01', b'-', b'1.',
          b'1e5', b'+', b'.5', b'NaN', b'{', b'}', b'[', b']', b':', b',', b'"', b"'", b'{}', b'"x":', b',"x":1',
          b' ', b'\t', b'\r', b'\n', b'\x0b']
TEXTS = [b'', b' ', b'\n', b'{', b'{}x', b'{} {}', b'{},', b'[]', b'null', b'"{}"', b'\xef\xbb\xbf{}',
         b'{"commands": {}', b'{"cells": {"a": 1, "a": 2}}', b"{'cells': {'a': 1, \"a\": 2}}",
         b'{"tallies": ["t", "t"], "tallies": []}', b'{"cells": {"a": 01}}', b'{"cells": {"a": "\\ud834"}}',
         b'{"cells": {"a": "', b'{"cells": {"a": "\n"}}', b'{"cells": {"a": "\xe9"}}', b'{"cells": {"a" 1}}',
         b'{"cells": [1,]}', b'{"cells": {"a": 1,}}', b'{,}', b'#']


def shuffled(rnd, value):
    items = list(value.items())
    rnd.shuffle(items)
    return dict(items)


def all_members(table, type_):
    """The types of the members that an object may have, whatever its tags."""
    out = {it.name: it.type for it in table.members(type_)}
    if table.tag(type_) is not None:
        for branch in table.branches(type_).values():
            out.update(all_members(table, branch))
    return out


class BindFiles:
    """Bind files without a fault. A cell has a type that its values mostly fit."""

    def __init__(self, rnd, table, values):
        self.r, self.table, self.values = rnd, table, values
        self.commands = [it for it in table.names('command') if it not in B.BEFORE]
        self.types = [A.ANY, ('builtin', 'int'), ('builtin', 'str')]
        for name in self.commands:
            self.types.append(table.returned(name))
            self.types += self.members_of(name).values()

    def p(self, chance):
        return self.r.random() < chance

    def members_of(self, command):
        """The types of the members that a command may be given."""
        type_ = self.table.argument(command)
        if type_ != A.ANY:
            return all_members(self.table, type_)
        return dict.fromkeys(self.r.sample(self.values.names, 3), A.ANY)

    def names(self, prefix, count):
        """Distinct names, some of them odd."""
        out = [self.r.choice(self.values.names) if self.p(0.2) else f'{prefix}{k}' for k in range(count)]
        return list(dict.fromkeys(out))

    def file(self):
        self.cells = {it: self.r.choice(self.types) for it in self.names('c', self.r.randrange(5))}
        self.tallies = [it for it in self.names('t', self.r.randrange(4)) if it not in self.cells]
        chosen = [it for it in self.commands if self.p(0.8)]
        self.r.shuffle(chosen)
        out = {'cells': {name: self.fitting(it) for name, it in self.cells.items()}, 'tallies': self.tallies,
               'commands': {it: self.recipe(it) for it in chosen}, 'events': {}}
        out = {name: it for name, it in out.items() if it or self.p(0.3)}
        return shuffled(self.r, out) if self.p(0.5) else out

    def fitting(self, type_):
        self.values.left = CONSTANT
        return self.values.fitting(type_)

    def recipe(self, command):
        self.argument, self.members = self.table.argument(command), self.members_of(command)
        returned, out = self.table.returned(command), {}
        if self.p(0.7):
            out['acts'] = [self.act() for _ in range(self.r.randrange(5))]
        if self.p(0.4 if returned == A.EMPTY else 0.9):
            self.cells_left = 3
            out['return'] = self.template(A.ANY if returned == A.EMPTY and self.p(0.3) else returned)
        if not out.get('acts') and self.p(0.3):
            out['wait'] = self.r.choice(['hold', 'free'])
        return shuffled(self.r, out)

    def act(self):
        c = self.r.random()
        if c < 0.5 and self.cells:
            cell = self.r.choice(list(self.cells))
            # With more than one a cell would grow twofold at each call.
            self.cells_left = 1
            return shuffled(self.r, {'set': cell, 'to': self.template(self.cells[cell])})
        if c < 0.92 and self.tallies:
            by = self.r.choice([1, 1, 2, 7, 40, 127, 30000, 2 ** 31, BIGGEST])
            return shuffled(self.r, {'add': self.r.choice(self.tallies), 'by': by})
        if self.p(0.3) or not self.cells and not self.tallies:
            return {'fail': self.r.choice(FAILS)}
        return self.act()

    def template(self, type_, depth=0):
        """A template whose value mostly fits the type."""
        if self.p(0.04):
            type_ = A.ANY
        if self.table.sort(type_) == 'alternate' and self.p(0.7) and self.table.alternatives(type_):
            return self.template(self.r.choice(self.table.alternatives(type_)), depth)
        ways = [self.arg] * 4 + [self.args, self.cell, self.tally, self.object, self.array]
        if self.p(0.15):
            ways.append(self.const)
        self.r.shuffle(ways)
        found = (way(type_, depth) for way in ways + [self.const])
        return next(it for it in found if it is not None)

    def const(self, type_, depth):
        return {'const': self.fitting(type_)}

    def named(self, word, names):
        return {word: self.r.choice(names)} if names else None

    def arg(self, type_, depth):
        return self.named('arg', [name for name, it in self.members.items() if type_ in (it, A.ANY)])

    def args(self, type_, depth):
        return {'args': True} if type_ in (A.ANY, self.argument) else None

    def cell(self, type_, depth):
        names = [name for name, it in self.cells.items() if type_ in (it, A.ANY)]
        self.cells_left -= 1
        return self.named('cell', names) if self.cells_left >= 0 else None

    def tally(self, type_, depth):
        takes = type_[0] == 'builtin' and (type_[1] in A.RANGES or type_[1] in ('number', 'any'))
        return self.named('tally', self.tallies) if takes else None

    def object(self, type_, depth):
        if depth == 3 or type_ != A.ANY and self.table.sort(type_) != 'object':
            return None
        if type_ == A.ANY:
            names = [self.r.choice(self.values.names) for _ in range(self.r.randrange(4))]
            return {'object': {it: self.template(A.ANY, depth + 1) for it in names}}
        out = {}
        while type_ is not None:
            taken = [it for it in self.table.members(type_) if not it.optional or self.p(0.5)]
            out.update({it.name: self.template(it.type, depth + 1) for it in taken})
            tag = self.table.tag(type_)
            chosen = out[tag].get('const') if tag is not None else None
            type_ = self.table.branches(type_).get(chosen) if isinstance(chosen, str) else None
        return {'object': shuffled(self.r, out) if self.p(0.3) else out}

    def array(self, type_, depth):
        if depth == 3 or type_ != A.ANY and type_[0] != 'array':
            return None
        element = A.ANY if type_ == A.ANY else type_[1]
        return {'array': [self.template(element, depth + 1) for _ in range(self.r.randrange(4))]}


class Faults:
    """Changes of a bind file, each of which mostly makes a fault.

    `defined` are the names that the schema's text defines; conditions may take some out.
    """

    def __init__(self, rnd, table, values, defined):
        self.r, self.table, self.values, self.defined = rnd, table, values, defined
        self.changes = [it for it in dir(self) if it.startswith('in_') or it.startswith('of_')]

    def changed(self, file, count):
        """The file with some changes, and their names. It stands alone."""
        names = [self.r.choice(self.changes) for _ in range(count)]
        holder = [copy.deepcopy(file)]
        for name in names:
            if isinstance(holder[0], dict) and all(isinstance(it, B.SHAPES[key]) for key, it in holder[0].items()
                                                   if key in B.SHAPES):
                getattr(self, name)(holder)
        return holder[0], names

    def put_in(self, value, name, it):
        """Puts a member anywhere into an object, with a copy of the value."""
        items = [pair for pair in value.items() if pair[0] != name]
        items.insert(self.r.randrange(len(items) + 1), (name, copy.deepcopy(it)))
        value.clear()
        value.update(items)

    def recipes(self, holder):
        """Each recipe that is an object, with its place."""
        commands = holder[0].get('commands', {})
        return [(commands, name) for name, it in commands.items() if isinstance(it, dict)]

    def acts(self, holder):
        lists = [within[name].get('acts') for within, name in self.recipes(holder)]
        return [(it, k) for it in lists if isinstance(it, list) for k in range(len(it))]

    def templates(self, holder):
        """Each template, however deep, with its place."""
        found = [(within[name], 'return') for within, name in self.recipes(holder)]
        found += [(it[k], 'to') for it, k in self.acts(holder) if isinstance(it[k], dict)]
        found = [(within, key) for within, key in found if isinstance(within.get(key), dict)]
        for within, key in found:
            for word in ('object', 'array'):
                inner = within[key].get(word)
                keys = inner if isinstance(inner, dict) else range(len(inner)) if isinstance(inner, list) else ()
                found += [(inner, it) for it in keys if isinstance(inner[it], dict)]
        return found

    def replace(self, places, choices):
        if places:
            within, key = self.r.choice(places)
            within[key] = copy.deepcopy(self.r.choice(choices))

    def any_recipe(self):
        return self.r.choice([{}, {'return': {'args': True}}, {'acts': []}, {'acts': 7}, 7, None, []])

    def of_file_shape(self, holder):
        holder[0] = copy.deepcopy(self.r.choice([it for it in SHAPES if it != {}] + [[holder[0]]]))

    def of_file_member(self, holder):
        name = self.r.choice(['cell', 'Cells', '', 'jobs', 'acts', 'return', 'commands ', 'é'])
        self.put_in(holder[0], name, self.r.choice(SHAPES))

    def of_part_shape(self, holder):
        name = self.r.choice(list(B.SHAPES))
        other = [it for it in SHAPES if not isinstance(it, B.SHAPES[name])]
        listed = [['t', 7], [None], ['t', ['t']]] if name == 'tallies' else []
        self.put_in(holder[0], name, self.r.choice(other + listed * 3))

    def of_tally_twice(self, holder):
        tallies = holder[0].setdefault('tallies', [])
        names = [it for it in [*tallies, *holder[0].get('cells', {}), 'x'] if isinstance(it, str)]
        tallies.insert(self.r.randrange(len(tallies) + 1), self.r.choice(names))

    def of_cell_and_tally(self, holder):
        names = [it for it in holder[0].get('tallies', []) if isinstance(it, str)]
        self.put_in(holder[0].setdefault('cells', {}), self.r.choice(names or ['x']), self.r.choice(SHAPES))

    def of_unknown_command(self, holder):
        odd = [it + end for it in self.table.names('command') for end in ('x', ' ')]
        lacking = [it for it in self.defined if it not in self.table.names('command')] or ['x']
        name = self.r.choice(self.r.choice([sorted(B.BEFORE), odd, lacking, self.values.names]))
        self.put_in(holder[0].setdefault('commands', {}), name, self.any_recipe())

    def of_event(self, holder):
        name = self.r.choice(self.table.names('event') + ['x', '', 'é\n'])
        told = self.r.choice([{}, {'period': 7}, {'period': 7, 'key': []}, {'period': -1}, 7])
        self.put_in(holder[0].setdefault('events', {}), name, told)

    def of_recipe_shape(self, holder):
        self.replace(self.recipes(holder), [it for it in SHAPES if it != {}])

    def of_recipe_member(self, holder):
        for within, name in self.r.sample(self.recipes(holder), 1) if self.recipes(holder) else ():
            member = self.r.choice(['act', 'returns', '', 'Wait', 'data', 'acts ', 'const'])
            self.put_in(within[name], member, self.r.choice(SHAPES))

    def of_acts_shape(self, holder):
        for within, name in self.r.sample(self.recipes(holder), 1) if self.recipes(holder) else ():
            self.put_in(within[name], 'acts', self.r.choice([it for it in SHAPES if it != []]))

    def of_wait(self, holder):
        for within, name in self.r.sample(self.recipes(holder), 1) if self.recipes(holder) else ():
            words = ['hold', 'free', 'hold', 'free', 'Hold', 'none', '', True, None, 7, ['hold'], {}]
            self.put_in(within[name], 'wait', self.r.choice(words))

    def put_act(self, holder, *acts):
        """Puts one of the acts into a recipe."""
        for within, name in self.r.sample(self.recipes(holder), 1) if self.recipes(holder) else ():
            there = within[name].setdefault('acts', [])
            if isinstance(there, list):
                there.insert(self.r.randrange(len(there) + 1), copy.deepcopy(self.r.choice(acts)))

    def cell(self, holder):
        return self.r.choice(list(holder[0].get('cells', {})) or ['x'])

    def tally(self, holder):
        return self.r.choice(holder[0].get('tallies', []) or ['x'])

    def of_set(self, holder):
        cell, tally, to = self.cell(holder), self.tally(holder), CONST
        self.put_act(holder, {'set': cell}, {'to': to}, {'set': cell, 'to': to, 'x': 1}, {'set': 'nope', 'to': to},
                     {'set': cell, 'to': to, 'by': 1}, {'set': cell, 'to': to, 'fail': 'x'}, {'set': cell, 'by': 1},
                     {'set': tally, 'to': to}, {'set': 7, 'to': to}, {'set': cell, 'to': 7}, {'set': cell, 'to': {}},
                     {'set': [cell], 'to': to}, {'Set': cell, 'to': to})

    def of_add(self, holder):
        cell, tally = self.cell(holder), self.tally(holder)
        self.put_act(holder, {'add': tally}, {'by': 1}, {'add': tally, 'by': 1, 'x': 1}, {'add': cell, 'by': 1},
                     {'add': tally, 'by': 1, 'fail': 'x'}, {'add': tally, 'by': 1, 'set': cell, 'to': CONST},
                     {'add': 'nope', 'by': 1}, {'add': None, 'by': 1}, {'add': [tally], 'by': 1},
                     {'add': tally, 'to': CONST})

    def of_count(self, holder):
        if not holder[0].get('tallies'):
            self.put_in(holder[0], 'tallies', ['count'])
        counts = [0, BIGGEST + 1] * 3 + [1, BIGGEST, True, -1, -2 ** 63, 2 ** 63, A.Number('1.0'), A.Number('1e0')]
        self.put_act(holder, {'add': self.tally(holder), 'by': self.r.choice([*counts, '1', None, [1], CONST])})

    def of_fail(self, holder):
        self.put_act(holder, {'fail': 7}, {'fail': None}, {'fail': CONST}, {'fail': ['x']}, {'fail': 'x', 'by': 1},
                     {'fail': 'x', 'x': 1}, {'Fail': 'x'}, {'fail': {}}, {'fail': ''})

    def of_other_act(self, holder):
        event = self.r.choice(self.table.names('event'))
        self.put_act(holder, {}, 'fail', None, [], CONST, {'return': CONST}, {'quit': True}, {'negotiate': True},
                     {'enable': True}, {'raise': event}, {'raise': event, 'data': CONST}, {'raise': 7},
                     {'start': {'id': {'const': 'j'}, 'units': 1}}, {'start': {}}, {'job-cancel': {'id': CONST}})

    def put_template(self, holder, *templates):
        """One of the templates stands in place of another, or is what a recipe returns."""
        chosen = copy.deepcopy(self.r.choice(templates))
        if self.r.random() < 0.6:
            self.replace(self.templates(holder), [chosen])
            return
        for within, name in self.r.sample(self.recipes(holder), 1) if self.recipes(holder) else ():
            self.put_in(within[name], 'return', chosen)

    def in_arg(self, holder):
        name = self.r.choice([*self.values.names, 'm0', 'm1', 'm2'])
        self.put_template(holder, {'arg': name}, {'arg': name}, {'arg': name}, {'arg': name + 'x'}, {'arg': 7},
                          {'arg': [name]}, {'arg': None}, {'args': False}, {'args': 1}, {'args': None},
                          {'args': 'true'}, {'args': {}}, {'args': name}, {'args': True, 'arg': name})

    def in_named(self, holder):
        cell, tally = self.cell(holder), self.tally(holder)
        self.put_template(holder, {'cell': 'nope'}, {'cell': tally}, {'cell': tally}, {'cell': 7}, {'cell': [cell]},
                          {'tally': 'nope'}, {'tally': cell}, {'tally': cell}, {'tally': None}, {'tally': [tally]},
                          {'cell': cell, 'tally': tally})

    def in_inner(self, holder):
        deep = self.r.choice([{}, 7, {'cell': 'nope'}, {'tally': 'nope'}, {'arg': 'nope'}, {'const': 1, 'x': 1}])
        for _ in range(self.r.randrange(4)):
            deep = self.r.choice([{'object': {'a': CONST, 'b': deep}}, {'array': [CONST, deep]}])
        self.put_template(holder, {'object': []}, {'object': 7}, {'array': {}}, {'array': 7}, {'array': [[]]},
                          deep, deep, deep, deep, {'object': {'a': CONST}, 'array': [CONST]})

    def in_template(self, holder):
        self.put_template(holder, {}, 7, None, 'x', [], [CONST], {'const': 1, 'arg': 'm0'}, {'const': 1, 'x': 1},
                          {'Const': 1}, {'': 1}, {'version': True}, {'commands': True}, {'introspection': True},
                          {'jobs': True}, {'fail': 'x'})

    def in_anything(self, holder):
        """One value of the file is another, or changed a little."""
        holder[0] = self.values.changed(holder[0])

    def in_depth(self, holder):
        """A value so deep that the text is at the limit or past it."""
        value = 0
        for _ in range(self.r.randrange(116, 131)):
            value = self.r.choice([[value], {'x': value}])
        deep = {'const': value}
        self.r.choice([lambda: self.replace(self.templates(holder), [deep]),
                       lambda: self.put_in(holder[0].setdefault('cells', {}), 'deep', value)])()


def changed_bytes(rnd, text):
    """A text with some bytes put in, taken out, or doubled."""
    for _ in range(rnd.choice([1, 1, 1, 2])):
        at = rnd.randrange(len(text) + 1)
        to = min(len(text), at + rnd.choice([0, 0, 0, 1, 1, 2, 5, 20]))
        piece = rnd.choice([b'', rnd.choice(PIECES), rnd.choice(PIECES), rnd.choice(PIECES), text[at:to] * 2])
        text = text[:at] if rnd.random() < 0.08 else text[:at] + piece + text[to:]
    return text
