"""Admission, the introspection array and its reading in Python, written from the rules alone.

A table is made of a schema's expressions, as bench/checker.py takes them, of a schema that
`check` accepts. A type is a tuple of a word and a name. A JSON value is None, a bool, an
int (a whole number of 64 bits), a Number (the text of any other number), a str, a list, or a
dictionary in the order of its text.
"""
import checker as R

RANGES = {
    'int8': (-2 ** 7, 2 ** 7 - 1), 'int16': (-2 ** 15, 2 ** 15 - 1), 'int32': (-2 ** 31, 2 ** 31 - 1),
    'int64': (-2 ** 63, 2 ** 63 - 1), 'int': (-2 ** 63, 2 ** 63 - 1), 'uint8': (0, 2 ** 8 - 1),
    'uint16': (0, 2 ** 16 - 1), 'uint32': (0, 2 ** 32 - 1), 'uint64': (0, 2 ** 64 - 1), 'size': (0, 2 ** 64 - 1),
}
TEXTS = {
    'Missing': "Parameter '%s' is missing", 'Unexpected': "Parameter '%s' is unexpected",
    'WrongKind': "Invalid parameter type for '%s'", 'OutOfRange': "Parameter '%s' is out of range",
    'BadEnum': "Parameter '%s' does not accept this value", 'NoAlternative': "Parameter '%s' matches no alternative",
}
JSON_TYPES = {'str': 'string', 'number': 'number', 'int': 'int', 'bool': 'boolean', 'null': 'null', 'any': 'value'}
EMPTY = ('empty', '')
ANY = ('builtin', 'any')


class Number:
    """A number that is no whole number of 64 bits, by its text."""

    def __init__(self, text):
        self.text = text

    def __eq__(self, other):
        return isinstance(other, Number) and self.text == other.text

    __hash__ = None


def kind_of(value):
    """The JSON kind of a value."""
    if value is None:
        return 'null'
    if isinstance(value, bool):
        return 'boolean'
    if isinstance(value, (int, Number)):
        return 'number'
    return {str: 'string', list: 'array', dict: 'object'}[type(value)]


def is_whole(value):
    return isinstance(value, int) and not isinstance(value, bool)


def features_of(thing):
    return [R.fname(it) for it in thing.get('features', [])] if isinstance(thing, dict) else []


class Member:
    def __init__(self, key, told, type_):
        self.name, self.optional = R.unstar(key), key.startswith('*')
        self.type, self.features = type_, features_of(told)


class Table:
    """The definitions that stand, those before each schema first."""

    def __init__(self, sources, defines):
        before = {it[R.kind_of(it)] for it in R.PRELUDE}
        stands = (R.without_conditions(expr, defines) for _, _, expr in sources)
        own = [it for it in stands if it is not None and it[R.kind_of(it)] not in before]
        self.definitions = R.PRELUDE + own
        self.of_name = {it[R.kind_of(it)]: it for it in self.definitions}

    def reference(self, told):
        name, is_array = R.ref_of(told)
        element = ('builtin' if name in JSON_TYPES or name in RANGES else 'named', name)
        return ('array', element) if is_array else element

    def listed_members(self, data):
        return [Member(key, told, self.reference(told)) for key, told in data.items()]

    def values(self, name):
        """The values of an enum with their features."""
        told = R.QTYPE if name == 'QType' else self.of_name[name]['data']
        return [(it, []) if isinstance(it, str) else (it['name'], features_of(it)) for it in told]

    def sort(self, type_):
        """What a type is: builtin, array, enum, alternate, or object."""
        word, name = type_
        if word in ('builtin', 'array'):
            return word
        if word != 'named':
            return 'object'
        sort = 'enum' if name == 'QType' else R.kind_of(self.of_name[name])
        return {'struct': 'object', 'union': 'object'}.get(sort, sort)

    def members(self, type_):
        """The own list of an object type, its base's members first."""
        word, name = type_
        if word == 'empty':
            return []
        told = self.of_name[name]
        if word == 'written':
            return self.listed_members(told['data'])
        base = told.get('base', {})
        first = self.members(('named', base)) if isinstance(base, str) else self.listed_members(base)
        return first + (self.listed_members(told['data']) if R.kind_of(told) == 'struct' else [])

    def tag(self, type_):
        """The tag's name of a union, else None."""
        word, name = type_
        return self.of_name[name].get('discriminator') if word == 'named' else None

    def branches(self, type_):
        """The types of a union's branches by their values."""
        return {value: self.reference(told) for value, told in self.of_name[type_[1]]['data'].items()}

    def alternatives(self, type_):
        return [self.reference(told) for told in self.of_name[type_[1]]['data'].values()]

    def json_kind(self, type_):
        sort = self.sort(type_)
        if sort == 'builtin':
            return {'str': 'string', 'bool': 'boolean', 'null': 'null'}.get(type_[1], 'number')
        return {'enum': 'string'}.get(sort, sort)

    def argument(self, name):
        """The type that a command or an event takes."""
        told = self.of_name[name]
        if R.kind_of(told) == 'command' and not told.get('gen', True):
            return ANY
        if 'data' not in told:
            return EMPTY
        return self.reference(told['data']) if isinstance(told['data'], str) else ('written', name)

    def returned(self, name):
        told = self.of_name[name]
        return self.reference(told['returns']) if 'returns' in told else EMPTY

    def names(self, *kinds):
        return [it[R.kind_of(it)] for it in self.definitions if R.kind_of(it) in kinds]

    # What fits, as a relation.

    def with_branches(self, type_, value):
        """The members that an object may have, and those of the branch that its tag chooses."""
        members, tag = self.members(type_), self.tag(type_)
        chosen = value.get(tag) if tag is not None else None
        branch = self.branches(type_).get(chosen) if isinstance(chosen, str) else None
        return members + (self.with_branches(branch, value) if branch is not None else [])

    def fits(self, type_, value):
        sort, kind = self.sort(type_), kind_of(value)
        if type_ == ANY:
            return True
        if sort == 'builtin' and type_[1] in RANGES:
            low, high = RANGES[type_[1]]
            return is_whole(value) and low <= value <= high
        if sort == 'builtin':
            return kind == self.json_kind(type_)
        if sort == 'enum':
            return kind == 'string' and value in [it for it, _ in self.values(type_[1])]
        if sort == 'array':
            return kind == 'array' and all(self.fits(type_[1], it) for it in value)
        if sort == 'alternate':
            return any(self.fits(it, value) for it in self.alternatives(type_))
        if kind != 'object':
            return False
        members = self.with_branches(type_, value)
        types = {it.name: it.type for it in members}
        return all(it.optional or it.name in value for it in members) and all(
            name in types and self.fits(types[name], it) for name, it in value.items())

    # The walk to the first fault, a pair of its word and the path, or None.

    def fault(self, type_, value, path=()):
        sort, kind = self.sort(type_), kind_of(value)
        if sort == 'builtin':
            return self.plain_fault(type_[1], value, path)
        if sort == 'enum':
            if kind != 'string':
                return 'WrongKind', path
            return None if value in dict(self.values(type_[1])) else ('BadEnum', path)
        if sort == 'array':
            if kind != 'array':
                return 'WrongKind', path
            walked = (self.fault(type_[1], it, path + (k,)) for k, it in enumerate(value))
            return next((it for it in walked if it), None)
        if sort == 'alternate':
            chosen = [it for it in self.alternatives(type_) if self.json_kind(it) == kind]
            return self.fault(chosen[0], value, path) if chosen else ('NoAlternative', path)
        if kind != 'object':
            return 'WrongKind', path
        return self.object_fault(type_, value, path)

    def plain_fault(self, name, value, path):
        if name == 'any':
            return None
        if name in RANGES:
            if not is_whole(value):
                return 'WrongKind', path
            low, high = RANGES[name]
            return None if low <= value <= high else ('OutOfRange', path)
        wanted = {'str': 'string', 'number': 'number', 'bool': 'boolean', 'null': 'null'}[name]
        return None if kind_of(value) == wanted else ('WrongKind', path)

    def object_fault(self, type_, value, path):
        taken = set()
        while type_ is not None:
            for member in self.members(type_):
                taken.add(member.name)
                if member.name in value:
                    found = self.fault(member.type, value[member.name], path + (member.name,))
                    if found:
                        return found
                elif not member.optional:
                    return 'Missing', path + (member.name,)
            tag = self.tag(type_)
            type_ = self.branches(type_).get(value[tag]) if tag is not None else None
        others = [it for it in value if it not in taken]
        return ('Unexpected', path + (others[0],)) if others else None

    # Whether the whole numbers of a value that the array admits are in their ranges.

    def is_bounded(self, type_, value):
        sort = self.sort(type_)
        if sort == 'builtin' and type_[1] in RANGES and is_whole(value):
            return RANGES[type_[1]][0] <= value <= RANGES[type_[1]][1]
        if sort == 'array' and isinstance(value, list):
            return all(self.is_bounded(type_[1], it) for it in value)
        if sort == 'alternate':
            chosen = [it for it in self.alternatives(type_) if self.json_kind(it) == kind_of(value)]
            return all(self.is_bounded(it, value) for it in chosen)
        if sort == 'object' and isinstance(value, dict):
            members = self.with_branches(type_, value)
            return all(self.is_bounded(it.type, value[it.name]) for it in members if it.name in value)
        return True

    def introspection(self):
        """The array, and the name of each type that it lists."""
        return Array(self).read_through()


def path_text(path):
    shown = ['[%d]' % it if isinstance(it, int) else '.' + it for it in path]
    return ''.join(shown).removeprefix('.')


def fault_text(fault):
    word, path = fault
    return TEXTS[word] % path_text(path)


class Array:
    """The array that is read from its first entry on while types are put behind."""

    def __init__(self, table):
        self.table, self.entries = table, []
        self.numbers, self.waiting, self.names = {}, [], {}

    def name(self, type_):
        """The name of a type that an entry refers to."""
        word, of = type_
        if word == 'builtin':
            name = 'int' if of in RANGES else of
        elif word == 'array':
            # Its element is put behind when the entry of the array is read.
            name = '[%s]' % self.plain_name(of)
        else:
            name = self.plain_name(type_)
        if name not in self.names.values():
            self.waiting.append((name, type_))
        self.names[type_] = name
        return name

    def plain_name(self, type_):
        """The name of a type that is no array, without a reference to it."""
        if type_[0] == 'builtin':
            return 'int' if type_[1] in RANGES else type_[1]
        return self.numbers.setdefault(type_, str(len(self.numbers)))

    def read_through(self):
        for name in self.table.names('command', 'event'):
            self.entries.append(self.called(name))
        # The references of the commands and events, then those of each type in turn.
        for entry in self.entries:
            for key in ('arg-type', 'ret-type'):
                if key in entry:
                    entry[key] = self.name(entry[key])
        for name, type_ in self.waiting:
            self.entries.append(self.described(name, type_))
        return self.entries, self.names

    def called(self, name):
        told = self.table.of_name[name]
        entry = {'name': name, 'meta-type': R.kind_of(told), 'arg-type': self.table.argument(name)}
        if R.kind_of(told) == 'command':
            entry['ret-type'] = self.table.returned(name)
            if told.get('allow-oob', False):
                entry['allow-oob'] = True
        return with_features(entry, features_of(told))

    def described(self, name, type_):
        sort = self.table.sort(type_)
        entry = {'name': name, 'meta-type': sort}
        if sort == 'builtin':
            entry['json-type'] = JSON_TYPES[name]
        elif sort == 'array':
            entry['element-type'] = self.name(type_[1])
        elif sort == 'enum':
            values = self.table.values(type_[1])
            entry['members'] = [with_features({'name': it}, features) for it, features in values]
            entry['values'] = [it for it, _ in values]
        elif sort == 'alternate':
            entry['members'] = [{'type': self.name(it)} for it in self.table.alternatives(type_)]
        else:
            self.describe_object(entry, type_)
        features = self.table.of_name.get(type_[1], {}) if type_[0] == 'named' else {}
        return with_features(entry, features_of(features))

    def describe_object(self, entry, type_):
        entry['members'] = [self.member(it) for it in self.table.members(type_)]
        tag = self.table.tag(type_)
        if tag is None:
            return
        entry['tag'] = tag
        of_tag = next(it.type for it in self.table.members(type_) if it.name == tag)
        branches = self.table.branches(type_)
        entry['variants'] = [{'case': value, 'type': self.name(branches.get(value, EMPTY))}
                             for value, _ in self.table.values(of_tag[1])]

    def member(self, member):
        entry = {'name': member.name, 'type': self.name(member.type)}
        if member.optional:
            entry['default'] = None
        return with_features(entry, member.features)


def with_features(entry, features):
    if features:
        entry['features'] = features
    return entry


class Reader:
    """A client who knows the array alone."""

    def __init__(self, array):
        self.of_name = {it['name']: it for it in array if it['meta-type'] not in ('command', 'event')}

    def admits(self, name, value):
        entry, kind = self.of_name[name], kind_of(value)
        meta = entry['meta-type']
        if meta == 'builtin':
            wanted = entry['json-type']
            return wanted == 'value' or (is_whole(value) if wanted == 'int' else kind == wanted)
        if meta == 'enum':
            return kind == 'string' and value in entry['values']
        if meta == 'array':
            return kind == 'array' and all(self.admits(entry['element-type'], it) for it in value)
        if meta == 'alternate':
            return any(self.admits(it['type'], value) for it in entry['members'])
        if kind != 'object':
            return False
        members = self.members(entry, value)
        types = {it['name']: it['type'] for it in members}
        return all('default' in it or it['name'] in value for it in members) and all(
            it in types and self.admits(types[it], value[it]) for it in value)

    def members(self, entry, value):
        """The members that an object may have: those listed, and those of its tag's variant."""
        out = list(entry['members'])
        if 'tag' in entry:
            chosen = value.get(entry['tag'])
            for variant in entry['variants']:
                if isinstance(chosen, str) and variant['case'] == chosen:
                    out += self.members(self.of_name[variant['type']], value)
        return out
