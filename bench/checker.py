"""A checker of schemas in Python, written from the rules of the README alone.

A schema is a list of (file, line, expression), an expression a dictionary in the order of
its text. The answer is the line that `check` puts. Names are looked at plainly, and the
names along branches by going down each choice of branches: it is for small schemas.
"""
import re

BUILTINS = ['str', 'number', 'int', 'int8', 'int16', 'int32', 'int64', 'uint8', 'uint16', 'uint32', 'uint64',
            'size', 'bool', 'null', 'any', 'QType']
WHOLE = set(BUILTINS[2:12])
QTYPE = ['none', 'qnull', 'qnum', 'qstring', 'qdict', 'qlist', 'qbool']
KINDS = ['enum', 'struct', 'union', 'alternate', 'command', 'event']

PRELUDE = [
    {'enum': 'QMPCapability', 'data': ['oob']},
    {'command': 'qmp_capabilities', 'data': {'*enable': ['QMPCapability']}, 'allow-preconfig': True},
    {'struct': 'VersionTriple', 'data': {'micro': 'int', 'minor': 'int', 'major': 'int'}},
    {'struct': 'VersionInfo', 'data': {'qemu': 'VersionTriple', 'package': 'str'}},
    {'command': 'query-version', 'returns': 'VersionInfo', 'allow-preconfig': True},
    {'struct': 'CommandInfo', 'data': {'name': 'str'}},
    {'command': 'query-commands', 'returns': ['CommandInfo'], 'allow-preconfig': True},
    {'command': 'query-qmp-schema', 'returns': ['any'], 'allow-preconfig': True},
    {'enum': 'JobStatus', 'data': ['undefined', 'created', 'running', 'paused', 'ready', 'standby',
                                   'waiting', 'pending', 'aborting', 'concluded', 'null']},
    {'struct': 'JobInfo', 'data': {'id': 'str', 'status': 'JobStatus',
                                   'current-progress': 'int', 'total-progress': 'int'}},
    {'command': 'query-jobs', 'returns': ['JobInfo']},
    {'command': 'job-cancel', 'data': {'id': 'str'}},
    {'command': 'job-pause', 'data': {'id': 'str'}},
    {'command': 'job-resume', 'data': {'id': 'str'}},
    {'command': 'job-complete', 'data': {'id': 'str'}},
    {'command': 'job-finalize', 'data': {'id': 'str'}},
    {'command': 'job-dismiss', 'data': {'id': 'str'}},
    {'command': 'quit', 'allow-preconfig': True},
    {'event': 'JOB_STATUS_CHANGE', 'data': {'id': 'str', 'status': 'JobStatus'}},
]


class Fault(Exception):
    pass


def holds(cond, defines):
    if isinstance(cond, str):
        return cond in defines
    (key, value), = cond.items()
    if key == 'all':
        return all(holds(c, defines) for c in value)
    if key == 'any':
        return any(holds(c, defines) for c in value)
    return not holds(value, defines)


def stands(thing, defines):
    return not (isinstance(thing, dict) and 'if' in thing) or holds(thing['if'], defines)


def kind_of(expr):
    kinds = [k for k in expr if k in KINDS]
    assert len(kinds) == 1
    return kinds[0]


def without_conditions(expr, defines):
    """The expression with what conditions take out left out; None where it is taken out itself."""
    if not stands(expr, defines):
        return None
    kind = kind_of(expr)
    out = {}
    for key, value in expr.items():
        if key == 'if':
            continue
        if key == 'features':
            out[key] = [f for f in value if stands(f, defines)]
        elif key == 'data' and isinstance(value, list):
            vs = []
            for v in value:
                if stands(v, defines):
                    if isinstance(v, dict) and 'features' in v:
                        v = {k: ([f for f in x if stands(f, defines)] if k == 'features' else x) for k, x in v.items()}
                    vs.append(v)
            out[key] = vs
        elif key in ('data', 'base') and isinstance(value, dict):
            ms = {}
            for n, m in value.items():
                if stands(m, defines):
                    if isinstance(m, dict) and 'features' in m:
                        m = {k: ([f for f in x if stands(f, defines)] if k == 'features' else x) for k, x in m.items()}
                    ms[n] = m
            out[key] = ms
        else:
            out[key] = value
    return out


def fname(f):
    return f if isinstance(f, str) else f['name']


def unstar(name):
    return name[1:] if name.startswith('*') else name


def is_name(name, value=False):
    b = name.encode('latin1') if isinstance(name, str) else name
    name = b.decode('latin1')
    if not 1 <= len(name) <= 256:
        return False
    if name.startswith('q_'):
        return False
    first = '[A-Za-z0-9]' if value else '[A-Za-z]'
    return re.fullmatch(r'(__[A-Za-z0-9.\-]+_)?' + first + r'[A-Za-z0-9\-_]*', name) is not None


def ref_of(x):
    """(name, is_array) of a reference, or of a member or branch with `type`."""
    if isinstance(x, dict):
        x = x['type']
    if isinstance(x, list):
        return x[0], True
    return x, False


class D:
    def __init__(self, file, line, expr):
        self.file, self.line, self.expr = file, line, expr
        self.kind = kind_of(expr)
        self.name = expr[self.kind]


def names_inside(d):
    """(name, is_value, printed) in the order of the text."""
    for key, value in d.expr.items():
        if key == 'features':
            for f in value:
                yield fname(f), False, unstar(fname(f))
        elif key == 'data' and d.kind == 'enum':
            for v in value:
                if isinstance(v, str):
                    yield v, True, unstar(v)
                else:
                    for k, x in v.items():
                        if k == 'name':
                            yield x, True, unstar(x)
                        elif k == 'features':
                            for f in x:
                                yield fname(f), False, unstar(fname(f))
        elif key == 'data' and d.kind in ('union', 'alternate'):
            for n in value:
                yield n, d.kind == 'union', unstar(n)
        elif key in ('data', 'base') and isinstance(value, dict):
            for n, m in value.items():
                yield unstar(n), False, unstar(n)
                if isinstance(m, dict):
                    for f in m.get('features', []):
                        yield fname(f), False, unstar(fname(f))


def clash_a(d):
    """First name that stands a second time in one list, in the order of the text."""
    def feats(fs):
        seen = set()
        for f in fs:
            if fname(f) in seen:
                raise Clash(unstar(fname(f)))
            seen.add(fname(f))

    class Clash(Exception):
        pass
    try:
        for key, value in d.expr.items():
            if key == 'features':
                feats(value)
            elif key == 'data' and d.kind == 'enum':
                seen = set()
                for v in value:
                    items = [('name', v)] if isinstance(v, str) else list(v.items())
                    for k, x in items:
                        if k == 'name':
                            if x in seen:
                                raise Clash(unstar(x))
                            seen.add(x)
                        elif k == 'features':
                            feats(x)
            elif key == 'data' and d.kind in ('union', 'alternate'):
                pass            # keys are distinct
            elif key in ('data', 'base') and isinstance(value, dict):
                seen = set()
                for n, m in value.items():
                    if unstar(n) in seen:
                        raise Clash(unstar(n))
                    seen.add(unstar(n))
                    if isinstance(m, dict):
                        feats(m.get('features', []))
    except Clash as c:
        return c.args[0]
    return None


def references(d):
    for key, value in d.expr.items():
        if key == 'data' and d.kind in ('union', 'alternate'):
            for x in value.values():
                yield ref_of(x)[0]
        elif key == 'base' or (key == 'data' and d.kind != 'enum'):
            if isinstance(value, str):
                yield value
            else:
                for x in value.values():
                    yield ref_of(x)[0]
        elif key == 'returns':
            yield ref_of(value)[0]


def run(sources, defines):
    """sources: list of (file, line, expr)."""
    prelude_names = {kind_of(e) and e[kind_of(e)] for e in PRELUDE}
    defs = []
    for file, line, expr in sources:
        e = without_conditions(expr, defines)
        if e is None:
            continue
        d = D(file, line, e)
        if d.name in prelude_names:
            continue
        defs.append(d)
    pre = [D('', 0, e) for e in PRELUDE]
    everything = pre + defs

    def fault(d, rule, name):
        raise Fault(f'error: schema {d.file} line {d.line}: {rule} {name}')
    # A
    earlier = set(BUILTINS) | {d.name for d in pre}
    for d in defs:
        if not is_name(d.name):
            fault(d, 'bad-name', unstar(d.name))
        for n, value, printed in names_inside(d):
            if not is_name(n, value):
                fault(d, 'bad-name', printed)
        if d.kind == 'command' and d.expr.get('success-response', True) is False:
            fault(d, 'no-success-response', unstar(d.name))
        if d.name in earlier:
            fault(d, 'redefined', unstar(d.name))
        earlier.add(d.name)
        c = clash_a(d)
        if c is not None:
            fault(d, 'member-clash', c)
    types = {d.name: d for d in everything if d.kind in ('enum', 'struct', 'union', 'alternate')}

    def is_type(n):
        return n in BUILTINS or n in types

    def kind_of_name(n):
        return types[n].kind if n in types else None

    def bases(d):
        """The line of bases, d first; may run in a circle."""
        line = [d]
        while True:
            b = line[-1].expr.get('base')
            if not isinstance(b, str) or b not in types or types[b].kind not in ('struct',) or types[b] in line:
                return line
            line.append(types[b])

    def base_members(d):
        """Members of a union's base, those of the bases' bases too: list of (name, optional, ref)."""
        b = d.expr.get('base')
        out = []
        if isinstance(b, dict):
            for n, m in b.items():
                out.append((unstar(n), n.startswith('*'), ref_of(m)))
        elif isinstance(b, str) and b in types:
            for s in reversed(bases(types[b])):
                for n, m in s.expr['data'].items():
                    out.append((unstar(n), n.startswith('*'), ref_of(m)))
        return out

    def is_enum(ref):
        n, arr = ref
        return not arr and (n == 'QType' or kind_of_name(n) == 'enum')

    def values_of(n):
        if n == 'QType':
            return QTYPE
        return [v if isinstance(v, str) else v['name'] for v in types[n].expr['data']]

    def json_kind(ref):
        n, arr = ref
        if arr:
            return 'array'
        if n in WHOLE or n == 'number':
            return 'number'
        if n in ('str', 'QType'):
            return 'string'
        if n == 'bool':
            return 'boolean'
        if n == 'null':
            return 'null'
        k = kind_of_name(n)
        return {'enum': 'string', 'struct': 'object', 'union': 'object'}[k]
    # B
    for d in defs:
        for n in references(d):
            if not is_type(n):
                fault(d, 'unknown-type', unstar(n))
        b = d.expr.get('base')
        if isinstance(b, str) and kind_of_name(b) != 'struct':
            fault(d, 'bad-base', unstar(b))
        tag = None
        if d.kind == 'union':
            disc = d.expr['discriminator']
            found = [r for n, opt, r in base_members(d) if n == disc and not opt and is_enum(r)]
            if not found:
                fault(d, 'bad-discriminator', unstar(disc))
            tag = found[0]
            for n in d.expr['data']:
                if n not in values_of(tag[0]):
                    fault(d, 'unknown-branch', unstar(n))
        # BadData in text order over keys
        value = d.expr.get('data')
        if d.kind == 'union':
            for n, x in value.items():
                r = ref_of(x)
                if r[1] or kind_of_name(r[0]) not in ('struct', 'union'):
                    fault(d, 'bad-data', unstar(n))
        elif d.kind == 'alternate':
            for n, x in value.items():
                r = ref_of(x)
                if not r[1] and (r[0] == 'any' or kind_of_name(r[0]) == 'alternate'):
                    fault(d, 'bad-data', unstar(n))
        elif d.kind in ('command', 'event') and isinstance(value, str):
            k = kind_of_name(value)
            if k not in ('struct', 'union') or (k == 'union' and not d.expr.get('boxed', False)):
                fault(d, 'bad-data', unstar(value))
        if d.kind == 'alternate':
            seen = set()
            for n, x in value.items():
                k = json_kind(ref_of(x))
                if k in seen:
                    fault(d, 'kind-clash', unstar(n))
                seen.add(k)
    # C
    graph = {}
    for d in defs:
        out = []
        b = d.expr.get('base')
        if d.kind in ('struct', 'union') and isinstance(b, str):
            out.append(b)
        if d.kind == 'union':
            out += [ref_of(x)[0] for x in d.expr['data'].values()]
        graph[d.name] = [n for n in out if n in types]

    def reach(n):
        seen, todo = set(), list(graph.get(n, []))
        while todo:
            m = todo.pop()
            if m not in seen:
                seen.add(m)
                todo += graph.get(m, [])
        return seen
    for d in defs:
        if d.kind in ('struct', 'union') and d.name in reach(d.name):
            fault(d, 'base-cycle', unstar(d.name))
    # D

    def own(d):
        out = []
        if d.kind == 'union':
            out += [n for n, _, _ in base_members(d)]
        elif d.kind == 'struct':
            for s in reversed(bases(d)):
                out += [unstar(n) for n in s.expr['data']]
        return out
    def walk(d, seen):
        seen = list(seen)
        for n in own(d):
            if n in seen:
                return n
            seen.append(n)
        if d.kind == 'union':
            for x in d.expr['data'].values():
                c = walk(types[ref_of(x)[0]], seen)
                if c is not None:
                    return c
        return None
    for d in defs:
        if d.kind in ('struct', 'union'):
            c = walk(d, [])
            if c is not None:
                fault(d, 'member-clash', c)
    commands = sum(d.kind == 'command' for d in everything)
    events = sum(d.kind == 'event' for d in everything)
    return f'ok {commands} commands, {events} events, {len(types)} types'


def check(sources, defines):
    try:
        return run(sources, defines)
    except Fault as f:
        return f.args[0]
