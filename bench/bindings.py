"""What a bind file says of a schema's commands, in Python, written from the rules alone.

`binding_of` takes the text of a bind file and a table as bench/admission.py has it, and
gives the binding or raises the first refusal. `Commands` answers the requests of any
session by a binding: events and jobs are not built. A recipe, an act and a template stand
as they do in the file. A mode is that of a session at the admission of a request.
"""
import admission as A
import checker as R
import json_texts as T

ABSENT = object()
VERSION = {'qemu': {'micro': 0, 'minor': 0, 'major': 1}, 'package': 'qmpd'}
GREETING = {'QMP': {'version': VERSION, 'capabilities': ['oob']}}
NEGOTIATING, COMMAND, COMMAND_OOB = 'Negotiating', 'Command', 'CommandOob'
IN_BAND, URGENT = 'in', 'oob'
SHAPES = {'cells': dict, 'tallies': list, 'commands': dict, 'events': dict}
BEFORE = {it['command'] for it in R.PRELUDE if 'command' in it}
NOT_BUILT = {it for it in BEFORE if it.startswith('job-')} | {'query-jobs'}


class Refusal(Exception):
    """The first refusal of a bind file, as `check` and `replay` put it."""

    def __init__(self, rule, name=None):
        super().__init__(rule)
        self.rule, self.name = rule, name

    def line(self, file):
        return f'error: bind {file}: {self.rule}' + ('' if self.name is None else f' {self.name}')


class Undecided(Exception):
    """A recipe that raises an event which the schema lacks: a matter of events, not of this model."""


class Binding:
    def __init__(self, cells, tallies, recipes):
        self.cells, self.tallies, self.recipes = cells, tallies, recipes


def binding_of(text, table):
    try:
        value = T.read(text)
    except T.Fault as fault:
        raise Refusal('not-json', str(fault))
    if not is_shaped(value):
        raise Refusal('bad-recipe')
    cells, tallies = value.get('cells', {}), value.get('tallies', [])
    recipes = value.get('commands', {})
    for place, name in enumerate(tallies):
        if name in cells or name in tallies[:place]:
            raise Refusal('twice', name)
    for name, recipe in recipes.items():
        if name in BEFORE or name not in table.names('command'):
            raise Refusal('unknown-command', name)
        if raises_unknown(recipe, table.names('event')):
            raise Undecided
        if not Judge(table, cells, tallies, possible_members(table, table.argument(name))).is_recipe(recipe):
            raise Refusal('bad-recipe', name)
    for name in value.get('events', {}):
        raise Refusal('bad-period', name)
    return Binding(cells, tallies, recipes)


def is_shaped(value):
    if not isinstance(value, dict) or any(name not in SHAPES for name in value):
        return False
    shaped = all(isinstance(it, SHAPES[name]) for name, it in value.items())
    return shaped and all(isinstance(it, str) for it in value.get('tallies', []))


def possible_members(table, type_):
    """The names that an object of the type may have, whatever its tags; None where any name is possible."""
    if type_ == A.ANY:
        return None
    names = {it.name for it in table.members(type_)}
    if table.tag(type_) is not None:
        for branch in table.branches(type_).values():
            names |= possible_members(table, branch)
    return names


def raises_unknown(recipe, events):
    """Whether an act of the recipe raises an event that the schema lacks."""
    acts = recipe.get('acts') if isinstance(recipe, dict) else None
    raised = [it.get('raise') for it in acts if isinstance(it, dict)] if isinstance(acts, list) else []
    return any(isinstance(it, str) and it not in events for it in raised)


class Judge:
    """Judges the recipe of a command whose arguments have the members."""

    def __init__(self, table, cells, tallies, members):
        self.table, self.cells, self.tallies, self.members = table, cells, tallies, members

    def is_recipe(self, told):
        if not isinstance(told, dict) or any(it not in ('acts', 'return', 'wait') for it in told):
            return False
        acts = told.get('acts', [])
        if not isinstance(acts, list) or not all(map(self.is_act, acts)):
            return False
        if 'wait' in told and (told['wait'] not in ('hold', 'free') or acts):
            return False
        return 'return' not in told or self.is_template(told['return'])

    def is_act(self, told):
        if not isinstance(told, dict):
            return False
        if set(told) == {'set', 'to'}:
            return is_name(told['set'], self.cells) and self.is_template(told['to'])
        if set(told) == {'add', 'by'}:
            return is_name(told['add'], self.tallies) and A.is_whole(told['by']) and 1 <= told['by'] <= 2 ** 32 - 1
        return set(told) == {'fail'} and isinstance(told['fail'], str)

    def is_template(self, told):
        if not isinstance(told, dict) or len(told) != 1:
            return False
        (word, of), = told.items()
        if word == 'arg':
            return isinstance(of, str) and (self.members is None or of in self.members)
        if word == 'object':
            return isinstance(of, dict) and all(map(self.is_template, of.values()))
        if word == 'array':
            return isinstance(of, list) and all(map(self.is_template, of))
        names = {'cell': self.cells, 'tally': self.tallies}
        return word == 'const' or (word == 'args' and of is True) or (word in names and is_name(of, names[word]))


def is_name(told, names):
    return isinstance(told, str) and told in names


class Failure(Exception):
    """The failure of a request: the class and the text of its reply."""

    def __init__(self, text, sort='GenericError'):
        super().__init__(text)
        self.text, self.sort = text, sort


class Store:
    """The values of the cells and of the tallies."""

    def __init__(self, cells, tallies):
        self.cells, self.tallies = dict(cells), dict(tallies)

    def value(self, template, arguments):
        """What a template stands for, or ABSENT."""
        (word, of), = template.items()
        if word == 'object':
            pairs = [(name, self.value(it, arguments)) for name, it in of.items()]
            return {name: it for name, it in pairs if it is not ABSENT}
        if word == 'array':
            return [it for it in [self.value(it, arguments) for it in of] if it is not ABSENT]
        if word == 'arg':
            return arguments.get(of, ABSENT)
        return {'const': lambda: of, 'args': lambda: arguments,
                'cell': lambda: self.cells[of], 'tally': lambda: self.tallies[of]}[word]()

    def act(self, act, arguments):
        if 'fail' in act:
            raise Failure(act['fail'])
        if 'add' in act:
            self.tallies[act['add']] += act['by']
            return
        value = self.value(act['to'], arguments)
        if value is not ABSENT:
            self.cells[act['set']] = value

    def returned(self, recipe, arguments):
        """What a recipe returns, after its acts."""
        for act in recipe.get('acts', []):
            self.act(act, arguments)
        value = self.value(recipe.get('return', {'const': {}}), arguments)
        return {} if value is ABSENT else value


def lane_of(request, mode):
    """The lane of a request, a JSON value, that is admitted in a mode."""
    is_urgent = isinstance(request, dict) and 'exec-oob' in request and 'execute' not in request
    return URGENT if mode == COMMAND_OOB and is_urgent else IN_BAND


def error(failure):
    """The reply of a failure, without an id."""
    return {'error': {'class': failure.sort, 'desc': failure.text}}


def members_of(request, mode):
    """The name of the command and the arguments, where a request has the form of one."""
    if not isinstance(request, dict):
        raise Failure('QMP input must be a JSON object')
    verbs = ['execute', 'exec-oob'] if mode == COMMAND_OOB else ['execute']
    for member in request:
        if member not in verbs + ['arguments', 'id']:
            raise Failure(f"QMP input member '{member}' is unexpected")
    chosen = [it for it in verbs if it in request]
    if len(chosen) == 2:
        raise Failure("QMP input has both 'execute' and 'exec-oob'")
    if not chosen:
        raise Failure("QMP input lacks member 'execute'")
    name, arguments = request[chosen[0]], request.get('arguments', {})
    if not isinstance(name, str):
        raise Failure(f"QMP input member '{chosen[0]}' must be a string")
    if not isinstance(arguments, dict):
        raise Failure("QMP input member 'arguments' must be an object")
    return name, arguments


class Commands:
    """The commands of all sessions, by what their replies leave behind."""

    def __init__(self, table, binding):
        self.table, self.binding = table, binding
        self.store = Store(binding.cells, dict.fromkeys(binding.tallies, 0))
        self.is_stopped = False

    def reply(self, request, mode):
        """The reply to a request, a JSON value, that was admitted in a mode; and the mode that it leads to."""
        try:
            name, arguments = self.called(request, mode)
            reply = {'return': self.done(name, arguments)}
            mode = mode_after(name, arguments, mode)
        except Failure as failure:
            reply = error(failure)
        if isinstance(request, dict) and 'id' in request:
            reply['id'] = request['id']
        return reply, mode

    def called(self, request, mode):
        """The command and the arguments, where the verdict lets them through."""
        name, arguments = members_of(request, mode)
        self.look_for(name, mode)
        if lane_of(request, mode) == URGENT and not self.table.of_name[name].get('allow-oob', False):
            raise Failure(f'The command {name} does not support OOB')
        fault = self.table.fault(self.table.argument(name), arguments)
        if fault:
            raise Failure(A.fault_text(fault))
        return name, arguments

    def look_for(self, name, mode):
        if mode == NEGOTIATING and name != 'qmp_capabilities':
            raise Failure("Expecting capabilities negotiation with 'qmp_capabilities'", 'CommandNotFound')
        if mode != NEGOTIATING and name == 'qmp_capabilities':
            raise Failure('Capabilities negotiation is already complete, command ignored', 'CommandNotFound')
        if name not in self.table.names('command'):
            raise Failure(f'The command {name} has not been found', 'CommandNotFound')

    def done(self, name, arguments):
        """What a command returns. One that fails leaves nothing."""
        if name in BEFORE:
            return self.done_before(name)
        store = Store(self.store.cells, self.store.tallies)
        value = store.returned(self.binding.recipes.get(name, {}), arguments)
        if not self.table.fits(self.table.returned(name), value):
            raise Failure('The return value does not fit its type')
        self.store = store
        return value

    def done_before(self, name):
        """What a command returns that stands before each schema."""
        if name in NOT_BUILT:
            raise Failure(f'The command {name} is not built')
        self.is_stopped = self.is_stopped or name == 'quit'
        returned = {'query-version': lambda: VERSION, 'query-qmp-schema': lambda: self.table.introspection()[0],
                    'query-commands': lambda: [{'name': it} for it in self.table.names('command')]}
        return returned.get(name, dict)()


def mode_after(name, arguments, mode):
    """The mode of a session after a command that did not fail."""
    if name != 'qmp_capabilities':
        return mode
    return COMMAND_OOB if 'oob' in arguments.get('enable', []) else COMMAND
