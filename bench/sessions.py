"""What a script of several sessions puts, in Python, written from the rules alone.

A `Player` takes the lines of a script one by one and keeps the lines of the transcript. It
stands on bench/frames.py for the inputs of a session, and on bench/bindings.py for what a
command does. Not in it: events, jobs and `tick`, which are not built; a session that overruns;
want of memory.
"""
import re

import bindings as B
import frames
import json_texts as T

GREETING = T.printed(B.GREETING)
MOST_SESSIONS = 65535
# The limits of a run: entries and bytes of their lines, with so many kept for each open session's end.
MOST_ENTRIES, MOST_BYTES, BYTES_OF_DROP = 1000000, 268435456, 64
# In-band requests of a session that may wait or run, by its mode.
BOUNDS = {B.NEGOTIATING: 1, B.COMMAND: 1, B.COMMAND_OOB: 8}
CAUSES = ['ended', 'read-fault', 'write-fault', 'overrun', 'stopped', 'limit', 'memory', 'halted']
DECIMAL = '(0|[1-9][0-9]*)'
# The lines of a script: the step, its form, and the greatest of each number in it.
FORMS = [('open', 'open', []), ('text', DECIMAL + ' (.*)', [32]), ('feed', DECIMAL + ' ((?:[0-9a-f]{2})+)', [32]),
         ('admit', DECIMAL, [32]), ('start', 'start', []), ('finish', DECIMAL, [64]),
         ('oob', DECIMAL + ' ' + DECIMAL, [32, 64]), ('take', DECIMAL, [32]), ('eof', DECIMAL, [32]),
         ('drop', DECIMAL + f' ({"|".join(CAUSES)})', [32])]
BAD_TEXTS = {'lex-error': 'lexical error', 'unbalanced': 'unbalanced bracket',
             'too-deep': 'nesting is deeper than 128', 'too-long': 'message is longer than 1048576 bytes',
             'expected': 'syntax error', 'duplicate': 'duplicate member', 'bad-escape': 'bad escape',
             'bad-utf8': 'bad UTF-8'}
FULL = ['journal-full', 'sessions-full']


class Refused(Exception):
    """The refusal of a step or of a line, by its word."""

    def __init__(self, word):
        super().__init__(word)
        self.word = word


def refuse(*cases):
    """Refuses by the first word whose condition holds."""
    for holds, word in cases:
        if holds:
            raise Refused(word)


class Request:
    """A request that was admitted."""

    def __init__(self, session, number, input_, mode, lane):
        self.session, self.number, self.input = session, number, input_
        self.mode, self.lane = mode, lane


class Session:
    def __init__(self, number):
        self.number = number
        self.framer, self.admitted, self.mode = frames.Framer(), 0, B.NEGOTIATING
        # In-band requests in their order, the out-of-band one, and the entry of the last start.
        self.waiting, self.urgent, self.last_start = [], None, 0
        self.lines, self.has_ended, self.is_dropped = [GREETING], False, False

    def unread(self):
        """The inputs that are not yet admitted."""
        return self.framer.inputs[self.admitted:]


class Player:
    """Plays lines over commands as bench/bindings.py has them, with a limit of entries and one of bytes."""

    def __init__(self, commands, entries=MOST_ENTRIES, size=MOST_BYTES):
        self.commands, self.entries, self.size = commands, entries, size
        self.sessions, self.running, self.moment = [], None, 0
        self.lines, self.transcript, self.length = 0, [], 0
        self.refusal = None

    def line(self, line):
        """Plays a line of a script, and tells whether it was not refused."""
        self.lines += 1
        if line == '' or line.startswith('#'):
            return True
        try:
            step, words = words_of(line)
            getattr(self, step)(*words)
        except Refused as refused:
            self.refusal = refused.word
        return self.refusal is None

    def ended(self):
        """The status of the run, and all that it puts."""
        if self.refusal is None:
            return 0, ''.join(self.transcript) + f'end {len(self.transcript)}\n'
        last = f'error: script line {self.lines}: {self.refusal}\n'
        return 9 if self.refusal in FULL else 5, ''.join(self.transcript) + last

    # What stands.

    def session(self, number):
        if not 1 <= number <= len(self.sessions):
            raise Refused('no-session')
        if self.sessions[number - 1].is_dropped:
            raise Refused('closed')
        return self.sessions[number - 1]

    def live(self):
        """The open sessions."""
        return [it for it in self.sessions if not it.is_dropped]

    def in_flight(self, session):
        """How many in-band requests of a session wait or run."""
        return len(session.waiting) + self.runs(session)

    def runs(self, session):
        return self.running is not None and self.running.session is session

    def is_drained(self, session):
        is_busy = session.waiting or session.urgent or self.runs(session)
        return session.has_ended and not is_busy and not session.lines

    def turn(self):
        """The session whose request is started next, or None."""
        waiting = [it for it in self.live() if it.waiting]
        return min(waiting, key=lambda it: (it.last_start, it.number), default=None)

    def put(self, entry, opened=0):
        """Puts an entry that opens so many sessions, where the journal has room for it."""
        kept = len(self.live()) + opened
        line = f'{len(self.transcript) + 1} {entry}\n'
        if len(self.transcript) + 1 + kept > self.entries:
            raise Refused('journal-full')
        if self.length + len(line) + BYTES_OF_DROP * kept > self.size:
            raise Refused('journal-full')
        self.put_kept(line)

    def put_kept(self, line):
        """Puts a line for which there is room."""
        self.transcript.append(line)
        self.length += len(line)

    # The steps, which begin with their refusals.

    def open(self):
        refuse((self.commands.is_stopped, 'stopping'), (len(self.sessions) == MOST_SESSIONS, 'sessions-full'))
        self.put(f'open {len(self.sessions) + 1}', opened=1)
        self.sessions.append(Session(len(self.sessions) + 1))

    def text(self, number, rest):
        self.session(number).framer.take(rest.encode() + b'\n')

    def feed(self, number, digits):
        self.session(number).framer.take(bytes.fromhex(digits))

    def admit(self, number):
        session = self.session(number)
        refuse((not session.unread(), 'no-frame'))
        input_ = session.unread()[0]
        lane = B.lane_of(input_, session.mode)
        is_busy = lane == B.IN_BAND and self.in_flight(session) >= BOUNDS[session.mode]
        refuse((session.has_ended, 'input-ended'), (self.commands.is_stopped, 'stopping'),
                    (session.urgent is not None, 'oob-open'), (is_busy, 'busy'))
        request = Request(session, session.admitted + 1, input_, session.mode, lane)
        self.put(f'admit {number} {request.number} {lane} {shown(input_)}')
        session.admitted += 1
        if lane == B.IN_BAND:
            session.waiting.append(request)
        else:
            session.urgent = request

    def start(self):
        session = self.turn()
        refuse((self.commands.is_stopped, 'stopping'), (self.running is not None or session is None, 'nothing'))
        self.put(f'start {session.number} {session.waiting[0].number}')
        self.running, session.last_start = session.waiting.pop(0), len(self.transcript)

    def finish(self, moment):
        refuse((self.running is None, 'not-running'))
        self.reply('done', self.running, moment)
        self.running = None

    def oob(self, number, moment):
        session = self.session(number)
        refuse((session.urgent is None, 'not-open'))
        self.reply('oob-done', session.urgent, moment)
        session.urgent = None

    def reply(self, word, request, moment):
        """Replies to a request, whose session may be dropped. A refusal ends the run, whatever it leaves."""
        session = request.session
        reply, mode = self.answer(request)
        self.moment = max(self.moment, moment)
        text = T.printed(reply)
        self.put(f'{word} {session.number} {request.number} @{self.moment} {text}')
        session.mode = mode
        if not session.is_dropped:
            session.lines.append(text)

    def answer(self, request):
        if isinstance(request.input, frames.Bad):
            return B.error(B.Failure(bad_text(request.input.fault))), request.mode
        return self.commands.reply(request.input, request.mode)

    def take(self, number):
        session = self.session(number)
        refuse((not session.lines, 'nothing'))
        self.put('\n> '.join([f'take {number} {len(session.lines)}'] + session.lines))
        session.lines = []

    def eof(self, number):
        session = self.session(number)
        refuse((session.has_ended, 'input-ended'))
        self.put(f'eof {number}')
        session.has_ended = True

    def drop(self, number, cause):
        session = self.session(number)
        is_wrong = cause == 'overrun' or (cause == 'stopped' and not self.commands.is_stopped)
        refuse((cause == 'ended' and not self.is_drained(session), 'not-drained'), (is_wrong, 'wrong-cause'))
        self.put_kept(f'{len(self.transcript) + 1} drop {number} {cause}\n')
        session.is_dropped, session.waiting, session.urgent = True, [], None


def words_of(line):
    """The step of a line and its words, of which numbers are numbers."""
    for step, form, bits in FORMS:
        found = re.fullmatch(form if form == step else f'{step} {form}', line)
        if found is None:
            continue
        words = list(found.groups())
        numbers = [int(it) for it in words[:len(bits)]]
        if any(it >= 2 ** width for it, width in zip(numbers, bits)):
            break
        return step, numbers + words[len(bits):]
    raise Refused('bad-line')


def shown(input_):
    """An input as the entry of its admission shows it."""
    return f'bad {input_.fault}' if isinstance(input_, frames.Bad) else T.printed(input_)


def bad_text(fault):
    word, *place = fault.split()
    return f'Invalid JSON: {BAD_TEXTS[word]}' + (f' at byte {place[0]}' if place else '')
