"""What the tests of the pages share: the pages' tables, sessions and lines, and a box to send the lines to.

A cell of a table is a text in which these are read, one after the other:

    `VOLT 5`            a line that is sent
    answers `5.0`       what the line before it answers; a line without it answers nothing
    *17 times*          the line before it is sent so many times
    *not read*          the answer of the line before it isn't taken
    *a read*            an answer is taken
    *key turned*, *key back*, *operation begins*, *warning begins*     a condition that the power stage reports

In a line ⟨EF BB BF⟩ stands for bytes and ⟨46 × *IDN?;⟩ for a text so many times (`blank` for a blank). The expected answers are the
page's, never the program's."""
import os
import re
import subprocess
import sys

TESTS = os.path.dirname(os.path.abspath(__file__))
ROOT = os.path.dirname(TESTS)
NO_ERROR = '0,"No error"'
# No answer is longer.
ROOM = 4096
# The player's letter of a condition, and its value.
CONDITIONS = {'key turned': ('k', 1), 'key back': ('k', 0), 'operation begins': ('c', 1), 'warning begins': ('w', 1)}
EVENTS = set(CONDITIONS) | {'not read', 'a read'}


# ---- the box

def command(name):
    """The words that start a program of the repository on this machine."""
    try:
        told = subprocess.run([os.path.join(TESTS, 'start'), '--show', name], stdout=subprocess.PIPE, stderr=subprocess.PIPE)
    except OSError as error:
        sys.exit('tests/start: %s' % error.strerror)
    if told.returncode:
        sys.exit(told.stderr.decode().strip())
    return told.stdout.decode().splitlines()


class Program:
    """A program of the repository that answers lines with lines."""
    words = {}

    def __init__(self, name):
        if name not in self.words:
            self.words[name] = command(name)
        self.run = subprocess.Popen(self.words[name], stdin=subprocess.PIPE, stdout=subprocess.PIPE)

    def write(self, text):
        self.run.stdin.write(text)
        self.run.stdin.flush()

    def line(self):
        told = self.run.stdout.readline()
        if not told.endswith(b'\n'):
            sys.exit('%s stopped' % self.run.args[-1])
        return told[:-1].decode('latin-1')

    def __enter__(self):
        return self

    def __exit__(self, *error):
        self.run.stdin.close()
        self.run.stdout.close()
        self.run.wait()


class Bench(Program):
    """bench24 from power-up: lines only, and each answer is taken at once."""
    # asked after each line, so that it is known when the line is done; it changes nothing
    DONE = (b'*OPC?;*TST?;*OPC?;*TST?\n', '1;0;1;0')

    def __init__(self):
        super().__init__('bench24')

    def send(self, line):
        """The answer of a line, None where it has none."""
        self.write(line + b'\n' + self.DONE[0])
        told = self.line()
        if told == self.DONE[1]:
            return None
        if self.line() != self.DONE[1]:
            sys.exit('%r: more than one answer' % line)
        return told


class Player(Program):
    """The player from power-up: every event of the box."""

    def __init__(self):
        super().__init__('player')

    def event(self, text):
        self.write(text.encode() + b'\n')
        return self.line().split(' ')

    def put(self, line):
        self.event('p ' + (line + b'\n').hex())

    def take(self):
        length, buffer = self.event('t %d' % ROOM)[2:]
        return bytes.fromhex(buffer)[:int(length)].decode('latin-1').rstrip('\n')

    def send(self, line):
        self.put(line)
        return self.take() if int(self.event('l')[2]) & 16 else None


def errors(box):
    """The error queue, oldest first, which is then empty."""
    told = []
    while True:
        error = box.send(b'SYST:ERR?')
        if error == NO_ERROR:
            return told
        told.append(error)


# ---- lines as a page writes them

def repeated(match):
    times, text = match.group(1), match.group(2)
    return (' ' if text == 'blank' else text) * int(times)


def line_bytes(text):
    """The bytes of a line that a page shows."""
    text = re.sub('⟨([0-9]+) × ([^⟩]*)⟩', repeated, text)
    parts = re.split('⟨([0-9A-F]{2}(?: [0-9A-F]{2})*)⟩', text)
    return b''.join(bytes.fromhex(part) if at % 2 else part.encode() for at, part in enumerate(parts))


class Step:
    """A line, how often it is sent, its answer, whether that is taken; or an event without a line."""

    def __init__(self, line=None, event=None):
        self.line, self.event, self.times, self.answer, self.taken = line, event, 1, None, True


def steps(cell, where):
    found, answered = [], False
    for code, italic, word in re.findall(r'`([^`]*)`|\*([^*`]+)\*|\b(answers)\b', cell):
        times = re.fullmatch('([0-9]+) times', italic)
        if word:
            answered = True
        elif code and answered:
            found[-1].answer, answered = line_bytes(code).decode(), False
        elif code:
            found.append(Step(line=code))
        elif times:
            found[-1].times = int(times.group(1))
        elif italic == 'not read':
            found[-1].taken = False
        elif italic in EVENTS:
            found.append(Step(event=italic))
        else:
            sys.exit('%s: *%s* is nothing that can happen' % (where, italic))
    return found


def needs_player(found):
    return any(step.event or not step.taken for step in found)


def play(box, found, where):
    """Plays the steps and stops at the first answer that isn't the page's. How many lines it sent."""
    sent = 0
    for step in found:
        if step.event == 'a read':
            box.take()
        elif step.event:
            box.event('%s %d' % CONDITIONS[step.event])
        elif not step.taken:
            box.put(line_bytes(step.line))
        else:
            for _ in range(step.times):
                same(box.send(line_bytes(step.line)), step.answer, where, step.line)
                sent += 1
    return sent


def same(told, expected, where, line):
    if told != expected:
        sys.exit('%s: %s\n    the page says  %s\n    the box says   %s' % (where, line, shown(expected), shown(told)))


def shown(answer):
    return 'no answer' if answer is None else answer


# ---- pages

class Row:
    """A row of a page's table: the heading above it, the cells by their columns, and where it stands."""

    def __init__(self, heading, where, cells):
        self.heading, self.where, self.cells = heading, where, cells

    def has(self, column):
        return column in self.cells

    def __getitem__(self, column):
        if column not in self.cells:
            sys.exit('%s: no column %s' % (self.where, column))
        return self.cells[column]

    def codes(self, column, count):
        """The quoted texts of a cell, which are so many."""
        found = re.findall('`([^`]*)`', self[column])
        if len(found) != count:
            sys.exit('%s: %d quoted texts under %s, not %d' % (self.where, len(found), column, count))
        return found


def lines_of(name):
    with open(os.path.join(ROOT, name), encoding='utf-8') as page:
        return page.read().split('\n')


def cells_of(line):
    return [cell.strip() for cell in line.strip().strip('|').split('|')]


def rows(name):
    """Every row of every table of a page."""
    heading, columns = '', None
    for number, line in enumerate(lines_of(name), 1):
        if not line.startswith('|'):
            heading, columns = (line.lstrip('# ') if line.startswith('#') else heading), None
        elif columns is None:
            columns = [column.replace('`', '') for column in cells_of(line)]
        elif not line.startswith('|---'):
            cells = cells_of(line)
            if len(cells) != len(columns):
                sys.exit('%s:%d: %d cells under %d columns' % (name, number, len(cells), len(columns)))
            yield Row(heading, '%s:%d' % (name, number), dict(zip(columns, cells)))


def sessions(name):
    """Every session of a page, as (where, steps): indented lines that begin with `>` or `<`, as a saved session has them, or with `# `."""
    found = []
    for number, line in enumerate(lines_of(name), 1):
        mark, text = ('#', line[6:]) if line[4:6] == '# ' else (line[4:5], line[5:])
        if not line.startswith('    ') or mark not in ('>', '<', '#') or line[4:] == '#':
            if found:
                yield found
            found = []
        elif mark == '>':
            found.append(('%s:%d' % (name, number), Step(line=text)))
        elif mark == '#' and text in EVENTS:
            found.append(('%s:%d' % (name, number), Step(event=text)))
        elif mark == '<' and found:
            found[-1][1].answer = text
        else:
            sys.exit('%s:%d: an answer before any line, or nothing that can happen' % (name, number))
    if found:
        yield found


def known(pattern, *names):
    """What the definitions know, so that a page that lacks something is found."""
    for name in names:
        yield from re.findall(pattern, '\n'.join(lines_of(name)))
