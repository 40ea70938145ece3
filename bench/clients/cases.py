"""The cases of one client library: cases.py PORT NAME COMMAND..

COMMAND is a program over that library, unmodified. It comes to 127.0.0.1 at PORT as the user `me`, to the database NAME, reads lines and
answers each by `ok`, or by `error` and a text. The pooler's databases are in bench/clients/pgbouncer.py.

    open N           one more connection, with the number N
    run N SQL        one statement, by the simple protocol
    own N            by the library's own calls, in connection N, or in one of the library's pool where it has one: a transaction with
                     `NOTIFY c, 'never'`, which is rolled back, one with `NOTIFY c, 'kept'`, which is committed, and `NOTIFY c, 'behind'`
    get N COUNT MS   before its `ok` a line `PROCESS CHANNEL PAYLOAD` for each notification that connection N has got: it waits until there
                     are COUNT of them, for MS milliseconds at most
    close N          ends it

Each case is a line of the output, `ok` or `FAILED` with what was wrong. The status is 1 where one failed.
"""
import os
import signal
import subprocess
import sys

WAIT = 10000  # milliseconds in which what is due has to come
QUIET = 200  # in which what is not due has not come
CLIENTS = 64


class Wrong(Exception):
    """What came is not what is due."""


class Program:
    """The program with its connections."""

    def __init__(self, port, database, command):
        self.process = subprocess.Popen([*command, port, database], stdin=subprocess.PIPE, stdout=subprocess.PIPE)

    def ask(self, *words):
        self.process.stdin.write(' '.join(str(word) for word in words).encode() + b'\n')
        self.process.stdin.flush()
        lines = []
        while True:
            line = self.process.stdout.readline().decode()
            if not line:
                raise Wrong(f'{words[0]} {words[1]}: the program has ended')
            word, _, rest = line.rstrip('\n').partition(' ')
            if word == 'error':
                raise Wrong(f'{" ".join(map(str, words))[:60]}: {rest}')
            if word == 'ok':
                return lines
            lines.append(line.rstrip('\n'))

    def open(self, number):
        self.ask('open', number)

    def run(self, number, *texts):
        for text in texts:
            self.ask('run', number, text)

    def refused(self, number, text):
        """The statement has to be refused."""
        try:
            self.ask('run', number, text)
        except Wrong as wrong:
            if 'has ended' in str(wrong):
                raise
            return
        raise Wrong(f'{text}: not refused')

    def get(self, number, *due):
        """Just these have come, as (channel, payload); the process numbers of their senders."""
        lines = self.ask('get', number, max(1, len(due)), WAIT if due else QUIET)
        got = [line.split(' ', 2) for line in lines]
        if [tuple(parts[1:]) for parts in got] != list(due):
            raise Wrong(f'due: {str(due)[:200]}; got: {str(got)[:200]}')
        return [int(parts[0]) for parts in got]

    def end(self):
        self.process.stdin.close()
        self.process.wait(20)
        self.process.stdout.close()

    def die(self):
        self.process.send_signal(signal.SIGKILL)
        self.process.wait()
        self.process.stdin.close()
        self.process.stdout.close()


def two(program):
    """A listener and a sender, in two connections."""
    program.open(1)
    program.open(2)
    program.run(1, 'LISTEN c')


def plain(program):
    two(program)
    program.run(2, "NOTIFY c, 'one'", "SELECT pg_notify('c', 'two words')", 'NOTIFY d', 'NOTIFY c')
    one, other, last = program.get(1, ('c', 'one'), ('c', 'two words'), ('c', ''))
    program.run(1, "NOTIFY c, 'own'")
    own, = program.get(1, ('c', 'own'))
    if not one == other == last != own:
        raise Wrong(f'process numbers {one}, {other}, {last} of one sender, {own} of the other')
    program.run(1, 'UNLISTEN c')
    program.run(2, "NOTIFY c, 'late'")
    program.get(1)


def names(program):
    two(program)
    program.run(1, 'LISTEN "A b"', 'LISTEN Big')
    program.run(2, 'NOTIFY "A b", \'it\'\'s\'', 'NOTIFY BIG, \'\u00e4\u20ac\U0001f600\'')
    if len(set(program.ask('get', 1, 2, WAIT))) != 2:
        raise Wrong('two are due')


def block(program):
    two(program)
    program.open(3)
    program.run(2, 'BEGIN', "NOTIFY c, 'in'", "NOTIFY c, 'in'", "NOTIFY c, 'more'")
    program.run(3, "NOTIFY c, 'between'")
    program.get(1, ('c', 'between'))
    program.run(2, 'COMMIT')
    program.get(1, ('c', 'in'), ('c', 'more'))


def listener_in_block(program):
    two(program)
    program.run(1, 'BEGIN')
    program.run(2, "NOTIFY c, 'held back'")
    program.get(1)
    program.run(1, 'COMMIT')
    program.get(1, ('c', 'held back'))


def rolled_back(program):
    two(program)
    program.run(2, 'BEGIN', "NOTIFY c, 'never'", 'ROLLBACK', 'BEGIN', "NOTIFY c, 'never'")
    program.refused(2, 'NO SUCH COMMAND')
    program.refused(2, "NOTIFY c, 'never'")
    program.run(2, 'COMMIT', 'BEGIN', 'SAVEPOINT s', "NOTIFY c, 'never'", 'ROLLBACK TO s', "NOTIFY c, 'kept'", 'COMMIT')
    program.get(1, ('c', 'kept'))
    program.run(1, 'BEGIN', 'LISTEN d', 'ROLLBACK')
    program.run(2, 'NOTIFY d', "NOTIFY c, 'last'")
    program.get(1, ('c', 'last'))


def own(program):
    """Twice, so that what a pool gives out the second time was used before. Then the connections are closed one by one."""
    two(program)
    for _ in range(2):
        program.ask('own', 2)
        program.get(1, ('c', 'kept'), ('c', 'behind'))
    program.ask('close', 2)
    program.open(2)
    program.run(2, 'LISTEN c')
    program.ask('close', 1)
    program.run(2, "NOTIFY c, 'alone'")
    program.get(2, ('c', 'alone'))


def longest(program):
    two(program)
    payload = ''.join(chr(97 + i % 26) for i in range(7999))
    program.run(2, f"NOTIFY c, '{payload}'")
    program.refused(2, f"SELECT pg_notify('c', '{payload}x')")
    program.run(2, "NOTIFY c, 'behind'")
    program.get(1, ('c', payload), ('c', 'behind'))


def thousand(program):
    two(program)
    for number in range(1000):
        program.run(2, f"NOTIFY c, '{number}'")
    program.get(1, *(('c', str(number)) for number in range(1000)))


def many(program):
    """As many clients at once as a service has seats; one of them sends to all. None has heard what nobody listens to."""
    for number in range(CLIENTS):
        program.open(number)
        program.run(number, 'LISTEN everyone')
    program.run(0, 'NOTIFY gone', "NOTIFY everyone, 'here'")
    pids = {program.get(number, ('everyone', 'here'))[0] for number in range(CLIENTS)}
    if len(pids) != 1:
        raise Wrong(f'process numbers {pids} of one sender')
    for number in range(1, CLIENTS):
        program.run(number, f"NOTIFY everyone, '{number}'")
    pids = set(program.get(5, *(('everyone', str(number)) for number in range(1, CLIENTS))))
    if len(pids) != CLIENTS - 1:
        raise Wrong(f'{len(pids)} process numbers of {CLIENTS - 1} senders')


def died(program, another):
    """One that listens and dies in a block. Nothing of the block is sent, and whoever has its seat next listens to nothing."""
    dying = another()
    dying.open(1)
    two(program)
    dying.run(1, 'LISTEN gone', 'BEGIN', "NOTIFY c, 'never'", 'LISTEN more')
    dying.die()
    program.run(2, "NOTIFY c, 'behind'")
    program.get(1, ('c', 'behind'))
    program.end()
    many(another())


def handed_on(program, single):
    """Behind a pooler with one connection: whoever comes next gets it, and nothing that the one before listened to."""
    two(program)
    program.run(1, 'LISTEN d')
    pids = set()
    for ends_well in (True, False, True):
        one = single()
        one.open(1)
        one.run(1, 'LISTEN before', 'NOTIFY d')
        pids |= set(program.get(1, ('d', '')))
        program.run(2, 'NOTIFY before')
        one.get(1, ('before', ''))
        if ends_well:
            one.ask('close', 1)
            one.open(1)
        else:
            one.die()
            one = single()
            one.open(1)
        one.run(1, 'LISTEN another', 'NOTIFY d')
        pids |= set(program.get(1, ('d', '')))
        program.run(2, 'NOTIFY before', 'NOTIFY another')
        one.get(1, ('another', ''))
        one.end()
    if len(pids) != 1:
        raise Wrong(f'process numbers {pids} of one connection')


CASES = ('LISTEN in one connection, NOTIFY in another', plain), ('names and texts', names), ('in and out of a block', block), \
    ('a listener in a block', listener_in_block), ('rolled back', rolled_back), ("the library's own calls, and its pool", own), \
    ('a payload of 7,999 bytes', longest), ('1,000 notifications in order', thousand), ('one dies in a block, then 64 at once', died)
POOLED = (('who comes next hears nothing by a LISTEN that is left', handed_on),)


def main():
    port, name, command = sys.argv[1], sys.argv[2], sys.argv[3:]
    failed, is_pooler = 0, name == 'pgbouncer'
    for title, case in CASES + (POOLED if is_pooler else ()):
        programs = []

        def another(database='pooled' if is_pooler else name):
            programs.append(Program(port, database, command))
            return programs[-1]

        try:
            if case is handed_on:
                case(another('beside'), lambda: another('single'))
            else:
                case(another(), *([another] if case is died else []))
            print(f'  ok      {name}: {title}', flush=True)
        except (Wrong, OSError, subprocess.TimeoutExpired) as wrong:
            print(f'  FAILED  {name}: {title}: {wrong}', flush=True)
            failed = 1
        for program in programs:
            if program.process.poll() is None:
                program.process.stdin.close()
                try:
                    program.process.wait(20)
                except subprocess.TimeoutExpired:
                    program.process.kill()
    os._exit(failed)


main()
