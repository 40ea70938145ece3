"""psql, as bench/clients/cases.py asks it: psql.py PORT DATABASE. Each connection is a psql of its own, which dies with this program.

psql shows what it has got behind a query alone, so it asks something until it shows enough.
"""
import re
import subprocess
import sys
import time

port, database = sys.argv[1:]
WORDS = ['setpriv', '--pdeathsig', 'KILL', 'stdbuf', '-oL', 'psql', '-XqAt', '-h', '127.0.0.1', '-p', port, '-U', 'me', '-d', database]
NOTE = re.compile(r'Asynchronous notification "(.*?)"(?: with payload "(.*)")? received from server process with PID (\d+)\.\n')


class Psql:
    def __init__(self):
        self.process = subprocess.Popen(WORDS, stdin=subprocess.PIPE, stdout=subprocess.PIPE, stderr=subprocess.DEVNULL, encoding='utf-8')
        self.notes = []
        self.run('')

    def run(self, text):
        self.process.stdin.write((text + ';\n' if text else '') + "\\echo '\\n'done :ERROR :LAST_ERROR_MESSAGE\n")
        self.process.stdin.flush()
        for line in self.process.stdout:
            note = NOTE.fullmatch(line)
            if note:
                self.notes.append(f'{note[3]} {note[1]} {note[2] or ""}')
            if line.startswith('done true'):
                raise OSError(line[10:].strip())
            if line.startswith('done '):
                return
        raise OSError('psql has ended')

    def own(self):
        """psql begins a block by itself, and a savepoint before each statement."""
        for name in 'AUTOCOMMIT off', 'ON_ERROR_ROLLBACK on':
            self.process.stdin.write(f'\\set {name}\n')
        for text in ("NOTIFY c, 'never'", 'ROLLBACK', "NOTIFY c, 'kept'", 'COMMIT'):
            self.run(text)
        self.process.stdin.write('\\set AUTOCOMMIT on\n\\encoding UTF8\n')
        self.run("NOTIFY c, 'behind'")

    def get(self, count, ms):
        until = time.monotonic() + ms / 1000
        while len(self.notes) < count and time.monotonic() < until:
            self.run('SELECT pg_listening_channels()')
            time.sleep(0.005)
        notes, self.notes = self.notes, []
        return notes

    def close(self):
        self.process.stdin.close()
        self.process.wait()


connections = {}
for asked in sys.stdin:
    word, number, *rest = asked.rstrip('\n').split(' ', 2)
    try:
        if word == 'open':
            connections[number] = Psql()
        elif word == 'run':
            connections[number].run(rest[0])
        elif word == 'own':
            connections[number].own()
        elif word == 'get':
            for got in connections[number].get(*map(int, rest[0].split())):
                print(got)
        elif word == 'close':
            connections.pop(number).close()
        print('ok', flush=True)
    except OSError as error:
        print('error', error, flush=True)
