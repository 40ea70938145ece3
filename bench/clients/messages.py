"""What a client of the service sees, message by message: messages.py [--server PORT] SERVE..

SERVE is how tools/serve is started, without a port and seats. With --server the cases that hold of PostgreSQL too are tried on a server at
that port of 127.0.0.1, which lets the user `me` into its database `messages`. Each case is a line of the output, `ok` or `FAILED` with
what was wrong. The status is 1 where one failed.
"""
import contextlib
import os
import re
import shlex
import signal
import socket
import struct
import subprocess
import sys
import tempfile
import threading
import time

WAIT, QUIET = 20, 0.2  # seconds in which what is due has to come, and in which what is not due has not come
NAMES = ['application_name', 'client_encoding', 'DateStyle', 'default_transaction_read_only', 'in_hot_standby', 'integer_datetimes',
         'IntervalStyle', 'is_superuser', 'server_encoding', 'server_version', 'session_authorization', 'standard_conforming_strings', 'TimeZone']
UNTOLD = {'client_min_messages': 'notice', 'extra_float_digits': '1', 'transaction_isolation': 'read committed', 'transaction_read_only': 'off'}
SSL, GSSAPI, CANCEL, VERSION = 80877103, 80877104, 80877102, 196608
LONG = 'x' * 7999
ABORTED = 'current transaction is aborted, commands ignored until end of transaction block'


class Wrong(Exception):
    """What came is not what is due."""


def check(holds, *what):
    if not holds:
        raise Wrong(' '.join(str(piece)[:300] for piece in what))


def made(letter, body):
    """A message, as 'Message Formats' of PostgreSQL's documentation has it; so are those below."""
    return letter + struct.pack('!I', 4 + len(body)) + body


def query(text):
    return made(b'Q', text.encode() + b'\0')


def column(name, kind=25, size=-1):
    """RowDescription of one column, of no table: a type's number and size, no modifier, in the format text."""
    return made(b'T', struct.pack('!H', 1) + name.encode() + b'\0' + struct.pack('!IHIhih', 0, 0, kind, size, -1, 0))


def row(value):
    return made(b'D', struct.pack('!HI', 1, len(value.encode())) + value.encode())


def complete(tag):
    return made(b'C', tag.encode() + b'\0')


def status(name, value):
    return made(b'S', f'{name}\0{value}\0'.encode())


def error(code, text, severity='ERROR'):
    return made(b'E', f'S{severity}\0V{severity}\0C{code}\0M{text}\0\0'.encode())


def cut(name, short):
    text = f'identifier "{name}" will be truncated to "{short}"'
    return made(b'N', f'SNOTICE\0VNOTICE\0C42622\0M{text}\0\0'.encode())


def invalid(name, value):
    return error('22023', f'invalid value for parameter "{name}": "{value}"')


NO_SUCH = error('42704', 'unrecognized configuration parameter "nosuch"')
FIRST = query("SET STARTUP session_authorization TO 'me'")  # what a program is asked of the user `me`, who asked for nothing at the start-up
EMPTY = made(b'I', b'')
VOID = column('pg_notify', 2278, 4)


def packet(code, body=b''):
    return struct.pack('!II', 8 + len(body), code) + body


def words(*pairs):
    return b''.join(piece.encode() + b'\0' for piece in pairs) + b'\0'


class Wire:
    """A connection by its messages."""

    def __init__(self, port, receive=None):
        self.socket = socket.socket()
        if receive:
            self.socket.setsockopt(socket.SOL_SOCKET, socket.SO_RCVBUF, receive)
        self.socket.settimeout(WAIT)
        self.socket.connect(('127.0.0.1', port))
        self.socket.setsockopt(socket.IPPROTO_TCP, socket.TCP_NODELAY, 1)
        self.came, self.settings, self.pid = b'', {}, None

    def send(self, *pieces):
        self.socket.sendall(b''.join(pieces))

    def more(self, seconds=WAIT):
        """Reads on; None where nothing comes, and nothing at the end."""
        self.socket.settimeout(seconds)
        try:
            data = self.socket.recv(1 << 16)
        except socket.timeout:
            return None
        except ConnectionResetError:
            data = b''
        self.came += data
        return data

    def message(self, seconds=WAIT):
        """The next message, `None` where none comes in time, or `end`."""
        while True:
            size = struct.unpack('!I', self.came[1:5])[0] + 1 if len(self.came) >= 5 else None
            if size and len(self.came) >= size:
                letter, body, self.came = self.came[:1].decode(), self.came[5:size], self.came[size:]
                return letter, body
            data = self.more(seconds)
            if data is None:
                return None
            if not data:
                return 'end'

    def take(self, letters):
        """The next messages, which have to be these."""
        got = [self.message() for _ in letters]
        check(''.join(m[0] if m else '-' for m in got) == letters, f'due: {letters}; got:', got)
        return got

    def note(self, channel, payload):
        letter, body = self.message() or ('nothing', b'')
        pid, said = struct.unpack('!I', body[:4].rjust(4, b'\0'))[0], body[4:]
        check((letter, said) == ('A', f'{channel}\0{payload}\0'.encode()), f'due: {channel} {payload[:60]}; got: {letter}', said)
        return pid

    def quiet(self):
        got = self.message(QUIET)
        check(got is None, 'nothing is due; got:', got)

    def ask(self, text, letters='CZ'):
        self.send(query(text))
        return self.take(letters)

    def told(self):
        """The next message, whole, but for the fields of an error that a server alone sends: its place, its line, a detail, a hint."""
        got = self.message()
        check(got and got != 'end', 'due: a message; got:', got)
        letter, body = got
        if letter in 'EN':
            body = b''.join(field + b'\0' for field in body.split(b'\0') if field[:1] in (b'S', b'V', b'C', b'M')) + b'\0'
        return made(letter.encode(), body)

    def meet(self, asked, *due, state='I'):
        """What is told of a text, or of a message, is just this, and then ReadyForQuery with the block's state."""
        self.send(asked if isinstance(asked, bytes) else query(asked))
        got, due = [self.told()], b''.join(due) + made(b'Z', state.encode())
        while got[-1][:1] != b'Z':
            got.append(self.told())
        check(b''.join(got) == due, f'{asked[:80]!r}: due: {due[:300]}; got:', b''.join(got))

    def shows(self, name, value, asked=None):
        self.meet(f'SHOW {asked or name}', column(name), row(value), complete('SHOW'))

    def fatal(self, code):
        """A FATAL with this code, and the end."""
        while True:
            got = self.message()
            if got and got[0] != 'A':
                break
        check(got and got[0] == 'E' and b'SFATAL\0' in got[1] and f'\0C{code}\0'.encode() in got[1], f'due: FATAL {code}; got:', got)
        got = self.message()
        check(got == 'end', 'due: the end; got:', got)

    def ended(self):
        got = self.message()
        check(got == 'end', 'due: the end; got:', got)

    def enter(self, *given, code=VERSION, database='messages'):
        self.send(packet(code, words('user', 'me', 'database', database, *given)))
        self.first = []
        while True:
            got = self.message()
            check(got and got != 'end' and got[0] != 'E', 'not let in:', got)
            self.first.append(got[0])
            if got[0] == 'S':
                name, value, _ = got[1].decode().split('\0')
                self.settings[name] = value
            elif got[0] == 'K':
                self.pid = struct.unpack('!I', got[1][:4])[0]
            elif got[0] == 'Z':
                return self

    def close(self):
        self.socket.close()


class Shim:
    """tools/serve, with what it says on standard error."""

    is_server = False

    def __init__(self, seats, *more):
        self.log = tempfile.TemporaryFile('w+')
        self.process = subprocess.Popen([*SERVE, '0', '--seats', str(seats), *more], stdout=subprocess.PIPE, stderr=self.log, text=True)
        self.port = int(self.process.stdout.readline().split()[-1])
        self.wires = []

    def wire(self, **how):
        self.wires.append(Wire(self.port, **how))
        return self.wires[-1]

    def enter(self, database='messages'):
        return self.wire().enter(database=database)

    def said(self):
        self.log.seek(0)
        return self.log.read()

    def services(self, database='messages'):
        """The processes of the services that were started for a database."""
        return [int(process) for process in re.findall(f'"{database}": a service .* process ([0-9]+)', self.said())]

    def stop(self):
        for wire in self.wires:
            wire.close()
        if self.process.poll() is None:
            self.process.terminate()
        status = self.process.wait(WAIT)
        self.process.stdout.close()
        check(status == 0, 'tools/serve ended with status', status)
        said = self.said()
        check('Traceback' not in said and 'exception' not in said, 'tools/serve said:', said[-300:])


class Server(Shim):
    """A PostgreSQL server that is there already."""

    is_server = True

    def __init__(self, port):
        self.port, self.wires = port, []

    def stop(self):
        for wire in self.wires:
            wire.close()


# --- What PostgreSQL does too ---------------------------------------------------------------------------------------------------


def listening(shim, channel='c'):
    wire = shim.enter()
    wire.ask(f'LISTEN {channel}')
    return wire


def idle(shim):
    one, other = listening(shim), shim.enter()
    other.ask("NOTIFY c, 'x'")
    check(one.note('c', 'x') == other.pid, 'another process number than', other.pid)
    one.quiet()


def half_sent(shim):
    one, other, whole = listening(shim), shim.enter(), query("NOTIFY c, 'own'")
    for cut in (1, 3, 5, 12):
        one.send(whole[:cut])
        time.sleep(0.05)
        other.ask("NOTIFY c, 'x'")
        one.note('c', 'x')
        one.quiet()
        one.send(whole[cut:])
        one.take('CAZ')


def in_a_block(shim):
    one, other = listening(shim), shim.enter()
    for end in ('COMMIT', 'ROLLBACK'):
        for failed in (False, True):
            one.ask('BEGIN')
            if failed:
                one.ask('NO SUCH COMMAND', 'EZ')
            other.ask("NOTIFY c, 'x'")
            one.quiet()
            got = one.ask(end, 'CAZ')
            check(got[0][1] == (b'ROLLBACK\0' if failed else end.encode() + b'\0') and got[2][1] == b'I', got)
    one.quiet()


def own(shim):
    one = listening(shim)
    got = one.ask("NOTIFY c, 'x'", 'CAZ')
    check(got[1][1] == struct.pack('!I', one.pid) + b'c\0x\0', got)
    one.ask('BEGIN')
    one.ask("NOTIFY c, 'y'")
    one.ask('COMMIT', 'CAZ')


def one_order(shim):
    listeners, senders, count = [listening(shim) for _ in range(2)], [shim.enter() for _ in range(2)], 300
    threads = [threading.Thread(target=wire.send, args=[query(f"NOTIFY c, '{number}'") for number in range(count)]) for wire in senders]
    for thread in threads:
        thread.start()
    orders = [[wire.message() for _ in range(2 * count)] for wire in listeners]
    for thread, wire in zip(threads, senders):
        thread.join()
        wire.take('CZ' * count)
        said = [body[6:] for letter, body in orders[0] if body.startswith(struct.pack('!I', wire.pid))]
        check(said == [b'%d\0' % number for number in range(count)], 'not in order:', said)
    check(orders[0] == orders[1], 'two orders')


def in_one_go(shim):
    wire = shim.enter()
    texts = ['LISTEN c', "NOTIFY c, 'x'", 'NO SUCH COMMAND', '', 'BEGIN', 'UNLISTEN c', 'NO SUCH COMMAND', 'COMMIT', 'SELECT pg_listening_channels()']
    wire.send(*[query(text) for text in texts])
    states = [got[1] for got in wire.take('CZ' 'CAZ' 'EZ' 'IZ' 'CZ' 'CZ' 'EZ' 'CZ' 'TDCZ') if got[0] == 'Z']
    check(b''.join(states) == b'IIIITTEII', states)


def ahead(shim):
    """More queries at once than the shim passes on, and no answer is read before all are sent; then the same, and no more is sent."""
    wire, count = shim.enter(), 5000
    for is_last in (False, True):
        wire.send(*[query(f'LISTEN c{number % 7}') if number % 2 else query('') for number in range(count)])
        if is_last:
            wire.socket.shutdown(socket.SHUT_WR)
        wire.take('IZCZ' * (count // 2))
        if not is_last:
            wire.quiet()
    wire.ended()


def half_and_gone(shim):
    one, other = listening(shim), shim.enter()
    other.send(query("NOTIFY c, 'x'")[:-1])
    other.close()
    one.quiet()


def whole_and_gone(shim):
    """A server does one or two of several before it finds that nobody takes the answers."""
    one, other, count = listening(shim), shim.enter(), 1 if shim.is_server else 100
    other.send(*[query(f"NOTIFY c, '{number}'") for number in range(count)])
    other.close()
    for number in range(count):
        one.note('c', str(number))


def gone_in_a_block(shim):
    one, other = listening(shim), listening(shim)
    other.send(query('BEGIN'), query("NOTIFY c, 'x'"), query('LISTEN d'))
    other.take('CZCZCZ')
    other.close()
    one.quiet()
    one.ask('NOTIFY d')
    one.quiet()


def reads_late(shim):
    """A listener that does not read holds up no sender, and reads it all later."""
    one, other, count = listening(shim), shim.enter(), 600
    for number in range(count):
        other.ask(f"NOTIFY c, '{number}{LONG[:7000]}'")
    for number in range(count):
        one.note('c', f'{number}{LONG[:7000]}')


def start_up(shim):
    wire = shim.wire()
    for code in (SSL,) if shim.is_server else (SSL, GSSAPI):
        wire.send(packet(code))
        check(wire.more() == b'N', 'due: N; got:', wire.came)
        wire.came = b''
    wire.enter()
    check(''.join(wire.first) == 'R' + 'S' * len(NAMES) + 'KZ' and list(wire.settings) == NAMES, wire.first, wire.settings)
    asked = {'application_name': 'a b', 'client_encoding': 'SQL_ASCII', 'datestyle': 'German', 'timezone': 'UTC', 'IntervalStyle': 'ISO_8601',
             'default_transaction_read_only': 'yes'}
    got = shim.wire().enter(*[word for pair in asked.items() for word in pair]).settings
    due = {'application_name': 'a b', 'client_encoding': 'SQL_ASCII', 'DateStyle': 'German, DMY', 'TimeZone': 'UTC', 'IntervalStyle': 'iso_8601',
           'default_transaction_read_only': 'on', 'session_authorization': 'me'}
    check(all(got[name] == value for name, value in due.items()), got)
    got = shim.wire().enter('options', '-c application_name=a\\ b --DateStyle=SQL,DMY').settings
    check((got['application_name'], got['DateStyle']) == ('a b', 'SQL, DMY'), got)


def newer(shim):
    check(shim.wire().enter(code=VERSION + 2).first[0] == 'v', 'no NegotiateProtocolVersion')
    check(shim.wire().enter('_pq_.x', '1').first[0] == 'v', 'no NegotiateProtocolVersion')
    wire = shim.wire()
    wire.send(packet(2 << 16, words('user', 'me')))
    check((wire.message() or 'nothing')[0] in 'Ee', 'protocol 2.0 is let in')


def refused(shim):
    for body, code in ((words('database', 'messages'), '28000'), (b'user\0me\0', '08P01'), (b'', '08P01'), (words('user', 'me', 'x'), '08P01')):
        wire = shim.wire()
        wire.send(packet(VERSION, body))
        wire.fatal(code)
    for data in (struct.pack('!I', 7), struct.pack('!I', 1 << 20), packet(CANCEL, bytes(8))):
        wire = shim.wire()
        wire.send(data)
        wire.ended()


def half_a_packet(shim):
    for cut in (0, 1, 4, 7, 20):
        shim.wire().send(packet(VERSION, words('user', 'me', 'database', 'messages'))[:cut])
    idle(shim)
    wire = shim.wire()
    for byte in packet(VERSION, words('user', 'me', 'database', 'messages')):
        wire.send(bytes([byte]))
    wire.take('R')


def terminate(shim):
    one, other = listening(shim), shim.enter()
    other.send(query("NOTIFY c, 'x'"), b'X\0\0\0\4', query("NOTIFY c, 'y'"))
    other.take('CZ')
    other.ended()
    one.note('c', 'x')
    one.quiet()


def bad_message(shim):
    one, other = listening(shim), listening(shim)
    other.ask('BEGIN')
    other.ask('NOTIFY c')
    other.send(b'\1\0\0\0\4', query('COMMIT'))
    other.fatal('08P01')
    one.quiet()
    one.ask("NOTIFY c, 'x'", 'CAZ')


# --- What a client asks beside LISTEN and NOTIFY, as PostgreSQL answers it ----------------------------------------------------------


def constants(shim):
    wire, channels = shim.enter(), column('pg_listening_channels')
    wire.meet('SELECT 1', column('?column?', 23, 4), row('1'), complete('SELECT 1'))
    wire.meet('select pg_backend_pid() ;', column('pg_backend_pid', 23, 4), row(str(wire.pid)), complete('SELECT 1'))
    if shim.is_server:
        got = wire.ask('SELECT version()', 'TDCZ')
        check(made(b'T', got[0][1]) == column('version') and got[1][1][6:].startswith(b'PostgreSQL 15'), got)
    else:
        wire.meet('SELECT version()', column('version'), row('PostgreSQL 15.0 (pgnotify)'), complete('SELECT 1'))
    wire.meet('SELECT * FROM pg_listening_channels()', channels, complete('SELECT 0'))
    wire.ask('LISTEN c')
    wire.meet('select * from pg_listening_channels();', channels, row('c'), complete('SELECT 1'))
    wire.ask('BEGIN')
    wire.meet('SELECT 1', column('?column?', 23, 4), row('1'), complete('SELECT 1'), state='T')
    wire.ask('COMMIT')


def types(shim):
    wire = shim.enter()
    wire.meet("SELECT pg_notify('c', 'x')", VOID, row(''), complete('SELECT 1'))
    wire.meet('SELECT pg_notification_queue_usage()', column('pg_notification_queue_usage', 701, 8), row('0'), complete('SELECT 1'))
    wire.meet('SELECT pg_listening_channels()', column('pg_listening_channels'), complete('SELECT 0'))


def refused_calls(shim):
    """A call of pg_notify past a limit: its row is described, and then comes the error."""
    wire = shim.enter()
    empty, long, large = (error('22023', text) for text in ('channel name cannot be empty', 'channel name too long', 'payload string too long'))
    wire.meet("SELECT pg_notify('', 'x')", VOID, empty)
    wire.meet(f"SELECT pg_notify('{64 * 'c'}', 'x')", VOID, long)
    wire.meet(f"SELECT pg_notify('c', '{LONG}x')", VOID, large)
    wire.meet(f"NOTIFY c, '{LONG}x'", large)
    wire.ask('BEGIN')
    wire.meet("SELECT pg_notify('', '')", VOID, empty, state='E')
    wire.meet("SELECT pg_notify('', '')", error('25P02', ABORTED), state='E')
    wire.ask('ROLLBACK')


def cut_names(shim):
    """An identifier that is cut is told before all else, as it is written, but for the letters of a word."""
    wire, name, short = shim.enter(), 64 * 'a', 63 * 'a'
    wire.meet(f'LISTEN {name}', cut(name, short), complete('LISTEN'))
    wire.meet(f'LISTEN {short}', complete('LISTEN'))
    wire.meet(f'LISTEN "A{short}"', cut('A' + short, 'A' + short[1:]), complete('LISTEN'))
    wire.meet(f'UNLISTEN A{short}', cut(name, short), complete('UNLISTEN'))
    wire.meet(f'LISTEN "{short}""x"', cut(short + '"x', short), complete('LISTEN'))
    wire.meet(f'UNLISTEN {short[1:]}\u20ac', cut(short[1:] + '\u20ac', short[1:]), complete('UNLISTEN'))
    wire.ask('UNLISTEN *')
    wire.meet(f"NOTIFY {name}, 'x'", cut(name, short), complete('NOTIFY'))
    wire.ask('BEGIN')
    for text, tag in (('SAVEPOINT', 'SAVEPOINT'), ('ROLLBACK TO', 'ROLLBACK'), ('RELEASE', 'RELEASE')):
        wire.meet(f'{text} {name}', cut(name, short), complete(tag), state='T')
    wire.ask('NO SUCH COMMAND', 'EZ')
    wire.meet(f'LISTEN {name}', cut(name, short), error('25P02', ABORTED), state='E')
    wire.ask('ROLLBACK')


def show(shim):
    wire = shim.enter()
    for name, value in {**wire.settings, **UNTOLD}.items():
        wire.shows(name, value)
        wire.shows(name, value, name.swapcase() + ';')
    wire.shows('TimeZone', wire.settings['TimeZone'], 'TIME ZONE')
    wire.shows('transaction_isolation', 'read committed', 'TRANSACTION ISOLATION LEVEL')
    wire.shows('session_authorization', 'me', 'SESSION AUTHORIZATION')


def put(shim):
    """SET: a setting that a client is told of is told behind the command's end, where its value is another than before."""
    wire, name = shim.enter(), 'application_name'
    zone = wire.settings['TimeZone']
    for text, *told in (("SET application_name TO 'x'", name, 'x'), ("SET application_name='x';",), ('SET SESSION application_name = y', name, 'y'),
                        ('set Application_Name to "Y z"', name, 'Y z'), ("SET application_name TO 'it''s \u00e4'", name, "it's ??"),
                        ('SET application_name TO DEFAULT', name, ''), ('SET DateStyle TO German', 'DateStyle', 'German, DMY'),
                        ("SET datestyle TO 'SQL, YMD'", 'DateStyle', 'SQL, YMD'), ('SET datestyle = ISO, MDY', 'DateStyle', 'ISO, MDY'),
                        ("SET IntervalStyle TO 'ISO_8601'", 'IntervalStyle', 'iso_8601'),
                        ("SET NAMES 'sql_ascii'", 'client_encoding', 'SQL_ASCII'), ("SET client_encoding TO 'utf-8'", 'client_encoding', 'UTF8'),
                        ('SET NAMES DEFAULT',), ("SET TIME ZONE 'Europe/Rome'", 'TimeZone', 'Europe/Rome'), ('SET TIME ZONE DEFAULT', 'TimeZone', zone),
                        ('SET default_transaction_read_only TO tr', 'default_transaction_read_only', 'on'),
                        ('SET default_transaction_read_only = off', 'default_transaction_read_only', 'off'),
                        ('SET standard_conforming_strings = on',), ('SET SESSION AUTHORIZATION DEFAULT',), ('SET SESSION AUTHORIZATION me',),
                        ('SET extra_float_digits = 3',), ('SET client_min_messages TO debug',), ("SET transaction_isolation TO 'read committed'",),
                        ('SET transaction_read_only = 0',)):
        wire.meet(text, complete('SET'), *([status(*told)] if told else []))
    wire.shows('extra_float_digits', '3')
    wire.shows('client_min_messages', 'debug2')
    wire.ask('SET client_min_messages TO error')  # else a server says that it cuts the name
    wire.meet(f"SET application_name TO '{70 * 'a'}'", complete('SET'), status(name, 63 * 'a'))
    wire.shows(name, 63 * 'a')
    wire.ask('BEGIN')
    wire.meet("SET application_name TO 'kept'", complete('SET'), status(name, 'kept'), state='T')
    wire.ask('COMMIT')
    wire.shows(name, 'kept')


def put_back(shim):
    wire, start = shim.enter(), {}
    for name, value in (('IntervalStyle', 'iso_8601'), ('DateStyle', 'SQL, DMY'), ('application_name', 'x'), ('TimeZone', 'Europe/Rome')):
        start[name] = wire.settings[name]
        wire.meet(f"SET {name} TO '{value}'", complete('SET'), status(name, value))
    wire.meet('RESET intervalstyle', complete('RESET'), status('IntervalStyle', start['IntervalStyle']))
    wire.meet('RESET TIME ZONE', complete('RESET'), status('TimeZone', start['TimeZone']))
    wire.ask('SET extra_float_digits TO 0')
    wire.meet('RESET ALL', complete('RESET'), status('application_name', ''), status('DateStyle', start['DateStyle']))
    wire.shows('extra_float_digits', '1')
    wire.meet('RESET SESSION AUTHORIZATION', complete('RESET'))
    wire.meet('reset all', complete('RESET'))


def put_at_start(shim):
    """What a client asks for at its start-up is what RESET gives. Nothing is told behind the start-up."""
    asked = {'application_name': "it's", 'DateStyle': 'SQL, DMY', 'TimeZone': 'Europe/Rome', 'client_min_messages': 'error', 'extra_float_digits': '2'}
    wire = shim.wire().enter(*[word for pair in asked.items() for word in pair], 'options', '-c IntervalStyle=sql_standard')
    wire.quiet()
    for name, value in {**asked, 'IntervalStyle': 'sql_standard', 'session_authorization': 'me'}.items():
        wire.shows(name, value)
    wire.meet("SET application_name TO 'z'", complete('SET'), status('application_name', 'z'))
    wire.ask('SET client_min_messages TO log')
    wire.meet('RESET application_name', complete('RESET'), status('application_name', "it's"))
    wire.meet("SET application_name TO ''", complete('SET'), status('application_name', ''))
    wire.meet('DISCARD ALL', complete('DISCARD ALL'), status('application_name', "it's"))
    wire.shows('client_min_messages', 'error')
    shim.enter().shows('application_name', '')
    for name, value, code in (('client_min_messages', 'loud', '22023'), ('extra_float_digits', '4', '22023'), ('TimeZone', 300 * 'x', '22023')):
        wire = shim.wire()
        wire.send(packet(VERSION, words('user', 'me', 'database', 'messages', name, value)))
        wire.take('R' if shim.is_server else '')
        wire.fatal(code)


def wrong_settings(shim):
    wire = shim.enter()
    due = [('SET nosuch TO 1', NO_SUCH), ('RESET nosuch', NO_SUCH), ('SET client_encoding TO nonsense', invalid('client_encoding', 'nonsense')), ('SHOW nosuch', NO_SUCH), ('SET nosuch TO DEFAULT', NO_SUCH),
           ("SET DateStyle TO 'Martian'", invalid('DateStyle', 'Martian')), ('SET "IntervalStyle" = maya', invalid('IntervalStyle', 'maya')),
           ('SET client_min_messages TO loud', invalid('client_min_messages', 'loud'))]
    due += [(text, error('55P02', f'parameter "{name}" cannot be changed'))
            for name in ('server_version', 'integer_datetimes', 'is_superuser', 'in_hot_standby', 'server_encoding')
            for text in (f"SET {name} TO 'on'", f'RESET {name}', f'SET {name} TO DEFAULT')]
    for name, value, text in (('default_transaction_read_only', 'maybe', 'parameter "default_transaction_read_only" requires a Boolean value'),
                              ('transaction_read_only', 'o', 'parameter "transaction_read_only" requires a Boolean value'),
                              ('extra_float_digits', '4', '4 is outside the valid range for parameter "extra_float_digits" (-15 .. 3)')):
        due.append((f'SET {name} TO {value}', error('22023', text) if shim.is_server else invalid(name, value)))
    if not shim.is_server:
        due += [("SET LOCAL application_name TO 'x'", error('0A000', 'SET LOCAL is not supported')),
                ("SET NAMES 'latin1'", error('0A000', 'client_encoding: "latin1" is not supported')),
                ('SET standard_conforming_strings = off', error('0A000', 'standard_conforming_strings: "off" is not supported'))]
    for text, refusal in due:
        wire.meet(text, refusal)
        wire.ask('BEGIN')
        wire.meet(text, refusal, state='E')
        wire.ask('ROLLBACK')
    for name, value in wire.settings.items():
        wire.shows(name, value)


def failed_block(shim):
    wire = shim.enter()
    wire.ask('BEGIN')
    wire.ask('NO SUCH COMMAND', 'EZ')
    for text in ("SET application_name TO 'x'", 'RESET application_name', 'RESET ALL', 'SHOW application_name', 'DISCARD ALL', 'DEALLOCATE ALL',
                 'CLOSE ALL', 'SELECT 1', 'SELECT version()', 'SELECT pg_backend_pid()', 'SELECT * FROM pg_listening_channels()',
                 'BEGIN ISOLATION LEVEL SERIALIZABLE', 'SET nosuch TO 1', "SET DateStyle TO 'Martian'", "SET server_version TO '16'", 'SHOW nosuch'):
        wire.meet(text, error('25P02', ABORTED), state='E')
    # What is no text is found first.
    wire.meet(made(b'Q', b'SELECT 1\0x\0'), error('08P01', 'invalid message format'), state='E')
    wire.meet('; /* */ ;', EMPTY, state='E')
    wire.meet('ROLLBACK', complete('ROLLBACK'))
    wire.shows('application_name', '')


def put_and_rolled_back(shim):
    """A server sets a setting back with its block; the service keeps it."""
    wire, name = shim.enter(), 'application_name'
    wire.ask('BEGIN')
    wire.meet("SET application_name TO 'x'", complete('SET'), status(name, 'x'), state='T')
    wire.meet('ROLLBACK', complete('ROLLBACK'), *([status(name, '')] if shim.is_server else []))
    wire.shows(name, '' if shim.is_server else 'x')


def discard_all(shim):
    one, other = listening(shim), shim.enter()
    one.ask("SET application_name TO 'x'", 'CSZ')
    one.ask('BEGIN')
    one.meet('DISCARD ALL', error('25001', 'DISCARD ALL cannot run inside a transaction block'), state='E')
    one.ask('ROLLBACK')
    other.ask("NOTIFY c, 'x'")
    one.note('c', 'x')
    one.meet('discard all;', complete('DISCARD ALL'), status('application_name', ''))
    other.ask("NOTIFY c, 'y'")
    one.quiet()
    one.meet('SELECT pg_listening_channels()', column('pg_listening_channels'), complete('SELECT 0'))
    one.meet('DISCARD ALL', complete('DISCARD ALL'))
    one.ask('LISTEN c')
    other.ask("NOTIFY c, 'z'")
    one.note('c', 'z')


def nothing_to_do(shim):
    wire = shim.enter()
    for text, tag in (('DEALLOCATE ALL', 'DEALLOCATE ALL'), ('deallocate prepare all;', 'DEALLOCATE ALL'), ('CLOSE ALL', 'CLOSE CURSOR ALL')):
        wire.meet(text, complete(tag))


def modes(shim):
    one, other = listening(shim), shim.enter()
    for text in ('BEGIN ISOLATION LEVEL SERIALIZABLE', 'BEGIN TRANSACTION ISOLATION LEVEL REPEATABLE READ READ ONLY', 'begin read only, deferrable',
                 'BEGIN WORK ISOLATION LEVEL READ COMMITTED, READ WRITE, NOT DEFERRABLE', 'START TRANSACTION ISOLATION LEVEL READ UNCOMMITTED',
                 'START TRANSACTION READ WRITE;'):
        other.meet(text, complete('START TRANSACTION' if text.startswith('START') else 'BEGIN'), state='T')
        other.meet("NOTIFY c, 'x'", complete('NOTIFY'), state='T')
        other.ask('COMMIT')
        one.note('c', 'x')
    for text in ('BEGIN READ', 'BEGIN ISOLATION LEVEL', 'BEGIN READ ONLY,', 'START TRANSACTION LEVEL READ ONLY'):
        got = other.ask(text, 'EZ')
        check(b'\0C42601\0' in got[0][1], text, got)


def blanks(shim):
    one, other = listening(shim), shim.enter()
    for text in (';;', '; ;\n', '/* a /* b */ c */', '-- a', '\n-- a\n', '\r\n', ''):
        other.meet(text, EMPTY)
    for text, payload in (("NOTIFY\nc\r\n,\t'x'", 'x'), ("/* a /* b */ c */NOTIFY/**/c, 'x'--\n", 'x'), ("NOTIFY c -- ' a\n, '-- /* x'\n;;", '-- /* x'),
                          ("NOTIFY c, 'it''s\n\n/* x'", "it's\n\n/* x"), ("NOTIFY c, '\n'", '\n'), ('NOTIFY "c", \'"\n--"\'', '"\n--"'), ('NOTIFY c;;', ''),
                          (";NOTIFY c, 'x'", 'x'), ("; ;\nNOTIFY c", ''), ("NOTIFY c -- a\r, 'x'", 'x')):
        other.meet(text, complete('NOTIFY'))
        one.note('c', payload)
    other.meet("SELECT\npg_notify('c',\n'a\nb')", VOID, row(''), complete('SELECT 1'))
    one.note('c', 'a\nb')
    for text, payload in (("SELECT pg_notify(('c'),('it''s'))", "it's"), ("SELECT pg_notify('c', (NULL))", ''), ("SELECT pg_notify((('c')), 'x')", None),
                          ("SELECT pg_notify(('c'), ()", None)):
        if payload is None:
            check(shim.is_server or b'\0C42601\0' in other.ask(text, 'EZ')[0][1], text)
        else:
            other.meet(text, VOID, row(''), complete('SELECT 1'))
            one.note('c', payload)
    one.meet('LISTEN "a\nb"', complete('LISTEN'))
    other.meet('NOTIFY "a\nb"', complete('NOTIFY'))
    one.note('a\nb', '')
    for text in ('NOTIFY c /* a', 'NOTIFY c /* /* a */', "NOTIFY c, 'a\n", 'NOT/**/IFY c'):
        got = other.ask(text, 'EZ')
        check(b'\0C42601\0' in got[0][1], text, got)
    one.quiet()


def no_texts(shim):
    """A text that is no UTF-8, and a message that does not end with its only zero byte."""
    wire, server = shim.enter(), shim.is_server

    def encoding(sequence):
        return error('22021', 'invalid byte sequence for encoding "UTF8"' + (f': {sequence}' if server else ''))

    format, string = error('08P01', 'invalid message format'), error('08P01', 'invalid string in message')
    for block, state in (('BEGIN', 'E'), ('', 'I')):
        for body, refusal in ((b"NOTIFY c, '\xff'\0", encoding('0xff')), (b'NOTIFY c -- \xc3\0', encoding('0xc3')),
                              (b'\xed\xa0\x80\0', encoding('0xed 0xa0 0x80')), (b'SELECT 1\0x\0', format), (b'SELECT 1\0\0', format),
                              (b'SELECT 1', string if server else format)):
            wire.send(query(block))
            wire.take('CZ' if block else 'IZ')
            wire.meet(made(b'Q', body), refusal, state=state)
            wire.ask('ROLLBACK', 'CZ' if block else 'NCZ')
    wire.meet('SELECT 1', column('?column?', 23, 4), row('1'), complete('SELECT 1'))


# --- What the service does of its own ---------------------------------------------------------------------------------------------


def too_many(shim):
    wires = [shim.enter() for _ in range(4)]
    check([wire.pid for wire in wires] == [1001, 1002, 1003, 1004], [wire.pid for wire in wires])
    wire = shim.wire()
    wire.send(packet(VERSION, words('user', 'me', 'database', 'messages')))
    wire.fatal('53300')
    wires[2].close()
    check(shim.enter().pid == 1003, 'another seat than the free one')


def least_given(shim):
    pids = []
    for _ in range(8):
        wire = shim.enter()
        pids.append(wire.pid - 1000)
        wire.send(b'X\0\0\0\4')
        wire.ended()
    check(sorted(pids[:4]) == sorted(pids[4:]) == [1, 2, 3, 4], pids)


def reset(shim):
    """Who comes next in a seat is in no block and listens to nothing."""
    stays = [shim.enter() for _ in range(3)]
    for end in (b'', b'X\0\0\0\4', b'?\0\0\0\4'):
        wire = shim.enter()
        wire.send(query('LISTEN c'), query('SET application_name = x'), query('BEGIN'), query('LISTEN d'), query("NOTIFY e, 'x'"))
        wire.take('CZCSZCZCZCZ')
        pid = wire.pid
        wire.send(end)
        wire.close()
        wire = shim.enter()
        check(wire.pid == pid, 'another seat')
        got = wire.ask('SELECT pg_listening_channels()', 'TCZ')
        check(got[2][1] == b'I', 'in a block')
        wire.shows('application_name', '')
        stays[0].ask("NOTIFY c, 'x'")
        wire.quiet()
        wire.close()


def databases(shim):
    one, other = listening(shim), shim.enter('another')
    other.ask('NOTIFY c')
    one.quiet()
    for number in range(14):
        shim.enter(f'further{number}')
    wire = shim.wire()
    wire.send(packet(VERSION, words('user', 'me', 'database', 'one more')))
    wire.fatal('53300')
    check(shim.enter('further7').pid == 1002, 'another seat')


def not_answered(shim):
    """Passed on are 1,024 queries or 1 MB of a client to a program that does not answer. This one keeps what it reads in a file. Before them
    it reads what the client asked for at its start-up."""
    for text, due in (('LISTEN c', 1024), (f"NOTIFY c, '{60000 * 'x'}'", 18)):
        with tempfile.NamedTemporaryFile() as file:
            stalled = Shim(4, '--program', f"sh -c 'cat >>{file.name}'")
            try:
                passed, whole = passed_on(stalled, file, query(text), due), query(text)
                check(passed == FIRST + whole * due, f'{len(passed) / len(whole)} queries were passed on, due: {due}')
            finally:
                stalled.stop()


def passed_on(stalled, file, whole, due):
    """What is passed on of many queries, where so many are due."""
    wire = stalled.enter()
    wire.socket.setblocking(False)
    with contextlib.suppress(BlockingIOError):
        for _ in range(2000):
            wire.socket.send(whole)
    until = time.monotonic() + WAIT
    while os.path.getsize(file.name) < len(FIRST) + due * len(whole) and time.monotonic() < until:
        time.sleep(0.05)
    time.sleep(QUIET)
    frames, passed = file.read(), b''
    while frames:
        seat, length = struct.unpack('!HH', frames[:4])
        check(seat == 1 and length, 'a frame of seat', seat, 'of', length)
        passed, frames = passed + frames[4:4 + length], frames[4 + length:]
    return passed


def no_memory(shim):
    """A program that has no memory says so by a frame of seat 0. What it told before is told, and it ends when its input does. This one
    reads one byte of the client's first query, and answers that and what the shim asked before it."""
    size, ready = 4 + len(FIRST) + 1, '\\0\\1\\0\\6Z\\0\\0\\0\\5I'
    script = f"[ $(head -c {size} | wc -c) = {size} ] || exit 0; printf '{ready}{ready}\\0\\0\\0\\0'; cat >/dev/null; exit 6"
    spoiled = Shim(4, '--program', shlex.join(['sh', '-c', script]))
    try:
        for number in range(2):
            wire = spoiled.enter()
            wire.send(query('LISTEN c'))
            wire.take('Z')
            wire.fatal('57P01')
            check(len(spoiled.services()) == number + 1, 'services:', spoiled.services())
        until = time.monotonic() + WAIT
        while spoiled.said().count('status 6') < 2 and time.monotonic() < until:
            time.sleep(0.05)
        check(spoiled.said().count('status 6') == 2, spoiled.said())
    finally:
        spoiled.stop()


def does_not_read(shim):
    """Kept for it are 16 MB, and what the kernel takes. What it is told then is whole, in order, and ends with the reason."""
    one, other, count = shim.wire(receive=4096).enter(), shim.enter(), 3600
    one.ask('LISTEN c')
    for number in range(count):
        other.ask(f"NOTIFY c, '{number} {LONG[5:]}'")
    number = 0
    while True:
        got = one.message()
        if not got or got[0] != 'A':
            break
        check(got[1][6:].startswith(f'{number} '.encode()), f'due: {number}; got:', got)
        number += 1
    check(got and got[0] == 'E' and b'\0C53400\0' in got[1], 'due: FATAL 53400; got:', got)
    one.ended()
    check(number * len(LONG) > 15 << 20, f'{number} of {count}')
    other.ask('NOTIFY c')


def half_answers(shim):
    """The answers to what the shim asks first are kept from the client, and nothing else, wherever frames cut them."""
    first, due = complete('SET') + made(b'Z', b'I'), complete('LISTEN') + made(b'Z', b'I')
    size = 4 + len(FIRST) + 1
    for cut in (1, 5, len(first) - 1, len(first), len(first) + 1):
        pieces = (first + due)[:cut], (first + due)[cut:]
        one, two = (''.join(f'\\{byte:03o}' for byte in struct.pack('!HH', 1, len(piece)) + piece) for piece in pieces)
        script = f"[ $(head -c {size} | wc -c) = {size} ] || exit 0; printf '{one}'; sleep 0.1; printf '{two}'; cat >/dev/null"
        cutting = Shim(4, '--program', shlex.join(['sh', '-c', script]))
        try:
            wire = cutting.enter()
            wire.send(query('LISTEN c'))
            got = wire.told() + wire.told()
            check(got == due, f'cut at {cut}: due: {due}; got:', got)
            wire.quiet()
        finally:
            cutting.stop()


def extended(shim):
    """A message of the extended protocol ends its client, who is told why, also where it sends on before it reads."""
    one = listening(shim)
    for letter in b'PBEDCHSF':
        other = shim.enter()
        other.send(query('BEGIN'), query('NOTIFY c'), made(bytes([letter]), b'\0SELECT 1\0\0\0' if letter == ord('P') else b''), query('COMMIT'))
        for _ in range(3):
            time.sleep(0.02)
            other.send(made(b'B', bytes(20000)))
        other.take('CZCZ')
        due = error('0A000', 'the extended protocol is not supported', 'FATAL')
        got = other.told()
        check(got == due, f'{chr(letter)}: due: {due}; got:', got)
        other.ended()
    one.quiet()
    one.ask("NOTIFY c, 'x'", 'CAZ')


def several(shim):
    """Several statements in one text are refused, all of them."""
    one = listening(shim)
    for text in ('NOTIFY c; NOTIFY c', 'BEGIN; NOTIFY c; COMMIT', 'SELECT 1; SELECT 1'):
        got = one.ask(text, 'EZ')
        check(b'\0C42601\0' in got[0][1] and got[1][1] == b'I', text, got)
    one.quiet()


def full_queue(shim):
    """A listener in a block holds the queue until it goes."""
    one, other = listening(shim), shim.enter()
    one.ask('BEGIN')
    for number in range(300):
        other.send(query(f"NOTIFY c, '{LONG}'"))
        got = other.message()
        other.take('Z')
        if got[0] == 'E':
            break
    check(got[0] == 'E' and b'\0C54000\0' in got[1], 'the queue has room for', number)
    one.close()
    until = time.monotonic() + WAIT
    while got[0] == 'E' and time.monotonic() < until:
        other.send(query('NOTIFY c'))
        got = other.message()
        other.take('Z')
    check(got[0] == 'C', 'the queue is not free again:', got)


def service_ends(shim):
    wires, further = [listening(shim) for _ in range(3)], shim.enter('another')
    process, = shim.services()
    os.kill(process, signal.SIGKILL)
    for wire in wires:
        wire.fatal('57P01')
    further.ask('NOTIFY c')
    idle(shim)
    check(len(shim.services()) == 2, 'no new service')


def shim_ends(shim):
    wires = [listening(shim), shim.enter('another')]
    processes = shim.services() + shim.services('another')
    shim.process.terminate()
    for wire in wires:
        wire.fatal('57P01')
    check(shim.process.wait(WAIT) == 0, 'status', shim.process.returncode)
    for process in processes:
        with contextlib.suppress(ProcessLookupError):
            os.kill(process, 0)
            raise Wrong(f'the service {process} is still there')


def spent(shim):
    """A seat has its part of all that the seats may send. The service is replaced once its clients have gone."""
    one, other, count = listening(shim), shim.enter(), 1048575 // 256
    other.send(*[query('NOTIFY d') for _ in range(count + 1)])
    other.take('CZ' * count)
    other.fatal('53400')
    third = shim.enter()
    third.ask("NOTIFY c, 'x'")
    one.note('c', 'x')
    check(len(shim.services()) == 1, 'the service was replaced while clients were there')
    one.close()
    third.close()
    until = time.monotonic() + WAIT
    while len(shim.services()) == 1 and time.monotonic() < until:
        time.sleep(0.1)
        shim.enter().close()
    check(len(shim.services()) == 2, 'no new service')
    idle(shim)


# Each with its title, whether PostgreSQL does it too, and the seats that it takes.
CASES = ((idle, 'a notification comes to an idle client, without a ReadyForQuery', True, 64),
         (half_sent, 'in the middle of a message that it has half sent too', True, 64),
         (in_a_block, 'in a block, failed or not, behind its end and before ReadyForQuery', True, 64),
         (own, 'its own behind CommandComplete', True, 64),
         (one_order, 'all listeners see one order', True, 64),
         (in_one_go, 'queries in one go are answered in order', True, 64),
         (ahead, '5,000 queries in one go', True, 64),
         (half_and_gone, 'half a message and gone: nothing is done', True, 64),
         (whole_and_gone, 'whole queries and gone without reading: done', True, 64),
         (gone_in_a_block, 'gone in a block: nothing of it is sent', True, 64),
         (reads_late, 'a listener that does not read holds up no sender', True, 64),
         (start_up, 'start-up, with what was asked for', True, 64),
         (newer, 'newer minor versions and options, an older protocol', True, 64),
         (refused, 'start-ups that are refused', True, 64),
         (half_a_packet, 'half a start-up holds nobody up', True, 64),
         (terminate, 'Terminate, and nothing behind it', True, 64),
         (bad_message, 'a bad message ends its client alone', True, 64),
         (constants, 'SELECT 1, version(), pg_backend_pid(), rows of channels', True, 64),
         (types, 'columns and their types', True, 64),
         (refused_calls, 'a refused pg_notify: its row first', True, 64),
         (cut_names, 'a name that is cut is told', True, 64),
         (show, 'SHOW', True, 64),
         (put, 'SET, and what is told of it', True, 64),
         (put_back, 'RESET and RESET ALL', True, 64),
         (put_at_start, 'settings of the start-up', True, 64),
         (wrong_settings, 'settings and values that are refused', True, 64),
         (failed_block, 'a failed block refuses all that', True, 64),
         (put_and_rolled_back, 'a SET in a block that is rolled back', True, 64),
         (discard_all, 'DISCARD ALL, in a block and outside', True, 64),
         (nothing_to_do, 'DEALLOCATE ALL and CLOSE ALL', True, 64),
         (modes, 'BEGIN with modes', True, 64),
         (blanks, 'comments, line feeds, and payloads with them', True, 64),
         (no_texts, 'no UTF-8, and no zero byte: the session goes on', True, 64),
         (too_many, 'a client too many', False, 4),
         (least_given, 'seats are given out in turn', False, 4),
         (reset, 'who comes next listens to nothing', False, 4),
         (databases, 'a service for each database, 16 at most', False, 4),
         (not_answered, 'queries that are not answered wait', False, 4),
         (half_answers, 'answers to the settings of a start-up, cut anywhere', False, 4),
         (extended, 'the extended protocol is refused', False, 4),
         (several, 'several statements in one text are refused', False, 4),
         (no_memory, 'a program that has no memory', False, 4),
         (does_not_read, 'a client that does not read is closed', False, 4),
         (full_queue, 'a listener that goes makes room in the queue', False, 4),
         (service_ends, 'a service that ends tells its clients', False, 4),
         (shim_ends, 'the shim ends with its services', False, 4),
         (spent, 'a seat that may notify no more, and the next service', False, 256))


def main():
    global SERVE
    given = sys.argv[1:]
    server = int(given[1]) if given[0] == '--server' else None
    SERVE = given if server is None else []
    failed = 0
    for case, title, both, seats in CASES:
        if server and not both:
            continue
        shim = None
        try:
            shim = Server(server) if server else Shim(seats)
            try:
                case(shim)
            finally:
                shim.stop()
            print(f'  ok      messages: {title}', flush=True)
        except (Wrong, OSError, ValueError, subprocess.TimeoutExpired) as wrong:
            print(f'  FAILED  messages: {title}: {type(wrong).__name__ if not isinstance(wrong, Wrong) else ""} {wrong}', flush=True)
            failed = 1
            if shim and not server and shim.process.poll() is None:
                shim.process.kill()
    sys.exit(failed)


main()
