"""The figures of bench/serve.sh, whose head says what they are."""
import argparse
import contextlib
import glob
import os
import pwd
import select
import shlex
import shutil
import signal
import socket
import struct
import subprocess
import sys
import tempfile
import time

ROOT = os.path.join(os.path.dirname(os.path.abspath(__file__)), '..')
BURST, ANSWER = 2000, b'C\0\0\0\x0bNOTIFY\0Z\0\0\0\5I'
LISTENED = b'C\0\0\0\x0bLISTEN\0Z\0\0\0\5I'
FRAME = struct.Struct('!HH')
TICK = os.sysconf('SC_CLK_TCK')


def query(text):
    return b'Q' + struct.pack('!I', 5 + len(text)) + text.encode() + b'\0'


def note(pid, channel, payload):
    body = struct.pack('!I', pid) + f'{channel}\0{payload}\0'.encode()
    return b'A' + struct.pack('!I', 4 + len(body)) + body


def stat(process):
    """Of a process: its parent, and its processor time in seconds."""
    words = open(f'/proc/{process}/stat', encoding='utf-8').read().rpartition(')')[2].split()
    return int(words[1]), (int(words[11]) + int(words[12])) / TICK


def family(process):
    """A process and those below it."""
    parents, found = {}, [process]
    for path in glob.glob('/proc/[0-9]*'):
        try:
            parents[int(path[6:])] = stat(int(path[6:]))[0]
        except (OSError, IndexError):
            pass
    for member in found:
        found += [child for child, parent in parents.items() if parent == member]
    return found


def seconds_of(process):
    total = 0.0
    for member in family(process):
        with contextlib.suppress(OSError):
            total += stat(member)[1]
    return total


def memory_of(process):
    """Bytes of a process and those below it; what several share is told once."""
    total = 0
    for member in family(process):
        with contextlib.suppress(OSError), open(f'/proc/{member}/smaps_rollup', encoding='utf-8') as lines:
            total += sum(int(line.split()[1]) for line in lines if line.startswith('Pss:'))
    return total * 1024


class Frames:
    """The program alone. A client is a seat."""

    def __init__(self, command, seats):
        self.process = subprocess.Popen([*command, 'serve', '--seats', str(seats)], stdin=subprocess.PIPE, stdout=subprocess.PIPE, bufsize=0)
        self.came, self.rest, self.clients = {}, b'', 0
        self.into, self.out = self.process.stdin.fileno(), self.process.stdout.fileno()

    def enter(self):
        self.clients += 1
        self.came[self.clients] = []
        return self.clients, 1000 + self.clients

    def send(self, client, data):
        for at in range(0, len(data), 65535):
            piece = data[at:at + 65535]
            piece = FRAME.pack(client, len(piece)) + piece
            while piece:
                piece = piece[os.write(self.into, piece):]

    def take(self, sizes):
        """Waits until so many bytes have come for each of these clients, and takes them."""
        left = {client: size - sum(map(len, self.came[client])) for client, size in sizes.items()}
        due = sum(size > 0 for size in left.values())
        while due:
            data = os.read(self.out, 1 << 16)
            if not data:
                sys.exit('bench: the program has ended')
            if self.rest:
                data = self.rest + data
            at, end = 0, len(data)
            while end - at >= 4:
                client, size = FRAME.unpack_from(data, at)
                to = at + 4 + size
                if to > end:
                    break
                self.came[client].append(data[at + 4:to])
                if client in left:
                    due -= 0 < left[client] <= size
                    left[client] -= size
                at = to
            self.rest = data[at:]
        taken = {}
        for client, size in sizes.items():
            whole = b''.join(self.came[client])
            taken[client], self.came[client] = whole[:size], [whole[size:]]
        return taken

    def pid(self):
        return self.process.pid

    def end(self):
        self.process.stdin.close()
        self.process.wait()
        self.process.stdout.close()


class Sockets:
    """A server at a port. A client is a connection."""

    def __init__(self, port):
        self.port, self.sockets = port, []

    def enter(self):
        one = socket.create_connection(('127.0.0.1', self.port))
        one.setsockopt(socket.IPPROTO_TCP, socket.TCP_NODELAY, 1)
        words = b'user\0me\0database\0bench\0\0'
        one.sendall(struct.pack('!II', 8 + len(words), 196608) + words)
        came = b''
        while not came.endswith(b'Z\0\0\0\5I'):
            more = one.recv(65536)
            if not more:
                sys.exit(f'bench: not let in: {came}')
            came += more
        at = came.index(b'K\0\0\0\x0c')
        self.sockets.append(one)
        return len(self.sockets) - 1, struct.unpack_from('!I', came, at + 5)[0]

    def send(self, client, data):
        self.sockets[client].sendall(data)

    def take(self, sizes):
        if len(sizes) == 1:
            (client, size), came = *sizes.items(), []
            while size > 0:
                came.append(self.sockets[client].recv(size))
                if not came[-1]:
                    sys.exit('bench: a connection was closed')
                size -= len(came[-1])
            return {client: b''.join(came)}
        poll, by_number, came, left = select.epoll(), {}, {client: [] for client in sizes}, dict(sizes)
        for client in sizes:
            number = self.sockets[client].fileno()
            by_number[number] = client
            poll.register(number, select.EPOLLIN)
        while by_number:
            for number, _ in poll.poll():
                client = by_number[number]
                data = self.sockets[client].recv(left[client])
                if not data:
                    sys.exit('bench: a connection was closed')
                came[client].append(data)
                left[client] -= len(data)
                if not left[client]:
                    poll.unregister(number)
                    del by_number[number]
        poll.close()
        return {client: b''.join(pieces) for client, pieces in came.items()}

    def end(self):
        for one in self.sockets:
            one.close()


class Shim(Sockets):
    """tools/serve over the program."""

    def __init__(self, command, seats):
        words = [os.path.join(ROOT, 'tools/serve'), '0', '--seats', str(seats), '--program', shlex.join(command)]
        self.process = subprocess.Popen(words, stdout=subprocess.PIPE, stderr=subprocess.DEVNULL, text=True)
        super().__init__(int(self.process.stdout.readline().split()[-1]))

    def pid(self):
        return self.process.pid

    def end(self):
        super().end()
        self.process.send_signal(signal.SIGTERM)
        self.process.wait()
        self.process.stdout.close()


class Server:
    """A PostgreSQL server of our own."""

    def __init__(self):
        self.found = max(glob.glob('/usr/lib/postgresql/*/bin'), key=lambda path: int(path.split('/')[4]), default=None)
        if not self.found:
            return
        whose = {}
        self.folder = tempfile.mkdtemp()
        if os.getuid() == 0:
            user = next((user for user in pwd.getpwall() if user.pw_name == 'postgres'), pwd.getpwnam('nobody'))
            whose = {'user': user.pw_uid, 'group': user.pw_gid, 'extra_groups': [], 'cwd': '/'}
            os.chown(self.folder, user.pw_uid, user.pw_gid)
        with socket.create_server(('127.0.0.1', 0)) as free:
            self.port = free.getsockname()[1]
        data = os.path.join(self.folder, 'data')
        words = ['-U', 'me', '-A', 'trust', '-E', 'UTF8', '--locale=C', '-N']
        subprocess.run([self.found + '/initdb', '-D', data, *words], check=True, stdout=subprocess.DEVNULL, **whose)
        settings = dict(listen_addresses='127.0.0.1', port=self.port, unix_socket_directories=self.folder, max_connections=300)
        words = [word for name, value in settings.items() for word in ('-c', f'{name}={value}')]
        self.log = open(os.path.join(self.folder, 'log'), 'wb')
        self.process = subprocess.Popen([self.found + '/postgres', '-D', data, *words], stdout=self.log, stderr=self.log, **whose)
        made = [self.found + '/createdb', '-h', '127.0.0.1', '-p', str(self.port), '-U', 'me', 'bench']
        until = time.monotonic() + 30
        while subprocess.run(made, stderr=subprocess.DEVNULL, check=False).returncode:
            if time.monotonic() > until or self.process.poll() is not None:
                sys.exit('bench: the server does not start')
            time.sleep(0.2)

    def end(self):
        if self.found:
            self.process.send_signal(signal.SIGINT)
            self.process.wait()
            self.log.close()
            shutil.rmtree(self.folder, ignore_errors=True)


class Postgres(Sockets):
    def __init__(self, server):
        super().__init__(server.port)
        self.server = server

    def pid(self):
        return self.server.process.pid

    def end(self):
        super().end()
        # Its processes go a little later.
        until = time.monotonic() + 10
        while len(family(self.pid())) > 10 and time.monotonic() < until:
            time.sleep(0.05)


def listen(place, channel):
    client, pid = place.enter()
    place.send(client, query(f'LISTEN {channel}'))
    came = place.take({client: len(LISTENED)})[client]
    if came != LISTENED:
        sys.exit(f'bench: LISTEN was answered {came}')
    return client, pid


def latencies(place, count):
    """Seconds from a NOTIFY to its receipt, one after another."""
    (one, _), (sender, pid), times = listen(place, 'c'), place.enter(), []
    for number in range(count):
        payload = f'{number:04}'
        data, due = query(f"NOTIFY c, '{payload}'"), note(pid, 'c', payload)
        begun = time.perf_counter()
        place.send(sender, data)
        came = place.take({one: len(due)})[one]
        times.append(time.perf_counter() - begun)
        if came != due or place.take({sender: len(ANSWER)})[sender] != ANSWER:
            sys.exit(f'bench: NOTIFY {number} came as {came}')
    return times


def burst(place, listeners, sender, pid, count):
    """NOTIFY a second of so many in one go, until all listeners have them and the sender its answers."""
    payloads = [f'{number:04}' for number in range(count)]
    data, due = b''.join(query(f"NOTIFY c, '{payload}'") for payload in payloads), b''.join(note(pid, 'c', payload) for payload in payloads)
    sizes = {client: len(due) for client in listeners}
    sizes[sender] = len(ANSWER) * count
    begun = time.perf_counter()
    place.send(sender, data)
    came = place.take(sizes)
    took = time.perf_counter() - begun
    if came.pop(sender) != ANSWER * count or any(said != due for said in came.values()):
        sys.exit('bench: what came is not what is due')
    return count / took


class Bench:
    def __init__(self, command, quick):
        self.command, self.quick, self.server = command, quick, Server()

    def places(self, seats):
        """Each of the three, opened when its turn comes and ended behind it."""
        kinds = [('frames', lambda: Frames(self.command, seats)), ('sockets', lambda: Shim(self.command, seats))]
        if self.server.found:
            kinds.append(('postgres', lambda: Postgres(self.server)))
        for name, make in kinds:
            place = make()
            yield name, place
            place.end()

    def part(self, count):
        return max(20, count // 10) if self.quick else count

    def rounds(self):
        return range(1 if self.quick else 5)

    def latency(self):
        all_times = {}
        for _ in self.rounds():
            for name, place in self.places(64):
                all_times.setdefault(name, []).extend(latencies(place, self.part(2000)))
        for name, times in all_times.items():
            times.sort()
            middle, late = times[len(times) // 2] * 1e6, times[len(times) * 99 // 100] * 1e6
            print(f'latency   {name:9} median {middle:7.0f} microseconds, 99 in 100 within {late:7.0f}, least {times[0] * 1e6:6.0f}, of {len(times)}')

    def told(self, part, rates):
        for name, found in rates.items():
            found.sort()
            print(f'{part:27} {name:9} {found[len(found) // 2]:9,.0f} NOTIFY a second, from {found[0]:,.0f} to {found[-1]:,.0f}, of {len(found)}')

    def bursts(self):
        for count in (1, 8, 64):
            rates = {}
            for _ in self.rounds():
                for name, place in self.places(72):
                    listeners, (sender, pid) = [listen(place, 'c')[0] for _ in range(count)], place.enter()
                    rates.setdefault(name, []).append(burst(place, listeners, sender, pid, self.part(BURST)))
            self.told(f'bursts to {count} listeners', rates)

    def beside(self):
        for count in (100, 250):
            rates = {}
            for _ in self.rounds():
                for name, place in self.places(256):
                    for number in range(count):
                        listen(place, f'other{number}')
                    (one, _), (sender, pid) = listen(place, 'c'), place.enter()
                    size = self.part(BURST) // (10 if name == 'postgres' else 1)
                    rates.setdefault(name, []).append(burst(place, [one], sender, pid, size))
            self.told(f'beside {count} idle listeners', rates)

    def idle(self):
        for name, place in self.places(256):
            for number in range(256):
                listen(place, f'c{number}')
            time.sleep(1)
            before, seconds = seconds_of(place.pid()), self.part(100) / 10
            time.sleep(seconds)
            print(f'idle      {name:9} {seconds_of(place.pid()) - before:.2f} s of processor time of 256 clients in {seconds:.0f} s')

    def memory(self):
        for name, place in self.places(256):
            listen(place, 'first')
            before = memory_of(place.pid())
            for number in range(250):
                listen(place, f'c{number}')
            a_client = (memory_of(place.pid()) - before) / 250
            (one, _), (sender, pid) = listen(place, 'c'), place.enter()
            burst(place, [one], sender, pid, 1000)
            before = memory_of(place.pid())
            burst(place, [one], sender, pid, 3000)
            a_note = (memory_of(place.pid()) - before) / 3000
            print(f'memory    {name:9} {a_client:9,.0f} bytes a client that listens, {a_note:7,.0f} a notification')


def main():
    words = argparse.ArgumentParser(prog='serve.sh')
    words.add_argument('--program', type=shlex.split, default=[os.path.join(ROOT, 'pgnotify')], metavar='COMMAND')
    words.add_argument('--quick', action='store_true')
    parts = 'latency', 'bursts', 'beside', 'idle', 'memory'
    words.add_argument('parts', nargs='*', metavar='PART', help=', '.join(parts))
    asked = words.parse_args()
    for part in asked.parts:
        if part not in parts:
            words.error(f'no part {part}')
    subprocess.run([*asked.program, 'serve', '--seats', '1'], stdin=subprocess.DEVNULL, check=True)
    bench = Bench(asked.program, asked.quick)
    try:
        for part in asked.parts or parts:
            getattr(bench, part)()
            sys.stdout.flush()
    finally:
        bench.server.end()


main()
