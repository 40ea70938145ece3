"""psycopg2, psycopg or PyGreSQL, as bench/clients/cases.py asks it: python.py psycopg2|psycopg|pygresql PORT DATABASE"""
import select
import sys
import time

which, port, database = sys.argv[1:]
where = dict(host='127.0.0.1', port=int(port), user='me')


class Psycopg2:
    def __init__(self):
        self.connection = psycopg2.connect(dbname=database, **where)
        self.connection.autocommit = True

    def run(self, text):
        with self.connection.cursor() as cursor:
            cursor.execute(text)

    def own(self):
        """A pool, whose connections begin a block by themselves. What it takes back in a block is rolled back."""
        pool = psycopg2.pool.SimpleConnectionPool(1, 2, dbname=database, **where)
        for text in ("NOTIFY c, 'never'", "NOTIFY c, 'kept'", "NOTIFY c, 'behind'"):
            connection = pool.getconn()
            with connection.cursor() as cursor:
                cursor.execute(text)
            if 'never' not in text:
                connection.commit()
            pool.putconn(connection)
        connection = pool.getconn()
        connection.reset()
        connection.set_session(isolation_level='SERIALIZABLE', readonly=True)
        with connection, connection.cursor() as cursor:
            cursor.execute('SELECT pg_listening_channels()')
        pool.putconn(connection)
        pool.closeall()

    def socket(self):
        return self.connection.fileno()

    def got(self):
        self.connection.poll()
        notes, self.connection.notifies = self.connection.notifies, []
        return [(note.pid, note.channel, note.payload) for note in notes]

    def close(self):
        self.connection.close()


class Psycopg:
    def __init__(self):
        self.connection = psycopg.connect(dbname=database, autocommit=True, prepare_threshold=None, **where)
        self.notes = []
        self.connection.add_notify_handler(lambda note: self.notes.append((note.pid, note.channel, note.payload)))

    def run(self, text):
        psycopg.ClientCursor(self.connection).execute(text)

    def own(self):
        """Its own calls for blocks ask by the extended protocol; its ClientCursor puts arguments into the text."""
        cursor = psycopg.ClientCursor(self.connection)
        for end, payload in ('ROLLBACK', 'never'), ('COMMIT', 'kept'):
            cursor.execute('BEGIN')
            cursor.execute('SELECT pg_notify(%s, %s)', ['c', payload])
            cursor.execute(end)
        cursor.execute("SELECT pg_notify(%s, 'behind')", ['c'])

    def socket(self):
        return self.connection.fileno()

    def got(self):
        self.connection.pgconn.consume_input()
        notes, self.notes = self.notes, []
        while True:
            note = self.connection.pgconn.notifies()
            if not note:
                return notes
            notes.append((note.be_pid, note.relname.decode(), note.extra.decode()))

    def close(self):
        self.connection.close()


class PyGreSql:
    def __init__(self):
        self.connection = pg.connect(dbname=database, **where)

    def run(self, text):
        self.connection.query(text)

    def own(self):
        """Its class for whole databases."""
        whole = pg.DB(dbname=database, **where)
        whole.begin()
        whole.query("NOTIFY c, 'never'")
        whole.rollback()
        whole.begin()
        whole.query("NOTIFY c, 'kept'")
        whole.commit()
        whole.query("NOTIFY c, 'behind'")
        whole.close()

    def socket(self):
        return self.connection.fileno()

    def got(self):
        notes = []
        while True:
            note = self.connection.getnotify()
            if not note:
                return notes
            notes.append((note[1], note[0], note[2]))

    def close(self):
        self.connection.close()


if which == 'psycopg2':
    import psycopg2
    import psycopg2.pool
    kind = Psycopg2
elif which == 'psycopg':
    import psycopg
    kind = Psycopg
else:
    import pg
    kind = PyGreSql

connections = {}
for line in sys.stdin:
    word, number, *rest = line.rstrip('\n').split(' ', 2)
    try:
        if word == 'open':
            connections[number] = kind()
        elif word == 'run':
            connections[number].run(rest[0])
        elif word == 'own':
            connections[number].own()
        elif word == 'get':
            count, ms = map(int, rest[0].split())
            until = time.monotonic() + ms / 1000
            while True:
                for note in connections[number].got():
                    print(*note)
                    count -= 1
                left = until - time.monotonic()
                if count <= 0 or left <= 0:
                    break
                select.select([connections[number].socket()], [], [], left)
        elif word == 'close':
            connections.pop(number).close()
        print('ok', flush=True)
    except Exception as error:
        print('error', ' '.join(str(error).split()), flush=True)
