"""pgbouncer between the client library and the service, by Debian's defaults: pgbouncer.py PORT COMMAND..

Each pool is one of sessions, whose connection is reset by DISCARD ALL before another client has it. `pooled` has as many connections as a
service has seats, `single` has one, and `beside` comes to the database of `single`. COMMAND is run with the port of the pooler for a word
`PORT`, and its status is the status here.
"""
import os
import pwd
import socket
import subprocess
import sys
import tempfile
import time

port, *command = sys.argv[1:]
with socket.create_server(('127.0.0.1', 0)) as free:
    own = free.getsockname()[1]
at = f'host=127.0.0.1 port={port} user=me'
TEXT = f'''[databases]
pooled = {at} dbname=pgbouncer pool_size=64
single = {at} dbname=single pool_size=1
beside = {at} dbname=single pool_size=2
[pgbouncer]
listen_addr = 127.0.0.1
listen_port = {own}
unix_socket_dir =
auth_type = any
'''


def is_there():
    with socket.socket() as tried:
        return tried.connect_ex(('127.0.0.1', own)) == 0


with tempfile.TemporaryDirectory() as room, open(f'{room}/log', 'w+', encoding='utf-8') as log:
    path = f'{room}/pgbouncer.ini'
    with open(path, 'w', encoding='utf-8') as file:
        file.write(TEXT)
    words = ['pgbouncer', path]
    if os.getuid() == 0:
        # It does not run as root.
        words[1:1] = ['-u', 'nobody']
        for name in room, path:
            os.chown(name, pwd.getpwnam('nobody').pw_uid, -1)
    pooler = subprocess.Popen(words, stdout=log, stderr=log)
    try:
        until = time.monotonic() + 20
        while not is_there() and pooler.poll() is None and time.monotonic() < until:
            time.sleep(0.05)
        status = subprocess.run([word if word != 'PORT' else str(own) for word in command], check=False).returncode
        if status or pooler.poll() is not None:
            log.seek(0)
            sys.stderr.writelines(log.readlines()[-20:])
    finally:
        pooler.terminate()
        pooler.wait()
sys.exit(status)
