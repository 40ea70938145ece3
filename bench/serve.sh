#!/bin/sh
# What the service takes, beside PostgreSQL 15 on the same machine, in turns: bench/serve.sh [--program COMMAND] [--quick] [PART..]
#
#   latency    from a NOTIFY to its receipt by a listener: the median, and that of 99 in 100
#   bursts     NOTIFY a second, 2,000 sent in one go, to 1, 8 and 64 listeners; until all have them all
#   beside     NOTIFY a second to one listener, beside 100 and 250 idle listeners of other channels of the database
#   idle       processor time of 256 clients that listen, and of what serves them, in ten seconds
#   memory     bytes a client that listens, bytes a notification that was sent and received
#
# Each is told of `frames`, the program alone, asked through its standard streams; of `sockets`, through tools/serve; and of `postgres`,
# through a socket of 127.0.0.1. With parts only these are measured. COMMAND stands in place of ./pgnotify. --quick takes a tenth of each.
#
# The server is that of Debian's postgresql-15, under /usr/lib/postgresql. It is started in a temporary folder, as another user where this
# one is root, on a port of its own, with its settings as they come, but for 300 connections; a NOTIFY waits for no disk. Where it is not
# there its figures are left out. What comes is compared byte by byte with what is due. Times depend on the machine's load: let nothing
# else run.
exec python3 "$(dirname -- "$0")/serve.py" "$@"
