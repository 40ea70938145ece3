#!/bin/sh
# Whether clients of PostgreSQL, unmodified, work with the service: bench/clients.sh [--program COMMAND | --server PORT] [NAME..]
#
# Starts tools/serve, over COMMAND in place of ./pgnotify, and has each client library go through the cases of bench/clients/cases.py: LISTEN
# in one connection and NOTIFY in another, in and out of a block, rolled back, by the library's own calls and its pool, 7,999 bytes, 1,000 in
# order, a client that dies in a block, 64 clients at once. With names only these are tried. The client `messages` is
# bench/clients/messages.py, which looks at each message, and has the cases of start-up, of settings, of the order of messages, of clients
# that go, and of services that end.
#
# The libraries are Debian's, by these packages; a client whose library or compiler is not there is skipped:
#
#   psql        postgresql-client-15, util-linux, coreutils
#   libpq       libpq-dev, gcc
#   psycopg2    python3-psycopg2, and psycopg: python3-psycopg, pygresql: python3-pygresql
#   node        node-pg, nodejs
#   pq          golang-github-lib-pq-dev, golang-go, and pgx: golang-github-jackc-pgx-v4-dev
#   tokio       librust-tokio-postgres-dev, cargo
#   ruby        ruby-pg
#   perl        libdbd-pg-perl
#   php         php-cli, php-pgsql
#   jdbc        libpostgresql-jdbc-java, a JDK
#   pgbouncer   pgbouncer, a pooler of sessions, between psycopg2 and the service
#
# They connect by their defaults, but for JDBC, with preferQueryMode=simple, and psycopg, with its ClientCursor: docs/clients.md says why. A
# line for each case says `ok` or `FAILED`. The last line says how many clients passed, failed and were skipped; the status is 1 where one
# failed. With --server the cases that PostgreSQL has too are tried on a server at that port of 127.0.0.1: it lets in the user `me`, and has a
# database of each client's name, and `single`.
set -u

root=$(cd -- "$(dirname -- "$0")/.." && pwd)
here=$root/bench/clients
room=$(mktemp -d)
shim=
end() {
    [ -z "$shim" ] || { kill "$shim" && wait "$shim"; } 2>/dev/null
    rm -rf -- "$room"
}
trap end EXIT
trap 'exit 1' HUP INT TERM

program=
server=
case ${1-} in
--program) program=$2 && shift 2 ;;
--server) server=$2 && shift 2 ;;
esac
all='messages psql libpq psycopg2 psycopg pygresql node pq pgx tokio ruby perl php jdbc pgbouncer'
[ $# -gt 0 ] || set -- $all asyncpg

passed=0
failed=0
skipped=0
skip() {
    printf '  skipped %s: %s\n' "$name" "$1"
    skipped=$((skipped + 1))
}

# go COMMAND..: the cases over this program
go() {
    count "$here/cases.py" "$port" "$name" "$@"
}

count() {
    if python3 "$@"; then passed=$((passed + 1)); else failed=$((failed + 1)); fi
}

# made COMMAND..: whether it goes well; what it says is shown where it does not
made() {
    "$@" >"$room/said" 2>&1 || { cat -- "$room/said" >&2; false; }
}

# Debian's Go and Rust libraries are sources in these folders; what is built from them is built here.
build_go() {
    made env GOPATH=/usr/share/gocode GO111MODULE=off GOCACHE="$room/go" go build -o "$room/$name" "$here/$name.go"
}

build_tokio() {
    mkdir -p "$room/tokio/src" "$room/tokio/.cargo" && cp "$here/tokio.rs" "$room/tokio/src/main.rs" || return
    printf '[source.crates-io]\nreplace-with = "debian"\n[source.debian]\ndirectory = "/usr/share/cargo/registry"\n' >"$room/tokio/.cargo/config.toml"
    printf '[package]\nname = "client"\nversion = "0.1.0"\nedition = "2021"\n[dependencies]\n' >"$room/tokio/Cargo.toml"
    printf 'tokio = { version = "1", features = ["rt", "macros", "sync", "time", "net"] }\ntokio-postgres = "0.7"\n' >>"$room/tokio/Cargo.toml"
    (cd -- "$room/tokio" && made cargo build --offline)
}

# has COMMAND..: whether all are there
has() {
    for command; do
        command -v "$command" >"$room/said" || return
    done
}

client() {
    case $name in
    messages)
        if [ -n "$server" ]; then count "$here/messages.py" --server "$server"
        else count "$here/messages.py" "$root/tools/serve" ${program:+--program "$program"}; fi
        ;;
    psql) if has psql setpriv stdbuf; then go python3 "$here/psql.py"; else skip 'no psql'; fi ;;
    libpq)
        if ! has cc || [ ! -e /usr/include/postgresql/libpq-fe.h ]; then skip 'no libpq-dev, or no compiler'
        elif made cc -O1 -Wall -I/usr/include/postgresql -o "$room/libpq" "$here/libpq.c" -lpq; then go "$room/libpq"
        else failed=$((failed + 1)); fi
        ;;
    psycopg2 | psycopg | pygresql)
        module=$name
        [ "$name" != pygresql ] || module=pg
        if /usr/bin/python3 -c "import $module" 2>"$room/said"; then go /usr/bin/python3 "$here/python.py" "$name"; else skip 'no such package'; fi
        ;;
    node)
        if has node && NODE_PATH=/usr/share/nodejs node -e 'require("pg")' 2>"$room/said"; then
            NODE_PATH=/usr/share/nodejs go node "$here/node.js"
        else skip 'no node-pg'; fi
        ;;
    pq | pgx)
        folder=lib/pq
        [ "$name" != pgx ] || folder=jackc/pgx/v4
        if ! has go || [ ! -d "/usr/share/gocode/src/github.com/$folder" ]; then skip 'no such package, or no compiler'
        elif build_go; then go "$room/$name"
        else failed=$((failed + 1)); fi
        ;;
    tokio)
        if ! has cargo || ! ls -d /usr/share/cargo/registry/tokio-postgres-0.7* >"$room/said" 2>&1; then skip 'no such package, or no compiler'
        elif build_tokio; then go "$room/tokio/target/debug/client"
        else failed=$((failed + 1)); fi
        ;;
    ruby) if has ruby && ruby -e 'require "pg"' 2>"$room/said"; then go ruby "$here/ruby.rb"; else skip 'no ruby-pg'; fi ;;
    perl) if has perl && perl -e 'use DBD::Pg' 2>"$room/said"; then go perl "$here/perl.pl"; else skip 'no DBD::Pg'; fi ;;
    php) if has php && php -r 'exit(function_exists("pg_connect") ? 0 : 1);'; then go php "$here/php.php"; else skip 'no php-pgsql'; fi ;;
    jdbc)
        if ! has javac || [ ! -e /usr/share/java/postgresql.jar ]; then skip 'no driver, or no compiler'
        elif made javac -cp /usr/share/java/postgresql.jar -d "$room" "$here/Jdbc.java"; then go java -cp "$room:/usr/share/java/postgresql.jar" Jdbc
        else failed=$((failed + 1)); fi
        ;;
    pgbouncer)
        if has pgbouncer && /usr/bin/python3 -c 'import psycopg2' 2>"$room/said"; then
            count "$here/pgbouncer.py" "$port" python3 "$here/cases.py" PORT "$name" /usr/bin/python3 "$here/python.py" psycopg2
        else skip 'no pgbouncer, or no psycopg2'; fi
        ;;
    asyncpg) skip 'it listens by the extended protocol, which the program does not answer' ;;
    *) echo "clients: no client $name; there are $all" >&2 && exit 2 ;;
    esac
}

port=$server
if [ -z "$server" ]; then
    : >"$room/port"
    "$root/tools/serve" 0 ${program:+--program "$program"} >"$room/port" 2>"$room/log" &
    shim=$!
    # A program that has to be built is built meanwhile.
    while ! grep -q psql "$room/port"; do
        kill -0 "$shim" 2>"$room/said" || { cat -- "$room/log" >&2; exit 1; }
        sleep 0.1
    done
    port=$(sed 's/.* //' "$room/port")
fi
for name; do
    client
done
if [ -n "$shim" ] && ! kill -0 "$shim" 2>"$room/said"; then
    echo 'clients: tools/serve has ended by itself' >&2
    failed=$((failed + 1))
fi
# Where one failed, what the shim said may tell why.
[ "$failed" -eq 0 ] || [ -z "$shim" ] || cat -- "$room/log" >&2
echo "clients: $passed passed, $failed failed, $skipped skipped"
[ "$failed" -eq 0 ]
