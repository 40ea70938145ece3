#!/bin/sh
# Measures the program on long scenarios and on sessions that wait: bench/run.sh [--hostile | --checked] [PROGRAM]
#
# PROGRAM is run with the word `run`; without it the program is the one that ./pgnotify starts, built first where need be.
# Each long input is `\session a 1` and then lines that are told by a number n, at three sizes. A line in the tables is one of n.
#
#   self-notify  LISTEN c, and n times NOTIFY c with a payload of 1 byte
#   no-listener  the same without the LISTEN
#   200-byte     LISTEN c, and n times NOTIFY c with a payload of 200 bytes
#   7999-byte    likewise with 7,999 bytes
#   repeat       LISTEN c, and n times a pg_notify of a text that is repeated 7,999 times
#   blocks       LISTEN c, and n NOTIFYs of payloads that differ, in blocks of 100
#   savepoints   LISTEN c, and blocks of 20 times SAVEPOINT, NOTIFY, and after each third ROLLBACK TO that savepoint: n NOTIFYs
#   4096-set     4,096 LISTENs, and n times NOTIFY c0 with a payload of 1 byte
#   rows         4,096 LISTENs, and n times pg_listening_channels, so that a line has 4,096 rows
#   listens      n LISTENs
#   left         n LISTENs, and then an UNLISTEN of each
#   left-block   the same in one block
#   no-such      in a block n SAVEPOINTs, an error, and n times ROLLBACK TO a name that is not there
#   come-go      in a block n SAVEPOINTs, and then n times SAVEPOINT, RELEASE of a name that is not there and ROLLBACK TO the
#                last but one
#
# Beside each stand the instructions that a line more takes, those that a byte more of input and output takes, and the memory of a
# line more. Where a byte more takes a quarter more instructions between the larger two sizes than between the smaller two, the load
# grows faster than its input and output, and the row says so.
#
#   start        LISTEN c and n times NOTIFY c, with 256 and with 1,024 pages: the instructions of the whole run
#
# Then come queries of one client, by `wire`:
#
#   wire         LISTEN c, and n times NOTIFY c with a payload of 1 byte, as above; and the start, as above
#   together     the same, sent in one go by bench/asking.c, which takes the answers: queries a second by the clock
#   apart        the same, each sent once the one before was answered
#
# Then come several sessions, at three sizes each:
#
#   8 that listen    each listens on c and sends n notifications of 1 byte
#   32 that listen   likewise
#   64 listeners     they listen on c, and one session sends n notifications
#   16 writers       each sends n notifications, and none listens
#   255 idle         they listen in another database, and one session sends n notifications
#   255 elsewhere    they listen in its database, on another channel
#
# Then come sessions that wait:
#
#   await each other      two sessions, each of which awaits a flag that the other one raises behind its own await
#   listeners likewise    the same two, after a LISTEN each
#   60,000 lines          a session that sends so many, alone; then beside 255 sessions that await the flag which it raises last
#   a flag after a while  a session that sends 4,000 lines and raises a flag, alone; then beside one that awaits the flag
#   256 on one processor  255 sessions await a flag that the other one raises after 10,000 lines, all on one processor
#   idle, 10 seconds      64 and 255 sessions that listen, beside one that awaits a flag in vain
#
# Then come drills, which have a scenario of their own: 8 sessions that send 200 and 1,000 notifications each, and 32 that send 200.
# Beside each stand the milliseconds of a plain program on the same scenario, with one lock round its queue, on 4 processors. A drill
# is run ten times, and its summary has to be the one that its words say; the mean is given, and the peak memory.
#
# Then come live runs:
#
#   60,000 notifications, at its end   self-notify, and the text once the run has ended
#   60,000 notifications, live         the same with --live; it may take twice the processor time
#
# and how soon the lines of a live run are there, by bench/live, and how soon a commit is read by 1 and by 64 idle sessions, and by --live
# written, by bench/idle.
#
# With --hostile only bench/hostile.sh is run, with --checked only bench/checked.sh, whose heads say what they are.
#
# Seconds are those of the processor, the least of three runs, and depend on the machine's load. Instructions do not: where they are
# counted, bench/entropy.c gives the program the same bytes for its seed in each run. Wall time is the least of three runs too, but of one
# where sessions wait in vain. Needs GNU time, awk, Python, taskset, a C compiler, and valgrind for the instructions (without valgrind those
# are left out).
set -eu

only=
case ${1-} in
--hostile | --checked)
    only=${1#--}
    shift
    ;;
esac

room=$(mktemp -d)
trap 'rm -rf -- "$room"' EXIT
trap 'exit 1' HUP INT TERM

root=$(cd -- "$(dirname -- "$0")/.." && pwd)
if [ $# -gt 0 ]; then
    program=$1
else
    program=$root/crates/pgn_cli/out/pgn_cli
    printf '\\session a 1\n' | "$root/pgnotify" run >"$room/output"
fi

# refused FILE STATUS: a run that did not end well measures nothing
refused() {
    printf 'bench: %s ended with status %s on input %s\n' "$program" "$2" "$1" >&2
    cat -- "$room/errors" >&2
    exit 1
}

# The command that is measured, and the function that makes its inputs: `run` and `made`, or `wire` and `asked`.
command=run maker=made

# timed FILE WORD ..: the least processor seconds of three runs with these words, and the peak memory in KB
timed() {
    file=$1
    shift
    for _ in 1 2 3; do
        env time -q -a -o "$room/times" -f '%U %S %M' \
            "$program" "$command" "$@" <"$room/$file" >"$room/output" 2>"$room/errors" || refused "$file" $?
    done
    awk 'NR == 1 || $1 + $2 < best { best = $1 + $2 } { peak = $3 } END { printf "%.2f %d", best, peak }' "$room/times"
    rm -f -- "$room/times"
}

# counted FILE WORD ..: how many instructions a run with these words takes, or 0 without valgrind
counted() {
    if ! command -v valgrind >/dev/null; then
        echo 0
        return
    fi
    file=$1
    shift
    [ -e "$room/entropy.so" ] || cc -O2 -shared -fPIC -o "$room/entropy.so" "$root/bench/entropy.c"
    LD_PRELOAD=$room/entropy.so valgrind --tool=callgrind --callgrind-out-file=/dev/null --log-file="$room/log" \
        "$program" "$command" "$@" <"$room/$file" >"$room/output" 2>"$room/errors" || refused "$file" $?
    awk '$2 == "Collected" { print $4 }' "$room/log"
}

# moved FILE: how many bytes that input and the last output have
moved() {
    cat -- "$room/$1" "$room/output" | wc -c
}

# made FILE BODY N: the input that the body of an awk program prints with n = N, after the line that begins a session
made() {
    { printf '\\session a 1\n' && awk -v n="$3" "$letters BEGIN { $2 }"; } >"$room/$1"
}

# asked FILE QUERY N: a client that asks LISTEN c, and then so many times this query
asked() {
    python3 -c 'import struct, sys
def message(text): return b"Q" + struct.pack("!I", 5 + len(text)) + text.encode() + b"\0"
sys.stdout.buffer.write(message("LISTEN c") + message(sys.argv[1]) * int(sys.argv[2]))' "$2" "$3" >"$room/$1"
}

# so many letters p, for the bodies
letters='function p(count,   text) { while (length(text) < count) text = text "p"; return text }'

# load NAME BODY N N ..: a row for each N, with the difference to the row before
load() {
    name=$1 body=$2 before=
    shift 2
    for n in "$@"; do
        "$maker" load "$body" "$n"
        times=$(timed load)
        count=$(counted load)
        now="$n $count $(moved load) ${times#* }"
        grown=$(printf '%s %s\n' "$now" "$before" | awk 'NF > 4 && $2 > 0 { printf "%.3f", ($2 - $6) / ($3 - $7) }')
        printf '%s %s %s\n' "$name" "$times $now ${grown:-0}" "$before" | awk '{
            printf "%-11s %6d lines %6.2f s %7.1f MB peak", $1, $4, $2, $3 / 1024
            if ($5 > 0) printf " %13.0f instructions", $5
            if (NF > 8) {
                more = $4 - $9
                if ($5 > 0) printf " %8.0f a line %7.1f a byte", ($5 - $10) / more, $8
                printf " %8.0f bytes a line", ($7 - $12) * 1024 / more
                if ($13 > 0 && $8 > $13 * 1.25) printf "   GROWS FASTER THAN ITS INPUT AND OUTPUT"
            }
            printf "\n"
        }'
        before="$now ${grown:-0}"
    done
}

# start BODY N WORD ..: a row of a short run with these words
start() {
    "$maker" load "$1" "$2"
    notes=$2
    shift 2
    times=$(timed load "$@")
    count=$(counted load "$@")
    wall=$("$root/bench/timed" 20 "$room/load" "$room/output" "$room/errors" "$program" "$command" "$@") || refused load $?
    printf '%s\n' "$notes $times $count $wall $command $*" | awk '{
        printf "start %4d %-17s %5.1f ms of processor time %5.1f ms of wall time %5.1f MB peak %11.0f instructions\n",
            $1, $7 " " $8 " " $9, $5, $6, $3 / 1024, $4
    }'
}

# rate WAY N: how many queries a second `wire` answers, of so many that are asked together or apart; the best of five runs
rate() {
    [ -e "$room/asking" ] || cc -O2 -o "$room/asking" "$root/bench/asking.c"
    for _ in 1 2 3 4 5; do "$room/asking" "$1" "$2" "$program" wire 2>"$room/errors" || refused "$*" $?; done >"$room/micros"
    sort -n "$room/micros" | awk -v way="$1" -v count="$2" 'NR == 1 {
        printf "wire %-8s %6d queries %8.0f a second %6.1f microseconds each\n", way, count, count * 1000000 / $1, $1 / count
    }'
}

# several NAME BODY N N ..: a row for each N, of the sections that the body of an awk program prints with n = N
several() {
    name=$1 body=$2
    shift 2
    for n in "$@"; do
        awk -v n="$n" "$sections BEGIN { $body }" >"$room/load"
        times=$("$root/bench/timed" 10 "$room/load" "$room/output" "$room/errors" "$program" run) || refused load $?
        printf '%s %s\n' "$n" "$times $(moved load)" | awk -v name="$name" '{
            printf "%-16s %6d lines %8.1f ms of processor time %8.1f ms of wall time %6.1f ns of processor time a byte\n", name, $1, $2, $3, $2 * 1000000 / $4
        }'
    done
}

# sections for the bodies: from one number to another, in this database, with a LISTEN of c where that is 1 and of d where it is 2, that each
# send so many lines on c
sections='function sections(from, to, database, listen, lines,   k, i) {
    for (k = from; k <= to; k++) {
        print "\\session s" k " " database
        if (listen) print "LISTEN " (listen == 1 ? "c" : "d")
        for (i = 0; i < lines; i++) print "NOTIFY c, \047p\047"
    }
}'

# sessions FILE LISTENS COUNT LINE ..: so many sections of these lines, in which # stands for the section's number and @ for that of
# the next one, which is 1 after the last. A line LISTEN comes first where LISTENS is 1
sessions() {
    file=$1 listens=$2 count=$3
    shift 3
    for line in "$@"; do printf '%s\n' "$line"; done | awk -v listens="$listens" -v count="$count" '
        { line[NR] = $0 }
        END {
            for (n = 1; n <= count; n++) {
                print "\\session s" n " 1"
                if (listens) print "LISTEN c"
                for (i = 1; i <= NR; i++) {
                    text = line[i]
                    gsub(/#/, n, text)
                    gsub(/@/, n % count + 1, text)
                    print text
                }
            }
        }' >>"$room/$file"
}

# sender FILE LINES: a section that sends so many lines, and then raises the flag f
sender() {
    awk -v lines="$2" 'BEGIN {
        print "\\session sender 1"
        for (i = 0; i < lines; i++) print "NOTIFY c"
        print "\\signal f"
    }' >>"$room/$1"
}

# The word of a run after `run`, for the runs of waits: `--live`, or nothing.
live=

# waits NAME FILE RUNS WORD ..: the least processor seconds and milliseconds of wall time of so many runs; the words stand before the
# program, as its surroundings
waits() {
    name=$1 file=$2 runs=$3
    shift 3
    for _ in $(seq "$runs"); do
        begun=$(date +%s%N)
        env time -q -o "$room/time" -f '%U %S' "$@" "$program" run $live <"$room/$file" >"$room/output" 2>"$room/errors" || refused "$file" $?
        echo "$(cat -- "$room/time") $(($(date +%s%N) - begun))" >>"$room/waits"
    done
    awk -v name="$name" '
        NR == 1 || $1 + $2 < best { best = $1 + $2 }
        NR == 1 || $3 < wall { wall = $3 }
        END { printf "%-34s %6.2f s of processor time %8.0f ms of wall time\n", name, best, wall / 1000000 }' "$room/waits"
    rm -f -- "$room/waits"
}

# in_time: no await of the last run has timed out
in_time() {
    ! grep -q -e '^+timeout' -e '^[0-9]*| +timeout' "$room/output" || { printf 'bench: an await timed out: %s\n' "$name" >&2; exit 1; }
}

# What sessions that wait cost.
measure_waits() {
    sessions each 0 2 '\await f#' '\signal f@'
    waits 'await each other' each 1
    sessions listeners 1 2 '\await f#' '\signal f@'
    waits 'listeners likewise' listeners 1
    sender alone 60000
    waits '60,000 lines alone' alone 3
    sessions many 0 255 '\await f'
    sender many 60000
    waits '60,000 lines, 255 await a flag' many 3
    in_time
    sender while 4000
    waits '4,000 lines and a flag, alone' while 3
    sessions late 0 1 '\await f'
    sender late 4000
    waits '4,000 lines and an awaited flag' late 3
    in_time
    sessions one 0 255 '\await f'
    sender one 10000
    waits '256 on one processor' one 3 taskset -c 0
    in_time
    for count in 64 255; do
        rm -f -- "$room/quiet"
        sessions quiet 1 "$count"
        printf '\\session waits 1\n\\await f\n\\signal f\n' >>"$room/quiet"
        waits "$count idle, 10 seconds" quiet 1
    done
}

# drill PLAIN SEED SESSIONS NOTES: the processor and wall milliseconds of a run of this drill, and those of the plain program
drill() {
    plain=$1
    shift
    awk -v seed="$1" -v sessions="$2" -v notes="$3" 'BEGIN {
        for (i = 1; i <= sessions; i++) for (k = 1; k <= notes; k++) if (k % 4 == i % 4) received += sessions
        print "drill seed " seed " sessions " sessions " notes " notes
        print "journal " sessions * notes
        print "committed " sessions * notes
        print "aborted 0"
        print "received " received
    }' >"$room/wanted"
    for _ in 1 2 3 4 5 6 7 8 9 10; do
        env time -q -a -o "$room/times" -f '%U %S %e %M' "$program" drill "$@" >"$room/output" 2>"$room/errors" || refused "drill $*" $?
        cmp -s -- "$room/output" "$room/wanted" || {
            printf 'bench: the drill %s printed\n' "$*" >&2
            cat -- "$room/output" >&2
            exit 1
        }
    done
    awk -v words="$*" -v plain="$plain" '{ cpu += $1 + $2; wall += $3 } $4 > peak { peak = $4 } END {
        printf "drill %-10s %8.1f ms of processor %8.1f ms of clock %5.1f MB peak    plain program %5.1f ms\n",
            words, cpu * 1000 / NR, wall * 1000 / NR, peak / 1024, plain
    }' "$room/times"
    rm -f -- "$room/times"
}

# What a live run costs, and how soon its lines are there.
measure_live() {
    made load 'print "LISTEN c"; for (i = 0; i < n; i++) print "NOTIFY c, \047p\047"' 60000
    at_end=$("$root/bench/timed" 5 "$room/load" "$room/output" "$room/errors" "$program" run) || refused load $?
    as_it_goes=$("$root/bench/timed" 5 "$room/load" "$room/output" "$room/errors" "$program" run --live) || refused load $?
    printf '%s %s\n' "$at_end" "$as_it_goes" | awk '{
        printf "60,000 notifications, at its end %8.1f ms of processor time %8.1f ms of wall time\n", $1, $2
        printf "60,000 notifications, live       %8.1f ms of processor time %8.1f ms of wall time\n", $3, $4
        if ($3 > 2 * $1) { print "bench: a live run takes more than twice the processor time" >"/dev/stderr"; exit 1 }
    }'
    "$root/bench/live" "$program"
    "$root/bench/idle" "$program"
}

# What long scripts of one session cost.
measure_lines() {
    load self-notify 'print "LISTEN c"; for (i = 0; i < n; i++) print "NOTIFY c, \047p\047"' 2000 4000 60000
    load no-listener 'for (i = 0; i < n; i++) print "NOTIFY c, \047p\047"' 2000 4000 60000
    load 200-byte 'print "LISTEN c"; q = p(200); for (i = 0; i < n; i++) print "NOTIFY c, \047" q "\047"' 2000 4000 60000
    load 7999-byte 'print "LISTEN c"; q = p(7999); for (i = 0; i < n; i++) print "NOTIFY c, \047" q "\047"' 200 400 2000
    load repeat 'print "LISTEN c"; for (i = 0; i < n; i++) print "SELECT pg_notify(\047c\047, repeat(\047x\047, 7999))"' 200 400 2000
    load blocks 'print "LISTEN c"
        for (i = 0; i < n; i++) {
            if (i % 100 == 0) print "BEGIN"
            print "NOTIFY c, \047" i % 100 "\047"
            if (i % 100 == 99) print "COMMIT"
        }' 2000 4000 60000
    load savepoints 'print "LISTEN c"
        for (i = 0; i < n; i++) {
            k = i % 20
            if (k == 0) print "BEGIN"
            print "SAVEPOINT s" k
            print "NOTIFY c, \047" k "\047"
            if (k % 3 == 0) print "ROLLBACK TO s" k
            if (k == 19) print "COMMIT"
        }' 2000 4000 60000
}

listens='for (i = 0; i < m; i++) print "LISTEN c" i; for (i = 0; i < k; i++) print "NOTIFY c0, \047p\047"'
many_channels='for (i = 0; i < n; i++) print "LISTEN c" i; for (i = 0; i < n; i++) print "UNLISTEN c" i'
many_savepoints='print "BEGIN"; for (i = 0; i < n; i++) print "SAVEPOINT s" i'

# What sets of many channels and lists of many savepoints cost.
measure_many() {
    load 4096-set "m = 4096; k = n; $listens" 1000 2000 10000
    load rows "m = 4096; k = 0; $listens; for (i = 0; i < n; i++) print \"SELECT pg_listening_channels()\"" 10 20 40
    load listens "m = n; k = 0; $listens" 1024 2048 4096
    load left "$many_channels" 1024 2048 4096
    load left-block "print \"BEGIN\"; $many_channels; print \"COMMIT\"" 1024 2048 4096
    load no-such "$many_savepoints; print \"x\"; for (i = 0; i < n; i++) print \"ROLLBACK TO t\"" 1024 2048 4096
    load come-go "$many_savepoints; for (i = 0; i < n; i++) { print \"SAVEPOINT x\"; print \"RELEASE t\"; print \"ROLLBACK TO s\" (n - 1) }" 1024 2048 4096
}

# What a start costs, with few notifications and with so many that the queue has many pages.
measure_starts() {
    body='print "LISTEN c"; for (i = 0; i < n; i++) print "NOTIFY c"'
    start "$body" 1
    start "$body" 1 --pages 1024
    start "$body" 128
    start "$body" 1024
}

# What the queries of one client cost.
measure_wire() {
    command=wire maker=asked
    load wire "NOTIFY c, 'p'" 2000 4000 60000
    start 'NOTIFY c' 1
    start 'NOTIFY c' 128
    command=run maker=made
    for way in together apart; do
        rate "$way" 30000
        rate "$way" 60000
    done
}

# What several sessions cost.
measure_several() {
    several '8 that listen' 'sections(1, 8, 1, 1, n)' 500 1000 2000
    several '32 that listen' 'sections(1, 32, 1, 1, n)' 50 100 200
    several '64 listeners' 'sections(1, 64, 1, 1, 0); sections(65, 65, 1, 0, n)' 250 500 1000
    several '16 writers' 'sections(1, 16, 1, 0, n)' 500 1000 2000
    several '255 idle' 'sections(1, 255, 2, 1, 0); sections(256, 256, 1, 0, n)' 15000 30000 60000
    several '255 elsewhere' 'sections(1, 255, 1, 2, 0); sections(256, 256, 1, 0, n)' 15000 30000 60000
}

printf '%s, %s processors, %s\n' "$(date -u +%Y-%m-%d)" "$(nproc)" "$program"
if [ -n "$only" ]; then
    . "$root/bench/$only.sh"
    "measure_$only"
    exit
fi
measure_lines
measure_many
measure_starts
measure_wire
measure_several
drill 4.5 7 8 200
drill 12.8 7 8 1000
drill 17.2 7 32 200
measure_waits
measure_live
