# Hard use, of which bench/run.sh --hostile asks. It has read the names and functions of bench/run.sh before.
#
# Large inputs. Each has to end within 20 seconds with its status, its line on standard error and its number of lines:
#
#   empty lines     16,777,216 bytes of them, as many as an input may have; then a byte more
#   one line        of 16,777,216 bytes
#   unlistens       16 MB: LISTENs of different channels, and then an UNLISTEN of each
#   unlisten *      16 MB of them after 4,096 LISTENs
#   emptied         15 MB: 500,000 LISTENs in a block, and then 700,000 times UNLISTEN *
#   rollbacks       16 MB: in a block SAVEPOINTs of different names, an error, and then ROLLBACK TO a name that is not there
#   one savepoint   16 MB in a block of SAVEPOINTs of one name
#   and releases    the same, and then a RELEASE of each
#   notifications   65,536 lines that notify, and 100 that go wrong and do not count; then one more that notifies
#   each            BEGIN, 10,000 notifications that differ, COMMIT; then 10,000 equal ones
#
# Chosen names: inputs of names that all have one hash where the seed is known, by bench/chosen. Beside each stands an input of the same
# size whose names do not; the chosen one may take five times its processor time:
#
#   savepoints      20,000 savepoints in a block
#   listens         20,000 LISTENs
#   notifications   20,000 notifications in a block
#   channels        `check` of 20,000 notifications, each of its own channel
#
# Little memory: sessions that listen, notify, raise a flag each and await the next one's, 1, 8 and 64 of them, with
# `--patience 100000`, under 60 limits of `ulimit -v` from the least at which the usage line is printed up to 4 GB. Each run has to
# end with status 0 and as many lines as without a limit, but for those of the reads, or with 6 and nothing written.
#
# Refused requests: bench/refuse runs the examples with the first request for memory refused, then with the second, and so on; and so the
# conversation of three clients of a service, bench/talk.py, of whom each has to be told whole turns.
#
# No threads: these are run by a user that may start none (where root measures, by the user 65534):
#
#   crossing flags   the example of that name, of which the text is compared
#   8, 256 plain     sessions that each send a line
#   ring of 16       sessions of which each raises its own flag and awaits the next one's
#   live             crossing flags with --live: by session, its lines are those of the example
#   a service        it ends with status 6 and has written nothing. With two threads besides its own, so that its seats take turns on one
#                    of them, and with threads that each begin two seconds late (bench/late.c), it tells the three clients all
#
# A closed reader: of a live run of 60,000 lines it reads one and closes; the run has to end within 20 seconds, with status 5.
#
# Needs timeout, setpriv, prlimit and a C compiler.

# wrong WHAT: notes that something did not come out as it has to
wrong() {
    printf 'bench: %s\n' "$1" >&2
    failed=yes
}

# large NAME STATUS LINES ERRORS: the input has to end with this status, so many lines and this line on standard error
large() {
    begun=$(date +%s%N)
    status=0
    timeout 20 "$program" run <"$room/large" >"$room/output" 2>"$room/errors" || status=$?
    took=$((($(date +%s%N) - begun) / 1000000))
    lines=$(wc -l <"$room/output")
    said=$(cat -- "$room/errors")
    printf '%-14s %9d bytes %6d ms   status %d %9d lines   %s\n' "$1" "$(wc -c <"$room/large")" "$took" "$status" "$lines" "$said"
    [ "$status $lines $said" = "$2 $3 $4" ] || wrong "$1: wanted status $2, $3 lines and: $4"
}

# written BODY: the large input, which the body of an awk program prints
written() {
    awk "BEGIN { print \"\\\\session a 1\"; $1 }" >"$room/large"
}

measure_large() {
    { printf '\\session a 1\n' && head -c 16777203 /dev/zero | tr '\0' '\n'; } >"$room/large"
    large 'empty lines' 0 3 ''
    echo >>"$room/large"
    large 'empty lines' 3 0 'pgnotify: input is larger than 16777216 bytes'
    head -c 16777216 /dev/zero | tr '\0' 'x' >"$room/large"
    large 'one line' 3 0 'pgnotify: line 1: line too long'
    written 'for (i = 0; i < 520000; i++) printf "LISTEN c%06d\n", i; for (i = 0; i < 520000; i++) printf "UNLISTEN c%06d\n", i'
    large unlistens 0 $((1 + 1 + 4 * 520000 + 2 + 1)) ''
    written 'for (i = 0; i < 4096; i++) print "LISTEN c" i; for (i = 0; i < 1500000; i++) print "UNLISTEN *"'
    large 'unlisten *' 0 $((1 + 1 + 2 * 4096 + 2 * 1500000 + 2 + 1)) ''
    written 'print "BEGIN"; for (i = 0; i < 500000; i++) printf "LISTEN c%06d\n", i
        print "COMMIT"; for (i = 0; i < 700000; i++) print "UNLISTEN *"'
    large emptied 0 $((1 + 1 + 2 + 2 * 500000 + 2 + 2 * 700000 + 2 + 1)) ''
    written 'print "BEGIN"; for (i = 0; i < 500000; i++) printf "SAVEPOINT s%06d\n", i
        print "x"; for (i = 0; i < 500000; i++) print "ROLLBACK TO t"'
    large rollbacks 0 $((1 + 1 + 2 + 4 * 500000 + 2 + 1)) ''
    written 'print "BEGIN"; for (i = 0; i < 1390000; i++) print "SAVEPOINT s"'
    large 'one savepoint' 0 $((1 + 1 + 2 + 2 * 1390000 + 1)) ''
    written 'print "BEGIN"; for (i = 0; i < 760000; i++) print "SAVEPOINT s"; for (i = 0; i < 760000; i++) print "RELEASE s"'
    large 'and releases' 0 $((1 + 1 + 2 + 4 * 760000 + 1)) ''
    written 'for (i = 0; i < 100; i++) print "NOTIFY c d"; for (i = 0; i < 65536; i++) print "NOTIFY c"'
    large notifications 0 $((1 + 2 * 65536 + 1 + 2 * 100 + 3 * 65536 + 1)) ''
    echo 'NOTIFY c' >>"$room/large"
    large notifications 3 0 'pgnotify: line 65638: too many'
    written 'print "BEGIN"; for (i = 0; i < 10000; i++) print "NOTIFY c, \047" i "\047"; print "COMMIT"'
    large each 0 $((1 + 1 + 10000 + 1 + 2 + 2 * 10000 + 3 + 1)) ''
    written 'print "BEGIN"; for (i = 0; i < 10000; i++) print "NOTIFY c"; print "COMMIT"'
    large each 0 $((1 + 1 + 1 + 1 + 2 + 2 * 10000 + 3 + 1)) ''
}

# seconds WORD: the least processor seconds of three runs of the input with this word, or 60 where one takes longer
seconds() {
    for _ in 1 2 3; do
        status=0
        env time -q -a -o "$room/times" -f '%U %S' timeout 60 "$program" "$1" <"$room/input" >"$room/output" 2>"$room/errors" || status=$?
        case $status in
        0) ;;
        124) echo '60 0' >"$room/times" && break ;;
        *) refused input "$status" ;;
        esac
    done
    awk 'NR == 1 || $1 + $2 < best { best = $1 + $2 } END { printf "%.2f", best }' "$room/times"
    rm -f -- "$room/times"
}

# chosen KIND COUNT WORD: the processor time of the plain input and of the chosen one, with this word of the program
chosen() {
    times=
    for names in plain chosen; do
        "$root/bench/chosen" "$1" "$2" "$names" >"$room/input"
        if [ "$3" = check ]; then
            "$program" run <"$room/input" >"$room/output" 2>"$room/errors" || refused input $?
            { printf '\\output\n' && cat -- "$room/output"; } >>"$room/input"
        fi
        times="$times $(seconds "$3")"
    done
    printf '%s\n' "$1 $2$times" | awk '{
        printf "chosen %-14s %6d names %6.2f s plain %6.2f s chosen\n", $1, $2, $3, $4
        exit $4 > 5 * ($3 > 0.01 ? $3 : 0.01)
    }' || wrong "$1: chosen names take too long"
}

measure_chosen() {
    chosen savepoints 20000 run
    chosen listens 20000 run
    chosen notifications 20000 run
    chosen channels 20000 check
}

# limited KB WORD ..: a run under a limit of its addresses, with its status in `status`
limited() {
    kilobytes=$1
    shift
    status=0
    timeout 20 sh -c 'ulimit -v "$1"; shift; exec "$@"' sh "$kilobytes" "$program" "$@" >"$room/output" 2>"$room/errors" || status=$?
}

# Sets `least` to the least limit in KB at which the program prints its usage line.
find_least() {
    low=0 least=1048576
    while [ $((least - low)) -gt 4 ]; do
        middle=$(((low + least) / 2))
        limited "$middle" </dev/null 2>/dev/null
        if [ "$status" = 2 ] && grep -q '^usage: ' "$room/errors"; then least=$middle; else low=$middle; fi
    done
}

# counts FILE: how many lines an output has, but for those of its reads and the notes below these and in the journal
counts() {
    grep -c -v -e '^+read ' -e '^  ' "$1" || true
}

measure_memory() {
    find_least
    for count in 1 8 64; do
        rm -f -- "$room/few"
        sessions few 1 "$count" "NOTIFY c, 'p#'" '\signal f#' '\await f@'
        "$program" run <"$room/few" >"$room/output" 2>"$room/errors" || refused few $?
        lines=$(counts "$room/output") done=0 without=0
        for step in $(seq 0 59); do
            limit=$(awk -v least="$least" -v step="$step" 'BEGIN { printf "%d", least * exp(log(4194304 / least) * step / 59) }')
            limited "$limit" run --patience 100000 <"$room/few"
            case $status in
            0) done=$((done + 1)) && [ "$(counts "$room/output")" = "$lines" ] || wrong "$count sessions in $limit KB: other lines" ;;
            6) without=$((without + 1)) && [ ! -s "$room/output" ] || wrong "$count sessions in $limit KB: status 6, and written" ;;
            *) wrong "$count sessions in $limit KB: status $status" ;;
            esac
        done
        printf '%2d sessions, 60 limits from %d to 4194304 KB: %d ended with status 0, %d with 6\n' "$count" "$least" "$done" "$without"
    done
}

# What a user that may start no thread sees.
measure_no_threads() {
    as_user=
    if [ "$(id -u)" -eq 0 ]; then as_user='setpriv --reuid=65534 --regid=65534 --clear-groups'; fi
    chmod 755 "$room"
    cp -- "$program" "$room/program"
    chmod 755 "$room/program"
    program=$room/program
    set -- $as_user prlimit --nproc=1
    if "$@" sh -c '(exit 0)' 2>/dev/null; then
        printf 'bench: this user may start threads\n' >&2
        exit 1
    fi
    cp -- "$root/examples/crossing-flags.scenario" "$room/crossing"
    waits 'crossing flags' crossing 3 "$@"
    cmp -- "$root/examples/crossing-flags.output" "$room/output"
    sessions plain8 0 8 'NOTIFY c'
    waits '8 plain' plain8 3 "$@"
    sessions plain256 0 256 'NOTIFY c'
    waits '256 plain' plain256 3 "$@"
    sessions ring 0 16 '\signal f#' '\await f@'
    waits 'ring of 16' ring 3 "$@"
    in_time
    live=--live
    waits 'crossing flags, live' crossing 3 "$@"
    live=
    in_time
    by_session <"$room/output" | cmp -- "$root/examples/crossing-flags.output" - || wrong 'crossing flags, live: other lines'
    status=0
    printf '\0\001\0\016Q\0\0\0\015LISTEN c\0' >"$room/frames"
    timeout 60 "$@" "$program" serve --seats 3 <"$room/frames" >"$room/output" 2>"$room/errors" || status=$?
    printf 'a service, no thread: status %s\n' "$status"
    [ "$status" = 6 ] && [ ! -s "$room/output" ] || wrong 'a service, no thread: wanted status 6 and nothing written'
    told 'two threads' $as_user prlimit --nproc=3
    cc -O2 -shared -fPIC -o "$room/late.so" "$root/bench/late.c" -ldl
    told 'late threads' env LATE=2 LD_PRELOAD="$room/late.so"
}

# told NAME COMMAND..: a service under this command has to tell three clients all that is due to them
told() {
    name=$1
    shift
    if "$root/bench/talk.py" "$@" "$program" serve --seats 3; then printf 'a service, %s: all told\n' "$name"; else wrong "a service, $name"; fi
}

# by_session: what a live run has written, as the text of a run without --live
by_session() {
    awk '
        /^[0-9]+\| / { number = $0 + 0; sub(/^[0-9]+\| /, ""); lines[number] = lines[number] $0 "\n"; next }
        { print }
        /^session / { printf "%s", lines[$2] }'
}

# What a run sees whose reader closes early.
measure_closed_reader() {
    sender closed 60000
    {
        status=0
        timeout 20 "$program" run --live <"$room/closed" 2>"$room/errors" || status=$?
        echo "$status" >"$room/status"
    } | head -n 1 >"$room/output"
    printf 'a closed reader: status %s\n' "$(cat -- "$room/status")"
    [ "$(cat -- "$room/status")" = 5 ] || wrong 'a closed reader: wanted status 5'
}

measure_hostile() {
    failed=
    measure_large
    measure_chosen
    measure_memory
    "$root/bench/refuse" "$program" || failed=yes
    measure_closed_reader
    measure_no_threads
    [ -z "$failed" ] || exit 1
}
