# Outputs that are checked, of which bench/run.sh --checked asks. It has read the names and functions of bench/run.sh before.
#
# Runs whose outputs differ from run to run, 200 of each. Each output is joined to its scenario, and `check` has to find it legal:
#
#   crowd           8 sessions that listen, and send 9 notifications each, with a LISTEN of another channel amid them
#   crossing        4 sessions, each of which raises a flag and awaits that of the next one, in blocks and outside
#   full            6 sessions that send 3 notifications of 7,999 bytes each over 2 pages, of which 3 listen and send an empty one too
#
# How many texts they have is printed too. Each text with a line taken out of its middle has to be found illegal where that line is
# not one of those that another legal run has: an entry of the journal.
#
# Large outputs, which have to be found legal; beside each stand the bytes, the processor time and the peak memory of `check`:
#
#   long notes      a session that listens, and sends 1,900 notifications of 7,999 bytes
#   short notes     a session that sends 60,000 notifications of 1 byte to itself and to 20 others, which read them at their end
#   many lines      600,000 LISTENs and as many UNLISTENs
#
# Texts that are made to cost the most, with their verdicts:
#
#   unread          a session that listens on a further channel in each of 1,000,000 lines, with 1,300 notifications of another unread
#   many reads      255 sessions that each read 1,500,000 notifications of which none is for them; their sender has not sent them
#   read by read    255 sessions that listen on 600 channels each, and read 1,000,000 such notifications in 600 reads
#
# Needs GNU time.

# wrong WHAT: notes that something did not come out as it has to
wrong() {
    printf 'bench: %s\n' "$1" >&2
    failed=yes
}

# joined FILE: the scenario, the line that ends it and the last output
joined() {
    cat -- "$room/$1" && printf '\\output\n' && cat -- "$room/output"
}

# checked NAME FILE WORD ..: 200 runs with these words; each output is to be legal, and without its first `+publish` illegal
checked() {
    name=$1 file=$2 legal=0 illegal=0
    shift 2
    : >"$room/texts"
    for _ in $(seq 200); do
        "$program" run "$@" <"$room/$file" >"$room/output" 2>"$room/errors" || refused "$file" $?
        cksum <"$room/output" >>"$room/texts"
        [ "$(joined "$file" | "$program" check "$@" 2>/dev/null)" = legal ] && legal=$((legal + 1))
        sed -i '0,/^+publish /{/^+publish /d}' "$room/output"
        joined "$file" | "$program" check "$@" 2>/dev/null | grep -q '^illegal line ' && illegal=$((illegal + 1))
    done
    printf '%-12s 200 runs, %3d texts: %d legal, and %d illegal without a line\n' "$name" "$(sort -u "$room/texts" | wc -l)" "$legal" "$illegal"
    [ "$legal $illegal" = '200 200' ] || wrong "$name: an output was not told from one that is none"
}

# large_checked NAME BODY: the output of the scenario that the body of an awk program prints is to be legal
large_checked() {
    awk "$letters BEGIN { $2 }" >"$room/large"
    "$program" run <"$room/large" >"$room/output" 2>"$room/errors" || refused large $?
    joined large >"$room/whole"
    weighed "$1" legal
}

# made_checked NAME VERDICT BODY: the scenario with an output that the body of an awk program prints is to have this verdict
made_checked() {
    awk "BEGIN { $3 }" >"$room/whole"
    weighed "$1" "$2"
}

# weighed NAME VERDICT: the cost of the check of the whole text, which is to have this verdict
weighed() {
    bytes=$(wc -c <"$room/whole")
    if [ "$bytes" -gt 67108864 ]; then wrong "$1: $bytes bytes"; fi
    env time -q -o "$room/time" -f '%U %S %M' "$program" check <"$room/whole" >"$room/verdict" 2>"$room/errors" || [ $? -eq 8 ] || refused whole $?
    awk -v name="$1" -v bytes="$bytes" '{ printf "%-12s %8.1f MB of scenario and output: %.2f s, %.1f MB peak\n", name, bytes / 1000000, $1 + $2, $3 / 1024 }' "$room/time"
    [ "$(cat -- "$room/verdict")" = "$2" ] || wrong "$1: $(cat -- "$room/verdict")"
}

# an output in which 255 sessions read all notifications of the last one, which sent one of them alone
many_reads='for (s = 0; s < 255; s++) { print "\\session a" s " 1"; for (k = 0; k < listens; k++) print "LISTEN c" k }
    print "\\session z 1\nNOTIFY d\n\\output\njournal " all; for (k = 0; k < all; k++) print "xid " 3 + k " session 256 commit 1\n  \"d\", \047\047"
    for (s = 0; s < 255; s++) {
        print "session " s + 1 " a" s " db 1 pid " 1001 + s "\n> LISTEN c0\n+enlist 3 3\nLISTEN"
        for (k = 1; k < listens; k++) print "> LISTEN c" k "\nLISTEN"
        for (r = 0; r < reads; r++) print "+read " 3 + int(all * r / reads) " " 3 + int(all * (r + 1) / reads)
        print "end mark " 3 + all
    }
    print "session 256 z db 1 pid 1256\n> NOTIFY d\n+publish 3\nNOTIFY\nend"'

measure_checked() {
    failed=
    lines='NOTIFY c, '\''p#'\'
    sessions crowd 1 8 "$lines" "$lines" "$lines" 'LISTEN d' "$lines" 'NOTIFY d' "$lines" "$lines" 'UNLISTEN c' "$lines" "$lines"
    checked crowd crowd
    sessions crossing 1 4 'NOTIFY c' '\signal f#' 'BEGIN' "$lines" '\await f@' 'COMMIT' '\signal g#' '\await g@' 'LISTEN d'
    checked crossing crossing
    long=$(awk "$letters BEGIN { print p(7999) }")
    sessions full 1 3 "NOTIFY c, '$long'" "NOTIFY c, '$long'" 'NOTIFY c' "NOTIFY c, '$long'"
    sessions rest 0 3 "NOTIFY c, '$long'" "NOTIFY c, '$long'" "NOTIFY c, '$long'"
    sed 's/^\\session s/\\session t/' "$room/rest" >>"$room/full"
    checked full full --pages 2
    large_checked 'long notes' 'print "\\session a 1"; print "LISTEN c"; for (i = 0; i < 1900; i++) print "NOTIFY c, \047" p(7999) "\047"'
    large_checked 'short notes' 'print "\\session a 1"; print "LISTEN c"; for (i = 0; i < 60000; i++) print "NOTIFY c, \047p\047"
        for (k = 0; k < 20; k++) { print "\\session b" k " 1"; print "LISTEN c" }'
    large_checked 'many lines' 'print "\\session a 1"; for (i = 0; i < 600000; i++) { print "LISTEN c" i % 1000; print "UNLISTEN c" i % 1000 }'
    made_checked unread legal 'print "\\session a 1\nLISTEN c"; for (i = 0; i < 1000000; i++) print "LISTEN c" i
        print "\\session b 1"; for (k = 0; k < 1300; k++) print "NOTIFY d"
        print "\\output\njournal 1300"; for (k = 0; k < 1300; k++) print "xid " 3 + k " session 2 commit 1\n  \"d\", \047\047"
        print "session 1 a db 1 pid 1001\n> LISTEN c\n+enlist 3 3\nLISTEN"
        for (i = 0; i < 1000000; i++) print "> LISTEN c" i "\nLISTEN"
        print "+read 3 1303\nend mark 1303\nsession 2 b db 1 pid 1002"
        for (k = 0; k < 1300; k++) print "> NOTIFY d\n+publish " 3 + k "\nNOTIFY"; print "end"'
    made_checked 'many reads' 'illegal line 3001536' "reads = 1; listens = 1; all = 1500000; $many_reads"
    made_checked 'read by read' 'illegal line 2459771' "reads = 600; listens = 600; all = 1000000; $many_reads"
    [ -z "$failed" ] || exit 1
}
