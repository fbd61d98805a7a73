# What the tests of the command share, after common.sh: the command as it was built with the
# sanitizers, from a copy in $room that every user may run.
umask 022
here=$PWD
command=$room/lernazhup
cp build/lernazhup-sanitized "$command" && chmod 755 "$room" "$command" || exit 2
case $(uname -m) in
x86_64) runner='' ;;
*) runner=$here/tools/exec ;;
esac

lernazhup() {
    ${runner:+"$runner"} "$command" "$@"
}

# the same as a line of shell begins
program="${runner:+'$runner'} '$command'"

# ends CASE GOT STATUS OUT ERR: the status that came against the one due, and what is in $room/out
# and $room/err against all lines of either, each with a / behind it
ends() {
    same "$1" "$2 $(tr '\n' / <"$room/out") $(tr '\n' / <"$room/err")" "$3 $4 $5"
}

# says CASE STATUS OUT ERR: what the command comes to with the arguments after that
says() {
    case=$1 status=$2 out=$3 err=$4
    shift 4
    lernazhup "$@" >"$room/out" 2>"$room/err"
    ends "$case" $? "$status" "$out" "$err"
}

wrong() { # CASE LINE: wrong use, told so, with the arguments after that
    case=$1 line=$2
    shift 2
    says "$case" 2 '' "lernazhup: $line/lernazhup --help tells more/" "$@"
}

# stays CASE STATUS LINES: the verb $name, with the arguments after that, says so on standard error,
# and what stands in this folder stays as it was
stays() {
    case=$1 status=$2 line=$3
    shift 3
    contents >"$room/before" 2>&1
    lernazhup "$name" "$@" >"$room/out" 2>"$room/err"
    ends "$case" $? "$status" '' "lernazhup: $line/"
    contents >"$room/after" 2>&1
    cmp -s "$room/before" "$room/after"
    result "$case: all is as it was" $?
}

has() { # CASE TEXT: one of the lines in $room/out has this text
    verdict "$1" "$(grep -qF -e "$2" "$room/out" || echo "'$(tr '\n' / <"$room/out")' has no '$2'")"
}

# as_another runs the command as a user who may not read and write everything; another_user tells
# whether that can be had
as_another() {
    set -- ${runner:+"$runner"} "$command" "$@"
    if [ "$(id -u)" -ne 0 ]; then "$@"; else setpriv --reuid=65534 --regid=65534 --clear-groups "$@"; fi
}

another_user() {
    as_another --version >"$room/out" 2>"$room/err"
}

# terminal LINE: runs a line of shell with a terminal for its output, which comes to $room/out;
# a_terminal tells whether one can be had
terminal() {
    script -qec "$1" "$room/typescript" </dev/null >"$room/out" 2>"$room/err"
}

a_terminal() {
    terminal 'test -t 1 && test -t 2'
}

# on_a_full_disk COMMAND: a line of shell that is run in $room/disk, a disk of its own that has room
# for one page, in a space of its own that goes with it
on_a_full_disk() {
    mkdir -p "$room/disk"
    unshare -rm sh -c 'mount -t tmpfs -o size=4k none "$0" && cd "$0" && eval "$1"' "$room/disk" "$1"
}

flat_chips() { # COUNT CHIP: so many
    head -c "$1" /dev/zero | tr '\000' "\\00$2"
}

# in_little_memory OUTPUT WHOLE ARGUMENTS..: with more and more memory the command leaves the old
# file in OUTPUT's place, and says why, until it puts there what is in WHOLE. Without the sanitizers,
# which want more memory than any. A program that can't be loaded, 127, has not begun
in_little_memory() {
    output=$1 whole=$2 seen='' kilobytes=2000
    shift 2
    if [ -n "$runner" ] || ! command -v prlimit >/dev/null; then
        echo "$name, little memory: not tried, since it can't be set here"
        return
    fi
    while [ $kilobytes -le 6000 ]; do
        printf old >"$output"
        prlimit --as=$((kilobytes * 1024)) "$here/build/lernazhup" "$@" >"$room/out" 2>"$room/err"
        case "$? $(tr '\n' / <"$room/err")" in
        '0 ') cmp -s "$output" "$whole" && seen="$seen whole" || seen="$seen cut" ;;
        '2 lernazhup: '*'Cannot allocate memory/') grep -qx old "$output" && seen="$seen old" || seen="$seen lost" ;;
        '127 '*) grep -qx old "$output" || seen="$seen lost" ;;
        *) seen="$seen other" ;;
        esac
        kilobytes=$((kilobytes + 50))
    done
    seen=$(echo "$seen" | tr ' ' '\n' | uniq | tr '\n' ' ')
    same 'little memory' "${seen# old}" ' whole '
    [ "$seen" = ' old whole ' ] || echo "$name, too little memory: not tried, since it is loaded with no less than it needs"
}
