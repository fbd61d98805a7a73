# What the tests of this folder share. Each begins with
#     name=..; . "$(dirname "$0")/common.sh"
# and is then at the project's root, with $room, a folder of its own that goes when it ends. Each
# case that goes wrong is a line; `counts` says how many there were and fails where one went wrong.
unset CDPATH
# what the make around a test was asked for is not meant for those that the test starts
unset MAKEFLAGS MAKEOVERRIDES GNUMAKEFLAGS PROFILE
# Python keeps nothing beside the scripts that it runs
export PYTHONDONTWRITEBYTECODE=1
cd "$(dirname "$0")/.." || exit 2
room=$(mktemp -d) || exit 2
trap 'rm -rf "$room"' EXIT
passed=0 failed=0

verdict() { # CASE MESSAGE: an empty message is a pass
    if [ -z "$2" ]; then
        passed=$((passed + 1))
    else
        failed=$((failed + 1))
        echo "$name, $1: $2"
    fi
}

result() { # CASE STATUS: 0 is a pass
    verdict "$1" "$([ "$2" = 0 ] || echo failed)"
}

same() { # CASE GOT WANT
    verdict "$1" "$([ "$2" = "$3" ] || echo "'$2' and not '$3'")"
}

counts() {
    echo "$name: $passed passed, $failed failed"
    [ "$failed" -eq 0 ]
}

# frame CHIPS: as digits, that one of the frames in crates/vectors which has so many chips. They
# were made of the draft standard's tables: 720, 384 and 192 are the empty report's in modes 0, 1
# and 2, and 2040, 1088 and 544 those of "rope 12 wet"
frame() {
    awk -v chips="$1" '/^[01]+$/ && length($0) == chips { printf "%s", $0 }' crates/vectors/stdout
}

octets() { # COUNT: so many octets
    head -c "$1" /dev/zero | tr '\000' 'Z'
}

contents() { # what stands in this folder, with kinds, permissions, owners, links and sums
    find . -exec stat -c '%n %F %a %u %i %N' '{}' + | sort && find . -type f -exec cksum '{}' + | sort
}

chips() { # digits on standard input, as a raw capture
    tr '01' '\000\001'
}

lines() { # FILE: what was said, in $room/said, line by line what is stored in that file
    [ -s "$room/said" ] && diff "$1" "$room/said"
    result 'what it says' $?
    echo "$name: $(wc -l <"$room/said") lines"
}
