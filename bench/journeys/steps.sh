# Sourced by the journeys: a folder that is thrown away, the companions, and steps that have to end as they are said to. The
# program is that of this repository, or the one that PEC names.
set -u
top=$(cd "$(dirname "$(readlink -f "${BASH_SOURCE[0]}")")/../.." && pwd)
bin=$top/bin
folder=$(mktemp -d)
children=()
leave() {
    for one in "${children[@]}"; do kill "$one" 2> /dev/null; done
    wait
    rm -rf "$folder"
}
trap leave EXIT
cd "$folder" || exit 1
PATH=$bin:$PATH

# bin/pec, over the program that PEC names where it names one.
pec=("$bin/pec")
if [ -n "${PEC-}" ]; then
    PEC=$(realpath "$PEC")
    export PEC
    pec=(python3 -I -S "$bin/reasons" "$PEC")
fi
pec() { "${pec[@]}" "$@"; }

fail() {
    echo "step $number, $step: $*"
    echo "--- written"
    cat written
    echo "--- told"
    cat told
    exit 1
}

number=0 step=none
: > written
: > told
# What the user does next, in words.
step() {
    number=$((number + 1))
    step=$1
}

# Runs a command, which has to end with this status. What it writes is in `written` then, and what it tells in `told`.
does() {
    "${@:2}" > written 2> told
    local status=$?
    [ "$status" = "$1" ] || fail "$2 ends with status $status, and not with $1"
}

# What was written and told last has each of these words; a line may be folded anywhere.
says() {
    for one in "$@"; do
        cat written told | tr -s ' \n' '  ' | grep -qF -- "$one" || fail "it doesn't say: $one"
    done
}

# The directory of examples/delivery.pec.
example() { sed '/^%%$/,$d' "$top/examples/delivery.pec"; }

# A message as a mail program writes it: from, to, subject.
message() { printf 'From: %s\r\nTo: %s\r\nSubject: %s\r\n\r\nBuongiorno.\r\n' "$1" "$2" "$3"; }

# Has the program serve in the background, and waits until it says where.
serve() {
    "${pec[@]}" serve "$1" < directory > lines 2> address &
    children+=($!)
    for _ in $(seq 300); do
        grep -q 'listening at' address 2> /dev/null && return
        sleep 0.1
    done
    cat address
    fail "it doesn't listen"
}

over() { echo "$(basename "$0"): $number steps, from the first command to the end"; }
