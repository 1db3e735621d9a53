#!/bin/bash
# The tests of the desk program: every command, status and number, and the failures of the machine. Any difference is an error.
# DESK names another program to test; SEED repeats a run of kills.
cd "$(dirname "$0")/.." || exit 2
root=$PWD
DESK=${DESK:-$root/target/desk/desk}
work=$(mktemp -d) || exit 2
trap 'rm -rf "$work"' EXIT
chmod 755 "$work"
tests=0 errors=0

wrong() {
    local at=0
    until [ "${FUNCNAME[at]}" == source ]; do at=$((at + 1)); done
    errors=$((errors + 1))
    printf 'WRONG (%s, line %s): %s\n' "$(basename "${BASH_SOURCE[at]}")" "${BASH_LINENO[at - 1]}" "$*"
}

# same WHAT WANTED GOT
same() {
    tests=$((tests + 1))
    [ "$2" == "$3" ] || wrong "$1: wanted '${2:0:300}', got '${3:0:300}'"
}

# has WHAT WANTED GOT: the wanted text stands in it
has() {
    tests=$((tests + 1))
    [[ $3 == *"$2"* ]] || wrong "$1: wanted '$2' in '${3:0:400}'"
}

# expect STATUS ANSWER WORDS COMMAND..: what desk answers, the last newline aside, and the words on standard error: none, or one line
expect() {
    local status=$1 answer=$2 words=$3 got
    shift 3
    got=$(timeout 20 "$DESK" "$@" 2> "$work/words"; echo "status $?")
    same "desk $*" "${answer:+$answer$'\n'}status $status" "$got"
    has "desk $*, words" "$words" "$(cat "$work/words")"
    same "desk $*, lines of words" "$([ "$status" == 0 ] && echo 0 || echo 1)" "$(wc -l < "$work/words")"
}

# expect_run STATUS ANSWERS LINE..: a run of commands over r
expect_run() {
    local status=$1 answers=$2 got
    shift 2
    got=$(printf '%s\n' "$@" | timeout 60 "$DESK" r run 2> "$work/words"; echo "status $?")
    same "run of $#" "$answers"$'\n'"status $status" "$got"
}

# sk FILE SEGMENTS: an interchange of one SKDUPD message; the segments begin at byte 55
sk() {
    local ends=${2//[^\']/}
    printf "UIB+UNOB:4+7'UIH+SKDUPD:D:04A::UN+1'MSD+AAR:61'ORG'HDR'%sUIT+1+%d'UIZ+7+1'" "$2" $((5 + ${#ends})) > "$1"
}

# zeros N: that many
zeros() { printf '%0*d' "$1" 0; }

tab=$'\t' line=$'\n'
period="POP+273:2000-08-01/2000-08-13"

# anew: an empty folder, and in it r, a register of eight quotas of 32 from 2000-08-01 on
anew() {
    cd "$work" && rm -rf here && mkdir here && cd here || exit 2
    expect 0 "done${tab}0" "" r open 2000-08-01 32 32 32 32 32 32 32 32
}

for part in ${PARTS:-commands numbers parcels guide install failures writers kills}; do
    already=$tests
    # shellcheck source=/dev/null
    . "$root/desk/tests/$part.sh"
    echo "$part: $((tests - already)) tests"
done
echo "$tests tests, $errors errors"
[ "$errors" == 0 ]
