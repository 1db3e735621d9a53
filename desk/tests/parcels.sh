# desk read -: standard input as it arrives. However it is cut, the rows and the answer are the same.
samples=$root/samples

# piped STATUS ANSWER WORDS COMMAND..: what desk read - answers to what a command writes, as expect has it
piped() {
    local status=$1 answer=$2 words=$3 got
    shift 3
    got=$("$@" 2> /dev/null | timeout 20 "$DESK" read - 2> "$work/words"; echo "status ${PIPESTATUS[1]}")
    same "$* to desk read -" "${answer:+$answer$'\n'}status $status" "$got"
    has "$* to desk read -, words" "$words" "$(cat "$work/words")"
    same "$* to desk read -, lines of words" "$([ "$status" == 0 ] && echo 0 || echo 1)" "$(wc -l < "$work/words")"
}

# slowly FILE: a byte, and a moment later the next
slowly() {
    local at
    for at in $(seq "$(wc -c < "$1")"); do
        tail -c "+$at" "$1" | head -c 1
        sleep 0.01
    done
}

# rows TAG OFFSET..: lines of the table, in no group
rows() {
    echo "offset${tab}group${tab}tag"
    while [ $# -gt 0 ]; do
        echo "$2${tab}0${tab}$1"
        shift 2
    done
}

# repeated N TEXT
repeated() {
    local text
    printf -v text '%*s' "$1" ''
    printf '%s' "${text// /$2}"
}

anew

# Good files: as they are read by name, whole, in pieces and byte by byte.
for name in paper skdupd tsdupd tsdupd-12b both directories timetable; do
    table=$("$DESK" read "$samples/$name.edi")
    piped 0 "$table" "" cat "$samples/$name.edi"
    piped 0 "$table" "" dd bs=1 if="$samples/$name.edi"
    piped 0 "$table" "" dd bs=50 if="$samples/$name.edi"
done
table=$("$DESK" read "$samples/paper.edi")
piped 0 "$table" "" slowly "$samples/paper.edi"

# Refusals: the rows of the segments before, the answer and the words as they are by name, - being the name.
for number in $(seq 3 10); do
    file=$samples/refused-$number.edi
    answer=$("$DESK" read "$file" 2> byname)
    before=$(head -c "$(echo "$answer" | cut -f3)" "$file" | tr -cd "'" | wc -c)
    got=$("$DESK" read - < "$file" 2> words; echo "status $?")
    same "$file to desk read -" "$answer${line}status 1" "$(echo "$got" | tail -2)"
    same "$file to desk read -, lines" $((before + (before > 0) + 2)) "$(echo "$got" | wc -l)"
    same "$file to desk read -, words" "$(sed "s|of $samples/refused-$number.edi|of -|" byname)" "$(cat words)"
    piped 1 "${got%"$line"*}" "" dd bs=1 if="$file"
done
sed "s/UIT+1+3/UIT+1+4/" "$samples/paper.edi" > count.edi
piped 1 "$(rows UIB 0 UIH 13 MSD 36)${line}refused${tab}7${tab}47${tab}0" "of -: ..:D:04A::UN+1'MSD+AAR:61'[UIT+1+4']" slowly count.edi
printf "UIB+UNOB:4+7'UIH" > ends.edi
piped 1 "$(rows UIB 0)${line}refused${tab}5${tab}13${tab}0" "UIB+UNOB:4+7'[UIH]" slowly ends.edi
printf "UIB+UNOB:4+7'" > ends.edi
piped 1 "$(rows UIB 0)${line}refused${tab}7${tab}13${tab}0" "UIB+UNOB:4+7'[]" slowly ends.edi
printf '%s\n' "$(cat "$samples/paper.edi")" > newline.edi
piped 1 "$table${line}refused${tab}7${tab}63${tab}0" "'UIZ+7+1'[{0A}]" slowly newline.edi

# No byte, and more than 60,000: refused as byte 60,001 arrives, whatever may follow, after the rows of the segments that ended before.
piped 1 "refused${tab}3${tab}0${tab}0" "empty or has more than 60,000 bytes" true
expect 1 "refused${tab}3${tab}0${tab}0" "empty or has more than 60,000 bytes" read - < /dev/null
head="UIB+UNOB:4+7'UIH+TSDUPD:D:04A::UN+1'MSD+AAR:61'"
endless() { printf '%s' "$head"; yes "ALS'" | tr -d '\n'; }
got=$(endless 2> /dev/null | timeout 20 "$DESK" read - 2> words; echo "status ${PIPESTATUS[1]}")
same "over 60,000 bytes" "59995${tab}2${tab}ALS${line}refused${tab}3${tab}0${tab}0${line}status 1" "$(echo "$got" | tail -3)"
endless 2> /dev/null | head -c 60000 > full
same "60,000 bytes" "refused${tab}5${tab}59999${tab}0" "$("$DESK" read - < full 2> /dev/null | tail -1)"
same "60,001 bytes" "refused${tab}3${tab}0${tab}0" "$(endless 2> /dev/null | head -c 60001 | "$DESK" read - 2> /dev/null | tail -1)"

# A segment of 4,096 bytes, and one of 4,097, which is refused before it ends; by name it is good.
long() { printf "UIB+UNOB:4+7'UIH+TSDUPD:D:04A::UN+1'MSD"; repeated 7 "+$(repeated 512 A)"; printf "+%s'UIT+1+3'UIZ+7+1'" "$(repeated "$1" A)"; }
long 500 > most.edi
long 501 > over.edi
piped 0 "$(rows UIB 0 UIH 13 MSD 36 UIT 4132 UIZ 4140)" "" cat most.edi
piped 1 "$(rows UIB 0 UIH 13)${line}refused${tab}21${tab}36${tab}0" "desk: refused 21: $("$DESK" --help 21), at byte 36 of -: ..'UIH+TSDUPD" cat over.edi
piped 1 "$(rows UIB 0 UIH 13)${line}refused${tab}21${tab}36${tab}0" "[MSD+$(repeated 56 A)..]" dd bs=100 if=over.edi
expect 0 "$(rows UIB 0 UIH 13 MSD 36 UIT 4133 UIZ 4141)" "" read over.edi
piped 1 "refused${tab}21${tab}0${tab}0" "[UIB{0A}AAA" eval 'printf "UIB\n"; yes A | tr -d "\n"'

# Each row goes out when its segment has come, and the answer with the fault: the next byte is not waited for. waits: desk between two
# pipes; fed TEXT: it is sent; answered: the next line that comes
mkfifo in out
waits() {
    timeout 20 "$DESK" read - < in > out 2> words &
    exec 3> in 4< out
}
fed() { printf '%s' "$1" >&3; }
answered() {
    local text
    IFS= read -r -t 10 text <&4
    echo "$text"
}
waits
fed "UIB+UNOB:4+7'UIH+TSD"
same "the first row" "$(rows UIB 0)" "$(answered; answered)"
fed "UPD:D:04A::UN+1'"
same "the second row" "13${tab}0${tab}UIH" "$(answered)"
fed "XXX'UI"
same "the answer" "refused${tab}9${tab}36${tab}0" "$(answered)"
wait $!
same "the status, before the input is over" 1 "$?"
exec 3>&- 4<&-

# Where the rows cannot go out nothing more is read.
waits
fed "$head"
same "a row" "offset${tab}group${tab}tag" "$(answered)"
exec 4<&-
fed "ALS'"
wait $!
same "the reader of the rows has gone" 3 "$?"
has "the reader of the rows has gone" "standard output: Broken pipe" "$(cat words)"
exec 3>&-
endless 2> /dev/null | timeout 20 "$DESK" read - > /dev/full 2> words
same "rows to a full disk" 3 "${PIPESTATUS[1]}"
has "rows to a full disk" "standard output: No space left on device" "$(cat words)"
expect 3 "" "desk: -: Is a directory" read - < .
