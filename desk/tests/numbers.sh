# Every number of documents 01 and 02 that the program can give, with its position, its words and the place shown.
samples=$root/samples

# refused NUMBER POSITION PLACE COMMAND..: the words are those that --help has for the number; wrong is 0, or which part of a POP is wrong
wrong=0
refused() {
    local number=$1 position=$2 place=$3
    shift 3
    expect 1 "refused${tab}$number${tab}$position${tab}$wrong" "desk: refused $number: $("$DESK" --help "$number")" "$@"
    has "place of $number" "$place" "$(cat "$work/words")"
}

for number in $(seq 0 21); do "$DESK" --help "$number"; done > "$work/all"
same "words, all different" 22 "$(sort -u "$work/all" | grep -c .)"

anew
before=$(cksum < r)
head -c 1000 r > short
refused 1 0 "short has 1000 bytes, a register 35858" short check
refused 1 0 "short has 1000 bytes, a register 35858" short release 3
refused 2 0 "" r stage 9 "$samples/both.edi"
refused 2 0 "" r release 0
refused 2 0 "" r show 99999999999999999999
refused 2 0 "" r withdraw 4294967299 17
refused 3 0 "" r stage 3 "$samples/refused-3.edi"
head -c 60001 /dev/zero > long
refused 3 0 "" read long

# 4 to 10, reading and staging
while read -r number position wrong place; do
    refused "$number" "$position" ", at byte $position of $samples/refused-$number.edi: $place" read "$samples/refused-$number.edi"
    refused "$number" "$position" ", at byte $position of $samples/refused-$number.edi: $place" r stage 3 "$samples/refused-$number.edi"
done << 'TABLE'
4 45 0 ..PD:D:04A::UN+1'MSD+AAR:6[{23}]
5 47 0 ..:D:04A::UN+1'MSD+AAR:61'[UIT]
6 0 0 [UNA:+.? ']
7 47 0 ..:D:04A::UN+1'MSD+AAR:61'[UIT+1+4']
8 13 0 UIB+UNOB:4+7'[UIH+SKDUPD:D:12B::UN+1']
9 47 0 ..:D:04A::UN+1'MSD+AAR:61'[MSD+AAR:61']
10 150 2 ..4711:::37+1187'PDT+::11'[POP+273:2000-08-01/2000-08-13::10011110000011']
TABLE
wrong=0
printf '%s\n' "$(cat "$samples/paper.edi")" > newline.edi
refused 7 63 "..+AAR:61'UIT+1+3'UIZ+7+1'[{0A}]" read newline.edi
printf "UIB+UNOB:4+7'" > ends.edi
refused 7 13 "UIB+UNOB:4+7'[]" read ends.edi
printf "UIB+UNOB:4+?'\033'UIZ" > byte.edi
refused 4 13 "[{1B}]" read byte.edi
printf "UIB+UNOB:4+7'XXX+%070d'" 0 > wide.edi
refused 7 13 "UIB+UNOB:4+7'[XXX+$(zeros 56)..]" read wide.edi

# 11 to 15
sk a "PRD+17'"
refused 11 55 "[PRD+17']" r stage 3 a
sk a "PRD+17'$period+67'PRD+1?7'$period+67'"
refused 12 95 "[PRD+1?7']" r stage 3 a
sk a "PRD+17'POP+273:2001-12-25/2001-12-26+2'"
refused 13 62 ", 2000-08-01 to 2001-12-25, at byte 62 of a: ..D+AAR:61'ORG'HDR'PRD+17'[POP+273:2001-12-25/2001-12-26+2']" r stage 3 a
sk a "PRD+17'MSD+AAR:56'"
refused 14 55 "'[PRD+17']" r stage 3 a
"$DESK" r open --anew 2000-08-01 1 0 0 0 0 0 0 0 > /dev/null
sk a "PRD+17'$period+67'PRD+18'$period+67'"
refused 15 "$(wc -c < a | tr -d ' ')" "" r stage 1 a
refused 15 "$(wc -c < a | tr -d ' ')" "" r stage 2 a

# 16 and 18
refused 16 0 "" r withdraw 1 17
refused 16 0 "" r withdraw 1 ""
refused 16 0 "" r withdraw 1 12345678901
refused 16 0 "" r show 1 0
refused 16 0 "" r show 1 99999999999999999999
refused 18 0 "" n open 2026-01-01 257 0 0 0 0 0 0 0
refused 18 0 "" n open 2026-01-01 4294967296 0 0 0 0 0 0 0
refused 18 0 "" n open 2001-02-29 1 1 1 1 1 1 1 1
refused 18 0 "" n open 2098-08-08 1 1 1 1 1 1 1 1
refused 18 0 "" n open 1989-12-31 1 1 1 1 1 1 1 1
same "a refused opening makes nothing" "" "$(ls -d n 2> /dev/null)"
expect 0 "done${tab}0" "" n open 2098-08-07 1 1 1 1 1 1 1 1
anew
same "the same words, the same bytes" "$before" "$(cksum < r)"

# 10 says which part of a POP is wrong: the lowest of those that are, without --every-day and with it; - is none
pop="POP+273:2000-08-01/2000-08-02" never="POP+273:2000-08-02/2000-08-01" other="POP+274:2000-08-01/2000-08-02"
declare -A of=([1]="its dates" [2]="its day string" [3]="its weekdays" [4]="it has both a day string and weekdays"
    [5]="it has neither a day string nor weekdays, and --every-day is not said" [6]="its qualifier, or an element that is repeated")

# judged PART POP COMMAND..: what read, read - and stage say of it
judged() {
    local wrong=$1 pop=$2 how
    shift 2
    sk a "PRD+17'$pop'"
    for how in "read ${*} a" "read ${*} -" "r stage ${*} 3 a"; do
        got=$($DESK $how < a 2> words; echo "status $?")
        if [ "$wrong" == - ]; then
            same "$how of $pop" "status 0" "$(echo "$got" | tail -1)"
        else
            same "$how of $pop" "refused${tab}10${tab}62${tab}$wrong${line}status 1" "$(echo "$got" | tail -2)"
            has "$how of $pop" "desk: refused 10: a POP with wrong contents: ${of[$wrong]}, at byte 62 of " "$(cat words)"
        fi
    done
}
while read -r unasked asked text; do
    judged "$unasked" "$text"
    judged "$asked" "$text" --every-day
done << TABLE
1 1 $never+67
2 2 $pop::2
3 3 $pop+76
4 4 $pop::10+67
5 - $pop
6 6 $other+67
6 6 $pop+6*7
1 1 $never::2
1 1 $never+76
1 1 $never::10+67
1 1 $never
1 1 POP+274:2000-08-02/2000-08-01+67
2 2 $pop::2+76
2 2 $pop::2+67
2 2 $other::2
3 3 $pop::10+76
3 3 $other+76
4 4 $other::10+67
5 6 $other
5 6 $pop+*67
1 1 POP
- - $pop::10
- - $pop+67
TABLE
anew
sk a "PRD+17'$pop'"
expect 0 "done${tab}1" "" r stage --every-day 3 a
expect 0 "17${tab}put${tab}11$(zeros 510)" "" r show 3
expect_run 1 "refused${tab}10${tab}62${tab}5${line}done${tab}1" "stage 3 a" "stage --every-day 3 a"
