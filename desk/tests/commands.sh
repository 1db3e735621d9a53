# Every command, its answers and its statuses.
samples=$root/samples
days=1001111000001$(zeros 499)
weekend=0000110000011$(zeros 499)

expect 0 "desk 1.0 (Drumcallisto)" "" --version
has "help" "desk REGISTER stage [--every-day] ACCOUNT FILE" "$("$DESK" --help)"
has "help on the old reading" "--every-day: a POP with neither a day string nor weekdays means every day" "$("$DESK" --help)"

# A wrong usage is 2, and nothing is answered.
anew
for words in "" "r" "--help 22" "--help x" "read" "read a b" "r stage" "r stage 3" "r stage 3 a b" "r stage x a" "r stage --every-day" "r stage --every-day 3" "r stage 3 --every-day a" "r stage --everyday 3 a" "r release" "r release --every-day 3" \
    "read --every-day" "read --everyday a" "read a --every-day" "read --every-day a b" "r release -1" \
    "r release 1 2" "r withdraw 3" "r show" "r show 3 x" "r show 3 0 0" "r check 1" "r run 1" "r nonsense" "n open" "n open 2026-01-01" \
    "n open 2026-1-01 1 1 1 1 1 1 1 1" "n open 2026-1-011 1 1 1 1 1 1 1 1" "n open today 1 1 1 1 1 1 1 1" "n open 2026-01-01 1 1 1 1 1 1 1" \
    "n open 2026-01-01 1 1 1 1 1 1 1 1 1" "n open 2026-01-01 1 1 1 1 1 1 1 x" "n open --anew"; do
    # shellcheck disable=SC2086
    expect 2 "" "desk: wrong usage: " $words
done
same "nothing was made" "r r.lock" "$(echo *)"

# read
table="offset${tab}group${tab}tag${line}0${tab}0${tab}UIB${line}13${tab}0${tab}UIH${line}36${tab}0${tab}MSD${line}47${tab}0${tab}UIT${line}55${tab}0${tab}UIZ"
expect 0 "$table" "" read "$samples/paper.edi"
same "read -" "$table" "$("$DESK" read - < "$samples/paper.edi")"
same "rows of samples/skdupd.edi" 35 "$("$DESK" read "$samples/skdupd.edi" | wc -l)"
same "rows of samples/tsdupd-12b.edi" 23 "$("$DESK" read "$samples/tsdupd-12b.edi" | wc -l)"
expect 3 "" "desk: none.edi: No such file or directory" read none.edi
expect 3 "" "Is a directory" read .

# open
expect 2 "" "r is there already; only open --anew replaces it" r open 2026-01-01 0 0 0 0 0 0 0 0
expect 0 "done${tab}0" "" n open 2026-01-01 256 0 0 0 0 0 0 0
same "a register's length" 35858 "$(wc -c < n)"
expect 3 "" "No such file or directory" none/n open 2026-01-01 1 1 1 1 1 1 1 1
expect 3 "" "No such file or directory" none check
expect 3 "" "No such file or directory" none stage 3 "$samples/both.edi"
expect 3 "" "No such file or directory" r stage 3 none.edi
same "no lock for what is not there" "n n.lock r r.lock" "$(echo *)"

# stage, show, release, withdraw
sk one.edi "PRD+17'$period::1001111000001'PRD+4712'$period+67'"
expect 0 "done${tab}0" "" r check
expect 0 "" "" r show 3
expect 0 "done${tab}2" "" r stage 3 one.edi
expect 0 "done${tab}2" "" r check
expect 0 "17${tab}put${tab}$days${line}4712${tab}put${tab}$weekend" "" r show 3
expect 0 "4712${tab}put${tab}$weekend" "" r show 3 1
expect 0 "" "" r show 4
expect 0 "done${tab}2" "" r release 3
expect 0 "done${tab}0" "" r release 3
expect 0 "17${tab}live${tab}$days" "" r show 3 0
sk two.edi "PRD+17'MSD+AAR:56'PRD+4712'$period::1001111000001'"
same "stage -" "done${tab}2" "$("$DESK" r stage 3 - < two.edi)"
expect 0 "17${tab}live${tab}$days${line}17${tab}del${tab}${line}4712${tab}live${tab}$weekend${line}4712${tab}put${tab}$days" "" r show 3
expect 0 "done${tab}0" "" r withdraw 3 4712
expect 0 "4712${tab}live${tab}$weekend" "" r show 3 1
expect 0 "done${tab}1" "" r release 3
expect 0 "4712${tab}live${tab}$weekend" "" r show 3
expect 0 "done${tab}0" "" r open --anew 2026-01-01 1 0 0 0 0 0 0 0
expect 0 "done${tab}0" "" r check

# a short day string: the days left do not run, from one character to one for each day; one more is 10
anew
for string in 1 0 100111100000 1001111000001; do
    sk short.edi "PRD+17'$period::$string'"
    same "rows with ::$string" 10 "$("$DESK" read short.edi | wc -l)"
    expect 0 "done${tab}1" "" r stage 3 short.edi
    expect 0 "17${tab}put${tab}$string$(zeros $((512 - ${#string})))" "" r show 3
done
sk long.edi "PRD+17'$period::10011110000010'"
expect 1 "refused${tab}10${tab}62${tab}2" "[$period::10011110000010']" r stage 3 long.edi
expect 0 "17${tab}put${tab}$days" "" r show 3

# months, as plain text and on a terminal
anew
sk one.edi "PRD+17'$period::1001111000001'POP+273:2001-12-25/2001-12-25+2'"
expect 0 "done${tab}1" "" r stage 3 one.edi
months="17, put
2000-08  Mo Tu We Th Fr Sa Su
             1  .  .  4  5  6
          7  .  .  .  .  . 13
          .  .  .  .  .  .  .
          .  .  .  .  .  .  .
          .  .  .  .
2001-12  Mo Tu We Th Fr Sa Su
                         .  .
          .  .  .  .  .  .  .
          .  .  .  .  .  .  .
          .  .  .  .  .  .  .
          . 25"
expect 0 "$months" "" r show 3 0 --months
expect 0 "$months" "" r show 3 --months
has "months on a terminal" $'\033[1;7m13\033[0m' "$(script -qec "$DESK r show 3 0 --months" /dev/null)"
expect 0 "done${tab}1" "" r release 3
expect 0 "done${tab}0" "" n open 2026-06-15 1 1 1 1 1 1 1 1
sk two.edi "PRD+17'POP+273:2026-06-15/2026-06-30+12'"
expect 0 "done${tab}1" "" n stage 3 two.edi
expect 0 "17, put
2026-06  Mo Tu We Th Fr Sa Su
         15 16  .  .  .  .  .
         22 23  .  .  .  .  .
         29 30" "" n show 3 --months
sk two.edi "PRD+17'MSD+AAR:56'"
expect 0 "done${tab}1" "" r stage 3 two.edi
has "a removal among months" "17, del" "$("$DESK" r show 3 0 --months)"

# run: every command is answered, and the worst status is the run's
anew
sk one.edi "PRD+1 7'$period+1234567'"
expect_run 0 "done${tab}1${line}done${tab}1" "stage 3 one.edi" "" "# a line that is none" "  release 3 "
expect_run 1 "done${tab}1${line}refused${tab}16${tab}0${tab}0${line}done${tab}0${line}refused${tab}2${tab}0${tab}0${line}done${tab}0" \
    "stage 3 one.edi" "withdraw 3 17" 'withdraw 3 1\ 7' "release 9" "release 3"
expect_run 2 "refused${tab}16${tab}0${tab}0${line}failed${tab}2${line}failed${tab}2${line}done${tab}1" "show 3 1" "stage 3" "stage 3 -" "check"
expect_run 3 "failed${tab}3${line}failed${tab}2${line}done${tab}1${line}done${tab}0" "stage 3 none.edi" "run" "check" "release 3"
has "run shows" "1 7${tab}live${tab}1111111111111000" "$(echo show 3 | "$DESK" r run)"
same "a line with a zero byte" "failed${tab}2" "$(printf 'release 3\0\n' | "$DESK" r run 2> /dev/null)"
same "the last line needs no newline" "done${tab}1" "$(printf check | "$DESK" r run)"

# an answer that cannot go out is 3, and the register is changed all the same
"$DESK" r stage 3 one.edi > /dev/full 2> words
same "an answer to a full disk" 3 "$?"
has "an answer to a full disk" "standard output: No space left on device; what was changed stands" "$(cat words)"
expect 0 "done${tab}1" "" r release 3
"$DESK" r stage 3 one.edi >&- 2> words
same "standard output closed" 3 "$?"

# the example
same "the example" "4711 put 1001111000001000000000000000000100111110011111|4712 put 0000110000011000001100000110000011000001100000|4713 del |" \
    "$("$root/target/desk/services" "$samples/skdupd.edi" 2000-08-01 | cut -c1-55 | tr '\t\n' ' |')"
has "the example refuses" "refused${tab}9${tab}47${tab}0" "$("$root/target/desk/services" "$samples/refused-9.edi" 2000-08-01)"
