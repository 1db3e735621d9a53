# Stage and release, 300 times, most of them killed at a random moment. After each the register is whole, and it is the old one or the
# new one: the new one where the command had answered.
SEED=${SEED:-$RANDOM}
RANDOM=$SEED
anew
sk A "$(for n in $(seq 20); do echo -n "PRD+$n'$period::1001111000001'"; done)"
sk B "$(for n in $(seq 20); do echo -n "PRD+$n'$period+67'"; done)"

# The registers that there can be, by what is live and what is pending: nothing, A or B.
declare -A known
for live in - A B; do
    for pending in - A B; do
        {
            echo "open --anew 2000-08-01 32 32 32 32 32 32 32 32"
            [ $live == - ] || printf 'stage 3 %s\nrelease 3\n' $live
            [ $pending == - ] || echo "stage 3 $pending"
        } | "$DESK" state run > /dev/null
        known[$live$pending]=$(cksum < state)
    done
done
same "registers, all different" 9 "$(printf '%s\n' "${known[@]}" | sort -u | wc -l)"

# How long a command lasts, in microseconds.
start=${EPOCHREALTIME/[.,]/}
for n in 1 2 3 4 5 6 7 8; do "$DESK" state stage 3 A > /dev/null; done
lasts=$(((${EPOCHREALTIME/[.,]/} - start) / 8))

is=-- old=0 new=0 killed=0 left=0
for n in $(seq 300); do
    case $((RANDOM % 3)) in
    0) command="stage 3 A" next=${is:0:1}A ;;
    1) command="stage 3 B" next=${is:0:1}B ;;
    2) command="release 3" next=${is/?-/${is:0:1}-} && [ "${is:1}" == - ] || next=${is:1}- ;;
    esac
    moment=$(((RANDOM * 32768 + RANDOM) % (lasts * 5 / 4) + 1))
    # shellcheck disable=SC2086
    timeout --foreground -s KILL "$(printf '%d.%06d' $((moment / 1000000)) $((moment % 1000000)))" "$DESK" r $command > answer 2> words
    status=$?
    found=$(cksum < r)
    [ $status == 137 ] && killed=$((killed + 1))
    [ -e r.new ] && left=$((left + 1))
    tests=$((tests + 1))
    if [ "$found" == "${known[$next]}" ]; then
        [ "$next" == "$is" ] || new=$((new + 1))
        is=$next
    elif [ "$found" == "${known[$is]}" ] && [ $status == 137 ] && [ ! -s answer ]; then
        old=$((old + 1))
    else
        wrong "kill $n of seed $SEED: '$command' over $is, status $status: neither the old register nor the new one"
        cp state r && is=AA
    fi
    has "kill $n of seed $SEED: whole" "done${tab}" "$("$DESK" r check 2>&1)"
done
echo "kills: seed $SEED, $killed killed: $old times the old register stood, $new times the new one; $left times a part of one beside it"
same "both registers stood, some of them after a kill" "1 1 1" "$((old > 0)) $((new > 0)) $((killed > old))"
