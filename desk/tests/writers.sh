# One writer at a time: others wait, and nothing that any of them wrote is lost.

# services FIRST LAST: a file for each
services() {
    for n in $(seq "$1" "$2"); do sk "f$n" "PRD+$n'$period+1234567'"; done
}

# both WAYS agree: two writers by commands, then three by runs, each on an account of its own
anew
services 1 30
stage_each() {
    for n in $(seq 1 12); do "$DESK" r stage "$1" "f$n"; done > "answers$1"
}
stage_each 1 & stage_each 2 & wait
expect 0 "done${tab}24" "" r check
same "two writers are answered" 24 "$(cat answers1 answers2 | grep -c "^done${tab}1$")"
for account in 3 4 5; do
    for n in $(seq 1 30); do echo "stage $account f$n"; done | "$DESK" r run > "answers$account" &
done
wait
same "three runs are answered" 90 "$(cat answers3 answers4 answers5 | grep -c "^done${tab}1$")"
expect 0 "done${tab}114" "" r check
same "nothing is left beside" "" "$(ls r.new 2> /dev/null)"

# a writer waits while another holds the lock; one who looks does not
anew
services 1 1
flock r.lock sleep 1.5 &
sleep 0.3
"$DESK" r stage 3 f1 > answer &
has "looking while another writes" "status 0" "$(timeout 1 "$DESK" r show 3; echo "status $?")"
sleep 0.3
same "a writer waits" "" "$(cat answer)"
wait
same "and goes on" "done${tab}1" "$(cat answer)"

# a lock that is taken away while one waits for it is taken anew
flock r.lock sleep 1 &
sleep 0.2
"$DESK" r release 3 > answer &
sleep 0.4
rm r.lock
wait
same "a lock taken away" "done${tab}1 r.lock" "$(cat answer) $(ls r.lock)"
expect 0 "done${tab}1" "" r check
