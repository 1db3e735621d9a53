# When the machine fails: the old register stands whole, and the message says which failure it was.

# unchanged WHAT: r has the bytes that it had, and nothing is left beside it
unchanged() {
    same "$1: the register" "$kept" "$(cksum < r)"
    same "$1: what is beside it" "a b r r.lock" "$(echo *)"
}

anew
sk a "PRD+17'$period+1234567'"
sk b "PRD+17'$period+67'PRD+18'MSD+AAR:56'"
expect 0 "done${tab}1" "" r stage 3 a
kept=$(cksum < r)

# a refused command does not write: it is the same file still
file=$(stat -c %i.%y r)
expect 1 "refused${tab}14${tab}95${tab}0" "removal" r stage 3 b
expect 1 "refused${tab}16${tab}0${tab}0" "nothing pending" r withdraw 3 99
expect 2 "" "only open --anew replaces it" r open 2000-08-01 1 1 1 1 1 1 1 1
same "a refused command does not write" "$file" "$(stat -c %i.%y r)"
unchanged "refused"

# a full disk
(ulimit -f 10 && "$DESK" r release 3) > out 2> words
same "a full disk" "3 " "$? $(cat out)"
has "a full disk" "r.new: File too large; the old register stands" "$(cat words)"
(ulimit -f 10 && "$DESK" n open 2000-08-01 1 1 1 1 1 1 1 1) > out 2> words
same "a full disk, opening" "3 " "$? $(cat out)"
has "a full disk, opening" "n.new: File too large; no register was made" "$(cat words)"
rm -f out words n.lock
unchanged "a full disk"

# another full disk, and a folder on a disk that may only be read, where the system lets us mount them for a moment
if unshare -m true 2> /dev/null; then
    unshare -m bash -c 'mkdir small && mount -t tmpfs -o size=64k none small && cp r small/ && cd small && "$0" r release 3; echo $?; cmp r ../r' \
        "$DESK" > "$work/out" 2>&1
    has "no space left" "r.new: No space left on device; the old register stands${line}3" "$(cat "$work/out")"
    rmdir small
    unshare -m bash -c 'mount --bind . . && mount -o remount,bind,ro . && cd "$PWD" && "$0" r release 3; echo $?' "$DESK" > "$work/out" 2>&1
    has "a disk to be read only" "Read-only file system" "$(cat "$work/out")"
    same "a disk to be read only" 3 "$(tail -1 "$work/out")"
else
    echo "failures: no mount allowed here; a full and a read-only disk of its own were not tried"
fi
unchanged "disks"

# a folder that may not be written, and a register that may not be, by one who is not root
who=
[ "$(id -u)" == 0 ] && who="setpriv --reuid=65534 --regid=65534 --clear-groups"
cp "$DESK" "$work/desk" # where anyone may start it
if $who "$work/desk" --version > /dev/null 2>&1; then
    chmod 555 .
    $who "$work/desk" r release 3 > "$work/out" 2> "$work/words"
    same "a folder that may not be written" "3 " "$? $(cat "$work/out")"
    has "a folder that may not be written" "Permission denied" "$(cat "$work/words")"
    unchanged "a folder that may not be written"
    rm -rf "$work/open" && mkdir "$work/open" && cp -p r "$work/open" && chmod 777 "$work/open" && chmod 444 "$work/open/r"
    (cd "$work/open" && $who "$work/desk" r release 3) > "$work/out" 2> "$work/words"
    same "a register that may not be written" "3 " "$? $(cat "$work/out")"
    has "a register that may not be written" "r: Permission denied" "$(cat "$work/words")"
    same "a register that may not be written" "$kept" "$(cksum < "$work/open/r")"
    has "it may be looked at" "17${tab}put" "$(cd "$work/open" && $who "$work/desk" r show 3)"
    chmod 755 .
else
    wrong "$who may not start $work/desk, so that a folder that may not be written cannot be tried"
fi

# a register cut short, too long, damaged, or something else
for size in 0 1 35857; do
    head -c "$size" r > "$work/cut"
    expect 1 "refused${tab}1${tab}0${tab}0" "cut has $size bytes, a register 35858" "$work/cut" stage 3 a
    same "a register cut short stays as it is" "$size" "$(wc -c < "$work/cut" | tr -d ' ')"
done
{ cat r && echo; } > "$work/cut"
expect 1 "refused${tab}1${tab}0${tab}0" "cut has 35859 bytes, a register 35858" "$work/cut" check
{ head -c 35857 r && printf x; } > "$work/cut"
expect 1 "refused${tab}1${tab}0${tab}0" "cut has 35858 bytes, a register 35858, but not these" "$work/cut" show 3
mkfifo "$work/fifo"
expect 3 "" "not a plain file" "$work/fifo" check
expect 3 "" "Is a directory" "$work" release 3
expect 3 "" "not a plain file" "$work" check
rm -f "$work"/*.lock

# a symbolic link: it stays, and the register that it leads to is replaced
mkdir "$work/links" && ln -s "$PWD/r" "$work/links/l" && ln -s nowhere "$work/links/n" && ln -s o "$work/links/o"
expect 0 "done${tab}1" "" "$work/links/l" release 3
same "a link stays" "$PWD/r" "$(readlink "$work/links/l")"
same "a link's lock is the register's" "l n o" "$(cd "$work/links" && echo *)"
has "a link leads to the register" "17${tab}live" "$("$DESK" r show 3)"
expect 3 "" "No such file or directory" "$work/links/n" open 2000-08-01 1 1 1 1 1 1 1 1
expect 3 "" "Too many levels of symbolic links" "$work/links/o" check
same "a link to nowhere stays" "nowhere" "$(readlink "$work/links/n")"

# what a killed writer left beside harms nothing, whatever it is; mode and owner stay
cp a precious && ln -s precious r.new && chmod 640 r
[ -n "$who" ] && chown 65534:65534 r
expect 0 "done${tab}1" "" r stage 3 a
same "what r.new led to" "$(cksum < a)" "$(cksum < precious)"
same "mode and owner" "640 $(id -u | sed 's/^0$/65534/')" "$(stat -c '%a %u' r)"
same "nothing is left beside" "a b precious r r.lock" "$(echo *)"

# a lock is never a link to another's file
rm r.lock && ln -s precious r.lock
expect 3 "" "r.lock: Too many levels of symbolic links; nothing was changed" r release 3
rm r.lock

# the order of it, by the system's own record: the lock, the file flushed, renamed, the folder flushed, and only then the answer
if command -v strace > /dev/null; then
    strace -o "$work/trace" "$DESK" r release 3 > /dev/null
else
    echo "failures: no strace here; the order of flushing was not tried"
fi
[ -e "$work/trace" ] && same "the order" "flock write fsync rename fsync write " \
    "$(grep -oE '\b(flock|write|fsync|rename)(at2?)?\(' "$work/trace" | sed -n '/flock/,$p' | sed 's/at2*(\|(//' | tr '\n' ' ')"
