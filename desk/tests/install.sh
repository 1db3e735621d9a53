# make install, straight and under another root: the program starts where it will stand, and the library, header and page are there.
installed="bin/desk include/drumcallisto.h lib/libdrumcallisto.a share/man/man1/desk.1"
if make -s -C "$root" -f desk/desk.mk install PREFIX="$work/prefix" && make -s -C "$root" -f desk/desk.mk install DESTDIR="$work/root" PREFIX=/opt/desk; then
    same "installed" "$installed" "$(cd "$work/prefix" && find . -type f | cut -c3- | sort | xargs)"
    same "installed under another root" "$installed" "$(cd "$work/root/opt/desk" && find . -type f | cut -c3- | sort | xargs)"
    same "started where it stands" "$("$DESK" --version)" "$(cd / && "$work/prefix/bin/desk" --version)"
    same "under another root nothing names that root" 0 "$(grep -c "$work" "$work/root/opt/desk/bin/desk")"
else
    wrong "make install"
fi
