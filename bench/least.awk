# The least time of each of the two over several runs, of lines with a name, two spaces, `ours N` and `yardstick N`.
/ours.*yardstick/ && !/over/ {
    name = $0; sub(/  .*/, "", name)
    ours = $0; sub(/.*ours */, "", ours)
    theirs = $0; sub(/.*yardstick */, "", theirs)
    if (!(name in a)) { names[++n] = name; a[name] = ours + 0; b[name] = theirs + 0 }
    if (ours + 0 < a[name]) a[name] = ours + 0
    if (theirs + 0 < b[name]) b[name] = theirs + 0
}
END {
    for (i = 1; i <= n; i++)
        printf "%-22s ours %9.2f, yardstick %9.2f, ratio %.2f\n", names[i], a[names[i]], b[names[i]], b[names[i]] / a[names[i]]
    if ("staging SKDUPD" in a)
        printf "staged over read: ours %.2f, yardstick %.2f\n", a["staging SKDUPD"] / a["reading SKDUPD"], b["staging SKDUPD"] / b["reading SKDUPD"]
}
