# docs/GUIDE.md: each line that begins with $, in order, prints what stands below it.
cd "$work" && rm -rf here && mkdir here && cd here && ln -s "$root/samples" samples && mkdir "$work/bin" && ln -s "$DESK" "$work/bin/desk" || exit 2
command=

# said: what the guide says that the last command prints is printed
said() {
    [ -z "$command" ] || same "\$ $command" "$printed" "$(PATH=$work/bin:$PATH timeout 20 bash -c "$command" 2>&1)"
    command=
}
while IFS= read -r text; do
    case $text in
    '    $ '*) said && command=${text#    $ } printed= ;;
    '    '*) printed=${printed:+$printed$line}${text#    } ;;
    *) said ;;
    esac
done < "$root/docs/GUIDE.md"
said
