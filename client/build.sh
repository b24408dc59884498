# For scripts that run something proved. They set `top` to the top of the repository, read this file, and call
#
#   program                        proves and builds target/bin/saucewagon, the planner as a program
#   library                        proves and builds target/staticlib/libsaucewagon_c.a, the planner as a library
#   built FILE COMMAND SOURCE ..   makes a file by a command; it and the sources, files or directories, are named from the top
#
# Each works only where a source, or the file itself, changed since the last time, says on standard error that it works, and ends the
# script with status 2 where it fails. From nothing the first two take minutes. Scripts that run at the same time build one after another.
archive=target/staticlib/libsaucewagon_c.a
planner=target/bin/saucewagon
client=$top/target/client

# A sum of all that a file is made from.
sources() (
    cd "$top"
    {
        rt version
        cat crates.txt
        find "$@" -name out -prune -o -type f \( -name '*.rt' -o -name '*.antt' -o -name '*.rs' -o -name '*.c' -o -name '*.h' -o -name '*.a' \) -exec sha256sum {} + | sort
    } | sha256sum
)

# A sum of a file that was made, or nothing where there is none.
product() { [ ! -f "$top/$1" ] || sha256sum <"$top/$1"; }

# Whether a file is what was made from these sources as they stand now.
current() (
    made=$1
    shift
    [ "$(cat "$client/${made##*/}.from" 2>/dev/null)" = "$(sources "$@")$(product "$made")" ]
)

# Makes a file by a command, and remembers it and what it was made from.
remake() (
    made=$1 command=$2
    shift 2
    cd "$top"
    from=$(sources "$@")
    rm -f "$client/${made##*/}.from"
    $command && echo "$from$(product "$made")" >"$client/${made##*/}.from"
)

# Says something on standard error, after the script's name.
say() { echo "${0##*/}: $*" >&2; }

# Waits until no other script builds; descriptor 9 is ours from then on.
alone() {
    exec 9>"$client/lock"
    command -v flock >/dev/null || return 0
    flock -n 9 || { say "waits for another build to end" && flock 9; }
}

built() {
    file=$1 command=$2
    shift 2
    command -v rt >/dev/null || { say "needs rt, of the Rattle kit, on the path" && exit 2; }
    ! current "$file" "$@" || return 0
    mkdir -p "$client"
    alone
    if ! current "$file" "$@"; then
        case $command in
        client/make\ *) say "proves and builds $file, which takes minutes from nothing; target/client/log says how far it is" ;;
        *) say "builds $file" ;;
        esac
        if ! remake "$file" "$command" "$@" >"$client/log" 2>&1 </dev/null 9>&-; then
            tail -n 20 "$client/log" >&2
            say "it could not be built; target/client/log has all that was said"
            exit 2
        fi
    fi
    exec 9>&-
}

library() { built "$archive" "client/make staticlib saucewagon_c" crates; }

program() { built "$planner" "client/make bin saucewagon" crates; }
