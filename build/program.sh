# What ../lisa and ../tests/run say of the program: whether it is built of the files as they stand, and how it is built.
# They set `top` to the folder of the repository and read this file. RT names the kit's command, where `rt` isn't on the path.

program=$top/crates/lisa/out/lisa
log=$top/crates/lisa/out/build.log
RT=${RT:-rt}
case $RT in
/*) ;;
*/*) RT=$PWD/$RT ;;
esac

# The lines of crates.txt in the folder $1 of the program's crate and of those that it stands on, lowest first.
lines_below() {
    awk -F: '
        function visit(crate,    libraries, count, k) {
            if (!(crate in line) || crate in seen) return
            seen[crate]
            count = split(line[crate], libraries, /[ :]+/)
            for (k = 2; k <= count; k++) visit(libraries[k])
            print line[crate]
        }
        { sub(/ *#.*/, "") }
        NF > 1 { split($1, words, " "); line[words[1]] = $0 }
        END { visit("lisa") }' "$1/crates.txt"
}

# Their names.
crates_below() {
    lines_below "$1" | sed 's/[ :].*//'
}

# One sum of all that the program in the folder $1 is made from: those lines, and the files of src/, specs/ and proofs/.
sum_of_sources() {
    folders=$(crates_below "$1" | sed 's|.*|crates/&/src crates/&/specs crates/&/proofs|')
    [ -n "$folders" ] || return 1
    # (the crates' names have no blank, and each word is a folder)
    # shellcheck disable=SC2086
    (cd "$1" && { lines_below . && find $folders -type f 2>/dev/null | LC_ALL=C sort | xargs sha256sum; } | sha256sum)
}

sum_of_program() {
    sha256sum <"$program"
}

# Whether the program is the one that was built of the files as they stand.
is_fresh() {
    [ -x "$program" ] && [ -r "$program.sum" ] || return 1
    [ "$(cat "$program.sum")" = "$(sum_of_sources "$top" && sum_of_program)" ]
}

# Notes that the program was built of sources with the sum $1.
note_sum() {
    { echo "$1" && sum_of_program; } >"$program.sum.new" && mv "$program.sum.new" "$program.sum"
}

# Builds the program: in a copy of its crates, which are proved as the gate proves them, as many at once as there are
# processors and memory allow. The kit keeps what is proved, for the next build and for the gate, and takes what they kept.
build_program() {
    command -v "$RT" >/dev/null || {
        echo "lisa: the kit's command $RT isn't found: put it on the path as rt, or name it by RT" >&2
        return 1
    }
    mkdir -p "$top/crates/lisa/out" && : >"$log" && room=$(mktemp -d "${TMPDIR:-/tmp}/lisa-build-XXXXXX") || return 1
    pid=
    trap 'end_build' EXIT
    trap 'end_build; exit 130' INT
    trap 'end_build; exit 143' HUP TERM
    copy_crates && sum=$(sum_of_sources "$room") || return 1
    begun=$(date +%s) told=$begun last=$begun total=$(($(crates_below "$room" | wc -l))) ended=0 over=' ' failed='' number=0 block=1 part=''
    echo "lisa: $total crates are proved before the program runs; from nothing that takes up to an hour on 4 processors" >&2
    echo "lisa: what is proved is kept, so Ctrl-C loses only the crates at work; all that is said goes to $log" >&2
    (cd "$room" && exec "$RT" ci) </dev/null >>"$log" 2>&1 &
    pid=$!
    exec 3<"$log"
    while kill -0 "$pid" 2>/dev/null; do
        tell_more
        sleep 1
    done
    wait "$pid"
    status=$?
    pid=
    tell_more
    exec 3<&-
    if [ "$status" != 0 ] || [ ! -x "$room/crates/lisa/out/lisa" ]; then
        [ -n "$failed" ] || { echo "lisa: $RT ci ended with status $status; the last lines of $log:" && tail -n 20 "$log"; } >&2
        return 1
    fi
    cp "$room/crates/lisa/out/lisa" "$program.new" && mv "$program.new" "$program" && note_sum "$sum" || return 1
    echo "lisa: built in $(so_far)" >&2
    end_build
    trap - EXIT INT HUP TERM
}

end_build() {
    [ -z "$pid" ] || { kill "$pid" && wait "$pid"; } 2>/dev/null
    pid=
    rm -rf "$room"
}

# (with a .git of its own the copy is the top of a repository, where the kit's command leaves nothing outside of it)
copy_crates() {
    mkdir "$room/.git" || return 1
    lines_below "$top" >"$room/crates.txt" && [ -s "$room/crates.txt" ] || return 1
    [ ! -f "$top/HANDLES" ] || cp "$top/HANDLES" "$room" || return 1
    for crate in $(crates_below "$room"); do
        mkdir -p "$room/crates/$crate" || return 1
        for it in "$top/crates/$crate"/*; do
            case ${it##*/} in
            out | must-fail) ;;
            *) cp -R "$it" "$room/crates/$crate" || return 1 ;;
            esac
        done
    done
}

# Reads what the kit's command has said since the last call, and tells which crates are proved. Where nothing has ended for
# a minute, it tells which are at work.
tell_more() {
    while IFS= read -r line <&3 || { part=$part$line && false; }; do
        line=$part$line part='' number=$((number + 1))
        case $line in
        "== "*) block=$number ;;
        "rt: "*" NOT PROVED") tell_failure "$(crate_of "$line")" ;;
        "rt: "*" proved") tell_crate "$(crate_of "$line")" ;;
        "rt: "*" is kept: "*) tell_crate "$(crate_of "$line")" kept ;;
        esac
    done
    if [ $(($(date +%s) - told)) -ge 60 ]; then
        told=$(date +%s)
        echo "lisa: [$ended/$total] $(so_far)$(at_work)" >&2
    fi
}

crate_of() {
    set -- "${1#rt: }"
    echo "${1%% *}"
}

# tell_crate NAME [kept]: nothing is printed of what an earlier run has proved
tell_crate() {
    [ -d "$room/crates/$1" ] || return 0
    ended=$((ended + 1)) over="$over$1 " told=$(date +%s)
    [ -z "${2-}" ] || return 0
    # a library's out/ has the time at which its proof began; the program's begins when the last library has ended
    from=$last
    [ "$1" = lisa ] || from=$(stat -c %Y "$room/crates/$1/out" 2>/dev/null) || from=$last
    last=$told
    printf 'lisa: [%*d/%d] %6s  %-26s %5d lines %5d s%s\n' \
        ${#total} "$ended" "$total" "$(so_far)" "$1" "$(lines_of "$1")" $((told - from)) "$(at_work)" >&2
}

tell_failure() {
    [ -d "$room/crates/$1" ] || return 0
    failed=$1 over="$over$1 " told=$(date +%s)
    { echo "lisa: $1 is not proved; the last lines that are told of it, of $log:" && sed -n "$block,${number}p" "$log" | tail -n 20; } >&2
}

# The libraries whose proof has begun and not ended.
at_work() {
    found=
    for it in "$room"/crates/*/out/rlib; do
        it=${it%/out/rlib} && it=${it##*/}
        case $over in
        *" $it "*) ;;
        *) [ "$it" = '*' ] || found="$found $it" ;;
        esac
    done
    echo "${found:+; at work:$found}"
}

lines_of() {
    find "$room/crates/$1/src" -name '*.rt' -exec cat {} + | wc -l
}

so_far() {
    set -- $(($(date +%s) - begun))
    printf '%d:%02d\n' $(($1 / 60)) $(($1 % 60))
}
