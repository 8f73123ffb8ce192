#!/bin/sh
# Proves and builds the program, and says how far that is. A part of ./endport, which calls `prove`.
# shellcheck disable=SC2034,SC2154

# As many crates side by side as there are processors and free memory for, at 3 GB each, and one at least.
side_by_side() {
    sed -n 's/^MemAvailable: *//p' "${ENDPORT_MEMINFO:-/proc/meminfo}" 2> /dev/null |
        awk -v most="$(getconf _NPROCESSORS_ONLN 2> /dev/null || echo 1)" '
            { room = int($1 / 3000000) }
            END { if (room > most) room = most; print (room < 1 ? 1 : room) }'
}

# Whether the crates that aren't among the given ones stand on one another, so that no two of them can be proved side
# by side.
are_chain() {
    below | awk -v done=" $* " '
        { if (index(done, " " $1 " ") || index(done, " " $2 " ")) next; left[$1] = 1; on[$1, $2] = 1 }
        END { for (a in left) for (b in left) if (!((a, b) in on) && !((b, a) in on)) exit 1 }'
}

# Whether one crate alone is being proved, since this second, and no two of those that are left can be.
is_first_of_chain() {
    case $now in
        "" | " "*" "*) return 1 ;;
    esac
    case "$before " in
        *"$now "*) return 1 ;;
    esac
    are_chain "$@"
}

# Says how far the job is, each second until it ends: on one line, or a line for each change.
show() {
    before=
    while kill -0 "$job" 2> /dev/null; do
        now=$(ps -e -o ppid= -o args= 2> /dev/null |
            awk -v of="$job" '$1 == of { for (i = 2; i < NF; i++) if ($i == "--crate-name") printf " %s", $(i + 1) }')
        # shellcheck disable=SC2046
        set -- $(sed -n 's/^== //p; s/^crate \([a-z0-9_]*\):.*/\1/p' "$log" | sort -u)
        far="$# of $all crates are proved${now:+, now$now}"
        gone=$(($(date +%s) - begun))
        gone="$((gone / 60)) min $((gone % 60)) s"
        if [ -t 2 ]; then
            printf '\rendport: %s (%s)\033[K' "$far" "$gone" >&2
        elif [ "$far" != "$last" ]; then
            say "$far ($gone)"
        fi
        last=$far
        if [ -n "$is_wide" ] && [ "$now" != "$before" ] && [ $# -gt 0 ] && is_first_of_chain "$@"; then
            kill "$job"
            is_wide=
        fi
        before=$now
        sleep 1
    done
    [ ! -t 2 ] || printf '\r\033[K' >&2
}

shown() {
    begin "$log" "$log" "$@"
    show
    ended
}

# First the crates that can be proved side by side. Those that are left stand on one another: each has all processors
# then.
prove_all() {
    is_wide=yes
    shown rt all check --jobs "$(side_by_side)" || [ -z "$is_wide" ] || return
    is_wide=
    shown rt run -- check data/number.c
}

# The checksum was taken before. A source that was edited since may have been read so, even if it was changed back: then
# the program goes too, since nobody knows of which sources it is.
prove() {
    command -v rt > /dev/null || fail "there is no command rt to prove with: $where"
    { can_write && printf '' > "$log" && printf '' > "$out/begun"; } 2> /dev/null ||
        fail "out/build.log can't be written, so nothing can be proved here"
    say "proving and building the program, which takes an hour and more"
    all=$(echo "$crates" | wc -l)
    begun=$(date +%s)
    last=
    if ! prove_all; then
        tail -n 5 "$log" >&2
        fail "the program is not built; out/build.log says why"
    fi
    if [ "$sources" != "$(checksum)" ] || [ -n "$(find_files -cnewer "$out/begun" -print)" ]; then
        rm -f "$built"
        fail "a source was edited while proving ran, so the program isn't kept: call this again"
    fi
    keep "$built" || fail "out/endport can't be written"
    program=$kept
}
