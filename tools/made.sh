# Whether a file that was made from a crate would be made the same again. For scripts that set `top`, the repository's folder, to
# source.
#
# A note under target/made/ has two sums: of all that the file was made from, and of the file itself. The first is taken before
# the file is made, so an input that changes meanwhile shows the next time. Each file has a note of its own, by its path.

sum_of() { sha256sum | cut -d ' ' -f 1; }

# The crates that crates.txt lists, in its order, each with what is behind the colon.
listed_crates() { sed -nE 's/#.*//; s/^[[:space:]]*([a-z0-9_]+)([^:]*):(.*)$/\1 \3/p' "$top/crates.txt"; }

# The crates of this repository that a crate is built on, itself among them, in the order of crates.txt.
reached_crates() { # CRATE
    listed_crates | awk -v crate="$1" '
        { names[NR] = $1; listed[$1] = 1; deps[$1] = substr($0, length($1) + 1) }
        END {
            reached[crate] = more = 1
            while (more) {
                more = 0
                for (name in reached) {
                    many = split(deps[name], each, " ")
                    for (i = 1; i <= many; i++) if (!(each[i] in reached)) reached[each[i]] = more = 1
                }
            }
            for (i = 1; i <= NR; i++) if (names[i] in reached) print names[i]
        }'
}

# Asks the kit for its identity, once.
ask_kit() { [ -n "${kit_line-}" ] || kit_line=$(rt version); }

# The sum of the kit's identity, the processor's name, crates.txt, these files, and all files of the crates but their must-fail and what is
# made in out.
sum_of_inputs() { # CRATE FILE..
    local crate=$1 folders
    shift
    ask_kit || return
    mapfile -t folders < <(reached_crates "$crate" | sed 's,^,crates/,')
    (
        set -o pipefail
        cd "$top" || exit
        {
            echo "$kit_line $(uname -m)"
            find crates.txt tools/made.sh "$@" "${folders[@]}" \( -name must-fail -o -name out \) -prune -o -type f -print0 |
                LC_ALL=C sort -z | xargs -0 sha256sum
        } | sum_of
    )
}

note_of() { echo "$top/target/made/$(printf %s "$1" | sum_of)"; } # FILE

is_made() { # FILE INPUTS
    local note
    note=$(note_of "$1")
    [ -f "$1" ] && [ -f "$note" ] && [ "$(cat "$note")" = "$2 $(sum_of <"$1")" ]
}

note_made() { # FILE INPUTS
    local note
    note=$(note_of "$1")
    mkdir -p "$(dirname "$note")"
    echo "$2 $(sum_of <"$1")" >"$note"
}

# ---- what the gate leaves

# `rt ci` leaves each program and each library that it proved in the crate's out/. The program is that file; of a library, which is a
# folder, it is the one that holds the sum of the others.
program_of() { echo "$top/crates/$1/out/$1"; }           # CRATE
library_of() { echo "$top/crates/$1/out/rlib/$1.rlib"; } # CRATE
mark_of_library() { echo "$(library_of "$1")/format"; }  # CRATE

# The sums of what each crate is made from, a line for each.
sums_of_all() {
    local crate rest
    ask_kit || return
    listed_crates | while read -r crate rest; do
        echo "$crate $(sum_of_inputs "$crate")" || exit
    done
}

# Notes as made what the gate left since a file was, where nothing that it read has changed since these sums were taken. Libraries that
# were there before it are put back when it ends, and they may be of other sources.
note_left() { # SUMS FILE
    local crate sum program library
    [ "$(sums_of_all)" = "$1" ] || return 0
    while read -r crate sum; do
        program=$(program_of "$crate") library=$(library_of "$crate")
        if [ -f "$program" ] && [ "$program" -nt "$2" ]; then note_made "$program" "$sum"; fi
        if [ -d "$library" ] && [ "$library" -nt "$2" ]; then note_made "$(mark_of_library "$crate")" "$sum"; fi
    done <<<"$1"
}

# Whether the libraries that a crate is built on are those that the gate proved.
are_left() { # CRATE
    local name
    ask_kit || return
    while read -r name; do
        [ "$name" = "$1" ] || is_made "$(mark_of_library "$name")" "$(sum_of_inputs "$name")" || return
    done < <(reached_crates "$1")
}
