# How far a proof of the program is, and how long it still takes: from what the prover prints, the libraries that are
# built, and docs/TIMES.md. Sourced, not run; `top` is the checkout.

# The crates of the repository that one stands on, and itself.
crates_below() {
    awk -F: -v crate="$1" '
        /^[a-z]/ { split($1, name, " "); order[++count] = name[1]; below[name[1]] = $2 }
        END {
            wanted[crate] = 1
            for (at = count; at >= 1; at--)
                if (order[at] in wanted) {
                    words = split(below[order[at]], on, " ")
                    for (word = 1; word <= words; word++) wanted[on[word]] = 1
                }
            for (at = 1; at <= count; at++) if (order[at] in wanted) print order[at]
        }' "$top/crates.txt"
}

# Of the crates named, how many are proved, and the processor's seconds that the others take. A crate of which the table
# tells nothing takes as long as the others on average.
left_of() {
    local crate
    for crate in "$@"; do
        if [ -e "$top/crates/$crate/out/rlib/stamp" ]; then echo "$crate proved"; else echo "$crate open"; fi
    done | awk -v table="$top/docs/TIMES.md" '
        BEGIN {
            while ((getline line < table) > 0)
                if (split(line, cell, /[|` ]+/) >= 4 && cell[3] ~ /^[0-9]+$/) {
                    seconds[cell[2]] = cell[3]; sum += cell[3]; rows++
                }
            mean = rows ? sum / rows : 60
        }
        $2 == "proved" { proved++ }
        $2 == "open" { left += ($1 in seconds) ? seconds[$1] : mean }
        END { printf "%d %d\n", proved, left }'
}

# Seconds in words.
in_words() {
    if [ "$1" -lt 90 ]; then echo 'about a minute'; else echo "about $((($1 + 30) / 60)) minutes"; fi
}

# Reads what the prover prints while it proves a program's crate, and tells of each crate that it begins.
tell_progress() {
    local crates begun proved left first='' current='' line name wait
    mapfile -t crates < <(crates_below "$1")
    begun=$SECONDS
    read -r proved left < <(left_of "${crates[@]}")
    echo "ndb: proving the program, crate by crate, and building it: $proved of ${#crates[@]} crates are proved," \
        "and the others take $(in_words "$left"). ./try runs a script unproved meanwhile." >&2
    while IFS= read -r line; do
        case $line in
            *': proved') ;;
            *error* | *'not proved'* | *'no proof'*) echo "$line" >&2; continue ;;
            *) continue ;;
        esac
        name=${line#* }
        name=${name%%::*}
        [ "$name" != "$current" ] || continue
        current=$name
        read -r proved left < <(left_of "${crates[@]}")
        [ -n "$first" ] || first=$left
        wait=$left
        # By now it is known how long the seconds of the table take here.
        if [ "$first" -gt "$left" ]; then wait=$((left * (SECONDS - begun) / (first - left))); fi
        echo "ndb: proving \`$name\`, crate $((proved + 1)) of ${#crates[@]}; $(in_words "$wait") left" >&2
    done
}
