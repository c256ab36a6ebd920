# Sourced by bindings/c/run for --wrong: sees that the replay notices what is wrong.
#
# It takes from there: `root`, `here`, `work`, `archive`, `replay`, `declared`, `compile` and `die`.
#
# - bits.c turns bits of the answers in the lists, changes heads and leaves kinds out, one at a time.
# - The lists are spoiled as files: cut, longer, twice, absent.
# - functions.c has functions that are wrong, and the replay is compiled against them: wrong.h, which is
#   written here, gives each function of the header the name of its stand-in. A function that is new and
#   has none does not link.
wrong=0
noticed=0

# Counts a run: it is noticed if the program ends with status 1, and says last that something differs.
try() { # WHAT PROGRAM ROOT
    local status=0
    wrong=$((wrong + 1))
    "$2" "$3" >"$work/said" 2>&1 || status=$?
    if [ "$status" = 1 ] && tail -n 1 "$work/said" | grep -q ' [1-9][0-9]* differ$'; then
        noticed=$((noticed + 1))
    else
        printf 'not noticed: %s (status %s)\n' "$1" "$status"
        cat "$work/said"
    fi
}

# What has to agree before anything is spoiled.
try_right() { # WHAT PROGRAM ROOT
    "$2" "$3" >"$work/said" 2>&1 || { cat "$work/said"; die "$1 differ before anything is spoiled"; }
}

# Says how many more there are since the last time.
say() { # WHAT
    printf '%s: %s wrong, %s noticed\n' "$1" $((wrong - wrong_before)) $((noticed - noticed_before))
    wrong_before=$wrong
    noticed_before=$noticed
}

# ---- bits

mapfile -t lists < <(sed -n 's/^    {"\([a-z_/]*\)", ".*/\1/p' "$here/replay/main.c")
others=()
for file in "${replay[@]}"; do
    [ "$file" = "$here/replay/main.c" ] || others+=("$file")
done
for list in "${lists[@]}"; do
    grep -q "{\"$list\"," "$here/wrong/bits.c" || die "wrong/bits.c does not spoil $list"
done
compile "$work/bits" "$here/wrong/bits.c" "${others[@]}" "$archive"
"$work/bits" "$root" >"$work/bits.txt" || { cat "$work/bits.txt"; die "a spoiled list is not noticed"; }
sed '$d' "$work/bits.txt"
read -r wrong _ noticed _ < <(tail -n 1 "$work/bits.txt")
wrong_before=$wrong
noticed_before=$noticed

# ---- lists

empty() { :; }
three_bytes() { head -c 3 "$1"; }
half() { head -c "$(($(wc -c <"$1") / 2))" "$1"; }
a_byte_less() { head -c -1 "$1"; }
a_word_less() { head -c -4 "$1"; }
a_byte_more() { cat "$1"; printf '\0'; }
a_word_more() { cat "$1"; printf '\0\0\0\0'; }
twice() { cat "$1"; tail -c +5 "$1"; }
a_count_of_none() { printf '\0\0\0\0'; tail -c +5 "$1"; }
as_long_as_the_room() { cat "$1"; head -c "$((1048576 - $(wc -c <"$1")))" /dev/zero; }

copy_lists() {
    local list
    for list in "${lists[@]}"; do
        mkdir -p "$work/lists/${list%/*}"
        cp "$root/$list" "$work/lists/$list"
    done
}

compile "$work/replay" "${replay[@]}" "$archive"
copy_lists
try_right "the lists" "$work/replay" "$work/lists"
for list in "${lists[@]}"; do
    for how in empty three_bytes half a_byte_less a_word_less a_byte_more a_word_more twice a_count_of_none \
        as_long_as_the_room; do
        "$how" "$root/$list" >"$work/lists/$list"
        try "$list, ${how//_/ }" "$work/replay" "$work/lists"
    done
    rm "$work/lists/$list"
    try "$list, absent" "$work/replay" "$work/lists"
    copy_lists
done
say "a list cut, longer or absent"

# ---- functions

sed 's/footspandle_\(.*\)/#define & wrong_\1/' "$declared" >"$work/wrong.h"
compile "$work/functions.o" -c "$here/wrong/functions.c"
compile "$work/stand_in" -include "$work/wrong.h" "${replay[@]}" "$work/functions.o" "$archive"
try_right "the stand-ins" "$work/stand_in" "$root"
mapfile -t slips < <(sed -n 's/.*slip("\([^"]*\)".*/\1/p; s/.*reads("\([^"]*\)".*/\1\n\1, as it is/p
    s/.*beside("\([^"]*\)".*/\1, before\n\1, past/p' "$here/wrong/functions.c")
for slip in "${slips[@]}"; do
    FOOTSPANDLE_SLIP=$slip try "$slip" "$work/stand_in" "$root"
done
say "a function that is wrong"

printf '%s wrong, %s noticed\n' "$wrong" "$noticed"
[ "$noticed" = "$wrong" ]
