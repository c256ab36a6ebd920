# Sourced by the scripts of bindings/ and by examples/hard_roll: builds the archive, and compares what a
# program prints.
#
# It takes from the script that sources it: `root`, the repository; and `die`, which ends the script
# with what is wrong.

# Sets FOOTSPANDLE_LIB to the folder of the archive, which is proved and built first.
build_archive() {
    echo "proving and building libexported.a; the first time that takes some minutes" >&2
    FOOTSPANDLE_LIB=$("$root/compare/archive" exported) || die "libexported.a is not built"
    export FOOTSPANDLE_LIB
}

# Runs a program, shows what it prints, and compares that with a text.
run_and_compare() { # PROGRAM TEXT
    local printed=$1.txt
    "$1" >"$printed" || die "the example ended with status $?"
    cat "$printed"
    diff -u "$2" "$printed" >&2 || die "that is not what stands in ${2#"$root/"}: the difference is above"
    echo "as in ${2#"$root/"}" >&2
}
