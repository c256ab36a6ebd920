# Sourced by the scripts that build the Rust of docs/src beside ours, compare/run and
# bindings/rust/test: finds the Rust's folder, copies its crates to a folder of ours under target/, and
# writes there the manifests of our crates that rest on the copies, compare/comparing and compare/rooms.
#
# It takes from the script that sources it: `root`, the repository; and `die`, which ends the script
# with what is wrong.

# Sets `folder` to the Rust's folder: the one named, or else ../shared/docs/src from the root.
find_rust() { # [FOLDER]
    folder=${1:-$root/../shared/docs/src}
    [ -d "$folder/crates" ] || die "$folder has no folder crates: name the place of the Rust"
    folder=$(cd "$folder" && pwd -P)
}

# The head of a crate's manifest.
package() { # NAME VERSION
    printf '[package]\nname = "%s"\nversion = "%s"\nedition = "2021"\n' "$1" "$2"
}

# What a crate depends on, which stands beside it. It comes last, so that more can follow.
dependencies() { # [NAME..]
    local name
    printf '\n[dependencies]\n'
    for name; do printf '%s = { path = "../%s" }\n' "$name" "$name"; done
}

# ---- the Rust

# Copies a crate of the Rust. The copy is a new file, which can be written to.
copied() { # TO VERSION NAME FILE [NAME-OF-DEPENDENCY..]
    local to=$1/$3 version=$2 name=$3 file=$4
    shift 4
    [ -f "$file" ] || die "there is no $file"
    mkdir -p "$to/src"
    cat "$file" >"$to/src/lib.rs"
    {
        package "$name" "$version"
        printf '\n[lints.rust]\nunexpected_cfgs = "allow"\n'
        dependencies "$@"
    } >"$to/Cargo.toml"
}

# All of it, unchanged, and our stand-in for the crate libm. The version is for cargo, which tells two
# copies of a crate by it.
copy_rust() { # TO VERSION
    local crates=$folder/crates
    copied "$1" "$2" relay-math "$crates/relay-math/src/lib.rs" libm
    copied "$1" "$2" relay-mix-multi "$crates/relay-mix-multi/plain/src/lib.rs"
    copied "$1" "$2" relay-mix-quad "$crates/relay-mix-quad/plain/src/lib.rs" relay-math
    copied "$1" "$2" libm "$root/compare/rust/libm.rs"
}

# ---- what is compared

# Appends a module of ours to the copy of a crate, which passes on what is private there.
passed_on() { # TO NAME
    printf '\n' | cat - "$root/compare/rust/passed_on_$2.rs" >>"$1/relay-mix-$2/src/lib.rs"
}

# The rooms, and what they rest on: the Rust, unchanged but for the modules that are appended to two of
# its crates, and the library.
lay_out_rooms() { # TO
    copy_rust "$1" 0.0.1
    passed_on "$1" multi
    passed_on "$1" quad
    mkdir -p "$1/comparing" "$1/rooms"
    {
        package comparing 0.0.0
        printf "\n[lib]\npath = '%s'\n" "$root/compare/comparing/lib.rs"
    } >"$1/comparing/Cargo.toml"
    {
        package rooms 0.0.0
        printf "build = '%s'\n" "$root/compare/rooms/build.rs"
        printf "\n[lib]\npath = '%s'\n" "$root/compare/rooms/lib.rs"
        printf '\n[features]\nours = []\n'
        dependencies comparing relay-mix-quad relay-mix-multi
    } >"$1/rooms/Cargo.toml"
}
