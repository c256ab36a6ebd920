# Sourced by the scripts that read machine code: finds a disassembler.
#
# It takes from the script that sources it: `die`, which ends the script with what is wrong.

# Sets objdump to one that reads a machine's code: GNU's for it, which on that machine is objdump itself, or LLVM's.
find_objdump() { # MACHINE
    local name names=("$1-linux-gnu-objdump")
    [ "$(uname -m)" != "$1" ] || names+=(objdump)
    for name in "${names[@]}" llvm-objdump; do
        if objdump=$(command -v "$name"); then
            return
        fi
    done
    die "there is no objdump for $1: on Debian it is in binutils-${1/_/-}-linux-gnu, or LLVM's in llvm"
}
