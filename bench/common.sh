# What the scripts that measure the whole program share; they source it from the top of the repository. It builds the program and the
# plain one it is measured against, and ends the script if either can't be built.
# RADIXVM_PROGRAM names a program that was built already, which is then measured as it is.
work=$(mktemp -d)
trap 'rm -rf "$work"' EXIT
plain=$work/baseline
program=${RADIXVM_PROGRAM:-crates/radixvm/out/radixvm}

rustc --edition 2021 -C opt-level=3 -o "$plain" bench/baseline.rs
[ -n "${RADIXVM_PROGRAM:-}" ] || ./radixvm --build

# The machine that was measured on, in one line.
describe_machine() {
    lscpu | awk -F': *' '/^Model name/ { model = $2 } /^CPU\(s\)/ { cores = $2 } END { print model ", " cores " processors" }'
}
