# What the scripts of this folder share; each sources it at the top of the repository.

# Sets `stompd` to the program crates/stompd/out/stompd, or to the one that STOMPD names.
find_stompd() {
    stompd=${STOMPD:-crates/stompd/out/stompd}
    if [ ! -x "$stompd" ]; then
        echo "There is no program $stompd. Build it by" >&2
        echo "    cd crates/stompd && rt run -- relay A < ../../examples/two_messages.stomp" >&2
        echo "or name another by the variable STOMPD." >&2
        exit 1
    fi
}

# Compiles bench/plain/NAME.rs into bench/out/NAME for each NAME, where a source is newer.
build() {
    mkdir -p bench/out
    local name source
    for name in "$@"; do
        for source in bench/plain/*.rs; do
            if [ "$source" -nt "bench/out/$name" ]; then
                rustc --edition 2021 -O -o "bench/out/$name" "bench/plain/$name.rs"
                break
            fi
        done
    done
}

# Proves and builds bench/measured/NAME_main.txt into bench/out/NAME, where a source is newer: for NAME, the
# crates of this repository that it takes, and the kit's. It is no crate of this repository, and
# `rt ci` takes no other below its top: so it is built in a scratch repository elsewhere, over copies
# of the crates and of what was proved of them, as the crate `measured`, since `core` is the kit's. What is
# written of the proof of its function `run`, where that is needed, is bench/measured/NAME_invariants.txt.
prove() {
    local name=$1 crates=$2 others=$3 crate
    local sources=("bench/measured/${name}_main.txt" crates.txt)
    for crate in $crates; do
        sources+=("crates/$crate/src" "crates/$crate/specs" "crates/$crate/proofs")
    done
    if [ -x "bench/out/$name" ] \
        && [ -z "$(find "${sources[@]}" -newer "bench/out/$name" -print -quit)" ]; then
        return
    fi
    scratch=$(mktemp -d)
    trap 'rm -rf "$scratch"' EXIT
    mkdir -p bench/out "$scratch/crates/measured/src"
    for crate in $crates; do
        grep "^$crate:" crates.txt >> "$scratch/crates.txt"
        cp -a "crates/$crate" "$scratch/crates"
    done
    echo "measured: $crates $others" >> "$scratch/crates.txt"
    cp "bench/measured/${name}_main.txt" "$scratch/crates/measured/src/main.rt"
    if [ -e "bench/measured/${name}_invariants.txt" ]; then
        mkdir -p "$scratch/crates/measured/proofs/run"
        cp "bench/measured/${name}_invariants.txt" "$scratch/crates/measured/proofs/run/Invariants.antt"
    fi
    echo "proving and building the program (see bench/out/$name.log)" >&2
    (cd "$scratch/crates/measured" && rt run < /dev/null) > "bench/out/$name.log" 2>&1 \
        || { tail -n 20 "bench/out/$name.log" >&2; exit 1; }
    mv "$scratch/crates/measured/out/measured" "bench/out/$name"
}
