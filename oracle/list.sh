# Shared by record-list and replay-list: builds the programs, makes images and writes a list of them with the original's answers. Needs cargo
# and BITHOVEN_SRC (see oracle/README.md). Sourced at the root of the repository.
export LC_ALL=C
BITHOVEN_SRC=$(cd "${BITHOVEN_SRC:?names the folder of the original}" && pwd)
export BITHOVEN_SRC
cargo build --quiet --profile checked -p tools -p oracle
built=build/cargo/checked
scratch=$(mktemp -d)
trap 'rm -rf "$scratch"' EXIT

# An image behind its 32-bit length.
put() { # FILE
    local length
    length=$(printf '%08x' "$(stat -c %s "$1")")
    printf "\\x${length:0:2}\\x${length:2:2}\\x${length:4:2}\\x${length:6:2}"
    cat "$1"
}

# Every sample.
samples() {
    local sample
    for sample in samples/*.contract samples/*/*.contract; do
        "$built/contract" image <"$sample" >"$scratch/image"
        put "$scratch/image"
    done
}

# Every cut of a sample.
cuts() { # SAMPLE
    local length
    "$built/contract" image <"samples/$1.contract" >"$scratch/image"
    for ((length = 0; length < $(stat -c %s "$scratch/image"); length++)); do
        head -c "$length" "$scratch/image" >"$scratch/cut"
        put "$scratch/cut"
    done
}

# A stream by the generator, whose report is shown if it fails.
generate() { # WORDS
    "$built/generate" "$@" 2>"$scratch/report" || {
        cat "$scratch/report" >&2
        return 1
    }
}

# Writes the list: what a program makes of the images of the function `images`.
write_list() { # PROGRAM FILE
    images >"$scratch/stream"
    "$built/$1" <"$scratch/stream" >"$scratch/list"
    mkdir -p "$(dirname "$2")"
    mv "$scratch/list" "$2"
}
