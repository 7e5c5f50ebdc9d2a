# What the measurements share. Each says how it runs its two sides, as two functions, which must print the same line.
. "$(dirname "${BASH_SOURCE[0]}")/../scripts/lib.sh"

rounds=9
work=$(mktemp -d)
trap 'rm -rf "$work"' EXIT

# Stops where a word is no number.
number() { # WORD
    [[ $1 =~ ^[0-9]+$ ]] || { echo "no number: $1" >&2; exit 2; }
}

build_second() {
    cargo build --release --offline --quiet --manifest-path second/Cargo.toml
}

# Builds the program on the proved library, as LLVM makes it.
build_proved() { # ARGUMENT..
    (cd crates/speed && rt run -- "$@") > "$work/log" 2>&1 || { tail -n 20 "$work/log"; exit 1; }
}

# Runs one of the two sides, keeps its line, and adds its seconds of processor time to its list. Other work on the machine
# lengthens those less than the seconds on the clock.
run() { # NAME
    local name=$1 TIMEFORMAT=%U
    { time "$name" > "$work/$name.line"; } 2>> "$work/$name.times"
}

# Runs the two in turn.
race() { # NAME NAME
    local round
    rm -f "$work"/*.times
    for ((round = 0; round < rounds; round++)); do
        run "$1"
        run "$2"
        cmp "$work/$1.line" "$work/$2.line"
    done
}

# The least of the times that one of them took.
least() { # NAME
    sort -n "$work/$1.times" | head -n 1
}
