# Read by the scripts `run..` with the name of a cargo profile: finds stwo's sources, lets `host/sys` make the library
# where that is missing or old, and sees that the header declares just what it exports. Leaves `root`, the repository,
# `options`, the words that the scripts' cargo commands have in common, and with these `cargo_run`.
root=$(dirname "$oracle")
library=$root/target/staticlib/libtaripomune.a

if [ -n "${TARIPOMUNE_LIB:-}" ]; then
    TARIPOMUNE_LIB=$(realpath "$TARIPOMUNE_LIB")
    export TARIPOMUNE_LIB
    library=$TARIPOMUNE_LIB/libtaripomune.a
fi
STWO_SRC=$("$oracle/find-stwo")
export STWO_SRC

options=(--offline --quiet --profile "$1" --target-dir "$root/target/oracle"
    --manifest-path "$oracle/Cargo.toml" --config "$oracle/.cargo/config.toml")
cargo build "${options[@]}" --package taripomune-sys

exported=$(nm --defined-only "$library" | awk '$2 == "T" { print $3 }' | sort)
declared=$(sed -n 's/^tari_[a-z0-9_]* \(tari_[a-z0-9_]*\)(.*/\1/p' "$root/include/taripomune.h" | sort)
if ! diff <(echo "$exported") <(echo "$declared"); then
    echo "the library's functions (<) aren't those of include/taripomune.h (>)" >&2
    exit 1
fi

cargo_run=(cargo run "${options[@]}")
