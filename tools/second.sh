# Sourced by scripts: builds the second program, and names it. Paths are seen from the top folder.
command -v cargo >/dev/null || { echo 'The second program needs cargo, and no command cargo is found.' >&2; exit 1; }
cargo build --quiet --locked --release --manifest-path second/Cargo.toml --target-dir target/second
second=$PWD/target/second/release/second
