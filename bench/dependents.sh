#!/bin/sh
# Runs the tests of Debian's crates that name encoding_rs over the crate for Rust: `bench/dependents.sh`, after `make c`.
#
# It wants cargo, and librust-encoding-rs-io-dev, librust-quick-xml-dev and librust-grep-searcher-dev, with
# librust-grep-regex-dev and librust-pretty-assertions-dev, which their tests name. Each is copied to a folder of its own,
# where one line puts our crate in the place of encoding_rs. It prints how many tests passed; the status is 1 if one failed.

top=$(cd "$(dirname "$0")/.." && pwd)
registry=/usr/share/cargo/registry
work=$(mktemp -d) || exit 1
trap 'rm -rf "$work"' EXIT
export CARGO_TARGET_DIR="$work/target"
failed=0 all=0

# The tests of the crate with a name, with words for cargo.
tests() {
    name=$1 && shift
    for from in "$registry/$name"-[0-9]*; do
        crate=$work/$(basename "$from")
        cp -r "$from" "$crate" && mkdir -p "$crate/.cargo" && cd "$crate" || exit 1
        cp "$top/rust/encoding_rs/.cargo/config.toml" .cargo/
        # What only benchmarks name, which Debian leaves out.
        sed -i '/^\[dev-dependencies.criterion\]/,/^$/d' Cargo.toml
        printf '\n[patch.crates-io]\nencoding_rs.path = "%s/rust/encoding_rs"\n' "$top" >> Cargo.toml
        cargo test --offline "$@" > "$work/said" 2>&1 || { failed=1 && grep -E '^error|FAILED|panicked' "$work/said"; }
        count=$(awk '/^test result:/ { sum += $4 } END { print sum + 0 }' "$work/said")
        used=$(cargo tree --offline "$@" -i encoding_rs 2>&1 | head -n 1)
        echo "$(basename "$from"), over $used: $count tests passed"
        all=$((all + count))
    done
}

tests encoding_rs_io
# The examples of `async-tokio` name tokio_test, which Debian leaves out of the package.
tests quick-xml --features encoding,serialize
tests grep-searcher
echo "$all in all"
exit "$failed"
