#!/usr/bin/env bash
# Measures functions of encoding_mem beside those of the crate encoding_rs: see bench/functions.md.
#
#   bench/kernels.sh [WORD]     all functions, or those with the word in their names
#   bench/kernels.sh --write    all functions; the results also go to bench/results/kernels.tsv
#
# Wants cargo, rt and Debian's package librust-encoding-rs-dev. Works in a folder outside the repository, since
# the merge gate reads each crate in it; what is proved there stays for the next run.
set -euo pipefail
write=
[ "${1-}" != --write ] || { write=yes; shift; }
here=$(cd "$(dirname "$0")" && pwd)
work=${KERNELS_WORK:-${TMPDIR:-/tmp}/jillapun-kernels-$(id -u)}

if ! ls -d /usr/share/cargo/registry/encoding_rs-* >/dev/null 2>&1; then
    echo "kernels.sh: install the package librust-encoding-rs-dev first" >&2
    exit 2
fi
KIT=$(dirname "$(rt doc | grep -o '/.*/START-HERE.md' | head -1)")
export KIT OURS=$work/crates/mem_exports/out CARGO_TARGET_DIR=$work/target

# The functions of ours as a static library.
mkdir -p "$work/crates/encoding_mem" "$work/crates/mem_exports/src"
cp "$here/../HANDLES" "$work/"
for part in src specs proofs; do
    rm -rf "$work/crates/encoding_mem/$part"
    cp -a "$here/../crates/encoding_mem/$part" "$work/crates/encoding_mem/"
done
cmp -s "$here/kernels/exports.rt.txt" "$work/crates/mem_exports/src/lib.rt" ||
    cp "$here/kernels/exports.rt.txt" "$work/crates/mem_exports/src/lib.rt"
printf 'encoding_mem: simdutf8\nmem_exports staticlib: encoding_mem\n' > "$work/crates.txt"
(cd "$work/crates/mem_exports" && rt lib > "$work/rt.out" 2>&1) || { tail -40 "$work/rt.out" >&2; exit 1; }

# The driver, which links it.
cp -a "$here/kernels/." "$work/driver/"
(cd "$work/driver" && cargo build --release --offline --quiet)

tools="$(rustc --version); $(rt version | head -1); encoding_rs $(basename /usr/share/cargo/registry/encoding_rs-* | cut -d- -f2)"
machine="$(sed -n 's/^model name[^:]*: //p' /proc/cpuinfo | head -1), $(nproc) processors, load $(cut -d' ' -f1 /proc/loadavg); $(date -u +%F)"
unit='MB/s of input, medians; ratio: ours to theirs'
printf '%s\n' "$tools" "$machine" "$unit"
"$work/target/release/kernels" "$@" | tee "$work/kernels.out"

# The rows of the table as bench/results has them.
if [ "$write" ]; then
    {
        echo "# Functions of encoding_mem: $unit. $tools; $machine"
        printf 'function\ttext\tours, 1 MB\tencoding_rs, 1 MB\tto encoding_rs, 1 MB\t'
        printf 'ours, 64 bytes\tencoding_rs, 64 bytes\tto encoding_rs, 64 bytes\n'
        sed -n '/^| `/ { s/`//g; s/^| //; s/ |$//; s/ | /\t/g; p }' "$work/kernels.out"
    } > "$here/results/kernels.tsv"
fi
