#!/bin/sh
# Usage: build.sh [SOURCE_FOLDER]
# SOURCE_FOLDER holds the crate's src/prefix.rs, src/rkyv/map.rs and so on; without it the folder
# that $CRATE_SOURCE names is taken.
# Makes bin/oracle (release, no overflow checks) and bin/oracle-checked (overflow checks and debug
# assertions on).
set -eu
here=$(cd "$(dirname "$0")" && pwd)
source=${1:-${CRATE_SOURCE:?no source folder: give one as an argument or in CRATE_SOURCE}}
gen=$here/gen
rm -rf "$gen"
mkdir -p "$gen/lib" "$here/bin"
python3 "$here/extract.py" "$source" "$here"

one() { # one OUTPUT FLAGS..: the shims and the driver with these flags
    out=$1
    shift
    lib=$gen/lib/$out
    mkdir -p "$lib"
    r() { rustc --edition 2021 --cap-lints allow "$@" -L "$lib"; }
    r --crate-name rkyv_derive --crate-type proc-macro --out-dir "$lib" "$here/shims/rkyv_derive.rs"
    for s in num_traits array_const_fn_init smallvec rkyv; do
        r "$@" --crate-name $s --crate-type rlib --out-dir "$lib" "$here/shims/$s.rs" \
            --extern rkyv_derive
    done
    r "$@" --cfg 'feature="rkyv"' --crate-name oracle -o "$here/bin/$out" "$gen/src/main.rs" \
        --extern num_traits --extern array_const_fn_init --extern smallvec --extern rkyv
}
one oracle -O -C overflow-checks=off -C debug-assertions=off
one oracle-checked -O -C overflow-checks=on -C debug-assertions=on
