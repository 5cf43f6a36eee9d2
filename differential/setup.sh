# Sourced by differential/run and bench/run: finds the Rust source and our archive, and builds one program of the workspace.

root=$(cd "$(dirname "${BASH_SOURCE[0]}")/.." && pwd)
export CLVM_RS_SRC=${CLVM_RS_SRC:-$root/../shared/docs/src}
export CLVM_ALLOCATOR_LIB=${CLVM_ALLOCATOR_LIB:-$root/target/staticlib/libclvm_allocator.a}
export CARGO_TARGET_DIR=$root/target/differential

# stale: whether the archive is missing, or older than a crate it may be made of: an archive that was named by hand is taken as it is
stale() {
    [ -f "$CLVM_ALLOCATOR_LIB" ] || return 0
    [ "$CLVM_ALLOCATOR_LIB" = "$root/target/staticlib/libclvm_allocator.a" ] &&
        [ -n "$(find "$root/crates" -name out -prune -o -path '*/src/*' -newer "$CLVM_ALLOCATOR_LIB" -print -quit)" ]
}

# find_parts: the source as it was published, and the archive, made anew if it is stale
find_parts() {
    CLVM_RS_SRC=$(cd "$CLVM_RS_SRC" && pwd) || return 2
    (cd "$CLVM_RS_SRC" && sha256sum --check --quiet "$root/differential/SHA256SUMS") || return 2
    mkdir -p "$CARGO_TARGET_DIR"
    if stale; then
        "$root/tools/archive" >"$CARGO_TARGET_DIR/staticlib.log" 2>&1 || {
            tail -n 20 "$CARGO_TARGET_DIR/staticlib.log"
            return 2
        }
    fi
    CLVM_ALLOCATOR_LIB=$(realpath "$CLVM_ALLOCATOR_LIB")
}

# check_header: the C header and the archive fit, as a C program sees them
check_header() {
    local include=${CLVM_ALLOCATOR_INCLUDE:-$root/include}
    [ -f "$include/check.c" ] || return 0
    cc -std=c11 -Wall -Wextra -Werror -O1 -I "$include" "$include/check.c" "$CLVM_ALLOCATOR_LIB" -o "$CARGO_TARGET_DIR/check" &&
        "$CARGO_TARGET_DIR/check"
}

# build NAME: the program, from sources at hand only
build() {
    cargo build --manifest-path "$root/differential/Cargo.toml" --package "$1" --release --offline --jobs 1 --quiet
}
