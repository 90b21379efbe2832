# Sourced in the repository's root by tests/oracle/run and the benches: compiles the Rust with its stand-ins, the binding and the
# oracle's library. Before that: `source`, where the Rust lies; `out`, a folder to build in; `options`, those of rustc.
known=()

# Compiles one crate with those before it, and knows it from then on.
build() { # NAME TYPE FILE OPTIONS...
    local name=$1 type=$2 file=$3
    shift 3
    # The Rust's files are found by TETRA_SOURCE while they are compiled.
    TETRA_SOURCE=$source/crates rustc --edition 2024 "${options[@]}" -L "$out" --out-dir "$out" --crate-name "$name" \
        --crate-type "$type" "${known[@]}" "$@" "$file" || return
    [ "$type" = bin ] || known+=(--extern "$name")
}

# The Rust and its stand-ins.
build_rust() {
    local name stand_ins=tests/oracle/src/stand_ins
    mkdir -p "$out"
    for name in serde bitcode; do
        build $name proc-macro $stand_ins/$name.rs --extern proc_macro || return
    done
    for name in tracing tetra_core tetra_config tetra_saps tetra_pdus tetra_entities; do
        build $name rlib $stand_ins/$name.rs --cap-lints allow || return
    done
}

# The Rust, the binding over the engine's archive, and the oracle's library.
build_oracle() {
    build_rust && python3 tools/build llc_exports || return
    build wipturay rlib bindings/rust/src/lib.rs -L crates/llc_exports/out -l static=llc_exports || return
    build oracle rlib tests/oracle/src/lib.rs
}

# The comparison of the leaves, over their archive, with the Rust that is built before it.
build_leaves() {
    python3 tools/build leaf_exports && build leaves bin tests/oracle/src/leaves/main.rs -L crates/leaf_exports/out -l static=leaf_exports
}
