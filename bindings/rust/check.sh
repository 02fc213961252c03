#!/bin/bash
# Builds the static library and runs the Rust tests over it. The archive is for x86-64, and so are the tests.
#
#   bindings/rust/check.sh
#
# On x86-64 this takes cargo, or rustc and a C linker where there is no cargo. On an Arm machine it takes Debian's rustc-web, with the package
# libstd-rust-web-dev:amd64 unpacked beside it (JOMANKITU_SYSROOT names its folder usr/, where that is not rustc's own), gcc-x86-64-linux-gnu,
# libc6-dev-amd64-cross and qemu-user. The crate has no dependencies, so nothing is fetched. JOMANKITU_LIB names the folder of an archive that was
# built before; on an Arm machine it must, since Rattle's toolchain is for x86-64 alone.
set -euo pipefail
cd "$(dirname "$0")/../.."
target=x86_64-unknown-linux-gnu
room=target/rust
mkdir -p "$room"
[ -n "${JOMANKITU_LIB:-}" ] || bindings/archive >"$room/say" 2>&1 || { cat "$room/say" >&2; exit 1; }
export JOMANKITU_LIB=${JOMANKITU_LIB:-$PWD/target/staticlib}

# The crate and its tests by rustc alone, as cargo and build.rs have it; LINKER links, and what follows it runs the program.
by_rustc() { # LINKER [WORDS..]
    local words=(--edition 2024 --target "$target" -C "linker=$1" -L "native=$JOMANKITU_LIB")
    [ -z "${JOMANKITU_SYSROOT:-}" ] || words+=(--sysroot "$JOMANKITU_SYSROOT")
    shift
    rustc "${words[@]}" --crate-type rlib --crate-name jomankitu -l static=exports -o "$room/libjomankitu.rlib" bindings/rust/src/lib.rs
    local test
    for test in bindings/rust/tests/*.rs; do
        rustc "${words[@]}" --test --extern "jomankitu=$room/libjomankitu.rlib" -o "$room/test" "$test"
        "$@" "$room/test"
    done
}

case $(uname -m) in
    x86_64)
        if command -v cargo >/dev/null; then
            CARGO_TARGET_DIR=$room cargo test --offline --manifest-path bindings/rust/Cargo.toml
        else
            by_rustc cc
        fi ;;
    *)
        by_rustc x86_64-linux-gnu-gcc qemu-x86_64 -L /usr/x86_64-linux-gnu ;;
esac
echo 'bindings/rust: all tests pass'
