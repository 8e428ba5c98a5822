# shellcheck shell=bash
# Sourced by the scripts here: the compiler, the static library and the builds that they share.
#
# The static library is x86-64's. On an x86-64 machine the installed Rust links it directly; on an aarch64 machine the programs are
# built for x86-64 and run under an emulator.

top=$(cd "$(dirname "${BASH_SOURCE[0]}")/.." && pwd)
built=$top/target/rust
rustc=()    # the compiler, with the flags that every build takes
emulator=() # what runs a program that it built

fail() {
    echo "$0: $*" >&2
    exit 1
}

as_root() {
    if [ "$(id -u)" = 0 ]; then "$@"; else sudo "$@"; fi
}

# Installs Debian packages.
need() {
    echo "installing: $*"
    {
        as_root apt-get update -q &&
            as_root env DEBIAN_FRONTEND=noninteractive apt-get install -q -y --no-install-recommends "$@"
    } >"$built/install.log" 2>&1 || {
        tail -20 "$built/install.log" >&2
        fail "could not install $*"
    }
}

# Whether "$@" is a compiler that builds an empty program in the edition used here and links it.
compiles() {
    echo 'fn main() {}' | "$@" --edition 2024 -o "$built/empty" - 2>"$built/empty.log"
}

find_rustc() {
    mkdir -p "$built"
    case $(uname -m) in
    x86_64)
        rustc=(rustc)
        if ! compiles "${rustc[@]}"; then
            # Named by its place: an older one may stand before it in PATH.
            rustc=(/usr/bin/rustc)
            compiles "${rustc[@]}" || need rustc-web
        fi
        ;;
    aarch64)
        # Debian's own compiler: its library for x86-64 comes as a package, and one of rustup's would not take it.
        rustc=(/usr/bin/rustc --target x86_64-unknown-linux-gnu -C linker=x86_64-linux-gnu-gcc)
        emulator=(qemu-x86_64)
        if ! compiles "${rustc[@]}" || ! type -P "${emulator[@]}" >/dev/null; then
            as_root dpkg --add-architecture amd64
            need rustc-web libstd-rust-web-dev:amd64 gcc-x86-64-linux-gnu libc6-dev-amd64-cross qemu-user
        fi
        ;;
    *)
        fail "no recipe for a machine of the kind $(uname -m)"
        ;;
    esac
    compiles "${rustc[@]}" || {
        cat "$built/empty.log" >&2
        fail "${rustc[0]} does not build an empty program"
    }
    rustc+=(--edition 2024 -C opt-level=3 -L "$built")
}

# Makes the static library anew where it is missing or older than a crate. One that LEAVNNJAR_LIB names is taken as it is.
make_library() {
    if [ -n "${LEAVNNJAR_LIB:-}" ]; then
        [ -e "$LEAVNNJAR_LIB/libhost.a" ] || fail "no libhost.a in $LEAVNNJAR_LIB"
        return
    fi
    LEAVNNJAR_LIB=$top/target/staticlib
    local library=$LEAVNNJAR_LIB/libhost.a
    if [ ! -e "$library" ] || [ -n "$(find "$top/crates" "$top/crates.txt" -name out -prune -o -newer "$library" -print -quit)" ]; then
        echo "making $library"
        (cd "$top/crates/host" && rt lib) >"$built/staticlib.log" 2>&1 || {
            tail -20 "$built/staticlib.log" >&2
            fail "rt lib failed in crates/host"
        }
        mkdir -p "$LEAVNNJAR_LIB"
        cp "$top/crates/host/out/libhost.a" "$library"
    fi
}

# The folder of the original's files, in $original. Empty where there is none.
find_original() {
    local place
    original=
    for place in "${LEAVNNJAR_ORIGINAL:-}" "$top/../shared/docs/src"; do
        if [ -z "$original" ] && [ -e "$place/crates/riscv-core/src/decode.rs" ]; then
            original=$place/crates/riscv-core/src
        fi
    done
}

build_rlib() { # NAME SOURCE FLAGS..
    local name=$1 source=$2
    shift 2
    "${rustc[@]}" --crate-type rlib --crate-name "$name" -o "$built/lib$name.rlib" "$@" "$source"
}

build_program() { # NAME SOURCE FLAGS..
    local name=$1 source=$2
    shift 2
    "${rustc[@]}" --crate-name "$name" -o "$built/$name" "$@" "$source"
}

# The compiler, the static library, and the safe wrapper with the library inside it.
make_wrapper() {
    find_rustc
    make_library
    build_rlib leavnnjar "$top/rust/src/lib.rs" -L native="$LEAVNNJAR_LIB" -l static=host
}

# The files of the original that the oracle is made of.
modules=(csr decode extensions gpr mmu system_bus trap)

# What the oracle is built with, and the program over it: what is inlined from the oracle into it takes the program's setting.
checked=(-C overflow-checks=on)

# The original as a library, oracle. Where it is missing, says what is passed over and ends the script.
make_oracle() { # WHAT
    local module added
    find_original
    if [ -z "$original" ]; then
        echo "$1 passed over: the original is neither in \$LEAVNNJAR_ORIGINAL (${LEAVNNJAR_ORIGINAL:-not set}) nor in ../shared/docs/src"
        [ "${CI:-}" != true ] || fail "with CI=true that is an error"
        exit 0
    fi
    echo "original: $original"

    rm -rf "$top/target/oracle"
    mkdir -p "$top/target/oracle"
    for module in "${modules[@]}"; do
        cp "$original/$module.rs" "$top/target/oracle/"
        added=$top/rust/oracle/$module.append.rs
        [ ! -e "$added" ] || cat "$added" >>"$top/target/oracle/$module.rs"
    done

    find_rustc
    build_rlib oracle "$top/rust/oracle/oracle.rs" "${checked[@]}"
}

run() { # NAME ARGUMENTS..
    local name=$1
    shift
    "${emulator[@]}" "$built/$name" "$@"
}
