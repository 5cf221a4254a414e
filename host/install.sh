# Sourced by host/check, host/install-lib and ./run. Finds a rustc that builds for x86-64 (the archive's only machine), the cargo
# beside it, a linker and, on another machine, an emulator; installs what is lacking from Debian.
# Sets RUSTC, CARGO, CARGO_FLAGS (an array), CC and RUN (an array, put before a program's path).
# With NATIVE=yes it takes the machine's own cargo and cc as they are: enough for the model, not for the archive.

TARGET=x86_64-unknown-linux-gnu

# apt-get with no questions and no output, unless it fails.
quietly() {
    local log
    log=$(mktemp)
    if ! DEBIAN_FRONTEND=noninteractive "$@" >"$log" 2>&1 </dev/null; then
        cat "$log" >&2
        rm -f "$log"
        echo "host: failed: $*" >&2
        return 1
    fi
    rm -f "$log"
}

install_packages() {
    echo "host: installing $*"
    local lists=/var/lib/apt/lists
    if [ "$(uname -m)" != x86_64 ] && ! dpkg --print-foreign-architectures | grep -qx amd64; then
        quietly dpkg --add-architecture amd64
        quietly apt-get update
    elif [ -z "$(find "$lists" -name '*_Packages*' -print -quit 2>/dev/null)" ]; then
        quietly apt-get update
    fi
    # Another one may be installing: it is waited for.
    local install=(apt-get -o DPkg::Lock::Timeout=600 install -y --no-install-recommends)
    quietly "${install[@]}" "$@" || {
        quietly apt-get update
        quietly "${install[@]}" "$@"
    }
}

# True where the rustc $1 is there and has the standard library of x86-64.
builds_for_target() {
    local root
    root=$("$1" --print sysroot 2>/dev/null) || return 1
    compgen -G "$root/lib/rustlib/$TARGET/lib/libstd-*.rlib" >/dev/null
}

# The first rustc that will do, and the cargo beside it (a cargo of another version may not know how to call it): the caller's,
# the one on the path, Debian's.
find_rust() {
    local candidate
    for candidate in "${RUSTC:-}" rustc /usr/bin/rustc; do
        if [ -n "$candidate" ] && builds_for_target "$candidate"; then
            RUSTC=$(command -v "$candidate")
            CARGO=$(dirname "$RUSTC")/cargo
            [ -x "$CARGO" ] && return 0
        fi
    done
    return 1
}

install_tools() {
    if [ "${NATIVE:-no}" = yes ]; then
        RUSTC=${RUSTC:-rustc}
        CARGO=${CARGO:-cargo}
        TARGET="this machine"
        CARGO_FLAGS=()
        CC=cc
        RUN=()
        return
    fi
    CARGO_FLAGS=(--target "$TARGET")
    if [ "$(uname -m)" = x86_64 ]; then
        find_rust || install_packages rustc cargo
        command -v cc >/dev/null || install_packages gcc libc6-dev
        CC=cc
        RUN=()
    else
        find_rust || install_packages rustc cargo libstd-rust-dev:amd64
        command -v x86_64-linux-gnu-gcc >/dev/null || install_packages gcc-x86-64-linux-gnu
        [ -e /usr/lib/x86_64-linux-gnu/libc.so ] || install_packages libc6-dev:amd64
        command -v qemu-x86_64 >/dev/null || install_packages qemu-user
        CC=x86_64-linux-gnu-gcc
        # The C library clears and copies long stretches by `rep stosb` and `rep movsb` where the processor says that it does
        # them fast (erms). The emulator says so, and does them a byte at a time.
        RUN=(qemu-x86_64 -cpu max,erms=off)
    fi
    find_rust || {
        echo "host: no rustc and cargo build for $TARGET" >&2
        return 1
    }
}
