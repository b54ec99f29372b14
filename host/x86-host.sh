#!/usr/bin/env bash
# Runs cargo on the host package, whose archives are x86-64, on an x86-64 or an Arm machine: host/x86-host.sh test --release --tests
# On x86-64 it is plain cargo. On Arm the host is built for x86-64 by Debian's rustc-web and its amd64 standard library, linked
# statically and run by qemu-user; what is missing is installed by apt. Documentation tests do not run this way: say --tests.
set -euo pipefail
cd "$(dirname "$0")"

fail() {
    echo "x86-host: $*" >&2
    exit 1
}

export CARGO_TARGET_DIR=${CARGO_TARGET_DIR:-$PWD/../target/host}
command -v cargo >/dev/null || fail "cargo is not on the path"
if [ "$(uname -m)" != x86_64 ]; then
    command -v apt-get >/dev/null || fail "apt-get is not on the path, and this machine is no x86-64"
    parts=(rustc-web libstd-rust-web-dev:amd64 gcc-x86-64-linux-gnu libc6-dev-amd64-cross libc6-dev:amd64 qemu-user)
    install() {
        export DEBIAN_FRONTEND=noninteractive
        dpkg --add-architecture amd64 && apt-get update -qq && apt-get install -y -qq --no-install-recommends "${parts[@]}" >/dev/null
    }
    dpkg -s "${parts[@]}" >/dev/null 2>&1 || install || fail "apt did not install ${parts[*]}"
    # Debian's rustc has the amd64 standard library beside it; another one may stand earlier on the path
    RUSTC=$(dpkg -L rustc-web | grep '/bin/rustc$')
    export RUSTC
    export CARGO_BUILD_TARGET=x86_64-unknown-linux-gnu
    export CARGO_TARGET_X86_64_UNKNOWN_LINUX_GNU_LINKER=x86_64-linux-gnu-gcc
    export CARGO_TARGET_X86_64_UNKNOWN_LINUX_GNU_RUNNER=qemu-x86_64
    export CARGO_TARGET_X86_64_UNKNOWN_LINUX_GNU_RUSTFLAGS="-C target-feature=+crt-static"
    export HOST_EMULATED=yes
fi
# with qemu-user at hand the bench counts by a plugin of it; without the plugin it counts nothing
if command -v qemu-x86_64 >/dev/null && command -v gcc >/dev/null; then
    counter=$CARGO_TARGET_DIR/libcount.so
    mkdir -p "$CARGO_TARGET_DIR"
    if [ "$counter" -nt count.c ] || gcc -shared -fPIC -O2 -o "$counter" count.c; then
        export HOST_COUNTER=$counter
    fi
fi
exec cargo "$@"
