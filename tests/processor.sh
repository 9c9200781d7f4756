# Sourced by what builds over the archive or reads it, in the tree's folder. The archive is for x86-64. On such a processor this
# sets the usual names. On another one Rust and C programs are built for x86-64 and run under an emulator; where that cannot
# be had, a line says so, and the plain Rust model takes the archive's place (DOORSEDGE_MOCK).
# Debian: gcc-x86-64-linux-gnu libc6-dev-amd64-cross qemu-user rustc-web libstd-rust-web-dev:amd64 (after dpkg --add-architecture amd64).

builds() { # RUSTC: with it and the C compiler programs for x86-64 are made here, and the emulator runs them
    at=$(mktemp -d)
    echo 'int main(void) { return 0; }' >"$at/c.c"
    echo 'fn main() { std::thread::spawn(|| ()).join().unwrap() }' >"$at/rust.rs"
    x86_64-linux-gnu-gcc -o "$at/c" "$at/c.c" && "$1" --target x86_64-unknown-linux-gnu -C linker=x86_64-linux-gnu-gcc -o "$at/rust" "$at/rust.rs" &&
        qemu-x86_64 "$at/c" && qemu-x86_64 "$at/rust" && built=yes || built=''
    rm -rf "$at"
    [ -n "$built" ]
} >/dev/null 2>&1

emulates() { # RUSTC
    export RUSTC="$1" RUSTDOC="${1%rustc}rustdoc" CC=x86_64-linux-gnu-gcc OBJDUMP=x86_64-linux-gnu-objdump NM=x86_64-linux-gnu-nm
    export CARGO_BUILD_TARGET=x86_64-unknown-linux-gnu CARGO_TARGET_X86_64_UNKNOWN_LINUX_GNU_LINKER=$CC
    export DOORSEDGE_EMULATOR=qemu-x86_64 CARGO_TARGET_X86_64_UNKNOWN_LINUX_GNU_RUNNER=qemu-x86_64
}

if [ "$(uname -m)" != x86_64 ] && [ -z "${DOORSEDGE_MOCK:-}${DOORSEDGE_EMULATOR:-}" ]; then
    if builds rustc; then
        emulates rustc
    elif builds /usr/bin/rustc; then
        emulates /usr/bin/rustc
    else
        echo "doorsedge: this processor is $(uname -m) and the archive is for x86-64; what builds and runs such programs here is missing (tests/processor.sh names it): the plain Rust model takes its place, and nothing below is about the archive" >&2
        export DOORSEDGE_MOCK=1
    fi
fi
made=target/cargo/${CARGO_BUILD_TARGET:+$CARGO_BUILD_TARGET/}release
