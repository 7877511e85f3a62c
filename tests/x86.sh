# Sourced: `. tests/x86.sh`. The archives and the programs are for x86-64. On another processor this installs a Rust and a
# linker for x86-64 and an emulator, has the kernel start x86-64 programs by it, and points cargo there; on x86-64 it does
# nothing. `built` is where cargo puts what it builds, and `built_command` where it puts the command.
built=rust/target
built_command=rust/cli/target
if [ "$(uname -m)" != x86_64 ]; then
    echo "NOT AN X86-64 PROCESSOR: WHAT IS BUILT RUNS UNDER AN EMULATOR"
    if ! { [ -e /lib64/ld-linux-x86-64.so.2 ] && [ -x /usr/bin/rustc ] &&
        command -v qemu-x86_64 x86_64-linux-gnu-gcc >/dev/null; }; then
        dpkg --add-architecture amd64 && apt-get update -q &&
            apt-get install -y -q --no-install-recommends rustc-web libstd-rust-web-dev:amd64 gcc-x86-64-linux-gnu \
                libc6-dev-amd64-cross qemu-user || exit 1
    fi
    kinds=/proc/sys/fs/binfmt_misc
    [ -e "$kinds/register" ] || mount -t binfmt_misc binfmt_misc "$kinds" || exit 1
    # by the start of an ELF file: 64 bits, little-endian, a program, for processor 3E
    start='\x7fELF\x02\x01\x01\x00\x00\x00\x00\x00\x00\x00\x00\x00\x02\x00\x3e\x00'
    mask='\xff\xff\xff\xff\xff\xfe\xfe\xfc\xff\xff\xff\xff\xff\xff\xff\xff\xfe\xff\xff\xff'
    [ -e "$kinds/qemu-x86_64" ] ||
        printf '%s' ":qemu-x86_64:M::$start:$mask:/usr/bin/qemu-x86_64:F" >"$kinds/register" || exit 1
    built=rust/target/x86_64-unknown-linux-gnu
    built_command=rust/cli/target/x86_64-unknown-linux-gnu
    export CARGO_BUILD_TARGET=x86_64-unknown-linux-gnu
    export CARGO_TARGET_X86_64_UNKNOWN_LINUX_GNU_LINKER=x86_64-linux-gnu-gcc
    export CC=x86_64-linux-gnu-gcc
    export RUSTC=/usr/bin/rustc RUSTDOC=/usr/bin/rustdoc
fi
