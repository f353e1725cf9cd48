# For the commands beside this file and ../bench/run: finds places, installs what is missing, builds. They come with $here
# set to this folder. A shell's names are shared by all of it: what is set here is here, target, committed, binaries, driver,
# programs, speaker, as_root, HOWITZER_SRC, ROCCHIVANDA_LIB, source, level and executable.

set -eu

target=$here/target
committed=$here/../crates/replay/data
binaries=$target/rust/release
driver=$target/driver
programs=$target/programs
speaker=${speaker:-compare}

say() {
    echo "$speaker: $*" >&2
}

# need COMMAND PACKAGE: installs Debian's package unless the command is there.
need() {
    if command -v "$1" >/dev/null 2>&1; then
        return
    fi
    say "installing Debian's $2 for $1"
    as_root=
    [ "$(id -u)" = 0 ] || as_root=sudo
    $as_root apt-get update -qq >&2
    $as_root apt-get install -y -qq --no-install-recommends "$2" >&2
}

# The folder with the unchanged Rust: HOWITZER_SRC, by default ../shared/docs/src beside the repository.
find_sources() {
    HOWITZER_SRC=${HOWITZER_SRC:-$here/../../shared/docs/src}
    if ! [ -d "$HOWITZER_SRC/crates" ]; then
        say "no folder $HOWITZER_SRC/crates: set HOWITZER_SRC to a folder that holds the Rust's crates/"
        exit 1
    fi
    HOWITZER_SRC=$(cd "$HOWITZER_SRC" && pwd)
    export HOWITZER_SRC
    need sha256sum coreutils
    (cd "$HOWITZER_SRC" && sha256sum --check --quiet "$here/rust/howitzer/sources.sha256")
    say "the Rust files have the bytes that rust/howitzer/sources.sha256 lists"
}

# The unchanged Rust with its stand-ins, and the judges: release profile, overflow checks off. Takes options for cargo.
build_rust() {
    find_sources
    need cc gcc
    need cargo cargo
    say "building the Rust and the judges"
    CARGO_TARGET_DIR=$target/rust cargo build --release --offline --quiet --manifest-path "$here/rust/Cargo.toml" "$@"
}

# Our machine as a static library, proved and written here unless ROCCHIVANDA_LIB names a folder that has it.
find_library() {
    if [ "$(uname -m)" != x86_64 ]; then
        say "the library of our machine links only into programs for x86-64"
        exit 1
    fi
    if [ -z "${ROCCHIVANDA_LIB:-}" ]; then
        if ! command -v rt >/dev/null 2>&1; then
            say "no rt on the path: put the kit's bin there, or set ROCCHIVANDA_LIB to a folder with librocchivanda.a"
            exit 1
        fi
        say "proving our machine and writing its static library"
        "$here/../build-library" >&2
        ROCCHIVANDA_LIB=$here/../target/staticlib
    fi
    ROCCHIVANDA_LIB=$(cd "$ROCCHIVANDA_LIB" && pwd)
    export ROCCHIVANDA_LIB
}

# The same, and the programs that call it.
build_ours() {
    find_library
    build_rust --features judge/ours
}

# The program that runs single instructions under QEMU.
build_driver() {
    need qemu-mips64 qemu-user
    need mips64-linux-gnuabi64-as binutils-mips64-linux-gnuabi64
    say "assembling the driver for QEMU"
    mkdir -p "$target"
    mips64-linux-gnuabi64-as -EB -mabi=64 -march=mips64 -o "$driver.o" "$here/qemu/driver.s"
    mips64-linux-gnuabi64-ld -EB -static -T "$here/qemu/driver.ld" -o "$driver" "$driver.o"
}

# make_lists FOLDER: writes both fixed lists into it.
make_lists() {
    mkdir -p "$1"
    "$binaries/rules0" "$1/rules0.vec"
    "$binaries/rules1" "$driver" "$1/rules1.vec"
}

# compile LEVEL EXECUTABLE SOURCE..: no instruction outside isa.rs, no floating point, no library, one fixed place.
compile() {
    level=$1
    executable=$2
    shift 2
    mips64-linux-gnuabi64-gcc "-$level" -Wall -Wextra -Wno-unused-function \
        -mabi=64 -march=mips64 -EB -mno-abicalls -fno-pic -msoft-float -msym32 -G0 \
        -mno-check-zero-division -mno-branch-likely -mno-imadd \
        -ffreestanding -fno-builtin -fno-stack-protector -fno-asynchronous-unwind-tables \
        -fno-tree-loop-distribute-patterns -nostdlib -static \
        -Wl,-T,"$here/programs/program.ld" -Wl,-z,max-page-size=4096 -Wl,--build-id=none \
        -o "$executable" "$@"
}

# The C programs, at each level.
build_programs() {
    need qemu-mips64 qemu-user
    need mips64-linux-gnuabi64-as binutils-mips64-linux-gnuabi64
    need mips64-linux-gnuabi64-gcc gcc-mips64-linux-gnuabi64
    say "compiling the programs"
    mkdir -p "$programs"
    for source in "$here"/programs/*.c; do
        for level in O1 O2 O3 Os; do
            compile "$level" "$programs/$(basename "$source" .c)-$level" "$here/programs/start.s" "$source"
        done
    done
}
