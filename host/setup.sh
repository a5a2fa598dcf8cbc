# What host/test, host/wrong and host/bench share, to be sourced: each sets `me` to its own name first. Sees that the
# original's sources are the ones that are compared with, builds target/staticlib/libcathar.a from the proved crates,
# goes into this folder, and gives `run_cargo`, which sets up what is missing and runs cargo, and `build_second`.
#
# The library is for x86-64. There the machine's own cargo is used. On Arm the programs are compiled for
# x86-64 and run under an emulator, with the packages of Debian 12, which are installed if missing.

say() { echo "$me: $*" >&2; }

need() {
    command -v "$1" >/dev/null || {
        say "there is no $1 on this machine"
        exit 2
    }
}

arm_packages='rustc cargo libstd-rust-dev:amd64 gcc-x86-64-linux-gnu libc6-dev-amd64-cross qemu-user-static'

# Those of the packages that are not installed.
missing_packages() {
    for package in $arm_packages; do
        case $(dpkg-query -W -f '${db:Status-Abbrev}' "$package" 2>/dev/null) in
        ii*) ;;
        *) printf '%s ' "$package" ;;
        esac
    done
}

set_up_arm() {
    missing=$(missing_packages)
    [ -n "$missing" ] || return 0
    if [ "$(id -u)" -ne 0 ]; then
        say "missing packages: $missing"
        say "as root: dpkg --add-architecture amd64 && apt-get update && apt-get install -y $missing"
        exit 2
    fi
    say "installing the missing packages: $missing"
    dpkg --add-architecture amd64
    apt-get update
    # The names are words to be split.
    # shellcheck disable=SC2086
    DEBIAN_FRONTEND=noninteractive apt-get install -y --no-install-recommends $missing
}

# Debian's cargo and rustc, since libstd-rust-dev:amd64 is of their version and of no other. The C library
# that a test loads is libc6:amd64, which comes with that package. (With `-L /usr/x86_64-linux-gnu` the
# loader would be the cross package's, of another version, and the two do not work together.)
arm_cargo() {
    RUSTC=/usr/bin/rustc \
        CATHAR_EMULATED=1 \
        CARGO_BUILD_TARGET=x86_64-unknown-linux-gnu \
        CARGO_TARGET_X86_64_UNKNOWN_LINUX_GNU_LINKER=x86_64-linux-gnu-gcc \
        CARGO_TARGET_X86_64_UNKNOWN_LINUX_GNU_RUNNER=qemu-x86_64-static \
        /usr/bin/cargo "$@"
}

# Runs cargo with these arguments. What it runs finds CATHAR_EMULATED set where it runs under the emulator.
run_cargo() {
    case $(uname -m) in
    x86_64)
        need cargo
        cargo "$@"
        ;;
    aarch64)
        set_up_arm
        arm_cargo "$@"
        ;;
    *)
        say "the library is for x86-64, and this machine is $(uname -m)"
        exit 2
        ;;
    esac
}

# The folder with the original's sources: as CATHAR_ORIGINAL says, or the first that is found beside the
# checkout.
find_original() {
    [ -z "${CATHAR_ORIGINAL:-}" ] || return 0
    found=$(find .. -maxdepth 8 -path '*/crates/cathar/src/inpaint.rs' 2>/dev/null | head -n 1)
    [ -n "$found" ] || {
        say "the sources of the original crate cathar are not beside this checkout: set CATHAR_ORIGINAL to their folder"
        exit 2
    }
    CATHAR_ORIGINAL=$(cd "$(dirname "$found")" && pwd)
    export CATHAR_ORIGINAL
}

# The original is vbasky/cathar at this commit, and the files that are taken of it are told by their sums.
original_commit=f2c2842f89

check_original() {
    sums=$(pwd)/host/original/files.sha256
    (cd "$CATHAR_ORIGINAL" && sha256sum --check --quiet "$sums") || {
        say "the files in $CATHAR_ORIGINAL are not those of vbasky/cathar at $original_commit"
        exit 2
    }
}

# On Arm: the original as a program of the machine's own processor, by the machine's own cargo (that of Debian's
# packages, where it has no other). The tests that find CATHAR_SECOND set ask it too, for everything that they ask the
# original under the emulator.
build_second() {
    [ "$(uname -m)" = aarch64 ] || return 0
    set_up_arm
    cargo build --release --locked --quiet --manifest-path original/Cargo.toml --target-dir target/own
    CATHAR_SECOND=$(pwd)/target/own/release/answers
    export CATHAR_SECOND
    say "the original is also asked as a program of $(uname -m), by $(rustc --version)"
}

cd "$(dirname "$0")/.."
need rt
find_original
check_original
./staticlib
cd host
