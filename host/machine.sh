# How the Rust side is built and run on this machine. For bash, to be sourced: ./play, .ci/run and compare/instructions.sh do.
#
#   host_ready             installs what is missing; says what it does, or what is to be done
#   host_library           proves the front, where that has not been done, and builds target/staticlib/libzelezmut.a of it
#   host_cargo CMD ..      cargo CMD for the crates in host/, whatever the caller's folder is; --workspace means all three of them
#   host_program NAME      where `host_cargo build --release` puts a program
#   host_run PROGRAM ..    runs it
#   host_counter_ready     installs and builds what host_count needs
#   host_count PROGRAM ..  runs it and ends standard error with the number of x86-64 instructions that it executed
#
# libzelezmut.a is x86-64 code. On x86-64 cargo builds natively. On Arm it builds for x86-64 with Debian's cross linker, and
# programs and tests run under Debian's qemu-user. Packages are Debian's, and only those that are missing. Instructions are
# counted by valgrind's callgrind on x86-64, and on Arm by a plugin of qemu's, compare/instructions.c.

host_folder=$(unset CDPATH && cd "$(dirname "${BASH_SOURCE[0]}")" && pwd)

host_install() { # PACKAGE..
    local as_root=()
    if ! command -v apt-get >/dev/null; then
        echo "host: missing, by Debian's names: $*. There is no apt-get here; install them by hand." >&2
        return 1
    fi
    if [ "$(id -u)" -ne 0 ]; then
        if ! command -v sudo >/dev/null; then
            echo "host: missing: $*. Install these Debian packages as root and try again." >&2
            return 1
        fi
        as_root=(sudo)
    fi
    echo "host: installing $*" >&2
    case " $* " in *:amd64\ *)
        "${as_root[@]}" dpkg --add-architecture amd64 || return 1
        ;;
    esac
    "${as_root[@]}" apt-get update -q >&2 &&
        "${as_root[@]}" env DEBIAN_FRONTEND=noninteractive apt-get install -q -y --no-install-recommends "$@" >&2
}

host_ready() {
    local missing=()
    case $(uname -m) in
    x86_64)
        command -v cargo >/dev/null && command -v rustc >/dev/null || missing+=(cargo rustc)
        command -v cc >/dev/null || missing+=(gcc libc6-dev)
        ;;
    aarch64)
        # Debian's own, whatever else is on the PATH: compiler, x86-64 standard library, linker and emulator fit one another.
        [ -x /usr/bin/cargo ] && [ -x /usr/bin/rustc ] || missing+=(cargo rustc)
        [ -x /usr/bin/x86_64-linux-gnu-gcc ] || missing+=(gcc-x86-64-linux-gnu)
        dpkg -s libc6-dev-amd64-cross >/dev/null 2>&1 || missing+=(libc6-dev-amd64-cross)
        [ -x /usr/bin/qemu-x86_64 ] || missing+=(qemu-user)
        dpkg -s libstd-rust-dev:amd64 >/dev/null 2>&1 || missing+=(libstd-rust-dev:amd64)
        ;;
    *)
        echo "host: libzelezmut.a is x86-64 code. It is linked on x86-64 and on Arm (aarch64), not on $(uname -m)." >&2
        return 1
        ;;
    esac
    [ ${#missing[@]} -eq 0 ] || host_install "${missing[@]}"
}

# The crate is zelezmut_c; the archive has the name that hosts link.
host_library() {
    local root made
    root=$(dirname "$host_folder")
    made=$root/crates/zelezmut_c/out/libzelezmut_c.a
    (cd "$root/crates/zelezmut_c" && rt lib) &&
        mkdir -p "$root/target/staticlib" &&
        cp "$made" "$root/target/staticlib/libzelezmut.a"
}

host_cargo() { # CMD ..
    local command=$1 word words=()
    shift
    # The root is compare/, where no workspace of a user's can be in the way, and the other two are no members of it.
    for word in "$@"; do
        case $word in
        --workspace) words+=(--package zelezmut --package plain --package compare) ;;
        *) words+=("$word") ;;
        esac
    done
    set -- "$command" --offline --manifest-path "$host_folder/compare/Cargo.toml" --target-dir "$host_folder/target"
    case $(uname -m) in
    aarch64)
        PATH=/usr/bin:$PATH \
            CARGO_TARGET_X86_64_UNKNOWN_LINUX_GNU_LINKER=/usr/bin/x86_64-linux-gnu-gcc \
            CARGO_TARGET_X86_64_UNKNOWN_LINUX_GNU_RUNNER=/usr/bin/qemu-x86_64 \
            /usr/bin/cargo "$@" --target x86_64-unknown-linux-gnu ${words[@]+"${words[@]}"}
        ;;
    *)
        cargo "$@" ${words[@]+"${words[@]}"}
        ;;
    esac
}

host_program() { # NAME
    case $(uname -m) in
    aarch64) echo "$host_folder/target/x86_64-unknown-linux-gnu/release/$1" ;;
    *) echo "$host_folder/target/release/$1" ;;
    esac
}

host_run() { # PROGRAM ..
    case $(uname -m) in
    aarch64) /usr/bin/qemu-x86_64 "$@" ;;
    *) "$@" ;;
    esac
}

host_counter=$host_folder/target/instructions.so

host_counter_ready() {
    local missing=()
    case $(uname -m) in
    aarch64)
        command -v cc >/dev/null || missing+=(gcc libc6-dev)
        [ ${#missing[@]} -eq 0 ] || host_install "${missing[@]}" || return 1
        mkdir -p "$host_folder/target" &&
            cc -O2 -shared -fPIC -o "$host_counter" "$host_folder/compare/instructions.c"
        ;;
    *)
        command -v valgrind >/dev/null || host_install valgrind
        ;;
    esac
}

host_count() { # PROGRAM ..
    # A long copy must not become one string instruction: both counters take each of its bytes for an instruction.
    local copies=GLIBC_TUNABLES=glibc.cpu.x86_rep_movsb_threshold=1000000000
    case $(uname -m) in
    aarch64)
        # The processor has the vector instructions that callgrind's has, so that copies take as many.
        /usr/bin/qemu-x86_64 -cpu max -E "$copies" -plugin "$host_counter" "$@"
        ;;
    *)
        env "$copies" valgrind --tool=callgrind --callgrind-out-file=/dev/null "$@"
        ;;
    esac
}
