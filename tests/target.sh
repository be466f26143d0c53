# Sourced: how C programs are built with the archive and run, and where the
# proved programs stand. Both are for x86-64, as the kit is; on another processor
# the C programs are too, and all run under an emulator, qemu-x86_64 where it is
# there.
#
#   target_compile DIR FLAGS FILE..   object files into DIR
#   target_link PROGRAM FLAGS FILE..  links object files and archives
#   target_run PROGRAM ARGUMENT..     runs it
#   target_program NAME               the file of a proved program
#   target_need NAME..                fails where one is not built
#
# TARGET chooses the way: native (x86-64), cross (Debian's cross compiler) or
# kit (the kit's clang and linker, with the headers of cc). CC chooses the
# native compiler.
target_kit=$(dirname "$(dirname "$(readlink -f "$(command -v rt)")")")
target_tools=$target_kit/toolchain
target_emulator=
[ "$(uname -m)" = x86_64 ] || target_emulator=$(command -v qemu-x86_64 || true)

if [ -z "${TARGET:-}" ]; then
    TARGET=kit
    if [ "$(uname -m)" = x86_64 ]; then
        TARGET=native
    elif command -v x86_64-linux-gnu-gcc >/dev/null 2>&1; then
        TARGET=cross
    fi
fi

target_compiler=${CC:-cc}
# Sanitizers need their library for x86-64: only where programs run directly.
target_sanitize=
case $TARGET in
native) target_sanitize="-fsanitize=address,undefined -fno-sanitize-recover=all" ;;
cross) target_compiler=x86_64-linux-gnu-gcc ;;
esac

# The kit's clang has no headers of its own: those that the compiler searches.
target_headers() {
    "$target_compiler" -E -v -x c /dev/null 2>&1 |
        sed -n '/^#include </,/^End of search/s/^ \(.*\)$/-isystem \1/p'
}

# The clang that also compiles the proved code.
target_kit_clang() {
    # shellcheck disable=SC2046
    "$target_tools/bin/clang" --target=x86_64-unknown-linux-gnu \
        -march=x86-64 -nostdinc $(target_headers) "$@"
}

target_compile() { # DIR FLAGS FILE..
    target_dir=$1 target_flags=$2
    shift 2
    mkdir -p "$target_dir"
    for target_file in "$@"; do
        target_object=$target_dir/$(basename "$target_file" .c).o
        # shellcheck disable=SC2086
        case $TARGET in
        kit) target_kit_clang -fPIE $target_flags -c "$target_file" -o "$target_object" ;;
        *) "$target_compiler" $target_flags -c "$target_file" -o "$target_object" ;;
        esac || return
    done
}

target_link() { # PROGRAM FLAGS FILE..
    target_program=$1 target_flags=$2
    shift 2
    # shellcheck disable=SC2086
    case $TARGET in
    native) "$target_compiler" $target_flags "$@" -o "$target_program" ;;
    cross) "$target_compiler" -static $target_flags "$@" -o "$target_program" ;;
    kit)
        target_said=$("$target_kit/bin/rattle-link" --target x86_64-unknown-linux-gnu \
            --toolchain "$target_tools" -o "$target_program" "$@" 2>&1) || {
            printf '%s\n' "$target_said" >&2
            return 1
        }
        ;;
    esac
}

target_run() { # PROGRAM ARGUMENT..
    case $TARGET in
    native) "$@" ;;
    cross) ${target_emulator:+"$target_emulator"} "$@" ;;
    kit)
        ${target_emulator:+"$target_emulator"} "$target_tools/lib/ld-linux-x86-64.so.2" \
            --library-path "$target_tools/lib" "$@"
        ;;
    esac
}

target_program() { # NAME
    printf 'crates/%s/out/%s\n' "$1" "$1"
}

target_need() { # NAME..
    for target_name in "$@"; do
        [ -x "$(target_program "$target_name")" ] ||
            fail "there is no $(target_program "$target_name"): rt run in crates/$target_name makes it"
    done
}
