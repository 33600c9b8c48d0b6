# What the scripts of this repository share: where the Rattle kit lies and what it has for this machine, how they speak,
# and how Debian's packages are brought in. They source it at the repository's top, with `me` set to their name.
# shellcheck shell=sh disable=SC2034,SC2154
say() { printf '%s: %s\n' "$me" "$*"; }
fail() { say "$*" >&2; exit 1; }

command -v rt >/dev/null ||
    fail "the Rattle kit is missing: its command 'rt' is not on the PATH, and nothing can be proved or built without it"
# The kit says itself where it lies: `rt` may be a link to it, or a script that calls it.
guide=$(rt doc) || fail "the Rattle kit's command 'rt' does not work here"
machine=$(uname -m)
kit=$(dirname "$guide")
tools=$kit/toolchain
[ -x "$tools/bin/clang" ] || fail "the Rattle kit at $kit has no toolchain"
case $machine in
x86_64 | aarch64) ;;
*) fail "on a machine of this kind, $machine, nothing here was tried: it needs x86-64 or Arm (aarch64)" ;;
esac

works() { # PACKAGE: whether what it brings is there
    case $1 in
    gcc) cc --version ;;
    binutils) nm --version ;;
    libc6-dev) echo '#include <stdio.h>' | cc -E -x c - ;;
    cc65) ca65 --version ;;
    qemu-user) qemu-x86_64 --version ;;
    *) "$1" --version ;;
    esac >/dev/null 2>&1
}
bring() { # PACKAGE..: installs those of Debian's packages that are not there
    missing=
    for package in "$@"; do
        works "$package" || missing="${missing:+$missing }$package"
    done
    [ -n "$missing" ] || return 0
    if [ "$(id -u)" -ne 0 ] || ! command -v apt-get >/dev/null; then
        fail "these Debian packages are missing, and only root can install them with apt-get: $missing"
    fi
    say "installing Debian's packages $missing: a minute or two"
    mkdir -p target
    # shellcheck disable=SC2086
    { apt-get update && DEBIAN_FRONTEND=noninteractive apt-get install -y --no-install-recommends $missing; } \
        >target/said-apt 2>&1 </dev/null || { cat target/said-apt; fail "apt-get could not install $missing"; }
}

# Runs a program that the kit linked, which is for x86-64: with the kit's C library, and under an emulator where the
# processor is another.
emulator=
[ "$machine" = x86_64 ] || emulator=qemu-x86_64
linked() { # PROGRAM WORDS..
    [ -z "$emulator" ] || bring qemu-user
    ${emulator:+"$emulator"} "$tools/lib/ld-linux-x86-64.so.2" --library-path "$tools/lib" "$@"
}

# The kit's linker, for either kind of processor on either.
link_for() { # MACHINE WORDS..
    case $1 in
    x86_64) emulation=elf_x86_64 ;;
    aarch64) emulation=aarch64linux ;;
    esac
    shift
    "$tools/bin/ld.lld" -m "$emulation" "$@"
}
