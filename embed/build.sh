#!/usr/bin/env bash
# Makes the libraries, which stand alone: they name no path, and want no more of the C library than malloc, realloc, free and
# the functions that move and fill memory. The first time, and after a change of a source, the crates are proved, in a copy
# of their sources, where what is proved is kept (`.ci/prove`).
#
#     embed/build.sh
#
#     build/libdine.a          the arbiter: dine.h
#     build/libdine_oracle.a   scripts and journals: dine_oracle.h
#     build/libdine.so         both
#
# It takes the toolchain, Python 3, and the machine's `ar` and `ld`, or those that AR and LD name. Where one of them is
# missing, or the folder can't be written, a line says which, the status is 1, and what was made before stays as it was.
set -euo pipefail
here="$(cd "$(dirname "${BASH_SOURCE[0]}")" && pwd)"
top="$(dirname "$here")"
build="$here/build"
# What the variables name may have words of its own.
read -ra ar <<< "${AR:-ar}"
read -ra ld <<< "${LD:-ld}"

stop() {
    echo "embed/build.sh: $1" >&2
    exit 1
}

# Stops where a tool isn't here: what it is, the variable that names another one, and its words.
need() {
    "${@:3}" --version > /dev/null 2>&1 || stop "there is no $1: '${*:3}' doesn't start ($2 names another one)"
}

# Puts the objects of an archive into a folder of this name.
unpack() {
    mkdir "$work/$1"
    (cd "$work/$1" && "${ar[@]}" x "$2") || stop "'${ar[*]}' doesn't unpack $2"
}

need archiver AR "${ar[@]}"
need linker LD "${ld[@]}"
command -v python3 > /dev/null || stop "there is no python3"
first="$(rt doc 2> /dev/null)" || stop "there is no toolchain: 'rt doc' doesn't answer"
# The three functions over malloc that an archive of `rt lib` wants. The toolchain's guides link a static library with its
# c/liblibc_c.a for them: rattle/itoa/README.md, "Tests and speed"; rattle/UNSAFE.md, "An export that allocates", says why.
support="$(dirname "$first")/c/liblibc_c.a"
[ -r "$support" ] || stop "the toolchain has no c/liblibc_c.a beside its first page, $first"

work=""
trap 'rm -rf "$work"; rmdir "$build" 2> /dev/null || true' EXIT
# (beside what is made, so that it is moved in one step)
{ mkdir -p "$build" && work="$(mktemp -d "$build/.making-XXXXXX")"; } 2> /dev/null || stop "$build can't be written"

copy="$("$top/.ci/prove" dine_embed dine_oracle)" || stop "not all of it is proved"
for name in dine_embed dine_oracle; do
    unpack "$name" "$copy/crates/$name/out/lib$name.a"
done
unpack support "$support"

cd "$work"
{
    "${ar[@]}" rcsD libdine.a dine_embed/*.o support/*.o
    "${ar[@]}" rcsD libdine_oracle.a dine_oracle/*.o support/*.o
} || stop "'${ar[*]}' makes no archive"
# From outside only what the headers name is seen.
echo '{ global: dine_*; local: *; };' > exports
"${ld[@]}" -shared --version-script=exports -soname libdine.so --strip-debug --eh-frame-hdr -z noexecstack -o libdine.so \
    dine_embed/*.o dine_oracle/*.o support/*.o || stop "'${ld[*]}' makes no library"

mv libdine.a libdine_oracle.a libdine.so "$build/"
