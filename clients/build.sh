#!/bin/sh
# Proves crates/px_c and makes clients/lib/libpx.a and clients/lib/libpx.so of it.
#
#     sh clients/build.sh [KIT]
#
# KIT is the folder of the Rattle kit; without it, that of the page that `rt doc` names. CC names the
# compiler that links libpx.so (cc), and OUT another folder for both libraries.
set -eu
here=$(cd "$(dirname "$0")" && pwd)
kit=${1:-$(dirname "$(rt doc)")}
out=${OUT:-$here/lib}
names='px_answer px_limit px_room px_version'
wanted='free malloc memcmp memcpy memmove memset realloc'

work=$(mktemp -d)
trap 'rm -rf "$work"' EXIT

(cd "$here/../crates/px_c" && "$kit/bin/rt" lib)

# One object of px's code and of the kit's allocator, in which only px's names can be seen.
mkdir "$work/px" "$work/libc"
(cd "$work/px" && ar x "$here/../crates/px_c/out/libpx_c.a")
(cd "$work/libc" && ar x "$kit/c/liblibc_c.a")
ld -r -o "$work/px.o" "$work"/px/*.o "$work"/libc/*.o
keep=
for name in $names; do keep="$keep --keep-global-symbol=$name"; done
# shellcheck disable=SC2086
objcopy $keep "$work/px.o"

seen=$(nm -g --defined-only --format=posix "$work/px.o" | cut -d' ' -f1 | sort | tr '\n' ' ')
[ "$seen" = "$names " ] || { echo "px.o defines $seen" >&2; exit 1; }
for name in $(nm -u --format=posix "$work/px.o" | cut -d' ' -f1); do
    case " $wanted _GLOBAL_OFFSET_TABLE_ " in
        *" $name "*) ;;
        *) echo "px.o takes $name, which is none of: $wanted" >&2; exit 1 ;;
    esac
done

mkdir -p "$out"
rm -f "$out/libpx.a" "$out/libpx.so"
ar rcsD "$out/libpx.a" "$work/px.o"
"${CC:-cc}" -shared -o "$out/libpx.so" -Wl,-soname,libpx.so -Wl,-z,defs -Wl,-z,noexecstack -Wl,--gc-sections "$work/px.o"
echo "made $out/libpx.a and $out/libpx.so"
