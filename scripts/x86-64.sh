# To be sourced, from the repository's root: how to build and run a C program over archives for C (`archives`, of scripts/programs.sh).
# They are for x86-64, and so is the program. The compiler, the linker and the C library are the kit's own, so nothing has to be
# installed, and Rattle and C are compiled by the same compiler.
root=$PWD
. scripts/programs.sh
find_kit

# build OUT SOURCE ARCHIVE..: warnings are errors. scripts/headers has the few declarations of C's library that our files need, since
# the kit's compiler comes without headers.
build() {
    local out=$1 source=$2
    shift 2
    "$tools/clang" --target=x86_64-linux-gnu -std=c11 -O3 -fPIE -fno-builtin -isystem scripts/headers -Wall -Wextra -Werror -c "$source" -o "$out.o" &&
        "$tools/ld.lld" -pie -dynamic-linker "$lib/ld-linux-x86-64.so.2" -rpath "$lib" -o "$out" \
            "$lib/Scrt1.o" "$lib/crti.o" "$lib/crtbeginS.o" "$out.o" "$@" \
            "$lib/libc.so.6" "$lib/libc_nonshared.a" "$lib/ld-linux-x86-64.so.2" "$lib/libgcc.a" "$lib/crtendS.o" "$lib/crtn.o"
}
