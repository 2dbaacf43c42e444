# To be sourced: how to run a program that `rt` or scripts/x86-64.sh built. Programs are for x86-64, and so is the Rattle kit.

# find_kit: sets `kit`, the folder of the Rattle kit, to nothing if it is not installed; and what is in it.
find_kit() {
    kit=$(command -v rt) && kit=$(readlink -f -- "$kit") && kit=${kit%/*/*}
    tools=$kit/toolchain/bin
    lib=$kit/toolchain/lib
}

# runnable: fails if programs cannot run here.
runnable() {
    [ "$HOSTTYPE" = x86_64 ] || fail "the program is for x86-64, and this is $HOSTTYPE"
}

# run PROGRAM ARGUMENTS..
run() {
    "$@"
}

# The programs behind bin/calls, in the order in which a record passes through them: one reads requests, one writes answers, and those
# between them each answer for some crates.
calls=(calls_read calls_values calls_frames calls_messages calls_write)
