# Sourced by the checks that let allocations fail, at the top of the repository: builds fail_alloc.c as $library in the folder
# $work, by the machine's compiler, or that of the toolchain.
library=$work/fail_alloc.so
tools=$(dirname "$(readlink -f "$(command -v rt || echo .)")")/../toolchain/bin
if command -v "${CC:-cc}" >/dev/null; then
    "${CC:-cc}" -O2 -fPIC -shared .ci/fail_alloc.c -o "$library"
elif [ -x "$tools/clang" ] && [ -x "$tools/ld.lld" ]; then
    "$tools/clang" -O2 -fPIC -c .ci/fail_alloc.c -o "$work/fail_alloc.o"
    "$tools/ld.lld" -shared "$work/fail_alloc.o" -o "$library"
else
    echo "$(basename "$0"): there is no C compiler: install one, or name it by CC" >&2
    exit 1
fi
