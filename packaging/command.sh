#!/bin/sh
# Runs setools. Under the name of a tool, as seinfo or setools-seinfo, that name is its first word.
name=${0##*/}
case $name in
setools-se*) set -- "${name#setools-}" "$@" ;;
setools*) ;;
se*) set -- "$name" "$@" ;;
esac
program='@libexec@/setools'
# The C library takes a large file's memory in large pages, which are fewer to fault in.
GLIBC_TUNABLES=${GLIBC_TUNABLES:+$GLIBC_TUNABLES:}glibc.malloc.hugetlb=1
export GLIBC_TUNABLES
# A person at a terminal is told more of what was wrong.
if [ -t 2 ] && { true 3>&1; } 2>/dev/null; then
    { said=$("$program" "$@" 2>&1 >&3 3>&-); } 3>&1 && exit
    exec '@libexec@/explain' "$?" "$said" "$program" "$@"
fi
exec "$program" "$@"
