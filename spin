#!/bin/sh
# Becomes the program; by the name spin_tables, the one that shortens tables. Where a source or the kit is newer than the build, the
# build is a copy of another, or none is there, tools/compile.py looks closer, and builds the program first where that is due
# (docs/DECISIONS.md says how).
here=$(dirname "$(readlink -f "$0")")
case ${0##*/} in
spin_tables) program=spin_tables crate=spin_tables ;;
*) program=spin crate=spin_mesh ;;
esac
case ${SPIN_CHECKS-} in
'') name=$program ;;
0) name=${program}_unchecked ;;
*) name=${program}_checked ;;
esac
made=out/$name inode=0 kit=
[ -r "$here/$made.here" ] && read -r inode kit <"$here/$made.here"
# (of a crate, its folder and its src/: where one was moved in, its files may be old)
changed=$(cd "$here" && find "$made.sum" "$kit/KIT-ID" crates.txt proved.sum tools/compile.py crates \
    -path 'crates/*/*' ! -path 'crates/*/src' ! -path 'crates/*/src/*' -prune -o \
    \( -path "$made.sum" ! -inum "$inode" -o ! -path "$made.sum" -newercm "$made.sum" \) -print -quit 2>&1) || changed=unknown
if [ -n "$changed" ] || ! [ -x "$here/$made" ] || ! [ -s "$here/$made" ]; then
    python3 "$here/tools/compile.py" "$here" $name $crate </dev/null >&2 || exit 125
fi
exec "$here/$made" "$@"
