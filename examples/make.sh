#!/bin/sh
# make.sh [FOLDER]: writes the sheet of each notation here and has the oracle list it; FOLDER holds pktbaffle/src, as for
# tools/differential. Ethernet and mended mode, unless the name says rawip, linuxsll or plain. Ends with 1 if brackets change a listing.
set -eu
case $#${1-} in
1-h | 1--help)
    echo "usage: examples/make.sh [FOLDER]   (writes the sheets and listings anew; FOLDER holds pktbaffle/src)"
    exit 0
    ;;
0 | 1[!-]*) ;;
*)
    echo "usage: examples/make.sh [FOLDER]" >&2
    exit 2
    ;;
esac
cd "$(dirname "$(readlink -f "$0")")"
oracle=$(../tools/differential/build "$@")
for notation in *.txt; do
    name=${notation%.txt}
    ../tools/sheet "$(cat "$notation")" >"$name.sheet"
    case $name in *rawip*) link='\001' ;; *linuxsll*) link='\002' ;; *) link='\000' ;; esac
    case $name in *plain*) mode='\000' ;; *) mode='\001' ;; esac
    { printf "$link$mode"; cat "$name.sheet"; } | "$oracle" listing >"$name.listing"
done
cmp brackets-left.listing brackets-right.listing
