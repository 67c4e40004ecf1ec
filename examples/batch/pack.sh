#!/bin/sh
# pack.sh OUT FILE..: packs files into OUT. A text is named rRANK-FIRST.txt, any other file is a pack.
# OUT is whole or it isn't there: what a job has written when it is killed has another name.
set -eu
out=$1
shift
list=
for file in "$@"; do
    case $file in
    *.txt)
        name=$(basename "$file" .txt)
        rank=${name#r}
        piece="{\"rank\":${rank%-*},\"first\":${name#*-},\"file\":\"$file\"}"
        ;;
    *) piece="{\"packed\":\"$file\"}" ;;
    esac
    list=$list${list:+,}$piece
done
room=$(mktemp -d "$out.XXXXXX")
trap 'rm -rf "$room"' EXIT
echo "{\"pieces\":[$list]}" >"$room/manifest.json"
"${MPIMATCH:-../../mpimatch}" pack layout.json "$room/manifest.json" >"$room/pack"
mv "$room/pack" "$out"
