#!/usr/bin/env bash
# Opens a plan's page in headless Chromium and keeps four pictures of it: at 1280 and at 390 pixels, in colours and in shades of grey.
#     tools/pages/page.sh FOLDER/plan.html PICTURES
# It is no part of the tests: look at the pictures. It needs `chromium`.
set -euo pipefail
page=$(realpath "$1")
pictures=$(mkdir -p "$2" && realpath "$2")
# the same page with all colours taken away
grey=$(mktemp --suffix .html)
trap 'rm -f "$grey"' EXIT
sed 's|</style>|html{filter:grayscale(1)}</style>|' "$page" > "$grey"
for width in 1280 390; do
    for kind in colours grey; do
        shown=$page
        [ "$kind" = colours ] || shown=$grey
        chromium --headless --no-sandbox --disable-gpu --hide-scrollbars --window-size="$width,${HEIGHT:-4000}" \
            --screenshot="$pictures/plan-$width-$kind.png" "file://$shown" 2> /dev/null
    done
done
ls -l "$pictures"
