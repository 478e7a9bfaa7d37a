#!/bin/sh
# Compares the pictures that tools/picture.py draws of two examples with what stands beside them, and looks into a page of
# tools/page.py: each address of the listing is in it once as a place that can be linked to, and no link leads to none. It prints
# what differs, and ends with status 1 where something does. Where there is no python3 it says so and ends with status 0.
set -u
cd "$(dirname "$0")/.." || exit 1
if ! command -v python3 >/dev/null 2>&1; then
    echo "skipped: there is no python3"
    exit 0
fi
said=$(mktemp) || exit 1
trap 'rm -f "$said"' EXIT

status=0
for name in switch driver; do
    files="examples/$name.graph --report examples/$name.report --listing examples/$name.listing"
    # shellcheck disable=SC2086
    python3 tools/picture.py $files > "$said" || status=1
    diff -u "examples/$name.dot" "$said" || status=1
    python3 tools/page.py "examples/$name.listing" "examples/$name.graph" "examples/$name.report" > "$said" || status=1
    python3 - "$said" "examples/$name.listing" <<'END' || status=1
import re, sys
page, listing = (open(name).read() for name in sys.argv[1:])
places = re.findall(r'id="at([0-9a-f]{8})"', page)
if places != [line[:8] for line in listing.splitlines()] or not set(re.findall(r'href="#at([0-9a-f]{8})"', page)) <= set(places):
    sys.exit("the links of a page don't lead to the lines of its listing")
END
done
[ "$status" -ne 0 ] || echo "pictures: 2 examples compared"
exit $status
