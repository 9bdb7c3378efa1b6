# What scripts/dist.sh and scripts/deb.sh share: they begin in the top folder, with the folder `out` for the result, a temporary folder
# `fresh`, the version, `newer`, and the date of all files, so that two builds give the same bytes.

set -e
LC_ALL=C
export LC_ALL
out=$(mkdir -p "$1" && cd "$1" && pwd)
cd "$(dirname -- "$0")/.."
version=$(cat VERSION)
SOURCE_DATE_EPOCH=${SOURCE_DATE_EPOCH:-$(git log -1 --format=%ct 2> /dev/null || stat -c %Y VERSION)}
export SOURCE_DATE_EPOCH
# whether there is the program for newer processors (x86-64-v3), built after the other one
newer=
[ ! crates/codesearch/out/codesearch-v3 -nt crates/codesearch/out/codesearch ] || newer=1
fresh=$(mktemp -d)
trap 'rm -rf "$fresh"' EXIT
