#!/bin/sh
# ccache: what one local cache had compiled comes to another one from the remote storage.
set -e
room=$(mktemp -d)
trap 'rm -rf "$room"' EXIT
cd "$room"
echo 'int answer(void) { return 42; }' >answer.c
export CCACHE_REMOTE_STORAGE="redis://127.0.0.1:$1"
for cache in one two; do
    CCACHE_DIR="$room/$cache" ccache "${CC:-cc}" -c answer.c -o "$cache.o"
done
stats=$(CCACHE_DIR="$room/two" ccache --print-stats)
hits=$(echo "$stats" | sed -n 's/^remote_storage_hit[[:space:]]*//p')
if [ "$hits" = 1 ] && cmp -s one.o two.o; then
    echo "pass remote storage"
else
    echo "fail remote storage: $(echo "$stats" | grep remote | tr '\n\t' '; ')"
fi
