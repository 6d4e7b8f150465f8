#!/bin/sh
# Packs what `make install` installs into an archive, with the commit that it is of, the checksums of the sources that it was proved from,
# and those of its own files. Its names are sorted, its files are nobody's, and their times are that of the commit: equal files give an
# equal archive.
#
#     sh tools/dist.sh FOLDER
#
# FOLDER has what `make install` put there. The archive is dist/wdyl-COMMIT.tar.gz, and its own checksum stands beside it.
set -eu

folder=$1
top=$(cd "$(dirname "$0")/.." && pwd)
cd "$top"
if [ -n "$(git status --porcelain)" ]; then
    echo "these files aren't those of the commit:"
    git status --short
    exit 1
fi
commit=$(git rev-parse HEAD)
name=wdyl-$(git rev-parse --short=12 HEAD)
work=$(mktemp -d)
trap 'rm -rf "$work"' EXIT
cp -R "$folder" "$work/$name"
printf 'commit %s\n%s\n' "$commit" "$(rt version)" >"$work/$name/COMMIT"
# what the proof reads: code, definitions and proofs of the crates
git ls-files -z crates.txt 'crates/*/src/*' 'crates/*/specs/*' 'crates/*/proofs/*' ':!crates/test_*' ':!crates/rows_*' \
    | xargs -0 sha256sum >"$work/$name/SOURCES.sha256"
(cd "$work/$name" && find . -type f ! -name SHA256SUMS | LC_ALL=C sort | xargs -d '\n' sha256sum >"$work/sums" && mv "$work/sums" SHA256SUMS)
mkdir -p dist
tar -C "$work" --sort=name --format=ustar --owner=0 --group=0 --numeric-owner --mode=u+rw,go+r,go-w,a+X \
    --mtime="@$(git log -1 --format=%ct)" -cf - "$name" | gzip -9n >"dist/$name.tar.gz"
(cd dist && sha256sum "$name.tar.gz" | tee "$name.tar.gz.sha256")
