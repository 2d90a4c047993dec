#!/usr/bin/env bash
# packaging/archive.sh [FOLDER]: makes an archive of the built programs with launchers, manual pages, completions, filters,
# examples and pages, so that a group builds once and others copy. Into FOLDER, which is out where none is named, go
# om-VERSION-x86_64-linux.tar.gz and beside it its checksum (sha256sum -c NAME.tar.gz.sha256). The archive's file PROVED has the
# line of the toolchain by which the programs were proved and built, the commit, what they need, and their checksums. Unpacked, it runs as the
# repository does, and needs neither the toolchain nor sources; its install.sh puts it under a PREFIX.
set -euo pipefail
here=$(cd "$(dirname "$(readlink -f "${BASH_SOURCE[0]}")")/.." && pwd)
to=${1:-$here/out}
command -v rt >/dev/null || { echo "archive.sh: rt, whose line goes into the archive, isn't on the path" >&2; exit 1; }
# the launchers build what isn't built, or is older than its sources
for call in "om accept" "om-each accept" "om-classes all"; do
  # shellcheck disable=SC2086
  "$here"/$call </dev/null >/dev/null || [ $? -eq 1 ]
done
version=$(<"$here/VERSION")
name=om-$version-x86_64-linux
room=$(mktemp -d)
trap 'rm -rf "$room"' EXIT
tree=$room/om-$version
for program in om om_each om_classes; do
  mkdir -p "$to" "$tree/crates/$program/out"
  cp "$here/crates/$program/out/$program" "$tree/crates/$program/out/"
done
cd "$here"
cp -P om om-each om-classes install.sh README.md CONTRIBUTING.md CHANGELOG.md LICENSE-* CITATION.cff VERSION "$tree/"
for folder in man completions neighbours catalogue pictures examples rows; do
  [ ! -d "$folder" ] || cp -R "$folder" "$tree/"
done
mkdir "$tree/docs"
cp docs/*.md docs/*.svg "$tree/docs/"
# the pages link to those of the crates
for page in crates/*/README.md; do
  mkdir -p "$tree/${page%/*}"
  cp "$page" "$tree/$page"
done
find "$tree" -name __pycache__ -prune -exec rm -rf {} +
commit=$(git rev-parse HEAD 2>/dev/null || echo unknown)
[ -z "$(git status --porcelain 2>/dev/null)" ] || commit="$commit, and changes to it that aren't committed"
{
  echo "Proved and built with $(rt version)"
  echo "from commit $commit"
  echo "for x86-64 and Linux with a C library that has $(cat "$tree"/crates/*/out/om* | grep -ao 'GLIBC_[0-9.]*' | sort -uV | tail -n 1)"
  (cd "$tree" && sha256sum crates/*/out/om*)
} >"$tree/PROVED"
# the same bytes for the same files: sorted, and with the time of the commit
moment=$(git log -1 --format=%ct 2>/dev/null || date +%s)
tar -C "$room" --sort=name --owner=0 --group=0 --numeric-owner --mtime="@$moment" -cf - "om-$version" | gzip -9n >"$to/$name.tar.gz"
(cd "$to" && sha256sum "$name.tar.gz" >"$name.tar.gz.sha256")
cat "$tree/PROVED"
echo "$to/$name.tar.gz"
