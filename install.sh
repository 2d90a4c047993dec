#!/bin/sh
# install.sh [PREFIX]: puts om, om-each and om-classes with their manual pages, completions, filters, examples and pages under PREFIX,
# which is /usr/local where none is named; with DESTDIR in the environment, under $DESTDIR$PREFIX, as packages are made.
# It runs in a copy of the repository, where it builds the programs first, and in an unpacked archive (packaging/archive.sh).
# install.sh --uninstall [PREFIX]: removes what it put there, by the list PREFIX/share/om/installed.txt, and the folders that
# are empty then. A file that an earlier install.sh put there and this one doesn't is removed, too.
set -eu
usage() {
  echo "usage: [DESTDIR=FOLDER] install.sh [--uninstall] [PREFIX]" >&2
  exit 2
}
removes=no
case ${1-} in --uninstall) removes=yes; shift ;; esac
[ $# -le 1 ] || usage
case ${1-/usr/local} in '' | -*) usage ;; esac
here=$(cd "$(dirname "$0")" && pwd)
prefix=${1:-/usr/local}
case $prefix in
  /*) ;;
  *) prefix=$PWD/$prefix ;;
esac
to=${DESTDIR-}$prefix
list=$to/share/om/installed.txt

# Removes the files of a list on standard input, and each of their folders that is empty then.
remove() {
  while read -r file; do
    case /$file/ in */../*) continue ;; esac
    rm -f "$to/$file"
    folder=${file%/*}
    while [ "$folder" != "$file" ] && rmdir "$to/$folder" 2>/dev/null; do file=$folder folder=${folder%/*}; done
  done
}

if [ "$removes" = yes ]; then
  [ -f "$list" ] || { echo "install.sh: nothing that it installed is in $to: $list isn't there" >&2; exit 1; }
  cp "$list" "${TMPDIR:-/tmp}/om-installed.$$"
  remove <"${TMPDIR:-/tmp}/om-installed.$$"
  rm -f "${TMPDIR:-/tmp}/om-installed.$$"
  echo "om, om-each and om-classes are removed from $to"
  exit 0
fi
# The launchers build what isn't built; om and om-classes refuse an empty input, and om-each finds no piece in it.
if [ "$("$here/om" accept </dev/null)" != "refused line 1 missing" ] || ! "$here/om-each" accept </dev/null ||
  [ "$("$here/om-classes" all </dev/null)" != "refused empty" ]; then
  echo "install.sh: the programs don't run" >&2
  exit 1
fi

new=$(mktemp)
trap 'rm -f "$new" "$new.old"' EXIT

# put MODE FOLDER FILE..: into a folder under PREFIX
put() {
  mode=$1 place=$2
  shift 2
  mkdir -p "$to/$place"
  for source in "$@"; do
    [ -f "$source" ] || continue
    case $mode in
      as) if [ -x "$source" ]; then mode_now=755; else mode_now=644; fi ;;
      *) mode_now=$mode ;;
    esac
    # a program may be running: its file isn't written over, but another one put in its place
    cp "$source" "$to/$place/.new.$$"
    chmod "$mode_now" "$to/$place/.new.$$"
    mv -f "$to/$place/.new.$$" "$to/$place/${source##*/}"
    echo "$place/${source##*/}" >>"$new"
  done
}

# put_as FILE PLACE: under another name
put_as() {
  mkdir -p "$to/${2%/*}"
  cp "$1" "$to/$2.new.$$"
  chmod 644 "$to/$2.new.$$"
  mv -f "$to/$2.new.$$" "$to/$2"
  echo "$2" >>"$new"
}

# point TO PLACE: a link
point() {
  mkdir -p "$to/${2%/*}"
  ln -sfn "$1" "$to/$2"
  echo "$2" >>"$new"
}

put 755 libexec/om "$here/crates/om/out/om" "$here/crates/om_each/out/om_each" "$here/crates/om_classes/out/om_classes"
put 755 bin "$here/om"
point om bin/om-each
point om bin/om-classes
put 644 share/man/man1 "$here"/man/*.1
put_as "$here/completions/om.bash" share/bash-completion/completions/om
point om share/bash-completion/completions/om-each
point om share/bash-completion/completions/om-classes
put_as "$here/completions/_om" share/zsh/site-functions/_om
put_as "$here/completions/om.fish" share/fish/vendor_completions.d/om.fish
point om.fish share/fish/vendor_completions.d/om-each.fish
point om.fish share/fish/vendor_completions.d/om-classes.fish
put 644 share/om "$here"/completions/*.txt "$here/VERSION" "$here"/LICENSE-*
for folder in neighbours neighbours/python catalogue pictures examples; do
  # the checks there are for a copy of the repository
  for file in "$here/$folder"/*; do
    case ${file##*/} in check*.py | refusals.txt) ;; *) put as "share/om/$folder" "$file" ;; esac
  done
done
# the filters look for the launchers beside their folder
point ../../bin/om share/om/om
point ../../bin/om-each share/om/om-each
point ../../bin/om-classes share/om/om-classes
put 644 share/doc/om "$here/README.md" "$here/CONTRIBUTING.md" "$here/CHANGELOG.md" "$here"/LICENSE-* "$here/CITATION.cff" \
  "$here/VERSION" "$here/PROVED"
put 644 share/doc/om/docs "$here"/docs/*.md "$here"/docs/*.svg
# the pages link to one another as they do in the repository
for crate in "$here"/crates/*; do
  put 644 "share/doc/om/crates/${crate##*/}" "$crate/README.md"
done
for folder in neighbours catalogue pictures examples; do
  point "../../om/$folder" "share/doc/om/$folder"
done
echo share/om/installed.txt >>"$new"
if [ -f "$list" ]; then
  cp "$list" "$new.old"
  grep -vxFf "$new" "$new.old" | remove
fi
sort "$new" >"$list"
echo "om, om-each and om-classes are installed in $to/bin"
