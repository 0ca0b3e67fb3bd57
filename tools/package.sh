#!/bin/sh
# Makes a Debian package of both built programs, the tools, documents, manual pages, completions, tables and the Python module.
#
#     tools/package.sh [FOLDER]     writes FOLDER/knot-workbench_VERSION_ARCHITECTURE.deb; FOLDER is the current one if none is given
#
# It needs dpkg-deb, gzip and python3, and both programs built (tools/build.py). What goes in is what ./install puts below /usr, with the
# programs stripped if there is strip; the package depends on the C library that the programs were linked with or a newer one, and recommends
# python3 for the tools and the module. DEBFULLNAME and DEBEMAIL name who made the package, otherwise the user and the host; with both set
# lintian finds no error.
# Status 0 if the package was made, 1 if it can't be made, 2 if the words are wrong.
set -u

say() {
    printf 'package.sh: %s\n' "$1" >&2
}

if [ "${1-}" = --help ] || [ "${1-}" = -h ]; then
    sed -n 's/^# \{0,1\}//; 2,/^set/ { /^set/d; p; }' "$0"
    exit 0
fi
if [ $# -gt 1 ]; then
    say "at most one word is taken, a folder; --help says more"
    exit 2
fi
folder=${1-.}
if [ ! -d "$folder" ]; then
    say "there is no folder $folder"
    exit 2
fi
for command in dpkg-deb gzip python3; do
    if ! command -v "$command" >/dev/null 2>&1; then
        say "$command is not on PATH"
        exit 1
    fi
done
here=$(dirname -- "$(readlink -f -- "$0")") && top=$(dirname -- "$here") || exit 1
staged=$(mktemp -d) || exit 1
trap 'rm -rf "$staged"' EXIT
trap 'exit 130' INT
trap 'exit 143' TERM

# Everything in the package belongs to root, and all may read it.
umask 022
root=$staged/root
mkdir "$root" || exit 1
python3 -B "$top/install" --prefix /usr --destdir "$root" --python-folder /usr/lib/python3/dist-packages >/dev/null || exit 1
gzip -9n "$root"/usr/share/man/man?/* || exit 1
if command -v strip >/dev/null 2>&1; then
    # A program that isn't one of the system's own form stays as it is.
    for program in "$root"/usr/lib/knot-workbench/*; do
        strip --strip-unneeded "$program" 2>/dev/null || true
    done
fi
maker="${DEBFULLNAME:-$(id -un)} <${DEBEMAIL:-$(id -un)@$(uname -n)}>"
case ${DEBEMAIL:-$(uname -n)} in
    *.*) ;;
    *) say "warning: the package names $maker, to whom nobody can write: DEBFULLNAME and DEBEMAIL name who made it" ;;
esac

version=$("$top/knot" --version | cut -d ' ' -f 2)
architecture=$(dpkg --print-architecture)
# The newest version of the C library that a symbol of a program asks for.
library=$(cat "$root/usr/lib/knot-workbench/knot" "$root/usr/lib/knot-workbench/seek" | grep -ao 'GLIBC_[0-9][0-9.]*' | sort -u -t _ -k 2 -V | tail -n 1 | cut -d _ -f 2)
kilobytes=$(du -sk "$root" | cut -f 1)
mkdir "$root/DEBIAN" || exit 1
cat >"$root/DEBIAN/control" <<END || exit 1
Package: knot-workbench
Version: $version
Architecture: $architecture
Maintainer: $maker
Installed-Size: $kilobytes
Depends: libc6${library:+ (>= $library)}
Recommends: python3 (>= 3.9)
Section: math
Priority: optional
Description: decides whether knots and links are the same, with evidence
 Diagrams are grids or braid words. The program seek looks for evidence by
 quandles and random walks; knot checks evidence, searches exhaustively, and
 does other work on diagrams. Both are proved against their contracts.
 .
 With tables of connected quandles, and a module for Python.
END
documents=$root/usr/share/doc/knot-workbench
cat >"$documents/copyright" <<END || exit 1
Format: https://www.debian.org/doc/packaging-manuals/copyright-format/1.0/
Upstream-Name: knot

Files: *
Copyright: the makers of knot
License: not-stated
 The sources state no licence. Ask their makers before you pass the package on.
END
gzip -9n >"$documents/changelog.gz" <<END || exit 1
knot-workbench ($version) unstable; urgency=medium

  * Made of the tree by tools/package.sh.

 -- $maker  $(LC_ALL=C date -Ru ${SOURCE_DATE_EPOCH:+-d "@$SOURCE_DATE_EPOCH"})
END
# What Python made of the files of the module and the tools goes with them.
cat >"$root/DEBIAN/prerm" <<'END' || exit 1
#!/bin/sh
set -e
find /usr/lib/python3/dist-packages/knot_workbench /usr/share/knot-workbench/tools -name __pycache__ -prune -exec rm -rf {} +
END
chmod 755 "$root/DEBIAN/prerm" || exit 1
(cd "$root" && find usr -type f -print0 | sort -z | xargs -0 md5sum) >"$root/DEBIAN/md5sums" || exit 1
package=$folder/knot-workbench_${version}_$architecture.deb
dpkg-deb --root-owner-group --build "$root" "$package" >"$staged/said" 2>&1 || { cat "$staged/said" >&2; exit 1; }
echo "$package"
