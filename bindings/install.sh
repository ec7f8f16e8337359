#!/bin/sh
# Usage: install.sh PREFIX [DESTDIR]
#        install.sh --uninstall PREFIX [DESTDIR]
# Installs the files beside this script under PREFIX, with share/rnix/manifest, a list of them and of the folders that were made for them, which end with /.
# Files of an earlier manifest that are no longer there are removed. --uninstall removes the files of the manifest, and its folders if they are empty.
# With DESTDIR, files go to DESTDIR/PREFIX, while rnix.pc still names PREFIX.
# Nothing is changed if something is in the way: a folder where a file should go, or a file where a folder should be.
set -eu
manifest=share/rnix/manifest

stop() {
    echo "install.sh: $*" >&2
    exit 2
}

is_removed=
if [ "${1:-}" = --uninstall ]; then
    is_removed=yes
    shift
fi
[ $# -eq 1 ] || [ $# -eq 2 ] || { echo "usage: install.sh [--uninstall] PREFIX [DESTDIR]" >&2; exit 2; }
case $1 in /*) ;; *) stop "PREFIX must be an absolute path" ;; esac
case $1 in *'
'*) stop "PREFIX must be one line" ;; esac
prefix=$1
root="${2:-}$prefix"
case $root in /*) ;; *) root="$PWD/$root" ;; esac

# Removes the files of a list, and then its folders that are empty, the inner ones first.
remove_listed() {
    LC_ALL=C sort -r | while IFS= read -r path; do
        case $path in
            */) rmdir -- "$root/$path" 2> /dev/null || true ;;
            *) rm -f -- "$root/$path" ;;
        esac
    done
}

if [ -n "$is_removed" ]; then
    [ -f "$root/$manifest" ] || stop "$root/$manifest is missing: nothing is known to be installed there"
    list=$(cat "$root/$manifest")
    printf '%s\n%s\n' "$list" "$manifest" | remove_listed
    echo "install.sh: removed $(printf '%s\n' "$list" | grep -vc '/$') files in $root"
    exit 0
fi

CDPATH= cd -- "$(dirname -- "$0")"
[ -d share/doc/rnix ] || stop "share/doc/rnix is missing: the files to install are not beside this script"
# The flake and the recipe for Debian, which are in the archive, are not installed.
list=$(find bin lib include share \( -type f -o -type l \) 2> /dev/null | LC_ALL=C sort)
printf '%s\n%s\n' "$list" "$manifest" | while IFS= read -r path; do
    for file in "$root/$path" "$root/$path.new"; do
        [ ! -d "$file" ] || stop "$file is a folder; nothing was changed"
    done
    folder=$root/$path
    while folder=$(dirname "$folder") && [ ! -d "$folder" ]; do
        [ ! -e "$folder" ] && [ ! -L "$folder" ] || stop "$folder is no folder; nothing was changed"
    done
    [ -w "$folder" ] || stop "$folder cannot be written; nothing was changed"
done

old=
[ ! -f "$root/$manifest" ] || old=$(cat "$root/$manifest")
# The folders that are made, and those that an earlier installation made.
folders=$(printf '%s\n%s\n' "$list" "$manifest" | while IFS= read -r path; do
    folder=$path
    while folder=$(dirname "$folder") && [ "$folder" != . ]; do
        if [ ! -d "$root/$folder" ] || printf '%s\n' "$old" | grep -qxF -- "$folder/"; then
            printf '%s/\n' "$folder"
        fi
    done
done | LC_ALL=C sort -u)
umask 022
# A new file takes the place of the old one, so that programs that run go on with that.
place() {
    mkdir -p -- "$(dirname "$root/$1")"
    if [ "$1" = lib/pkgconfig/rnix.pc ]; then
        # What pkg-config prints is split at spaces.
        escaped=$(printf '%s' "$prefix" | sed 's/[ \\"]/\\&/g')
        { printf 'prefix=%s\n' "$escaped" && tail -n +2 "$1"; } > "$root/$1.new"
    elif [ "$1" = "$manifest" ]; then
        printf '%s\n' "$list" ${folders:+"$folders"} > "$root/$1.new"
    else
        cp -P -- "$1" "$root/$1.new"
    fi
    [ -L "$root/$1.new" ] || chmod u=rwX,go=rX -- "$root/$1.new"
    mv -f -- "$root/$1.new" "$root/$1"
}
printf '%s\n%s\n' "$list" "$manifest" | while IFS= read -r path; do
    place "$path"
done
gone=$(printf '%s\n' "$old" | while IFS= read -r path; do
    printf '%s\n' "$list" "$folders" | grep -qxF -- "$path" || printf '%s\n' "$path"
done)
[ -z "$gone" ] || printf '%s\n' "$gone" | remove_listed
programs=$(printf '%s\n' "$list" | sed -n 's|^bin/||p' | tr '\n' ' ')
library=
[ ! -f lib/librnix.a ] || library="the library and rnix.h; "
echo "install.sh: installed in $root: ${library}programs: ${programs:-none}"
