#!/bin/sh
# Installs famsync from the folder in which this script stands, or takes an installation away.
#
# usage: install.sh [--prefix DIR] [--destdir DIR] [--libdir DIR] [--pythondir DIR]
#        install.sh --uninstall [--prefix DIR] [--destdir DIR]
#
#   --prefix      the folder below which everything is put: /usr/local where it isn't said
#   --destdir     is put before each path, for who makes a package
#   --libdir      where the libraries are put, and pkg-config's file: PREFIX/lib where it isn't said
#   --pythondir   where the package for Python is put: PREFIX/lib/python3/dist-packages where it isn't said
#
# PREFIX/share/famsync/installed lists each file and each folder before it is made, and what it lists is what is taken
# away: folders that were there before, and files that others put there, stay. What an earlier installation below the
# same prefix put there is taken away first.
set -eu

tree=$(cd "$(dirname "$0")" && pwd)
prefix=/usr/local destdir='' libraries='' python='' uninstall=''
packages=lib/python3/dist-packages

fail() {
    echo "install.sh: $*" >&2
    exit "${status:-1}"
}

read_words() {
    while [ $# -gt 0 ]; do
        word=$1
        shift
        case $word in
        --uninstall) uninstall=yes && continue ;;
        --prefix | --destdir | --libdir | --pythondir) [ $# -gt 0 ] || status=2 fail "$word wants a folder" ;;
        *) status=2 fail "'$word' isn't known: usage: install.sh [--uninstall] [--prefix DIR] [--destdir DIR]" \
            "[--libdir DIR] [--pythondir DIR]" ;;
        esac
        case $1 in
        /*) ;;
        *) status=2 fail "$word '$1' isn't a path from / on" ;;
        esac
        case $word in
        --prefix) prefix=${1%/} ;;
        --destdir) destdir=${1%/} ;;
        --libdir) libraries=${1%/} ;;
        --pythondir) python=${1%/} ;;
        esac
        shift
    done
    libraries=${libraries:-$prefix/lib}
    python=${python:-$prefix/$packages}
    list=$prefix/share/famsync/installed
}

# Where a file of the tree is put.
place() {
    case $1 in
    "$packages"/*) echo "$python/${1#"$packages"/}" ;;
    lib/*) echo "$libraries/${1#lib/}" ;;
    *) echo "$prefix/$1" ;;
    esac
}

tree_files() { (cd "$tree" && find bin include lib share ! -type d | LC_ALL=C sort); }

# The folders above the paths of the standard input that aren't there, each before those in it.
missing_folders() {
    while IFS= read -r path; do
        while path=${path%/*} && [ -n "$path" ] && [ ! -d "$destdir$path" ]; do
            echo "$path"
        done
    done | LC_ALL=C sort -u
}

# pkg-config's file says where the prefix is from its own place.
put_package() {
    up=$(realpath -ms --relative-to="$libraries/pkgconfig" "$prefix/.")
    sed "s,^prefix=.*,prefix=\${pcfiledir}/$up," "$1" >"$2"
    chmod 644 "$2"
}

put() {
    from=$tree/$1 to=$destdir$(place "$1")
    if [ "$1" = lib/pkgconfig/famsync.pc ]; then
        put_package "$from" "$to"
    elif [ -L "$from" ]; then
        leads_to=$(realpath "$from")
        ln -sfr "$destdir$(place "${leads_to#"$(realpath "$tree")"/}")" "$to"
    elif [ -x "$from" ]; then
        install -m 755 "$from" "$to"
    else
        install -m 644 "$from" "$to"
    fi
}

install_tree() {
    files=$(tree_files)
    paths=$(echo "$files" | while IFS= read -r file; do place "$file"; done && echo "$list")
    folders=$(echo "$paths" | missing_folders)
    install -d "$destdir${list%/*}"
    { [ -z "$folders" ] || echo "$folders" | sed 's/^/folder /'; echo "$paths" | sed 's/^/file /'; } >"$destdir$list"
    chmod 644 "$destdir$list"
    echo "$folders" | while IFS= read -r folder; do
        [ -z "$folder" ] || install -d "$destdir$folder"
    done
    echo "$files" | while IFS= read -r file; do put "$file"; done
}

# A module that was imported may have left what Python made of it.
remove_file() {
    rm -f "$1"
    case $1 in
    *.py)
        cached=${1%/*}/__pycache__ name=${1##*/}
        rm -f "$cached/${name%.py}".*.pyc
        [ ! -d "$cached" ] || rmdir "$cached" 2>/dev/null || :
        ;;
    esac
}

# A folder in which something else is, or that is gone, is left alone.
remove_tree() {
    listed=$(cat "$destdir$list")
    echo "$listed" | sed -n 's/^file //p' | while IFS= read -r file; do remove_file "$destdir$file"; done
    echo "$listed" | sed -n 's/^folder //p' | LC_ALL=C sort -r | while IFS= read -r folder; do
        rmdir "$destdir$folder" 2>/dev/null || :
    done
}

read_words "$@"
if [ -n "$uninstall" ]; then
    [ -f "$destdir$list" ] || fail "nothing was installed below $destdir$prefix: $destdir$list isn't there"
    remove_tree
    echo "taken away from $destdir$prefix"
    exit
fi
[ -d "$tree/bin" ] || fail "there is nothing to install beside $tree/install.sh"
[ ! -f "$destdir$list" ] || remove_tree
trap '[ $? = 0 ] || echo "install.sh: this is not a whole installation; --uninstall takes away what there is" >&2' EXIT
install_tree
echo "installed below $destdir$prefix"
