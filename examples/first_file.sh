#!/usr/bin/env bash
# A first file: an image is made, an inode is made on it and gets blocks, and `sync` puts it on the disk. The next run finds it there.
set -eu
life=$(dirname "$(readlink -f "$0")")/../bin/life
place=$(mktemp -d)
trap 'rm -rf "$place"' EXIT
cd "$place"

# One group of 64 blocks, and a log of 256 sectors.
"$life" make disk.img 1 64 256

# An image that was just made has nothing to recover. The first inode number is 192, and this is its first life. `home` writes what the log holds to its place.
"$life" steps disk.img <<'END'
mount
create 0 a
grow a 3
stat a
sync
home
END

# 192 is taken now, so the next number is 193. It is held until the mount ends, so an unmount is refused; the end of the script leaves the mount.
"$life" steps disk.img <<'END'
mount
create 0 b
unmount
END

# `b` was not synced.
"$life" check disk.img
