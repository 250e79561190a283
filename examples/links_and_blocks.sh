#!/usr/bin/env bash
# What calls on an inode do, and when they are refused.
set -eu
life=$(dirname "$(readlink -f "$0")")/../bin/life
place=$(mktemp -d)
trap 'rm -rf "$place"' EXIT
cd "$place"
"$life" make disk.img 2 64 256

# Links: an inode may come to have none, and be linked again by whoever holds it.
"$life" steps disk.img <<'END'
mount
create 0 a
unlink a
unlink a
link a
link a
stat a
sync
END

# Blocks: a group of 64 blocks has 40 for data, of which a chunk of inodes takes 8. The lowest free blocks are taken, and given back from the end.
"$life" steps disk.img <<'END'
mount
create 1 b
tmpfile 1 c
grow c 20
grow b 12
grow b 1
cut c 1
grow b 1
stat b
cut b 14
create 2 d
stat d
sync
END

# `c` has no links: it is an orphan until the next mount frees it, with its 19 blocks.
"$life" check disk.img
"$life" steps disk.img <<'END'
mount
create 1 e
grow e 19
stat e
END
