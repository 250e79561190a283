#!/usr/bin/env bash
# Crashes and what comes back: a change that a `sync` acknowledged is there after the next mount, and one that was lost leaves nothing.
set -eu
life=$(dirname "$(readlink -f "$0")")/../bin/life
place=$(mktemp -d)
trap 'rm -rf "$place"' EXIT
cd "$place"
"$life" make disk.img 1 64 256

# `a` is on the disk and `b` is not as the device stops. The next mount keeps one change, and 193 was never made.
"$life" steps disk.img <<'END'
mount
create 0 a
sync
create 0 b
stop
mount
create 0 c
END

# A stop within the write of a record: only its first sector passes. The torn record counts for nothing, so the next mount keeps nothing of this one, and 193 is
# still free. 192 is there.
"$life" steps disk.img <<'END'
mount
create 0 d
stop 1 1
sync
mount
create 0 e
END
"$life" check disk.img

# An inode without links, with three blocks. The mount that would free it is stopped at its first write, and so is the next one between two of its writes. The
# third frees it.
"$life" steps disk.img <<'END'
mount
tmpfile 0 t
grow t 3
sync
stop
stop 1 0
mount
stop 3 0
mount
mount
unmount
END
"$life" check disk.img
