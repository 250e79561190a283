#!/usr/bin/env bash
# An image is made, and checked; then a sector of it is lost, and the check names the damage.
set -u
life=$(dirname "$(readlink -f "$0")")/../bin/life
place=$(mktemp -d)
trap 'rm -rf "$place"' EXIT
cd "$place"

# Two groups of 64 blocks, and a log of 256 sectors.
"$life" make disk.img 2 64 256
"$life" check disk.img

# Nothing is made where something stands.
"$life" make disk.img 2 64 256
echo "status $?"

# The header of the second group: its sector 2, which is sector 514 of the image.
dd if=/dev/zero of=disk.img bs=512 seek=514 count=1 conv=notrunc status=none
"$life" check disk.img
echo "status $?"
