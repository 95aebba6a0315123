#!/usr/bin/env bash
# Boots Linux above the monitor on QEMU's virt board, with what build.sh has made: a prompt on this terminal; `poweroff` ends it.
#
#   examples/linux/boot.sh [OUT [QEMU_WORD...]]     OUT: examples/linux/out
#
#   HARTS=4          how many harts, 1 to 4
#   MEMORY=256       how many megabytes, 128 or more
#   FIRMWARE=FILE    another firmware than OUT/pmpmon-virt.elf; `default` is OpenSBI, above which there are no enclaves
#   INITRAMFS=FILE   another than OUT/initramfs.gz
#   WORDS="..."      more words for the kernel
set -eu
here=$(dirname "$(realpath "$0")")
out=$(realpath -m "${1:-$here/out}")
[ $# = 0 ] || shift
firmware=${FIRMWARE:-$out/pmpmon-virt.elf} initramfs=${INITRAMFS:-$out/initramfs.gz}
for it in "$out/Image" "$initramfs" "$firmware"; do
    [ "$it" != default ] || continue
    [ -f "$it" ] && continue
    echo "boot.sh: $it is missing: examples/linux/build.sh makes it" >&2
    exit 1
done
exec qemu-system-riscv64 -machine virt -smp "${HARTS:-4}" -m "${MEMORY:-256}" -display none -monitor none -serial stdio -no-reboot -bios "$firmware" \
    -kernel "$out/Image" -initrd "$initramfs" -append "console=ttyS0 ${WORDS:-loglevel=4}" "$@"
