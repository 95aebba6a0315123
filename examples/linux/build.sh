#!/usr/bin/env bash
# Makes what Linux above the monitor needs, from Debian's packages: kernel, driver, programs, enclaves, initramfs, firmware.
#
#   examples/linux/build.sh [OUT [FILE...]]            OUT: examples/linux/out
#   examples/linux/build.sh --kernel                   the kernel alone; it prints its folder
#
# It leaves in OUT:
#   Image               Linux 6.1 of Debian's linux-source-6.1, unmodified, with kernel.config
#   initramfs.gz        of the folder root/: the driver, the programs in bin/, and enclaves/: those of examples/linux/enclaves and
#                       the files that are named
#   pmpmon-virt.elf     the monitor, with 16 MiB for enclaves (POOL=BASE,SIZE for others); FIRMWARE=no leaves it out
#
# The kernel takes two and a half minutes on four cores, and 2 GB. It is built once, in the folder PMPMON_KERNELS
# (~/.cache/pmpmon/kernels), below the checksum of its source and configuration. KERNEL_CONFIG=FILE has more options for it
# (lockdep.config); JOBS=4 builds it faster.
#
#   apt-get install --no-install-recommends linux-source-6.1 gcc-riscv64-linux-gnu libc6-dev-riscv64-cross \
#       gcc-riscv64-unknown-elf qemu-system-misc make bc bison flex cpio xz-utils
set -eu
here=$(dirname "$(realpath "$0")")
top=$(realpath "$here/../..")
out=${1:-$here/out}
[ $# = 0 ] || shift
archive=/usr/src/linux-source-6.1.tar.xz
export ARCH=riscv CROSS_COMPILE=riscv64-linux-gnu- KBUILD_BUILD_USER=pmpmon KBUILD_BUILD_HOST=pmpmon KBUILD_BUILD_TIMESTAMP=1970-01-01

# What is missing, before anything is made.
missing=()
for it in "${CROSS_COMPILE}gcc" riscv64-unknown-elf-gcc make bc bison flex cpio xz; do
    command -v "$it" >/dev/null || missing+=("$it")
done
[ -f "$archive" ] || missing+=(linux-source-6.1)
if [ ${#missing[@]} != 0 ]; then
    echo "build.sh: missing: ${missing[*]} (the packages are named at its top)" >&2
    exit 1
fi

# The kernel, in a folder that gets its name when it is whole.
kernels=${PMPMON_KERNELS:-${XDG_CACHE_HOME:-$HOME/.cache}/pmpmon/kernels}
options=("$here/kernel.config" ${KERNEL_CONFIG:+"$(realpath "$KERNEL_CONFIG")"})
name=$({ sha256sum <"$archive"; cat "${options[@]}"; "${CROSS_COMPILE}gcc" -dumpfullversion; } | sha256sum | cut -c1-16)
kernel=$kernels/$name
if [ ! -d "$kernel" ]; then
    echo "build.sh: building the kernel, once, in $kernel" >&2
    mkdir -p "$kernels"
    place=$(mktemp -d "$kernels/new.XXXXXX")
    trap 'rm -rf "$place"' EXIT
    # (of other architectures and of one family of graphics cards, what is large and not read)
    tar -C "$place" --strip-components=1 --exclude='*/drivers/gpu/drm/amd/include' --exclude='*/arch/arm*/boot/dts' -xf "$archive"
    make -s -C "$place" tinyconfig >/dev/null
    (cd "$place" && scripts/kconfig/merge_config.sh -m .config "${options[@]}" >/dev/null 2>&1)
    make -s -C "$place" olddefconfig >&2
    make -s -j"${JOBS:-$(nproc)}" -C "$place" Image modules >&2
    # (where another build was first, its kernel is the same)
    mv -T "$place" "$kernel" 2>/dev/null || [ -d "$kernel" ]
    [ -d "$place" ] || trap - EXIT
fi

if [ "$out" = --kernel ]; then
    echo "$kernel"
    exit
fi
out=$(realpath -m "$out")

# The driver is built beside its sources, so in a copy.
rm -rf "$out/driver" "$out/root"
mkdir -p "$out/root/bin" "$out/root/enclaves"
cp "$kernel/arch/riscv/boot/Image" "$out/Image"
cp -r "$here/driver" "$out/driver"
make -s -C "$kernel" M="$out/driver" modules
cp "$out/driver/pmpmon.ko" "$out/root/"

# Programs and enclaves.
flags=(-static -std=gnu11 -O2 -Wall -Wextra -Werror -I"$top/include")
"${CROSS_COMPILE}gcc" "${flags[@]}" -o "$out/root/init" "$here/programs/init.c"
for it in run look; do
    "${CROSS_COMPILE}gcc" "${flags[@]}" -o "$out/root/bin/pmpmon-$it" "$here/programs/pmpmon_$it.c" "$here/programs/enclave_file.c"
done
make -s -C "$here/enclaves" OUT="$out/root/enclaves"
[ $# = 0 ] || cp "$@" "$out/root/enclaves/"
(cd "$out/root" && find . | sort | cpio -o -H newc --quiet -R 0:0 --reproducible | gzip -9n) >"$out/initramfs.gz"

[ "${FIRMWARE:-}" = no ] || POOL=${POOL:-0x83000000,0x1000000} "$top/firmware/build" "$here/platform.toml" "$out"
