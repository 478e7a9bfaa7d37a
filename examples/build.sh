#!/bin/sh
# Builds the executables of this folder with Debian's cross compiler (package gcc-sparc64-linux-gnu, version 12.2). Where a source
# asks for products, the compiler calls a routine `.umul`, which stands in multiply.S.
set -e
cd "$(dirname "$0")"
for source in *.c; do
    case $source in
        attitude.c | scale.c) more=multiply.S ;;
        *) more= ;;
    esac
    sparc64-linux-gnu-gcc -m32 -mcpu=v7 -O2 -ffreestanding -fno-asynchronous-unwind-tables -fno-pic \
        -nostdlib -static -Wl,-n -Wl,--build-id=none -Wl,-T,link.ld -Wl,-e,0x02000000 -o "${source%.c}.elf" "$source" $more
done
