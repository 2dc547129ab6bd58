#!/bin/sh
# Makes the file `stdout` beside it by coreutils' sha1sum, of the messages of src/main.rt in their order.
cd "$(dirname "$0")" || exit 1

digits() { yes 0123456789 | tr -d '\n' | head -c "$1"; }

{
    printf '' | sha1sum
    printf 'abc' | sha1sum
    printf 'abcdbcdecdefdefgefghfghighijhijkijkljklmklmnlmnomnopnopq' | sha1sum
    printf 'abcdefghbcdefghicdefghijdefghijkefghijklfghijklmghijklmnhijklmnoijklmnopjklmnopqklmnopqrlmnopqrsmnopqrstnopqrstu' | sha1sum
    head -c 1000000 /dev/zero | tr '\0' 'a' | sha1sum
    for n in 55 56 63 64 65 119 120 8192; do digits "$n" | sha1sum; done
} | cut -c1-40 >stdout
