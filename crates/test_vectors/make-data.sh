#!/bin/sh
# Makes data/ again: two seeds, and for each the first 4,096 bytes of its key stream (nonce zero, counter from 0) as OpenSSL's ChaCha20
# has it. OpenSSL's 16-byte iv is the counter's four little-endian bytes and then the nonce. The files come out the same each time.
set -eu
cd "$(dirname "$0")/data"
printf '%s' 000102030405060708090a0b0c0d0e0f101112131415161718191a1b1c1d1e1f | xxd -r -p >first.seed
printf 'a piece on a square-root grid' | openssl dgst -sha256 -binary >second.seed
for name in first second; do
    head -c 4096 /dev/zero |
        openssl enc -chacha20 -nosalt -K "$(xxd -p -c 32 "$name.seed")" -iv 00000000000000000000000000000000 >"$name.stream"
done
