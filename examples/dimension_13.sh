#!/usr/bin/env bash
# Writes a stored file of dimension 13: the word of zeros over the span of 1, 2, 4 .. 4096 in GF(2^13), and its proof, 8847405 bytes.
set -eu
printf '\x53\x45\x1B\x20\0\0\x0D'
printf '\x01\0\x02\0\x04\0\x08\0\x10\0\x20\0\x40\0\x80\0\0\x01\0\x02\0\x04\0\x08\0\x10'
printf '\x57\x4F\0\x20\0\0'
head -c $((2 * 8192)) /dev/zero
printf '\x50\x46\0\x60\x43\0'
head -c $((2 * 4415488)) /dev/zero
