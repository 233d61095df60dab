#!/usr/bin/env bash
# Renames the crate check to book_check, once: the toolchain has a library named check. Run it at the top of the repository.
set -eu
mv crates/check crates/book_check
grep -rlE 'Rattle\.check\.|\bcheck::' crates --include=*.rt --include=*.antt --include=*.edit |
    xargs sed -i -E 's/Rattle\.check\./Rattle.book_check./g; s/(^|[^:A-Za-z0-9_])check::/\1book_check::/g'
sed -i -E 's/(^| )check( |:|$)/\1book_check\2/g' crates.txt
for folder in crates/*/; do (cd "$folder" && rt fmt > /dev/null); done
