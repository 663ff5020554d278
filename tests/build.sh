#!/usr/bin/env bash
# Proves and builds the programs find and ask and the gateway's archive, and puts them where the tests look: target/bin, target/staticlib. Run from the
# repository's top.
set -u
mkdir -p target/bin target/staticlib
for program in find ask; do
    (cd "crates/$program" && rt run </dev/null >/dev/null 2>"../../target/$program.log") || { cat "target/$program.log"; exit 1; }
    cp "crates/$program/out/$program" target/bin/ || exit 1
done
(cd crates/gateway && rt lib >../../target/gateway.log 2>&1) || { cat target/gateway.log; exit 1; }
cp crates/gateway/out/libgateway.a target/staticlib/
