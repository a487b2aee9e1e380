#!/bin/sh
# Builds bench.c with the keeper's archive and Debian's BearSSL, mbedTLS, OpenSSL and libbfd, runs it beside SRecord's and binutils'
# programs too, and writes docs/PERFORMANCE.md. `make bench` runs it at the top of the repository, when target/staticlib/libkeeper_c.a,
# target/bin/hex_export and target/bin/hex_import are there.
set -eu
unset OPENSSL_ia32cap
here=hosts/bench
work=target/bench
keeper=target/staticlib/libkeeper_c.a
packages="libbearssl-dev libmbedtls-dev libssl-dev binutils-dev srecord"
mkdir -p $work/hex

missing=
for p in $packages; do
    dpkg-query -W -f '${Status}' $p 2>/dev/null | grep -q 'ok installed' || missing="$missing $p"
done
install() { apt-get install -y -qq --no-upgrade $missing; }
[ -z "$missing" ] || { install || { apt-get update -qq && install; }; } >$work/apt.log 2>&1 || { cat $work/apt.log >&2; exit 1; }
lib=$(dirname "$(dpkg -L libbearssl-dev | grep '/libbearssl\.a$')")

# BearSSL once more, compiled for speed from Debian's source, all but the functions of bearssl.c made local to one object.
source_of_bearssl() {
    [ -d $work/bearssl/src ] && return
    mkdir -p $work/lists/partial $work/sources $work/bearssl
    # The machine's own sources of packages, taken as sources of source packages; those that have none are passed over.
    for list in /etc/apt/sources.list /etc/apt/sources.list.d/*; do
        [ -f "$list" ] || continue
        case $list in
        *.list) sed -n 's/^deb[[:blank:]]/deb-src /p' "$list" >"$work/sources/${list##*/}" ;;
        *.sources) sed 's/^Types:.*/Types: deb-src/' "$list" >"$work/sources/${list##*/}" ;;
        esac
    done
    set -- -qq -o Dir::Etc::sourcelist=/dev/null -o Dir::Etc::sourceparts="$PWD/$work/sources" -o Dir::State::lists="$PWD/$work/lists"
    apt-get "$@" update || true
    (cd $work && apt-get "$@" source --download-only bearssl) &&
        tar -xf $work/bearssl_*.orig.tar.* -C $work/bearssl --strip-components=1
}
fast=
if source_of_bearssl >$work/source.log 2>&1; then
    mkdir -p $work/fast
    from=$PWD/$work/bearssl
    (cd $work/fast && gcc -O3 -w -I$from/inc -I$from/src -c $from/src/symcipher/aes_small_*.c $from/src/symcipher/aes_big_*.c \
        $from/src/symcipher/aes_ct64*.c $from/src/symcipher/aes_common.c $from/src/hash/ghash_ctmul*.c $from/src/aead/gcm.c $from/src/codec/*.c)
    gcc -std=c11 -O2 -DFAST_NAMES -c -o $work/bearssl_fast.o $here/bearssl.c
    ld -r -o $work/fast.o $work/bearssl_fast.o $work/fast/*.o
    objcopy --wildcard --keep-global-symbol='fast_*' $work/fast.o
    fast="-DFAST $work/fast.o"
fi

gcc -std=c11 -O2 -Wall -Wextra -Ihosts/c -o $work/bench $here/bench.c $here/bearssl.c $here/bfd.c $fast $keeper $lib/libbearssl.a \
    $lib/libmbedcrypto.a $lib/libcrypto.a -lbfd -Wl,--wrap=mbedtls_aesni_has_support -Wl,-z,now

# Bytes of code and constants that a program gets which calls the functions named.
linked() {
    name=$1 archive=$2
    shift 2
    roots=
    for f in "$@"; do roots="$roots -u $f"; done
    ld -static --gc-sections --unresolved-symbols=ignore-all -e "$1" $roots -o $work/linked $archive
    size -A $work/linked | awk -v name="$name" '/^\.text/ { t += $2 } /^\.rodata|^\.data\.rel\.ro/ { r += $2 } END { print name "|" t "|" r + 0 }'
}
calls=$(nm -g --defined-only $keeper | awk '$2 == "T" { print $3 }')
bear="br_gcm_init br_gcm_reset br_gcm_aad_inject br_gcm_flip br_gcm_run br_gcm_get_tag br_gcm_check_tag"
{
    linked "Godwitshelf, the unit's calls: every call but the bench's" $keeper $(echo "$calls" | grep -v '^keeper_hex_\|^keeper_ring_shape$\|^keeper_factory_check$\|^keeper_chain_order$')
    linked "Godwitshelf, every call" $keeper $calls
    linked "Godwitshelf, sealing and opening" $keeper keeper_seal keeper_open
    linked "Godwitshelf, Intel HEX" $keeper keeper_hex_export keeper_hex_import
    linked "BearSSL small + ctmul32, sealing and opening" $lib/libbearssl.a $bear br_aes_small_ctr_init br_ghash_ctmul32
    linked "BearSSL ct64 + ctmul64, sealing and opening" $lib/libbearssl.a $bear br_aes_ct64_ctr_init br_ghash_ctmul64
    linked "BearSSL big + ctmul32, sealing and opening" $lib/libbearssl.a $bear br_aes_big_ctr_init br_ghash_ctmul32
} >$work/sizes

{
    echo "Godwitshelf: $(rt version)."
    for p in $packages; do dpkg-query -W -f '${Package} ${Version}\n' $p; done
    gcc --version | head -n 1
} >$work/facts
symbols=$(nm -u $keeper | awk '$1 == "U" { print $2 }' | sort -u | tr '\n' ' ')

$work/bench $work/PERFORMANCE.md $work/facts $work/sizes "${symbols% }" "$PWD/target/bin" $work/hex
mv $work/PERFORMANCE.md docs/PERFORMANCE.md
cat docs/PERFORMANCE.md
