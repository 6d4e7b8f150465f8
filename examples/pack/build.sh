#!/bin/sh
# Builds the packer, its codecs, and the four libraries that these are of.
#
#     CC=wdyl-cc sh examples/pack/build.sh SOURCES FOLDER
#
# SOURCES is a folder in which `apt-get source zlib bzip2 lz4 xz-utils` was said. With CC=cc the same is built for this machine.
set -eu

cc=${CC:-cc}
sources=$(cd "$1" && pwd)
here=$(cd "$(dirname "$0")" && pwd)
mkdir -p "$2"
cd "$2"

# The folder of a package's sources, of whichever version.
source_of() {
    set -- "$sources/$1"-*/
    [ -d "$1" ] || { echo "the sources aren't there: apt-get source zlib bzip2 lz4 xz-utils"; exit 1; }
    echo "${1%/}"
}

# A library, and then what it is made of and the options.
library() {
    output=$1
    shift
    $cc -O2 -w -fPIC -shared "$@" -L. -o "$output"
}

# The files of a folder that are named without their ending.
files() {
    folder=$1
    shift
    for name in "$@"; do echo "$folder/$name.c"; done
}

zlib=$(source_of zlib) bzip2=$(source_of bzip2) lz4=$(source_of lz4)/lib xz=$(source_of xz-utils)/src
lzma=$xz/liblzma

library libz.so $(files "$zlib" adler32 compress crc32 deflate inffast inflate inftrees trees uncompr zutil)
library codec-zlib.so "$here/codec-zlib.c" "-I$zlib" -lz

library libbz2.so -DBZ_NO_STDIO $(files "$bzip2" blocksort bzlib compress crctable decompress huffman randtable) "$here/bzip2-error.c"
library codec-bzip2.so "$here/codec-bzip2.c" "-I$bzip2" -lbz2

library liblz4.so $(files "$lz4" lz4 lz4hc)
library codec-lz4.so "$here/codec-lz4.c" "-I$lz4" -llz4

# What xz's own configuration would find: the coders of .xz files, two checks, and no threads.
library liblzma.so -DHAVE_STDBOOL_H -DHAVE_STDINT_H -DHAVE_INTTYPES_H -DHAVE_LIMITS_H -DHAVE_VISIBILITY=0 -DSIZEOF_SIZE_T=__SIZEOF_SIZE_T__ \
    -DTUKLIB_SYMBOL_PREFIX=lzma_ -DHAVE_ENCODERS -DHAVE_DECODERS -DHAVE_ENCODER_LZMA1 -DHAVE_ENCODER_LZMA2 -DHAVE_DECODER_LZMA1 \
    -DHAVE_DECODER_LZMA2 -DHAVE_CHECK_CRC32 -DHAVE_CHECK_CRC64 -DHAVE_MF_BT4 -DNDEBUG \
    "-I$here/without" "-I$xz/common" "-I$lzma/api" "-I$lzma/common" "-I$lzma/check" "-I$lzma/lz" "-I$lzma/lzma" "-I$lzma/rangecoder" "-I$lzma/simple" \
    "-I$lzma/delta" \
    $(files "$lzma/common" block_buffer_decoder block_buffer_encoder block_decoder block_encoder block_header_decoder block_header_encoder \
        block_util common filter_common filter_decoder filter_encoder filter_flags_decoder filter_flags_encoder index index_encoder \
        index_hash stream_buffer_decoder stream_buffer_encoder stream_decoder stream_flags_common stream_flags_decoder \
        stream_flags_encoder vli_decoder vli_encoder vli_size) \
    $(files "$lzma/check" check crc32_fast crc32_table crc64_fast crc64_table) \
    $(files "$lzma/lz" lz_decoder lz_encoder lz_encoder_mf) \
    $(files "$lzma/lzma" fastpos_table lzma2_decoder lzma2_encoder lzma_decoder lzma_encoder lzma_encoder_optimum_fast \
        lzma_encoder_optimum_normal lzma_encoder_presets) \
    $(files "$lzma/rangecoder" price_table)
library codec-xz.so "$here/codec-xz.c" "-I$lzma/api" -llzma

case $cc in
*wdyl-cc*) $cc -O2 "$here/packer.c" -o packer.wasm ;;
*) $cc -O2 "$here/packer.c" -ldl -o packer ;;
esac
