// What a codec is to the packer: a library codec-NAME.so with these three functions, which is opened when an archive wants it.

#ifndef CODEC_H
#define CODEC_H

#include <stddef.h>

// The most bytes that so many take when they are packed.
size_t packed_bound(size_t length);

// Packs a block. Gives how many bytes are written, or 0 where it fails.
size_t pack(unsigned char *to, size_t room, const unsigned char *from, size_t length);

// Unpacks a block. Gives how many bytes are written, or 0 where it isn't one.
size_t unpack(unsigned char *to, size_t room, const unsigned char *from, size_t length);

#endif
