/* The unit checksum, bit by bit: CRC-32C over uuid, object, unit, the number of valid bytes and these bytes. */
#ifndef CHECKSUM_H
#define CHECKSUM_H

#include "sangueko.h"

/* The register after `len` more bytes. */
static uint32_t feed(uint32_t crc, const uint8_t *bytes, size_t len)
{
    for (size_t i = 0; i < len; i++) {
        crc ^= bytes[i];
        for (int bit = 0; bit < 8; bit++)
            crc = crc >> 1 ^ (crc & 1 ? 0x82f63b78 : 0);
    }
    return crc;
}

/* The register after a number of so many bytes, most significant first. */
static uint32_t feed_number(uint32_t crc, uint64_t number, int len)
{
    for (int i = len - 1; i >= 0; i--) {
        uint8_t byte = (uint8_t)(number >> 8 * i);
        crc = feed(crc, &byte, 1);
    }
    return crc;
}

static uint32_t unit_checksum(const uint8_t *uuid, uint64_t object, uint64_t unit, const uint8_t *bytes, uint32_t len)
{
    uint32_t crc = feed(UINT32_MAX, uuid, SANGUEKO_UUID_BYTES);
    crc = feed_number(crc, object, 8);
    crc = feed_number(crc, unit, 8);
    crc = feed_number(crc, len, 4);
    return ~feed(crc, bytes, len);
}

#endif
