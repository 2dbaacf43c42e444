/* The functions of the crate `probe`, which are for the tests alone: the check values, whole and in pieces, hex digits, and the test of a
   JSON text. A slice is a pointer, then a length. */
#ifndef PROBE_H
#define PROBE_H

#include "prelude.h"

u16 probe_nikobus_crc16(const u8 *s, usize n);
u8 probe_nikobus_crc8(const u8 *s, usize n);
u16 probe_nest_crc(const u8 *s, usize n);
u8 probe_nibe_xor(const u8 *s, usize n);
u8 probe_homiq_crc(const u8 *s, usize n);

u16 probe_nikobus_crc16_after(u16 v, const u8 *s, usize n);
u8 probe_nikobus_crc8_after(u8 v, const u8 *s, usize n);
u16 probe_nest_crc_after(u16 v, const u8 *s, usize n);
u8 probe_nibe_xor_after(u8 v, const u8 *s, usize n);
u8 probe_homiq_crc_after(u8 v, const u8 *s, usize n);

usize probe_hex(const u8 *s, usize n, u8 *room, usize room_length, usize at);

_Bool probe_jsontext(const u8 *s, usize n);

#endif
