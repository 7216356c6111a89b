// CRC-32 as zlib's, of bytes that come piece by piece: a sum that two runs can be compared by.
const TABLE = Uint32Array.from({ length: 256 }, (_, n) => {
  for (let k = 0; k < 8; k++) n = n & 1 ? n >>> 1 ^ 0xedb88320 : n >>> 1;
  return n;
});

export function crc(bytes, before = 0) {
  let sum = ~before;
  for (const it of bytes) sum = TABLE[(sum ^ it) & 255] ^ sum >>> 8;
  return ~sum >>> 0;
}
