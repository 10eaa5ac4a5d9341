// Checksums, base64, packing and sorting of bytes in a memory that the host gives. Whole numbers only, no library.
// Made into bytes.wasm by build.sh. Places are addresses in that memory; what lies below 65536 is the program's own.
typedef unsigned char u8;
typedef unsigned int u32;
typedef unsigned long long u64;

// What the host gives: it is told of a character that isn't base64, and it says where hashes begin.
__attribute__((import_module("env"), import_name("refuse"))) void refuse(u32 place, u32 character);
__attribute__((import_module("env"), import_name("seed"))) u64 seed(void);

#define EXPORT(name) __attribute__((export_name(#name)))

// ---- CRC-32 (IEEE 802.3), with a table that is made at the first call

static u32 crc_table[256];

static void make_crc_table(void) {
  for (u32 byte = 0; byte < 256; byte++) {
    u32 c = byte;
    for (int bit = 0; bit < 8; bit++) c = c & 1 ? c >> 1 ^ 0xEDB88320u : c >> 1;
    crc_table[byte] = c;
  }
}

EXPORT(crc32) u32 crc32(const u8 *from, u32 length) {
  if (!crc_table[1]) make_crc_table();
  u32 c = ~0u;
  for (u32 i = 0; i < length; i++) c = c >> 8 ^ crc_table[(c ^ from[i]) & 255];
  return ~c;
}

// ---- a hash of 64 bits by xors and shifts (Marsaglia's xorshift)

EXPORT(hash) u64 hash(u64 state, const u8 *from, u32 length) {
  for (u32 i = 0; i < length; i++) {
    state ^= from[i];
    state ^= state << 13;
    state ^= state >> 7;
    state ^= state << 17;
  }
  return state;
}

EXPORT(keyed_hash) u64 keyed_hash(const u8 *from, u32 length) { return hash(seed(), from, length); }

// ---- base64 (RFC 4648): each answers how many bytes it wrote

static const char digits[] = "ABCDEFGHIJKLMNOPQRSTUVWXYZabcdefghijklmnopqrstuvwxyz0123456789+/";

EXPORT(encode) u32 encode(const u8 *from, u32 length, u8 *to) {
  u8 *start = to;
  for (u32 i = 0; i < length; i += 3) {
    u32 left = length - i;
    u32 three = (u32)from[i] << 16 | (left > 1 ? from[i + 1] << 8 : 0) | (left > 2 ? from[i + 2] : 0);
    *to++ = digits[three >> 18];
    *to++ = digits[three >> 12 & 63];
    *to++ = left > 1 ? digits[three >> 6 & 63] : '=';
    *to++ = left > 2 ? digits[three & 63] : '=';
  }
  return to - start;
}

// What a character stands for, or -1.
static int value_of(u8 c) {
  switch (c) {
    case 'A' ... 'Z': return c - 'A';
    case 'a' ... 'z': return c - 'a' + 26;
    case '0' ... '9': return c - '0' + 52;
    case '+': return 62;
    case '/': return 63;
    default: return -1;
  }
}

EXPORT(decode) u32 decode(const u8 *from, u32 length, u8 *to) {
  u8 *start = to;
  u32 bits = 0, count = 0;
  for (u32 i = 0; i < length && from[i] != '='; i++) {
    int value = value_of(from[i]);
    if (value < 0) {
      refuse((u32)(from + i), from[i]);
      continue;
    }
    bits = bits << 6 | value;
    count += 6;
    if (count >= 8) *to++ = bits >> (count -= 8);
  }
  return to - start;
}

// ---- packing (LZ77): a byte n below 128 stands before n + 1 bytes as they are; one of 128 or more before
// a distance of two bytes, and says that n - 124 bytes from that distance back come again

#define WINDOW 4096
#define SHORTEST 4
#define LONGEST 131

static u32 places[1024];  // for each hash of four bytes, where they stood last, and 1

static u32 slot_of(const u8 *at) { return (at[0] | at[1] << 8 | at[2] << 16 | (u32)at[3] << 24) * 2654435761u >> 22; }

static u32 shared_length(const u8 *a, const u8 *b, u32 most) {
  u32 n = 0;
  while (n < most && a[n] == b[n]) n++;
  return n;
}

// Writes the bytes from `from` up to `end` as they are.
static u8 *put_plain(const u8 *from, const u8 *end, u8 *to) {
  while (from < end) {
    u32 n = end - from < 128 ? end - from : 128;
    *to++ = n - 1;
    __builtin_memcpy(to, from, n);
    to += n;
    from += n;
  }
  return to;
}

EXPORT(pack) u32 pack(const u8 *from, u32 length, u8 *to) {
  u8 *start = to;
  u32 i = 0, plain = 0;
  __builtin_memset(places, 0, sizeof places);
  while (i + SHORTEST <= length) {
    u32 slot = slot_of(from + i), before = places[slot], n = 0;
    places[slot] = i + 1;
    if (before && i + 1 - before < WINDOW) {
      u32 left = length - i;
      n = shared_length(from + before - 1, from + i, left < LONGEST ? left : LONGEST);
    }
    if (n < SHORTEST) {
      i++;
      continue;
    }
    to = put_plain(from + plain, from + i, to);
    u32 distance = i + 1 - before;
    *to++ = 124 + n;
    *to++ = distance;
    *to++ = distance >> 8;
    plain = i += n;
  }
  return put_plain(from + plain, from + length, to) - start;
}

EXPORT(unpack) u32 unpack(const u8 *from, u32 length, u8 *to) {
  u8 *start = to;
  const u8 *end = from + length;
  while (from < end) {
    u32 n = *from++;
    if (n < 128) {
      __builtin_memcpy(to, from, n + 1);
      from += n + 1;
      to += n + 1;
      continue;
    }
    u32 distance = from[0] | from[1] << 8;
    from += 2;
    for (n -= 124; n; n--, to++) *to = *(to - distance);
  }
  return to - start;
}

// ---- sorting words (heap sort) by an order that the host names by its number

typedef int Order(u32 a, u32 b);

static int by_value(u32 a, u32 b) { return a < b; }
static int by_signed_value(u32 a, u32 b) { return (int)a < (int)b; }
static int by_last_byte(u32 a, u32 b) { return (signed char)a < (signed char)b; }

static Order *const orders[] = {by_value, by_signed_value, by_last_byte};

// Lets the word at `at` sink until none below it is larger.
static void sink(u32 *words, u32 at, u32 count, Order *order) {
  for (u32 child; (child = 2 * at + 1) < count; at = child) {
    if (child + 1 < count && order(words[child], words[child + 1])) child++;
    if (!order(words[at], words[child])) return;
    u32 word = words[at];
    words[at] = words[child];
    words[child] = word;
  }
}

EXPORT(sort) void sort(u32 *words, u32 count, u32 order) {
  for (u32 at = count / 2; at--;) sink(words, at, count, orders[order]);
  for (u32 last = count; last-- > 1;) {
    u32 word = words[last];
    words[last] = words[0];
    words[0] = word;
    sink(words, 0, last, orders[order]);
  }
}
