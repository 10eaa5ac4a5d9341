// The Mandelbrot set in whole numbers: a fixed number is 2^28 times what it stands for, from -8 to 8.
// Made into mandelbrot.wasm by build.sh. The picture lies in the host's memory from 65536 on, four bytes a point: red, green, blue, 255.
typedef unsigned char u8;
typedef unsigned int u32;
typedef int fixed;

#define EXPORT(name) __attribute__((export_name(#name)))
#define WIDTH 512
#define HEIGHT 384
#define TWO (2 << 28)

static u8 *const picture = (u8 *)65536;

// The product's 64 bits are put together of products of 16 bits, since words of 64 bits can't be multiplied where the translation is to run.
static fixed times(fixed a, fixed b) {
  u32 x = a < 0 ? -(u32)a : (u32)a, y = b < 0 ? -(u32)b : (u32)b;
  u32 x1 = x >> 16, x0 = x & 65535, y1 = y >> 16, y0 = y & 65535;
  u32 low = x0 * y0, left = x1 * y0, right = x0 * y1;
  u32 middle = (low >> 16) + (left & 65535) + (right & 65535);
  u32 high = x1 * y1 + (left >> 16) + (right >> 16) + (middle >> 16);
  u32 product = high << 4 | (middle << 16 | (low & 65535)) >> 28;
  return (a ^ b) < 0 ? -product : product;
}

// How often z = z * z + c stays within 2 of the origin, up to `depth` times.
static u32 turns(fixed cx, fixed cy, u32 depth) {
  fixed x = 0, y = 0;
  for (u32 n = 0; n < depth; n++) {
    if (x > TWO || x < -TWO || y > TWO || y < -TWO) return n;
    fixed xx = times(x, x), yy = times(y, y);
    if ((u32)xx + (u32)yy > 4u << 28) return n;
    y = 2 * times(x, y) + cy;
    x = xx - yy + cx;
  }
  return depth;
}

// Sixteen colours in a ring, and sixteen steps from each to the next.
static const u8 ring[16][3] = {
    {66, 30, 15},    {25, 7, 26},     {9, 1, 47},      {4, 4, 73},     {0, 7, 100},    {12, 44, 138},  {24, 82, 177}, {57, 125, 209},
    {134, 181, 229}, {211, 236, 248}, {241, 233, 191}, {248, 201, 95}, {255, 170, 0},  {204, 128, 0},  {153, 87, 0},  {106, 52, 3},
};

static void paint(u8 *point, u32 n, u32 depth) {
  u32 step = n * 6 + 36 & 255;
  const u8 *from = ring[step >> 4], *to = ring[(step >> 4) + 1 & 15];
  for (u32 k = 0; k < 3; k++) point[k] = n == depth ? 0 : from[k] + ((to[k] - from[k]) * (int)(step & 15) >> 4);
  point[3] = 255;
}

// Draws what lies right of `left` and below `top`, with points that are `step` wide. Answers how many points stayed within.
EXPORT(draw) u32 draw(fixed left, fixed top, fixed step, u32 depth) {
  u32 inside = 0;
  u8 *point = picture;
  for (u32 row = 0; row < HEIGHT; row++) {
    for (u32 column = 0; column < WIDTH; column++, point += 4) {
      u32 n = turns(left + column * step, top - row * step, depth);
      inside += n == depth;
      paint(point, n, depth);
    }
  }
  return inside;
}
