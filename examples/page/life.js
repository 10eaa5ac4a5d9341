// The game of life on a torus of 512 by 384 cells, as asm.js was written by hand. The first generation is random words of the host.
// A cell is a byte: 0, or for how many generations it has lived, up to 255. One generation lies at 0 and the other at 196608,
// and the picture at 1048576, four bytes a point: red, green, blue, 255.
function life(stdlib, foreign, heap) {
  "use asm";
  var cells = new stdlib.Uint8Array(heap);
  var points = new stdlib.Int32Array(heap);
  var random = foreign.random;
  var now = 0;

  function sow() {
    var at = 0, bits = 0;
    now = 0;
    for (; (at | 0) < 196608; at = at + 1 | 0) {
      if ((at & 31) == 0) bits = random() | 0;
      cells[at >> 0] = (bits & 3) == 0;
      bits = bits >>> 1;
    }
  }

  // Whether there is life so many cells after the beginning of a row.
  function lives(row, column) {
    row = row | 0;
    column = column | 0;
    return (cells[row + (column & 511) >> 0] | 0) != 0 | 0;
  }

  function three(row, column) {
    row = row | 0;
    column = column | 0;
    return (lives(row, column - 1 | 0) | 0) + (lives(row, column) | 0) + (lives(row, column + 1 | 0) | 0) | 0;
  }

  // Counts what lives in the generation that is made of this one.
  function step() {
    var row = 0, column = 0, above = 0, here = 0, below = 0, next = 0, age = 0, count = 0, living = 0;
    next = 196608 - now | 0;
    for (; (row | 0) < 384; row = row + 1 | 0) {
      above = now + (((row + 383 | 0) % 384 | 0) << 9) | 0;
      here = now + (row << 9) | 0;
      below = now + (((row + 1 | 0) % 384 | 0) << 9) | 0;
      for (column = 0; (column | 0) < 512; column = column + 1 | 0) {
        age = cells[here + column >> 0] | 0;
        count = (three(above, column) | 0) + (three(here, column) | 0) + (three(below, column) | 0) | 0;
        // Three of the nine, or four with the middle one.
        if (((count | 0) == 3) | ((count | 0) == 4) & ((age | 0) != 0)) age = age + ((age | 0) != 255) | 0;
        else age = 0;
        cells[next + (row << 9) + column >> 0] = age;
        living = living + ((age | 0) != 0) | 0;
      }
    }
    now = next;
    return living | 0;
  }

  function paint() {
    var at = 0, age = 0, colour = 0;
    for (; (at | 0) < 196608; at = at + 1 | 0) {
      age = cells[now + at >> 0] | 0;
      colour = 0xff281810 | 0;
      if (age) colour = 0xff000000 | age << 16 | 255 - age << 8 | 255 - (age >> 1);
      points[1048576 + (at << 2) >> 2] = colour;
    }
  }

  // Goes on for so many generations, and draws the last. Answers how many cells live in it.
  function draw(generations) {
    generations = generations | 0;
    var living = 0;
    for (; (generations | 0) > 0; generations = generations - 1 | 0) living = step() | 0;
    paint();
    return living | 0;
  }

  return { sow: sow, draw: draw };
}
