function zeros(stdlib, foreign, heap) {
  "use asm";
  var bytes = new stdlib.Uint8Array(heap);
  var report = foreign.report;

  // How many of the bytes from `from` to before `to` are 0.
  function count(from, to) {
    from = from | 0;
    to = to | 0;
    var n = 0;
    for (; (from | 0) < (to | 0); from = from + 1 | 0) {
      if ((bytes[from >> 0] | 0) == 0) n = n + 1 | 0;
    }
    report(n | 0);
    return n | 0;
  }

  return { count: count };
}
