function zeros(stdlib, foreign, heap) {
  "use asm";
  var bytes = new stdlib.Uint8Array(heap);
  function first() { return bite[0] | 0; }
  return first;
}
