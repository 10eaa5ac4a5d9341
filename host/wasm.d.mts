// Types of wasm.mjs.

export type ForeignMember = ((...values: number[]) => unknown) | number | boolean;

export interface Linked<Exports> {
  /** What the text returned. */
  exports: Exports;
  /** The heap's bytes, in whole pages, if the module has a heap. */
  buffer?: ArrayBuffer;
  memory?: WebAssembly.Memory;
}

/** Links a module of `bridge asm2wasm`. Throws a TypeError or a WebAssembly.LinkError for a heap or a foreign member that doesn't fit. */
export function linkAsm<Exports = Record<string, (...values: number[]) => number | undefined>>(
  bytes: BufferSource | WebAssembly.Module,
  stdlib: unknown,
  foreign?: Record<string, ForeignMember>,
  heap?: number | WebAssembly.Memory,
  how?: { returns?: "object" | "function" },
): Linked<Exports>;
