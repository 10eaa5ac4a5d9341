// Types of signatures.mjs.

export type WordType = "i32" | "i64";

export interface FunctionType {
  params: WordType[];
  result: WordType | null;
}

export type Import = { module: string; name: string } & (
  | ({ kind: "function" } & FunctionType)
  | { kind: "global"; type: WordType; mutable: boolean }
  | { kind: "memory"; pages: number }
);

export type Export = { name: string } & (
  | ({ kind: "function"; index: number } & FunctionType)
  | { kind: "global"; type: WordType; mutable: boolean; value?: number | string; import?: number }
  | { kind: "memory" }
  | { kind: "table" }
);

/** What a module says of itself, in plain JSON. */
export interface Signatures {
  imports: Import[];
  exports: Export[];
  /** The pages of the memory, imported or not. */
  pages: number | null;
  /** The number of the start function. */
  start: number | null;
}

/** Reads the signatures of a module. Throws a TypeError where the bytes are no module of the profile. */
export function signaturesOf(bytes: ArrayBuffer | Uint8Array): Signatures;
