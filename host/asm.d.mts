// Types of asm.mjs.
import type { Signatures } from "./signatures.mjs";

export type TrapKind = "Unreachable" | "Memory" | "ZeroDivisor" | "Overflow" | "TableEntry" | "OtherType" | "Segment";

/** What a trap throws: `WebAssembly.RuntimeError` where there is one. */
export const RuntimeError: new (message?: string) => Error & { kind: TrapKind; number: number };

/** What is thrown where an import is of the wrong kind, or a text isn't of the module: `WebAssembly.LinkError` where there is one. */
export const LinkError: new (message?: string) => Error;

export class Memory {
  constructor(limits: { initial: number; maximum?: number });
  /** The heap, as long as asm.js needs. */
  readonly buffer: ArrayBuffer;
  /** The length of the module's pages. */
  readonly byteLength: number;
  /** The module's pages. */
  readonly bytes: Uint8Array;
  /** Throws a RangeError. */
  grow(): never;
  readonly [Symbol.toStringTag]: string;
}

/** A memory of this kind, or `WebAssembly.Memory` where its length is one that asm.js allows. */
export type AnyMemory = { readonly buffer: ArrayBuffer };

/** A word of 32 bits is a number, and one of 64 a bigint. */
export type Word = number | bigint;

export type ImportValue = ((...values: any[]) => Word | void) | number | { readonly value: Word } | AnyMemory;

export type Imports = Record<string, Record<string, ImportValue>>;

export interface Instance<Exports = Record<string, any>> {
  readonly exports: Readonly<Exports>;
}

/** The function `wasm` of a text of `bridge wasm2js`. */
export type AsmModule = (stdlib: object, foreign: object, heap?: ArrayBuffer) => Record<string, Function>;

/** Throws a LinkError where the text wasn't made of the module that has these signatures. */
export function checkText(text: string, signatures: Signatures): void;

/** Loads a text at once. Throws a TypeError or LinkError for imports or a text that don't fit, and a RuntimeError where the start function traps. */
export function instantiateSync<Exports = Record<string, any>>(text: string | AsmModule, signatures: Signatures, imports?: Imports): Instance<Exports>;

/** Loads a text. What `instantiateSync` throws is what the promise is rejected with. */
export function instantiate<Exports = Record<string, any>>(
  text: string | AsmModule,
  signatures: Signatures,
  imports?: Imports,
): Promise<{ module: AsmModule; instance: Instance<Exports> }>;
