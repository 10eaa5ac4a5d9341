// Types of pack.mjs.

/** The code that loads what `bridge wasm2js` made of a module. Throws where the text wasn't made of it. */
export function packAsm(bytes: Uint8Array, text: string, script?: string): string;

/** The code that loads what `bridge asm2wasm` made of a text. Throws where the module wasn't made of it. */
export function packWasm(text: string, bytes: Uint8Array, script?: string): string;
