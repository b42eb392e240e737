// What TypeScript's own declarations of 4.8 lack.
declare class DecompressionStream {
  constructor(format: string);
  readable: ReadableStream<any>;
  writable: WritableStream<any>;
}
