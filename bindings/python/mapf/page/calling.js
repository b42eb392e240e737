// The proved calls, in a worker of their own, so that a search can be ended and the page goes on.
/** @typedef {{ status: number, text: string, ms: number, pages: number }} Reply */
const STOPPED = -2, FAILED = -1;
/** @param {number} agents @param {number} bound @param {number} nodes @param {boolean} noFollowing */
const solving = (agents, bound, nodes, noFollowing) => [BigInt(agents), BigInt(bound), BigInt(nodes), +noFollowing];
/** What a call takes behind its files, in the order of bindings/c/mapf.h: BigInt for uint64_t, a number for a byte. */
const CALLS = {
  mapf_check: (/** @type {number} */ agents, /** @type {boolean} */ noFollowing) => [BigInt(agents), +noFollowing],
  mapf_solve: solving, mapf_solve_any: solving,
};
/** The worker's whole code. It starts the module anew for each call, so no call finds what another left. */
function worker() {
  onmessage = async ({ data: { module, call, files, numbers } }) => {
    const began = performance.now(), reply = { status: -1, text: "", pages: 0, ms: 0 };
    try {
      const { exports } = /** @type {any} */ (await WebAssembly.instantiate(module, {}));
      const block = (/** @type {number} */ size) => {
        const at = exports.page_block(BigInt(Math.max(1, size)));
        if (at === 0n) throw new RangeError("no memory for the files");
        return at;
      };
      const passed = files.flatMap((/** @type {Uint8Array} */ bytes) => {
        const at = block(bytes.length);
        new Uint8Array(exports.memory.buffer, Number(at), bytes.length).set(bytes);
        return [at, BigInt(bytes.length)];
      });
      const needed = block(8);
      let room = call === "mapf_check" ? 512 : 1 << 24, out = 0n;
      do {
        out = block(room);
        reply.status = exports[call](...passed, ...numbers, out, BigInt(room), needed);
        room = Number(new BigUint64Array(exports.memory.buffer, Number(needed), 1)[0]);
      } while (reply.status === 7);
      reply.text = new TextDecoder("latin1").decode(new Uint8Array(exports.memory.buffer, Number(out), room));
      reply.pages = exports.memory.buffer.byteLength / 65536;
    } catch (error) {
      reply.text = String(error);
    }
    postMessage({ ...reply, ms: performance.now() - began });
  };
}
class Engine {
  /** The packed bytes of the module; 0 where the page has none. */ size = 0;
  /** @type {WebAssembly.Module | null} */ module = null;
  /** @type {Worker | null} */ running = null;
  /** @type {((reply: Reply) => void) | null} */ answer = null;
  url = URL.createObjectURL(new Blob([`(${worker})()`], { type: "text/javascript" }));
  /** Takes the module from the page, if this browser has 64-bit memory. */
  async load() {
    const packed = bytesOf(atob($("module").textContent.trim()));
    this.size = packed.length;
    if (this.size === 0 || !("DecompressionStream" in window)) return;
    const stream = new Blob([packed]).stream().pipeThrough(new DecompressionStream("gzip"));
    const bytes = await new Response(stream).arrayBuffer();
    if (WebAssembly.validate(bytes)) this.module = await WebAssembly.compile(bytes);
  }
  /** Ends what runs, and makes a call.
   * @param {string} call @param {Uint8Array[]} files @param {(number | bigint)[]} numbers @returns {Promise<Reply>} */
  call(call, files, numbers) {
    this.stop();
    return new Promise((resolve) => {
      const running = this.running ??= new Worker(this.url);
      this.answer = resolve;
      running.onmessage = ({ data }) => { this.answer = null; resolve(data); };
      running.onerror = ({ message }) => this.stop(FAILED, message);
      running.postMessage({ module: this.module, call, files, numbers });
    });
  }
  /** Ends what runs, which is answered so. */
  stop(status = STOPPED, text = "stopped") {
    const { answer } = this;
    if (!answer) return;
    this.running?.terminate();
    this.running = this.answer = null;
    answer({ status, text, ms: 0, pages: 0 });
  }
}
