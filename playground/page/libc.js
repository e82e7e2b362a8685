// What the program's module asks of the C library, in JavaScript: its words, its input and its output.
//
// Nothing here is proved.
import { Heap } from "./heap.js";

const OUTPUT = 1;
const NO_FILE = 2;
const INVALID = 22;
const WHY = new TextEncoder().encode("No such file or directory\0");

/** The program has ended with a status. */
export class Exit extends Error {
  constructor(status) {
    super(`status ${status}`);
    this.status = status;
  }
}

/** One run of the program: its words and its input, and the pieces of its output so far. */
export class Run {
  constructor(words, input) {
    this.words = words.map((word) => new TextEncoder().encode(word));
    this.input = input;
    this.at = 0;
    this.output = [];
    this.errno = 0;
  }

  /** Begins to use the memory of a new instance of the module. */
  start(exports) {
    this.heap = new Heap(exports);
  }

  bytes(address, length) {
    return new Uint8Array(this.heap.memory.buffer, Number(address), Number(length));
  }

  read(address, length) {
    const to = this.bytes(address, length);
    const count = Math.min(to.length, this.input.length - this.at);
    to.set(this.input.subarray(this.at, this.at + count));
    this.at += count;
    return BigInt(count);
  }

  /** Keeps what is written to standard output. What is written elsewhere goes nowhere. */
  write(stream, address, length) {
    if (stream === OUTPUT) this.output.push(this.bytes(address, length).slice());
    return length;
  }

  /** There are no files here. */
  open() {
    this.errno = NO_FILE;
    return -1;
  }

  /** There is no clock here: what a run takes isn't known. */
  clock() {
    this.errno = INVALID;
    return -1;
  }

  /** Says what is wrong with a file. */
  why(address, length) {
    const to = this.bytes(address, length);
    to.set(WHY.subarray(0, to.length));
    return 0;
  }

  word(index, address, length) {
    const word = this.words[Number(index)];
    if (!word) return -1n;
    const to = this.bytes(address, length);
    to.set(word.subarray(0, to.length));
    return word.length <= to.length ? BigInt(word.length) : -2n;
  }

  /** Puts the two words of an allocation's answer: whether there is a block, and where. */
  answer(to, block) {
    const at = Number(to);
    const { view } = this.heap;
    view.setUint32(at, block ? 1 : 0, true);
    view.setUint32(at + 4, 0, true);
    view.setBigUint64(at + 8, BigInt(block || 16), true);
  }

  /** No feature of an x86 processor is missing, so the program takes no other way for want of one. */
  features() {
    const block = this.heap.take(64);
    this.bytes(block, 64).fill(255);
    return BigInt(block);
  }

  imports() {
    const refused = () => 11;
    const done = () => 0;
    return {
      rattle_alloc: (to, size) => this.answer(to, this.heap.take(Number(size))),
      rattle_realloc: (to, block, kept, size) =>
        this.answer(to, this.heap.resize(Number(block), Number(kept), Number(size))),
      rattle_dealloc: (block) => this.heap.give(Number(block)),
      malloc: (size) => BigInt(this.heap.take(Number(size))),
      free: (block) => block && this.heap.give(Number(block)),
      rattle_arg: (index, address, length) => this.word(index, address, length),
      rattle_arg_count: () => BigInt(this.words.length),
      rattle_env: () => -1n,
      rattle_env_at: () => -1n,
      rattle_errno: () => this.errno,
      rattle_set_errno: (errno) => { this.errno = errno; },
      read: (_stream, address, length) => this.read(address, length),
      __read: (_stream, address, length) => this.read(address, length),
      write: (stream, address, length) => this.write(stream, address, length),
      __write: (stream, address, length) => this.write(stream, address, length),
      clock_gettime: () => this.clock(),
      open: () => this.open(),
      close: done,
      isatty: () => 0,
      __xpg_strerror_r: (_errno, address, length) => this.why(address, length),
      _exit: (status) => { throw new Exit(status); },
      abort: () => { throw new Error("the program gave up"); },
      // a worker can't be started here, and then the caller makes the turns
      pthread_create: refused,
      pthread_attr_init: done,
      pthread_attr_setguardsize: done,
      pthread_attr_setstacksize: done,
      pthread_attr_destroy: done,
      pthread_self: () => 1n,
      pthread_join: refused,
      pthread_detach: refused,
      sched_yield: done,
      syscall: () => -1n,
      __sysv_signal: () => 0n,
      __x86_get_cpuid_feature_leaf: () => this.features(),
    };
  }

  text() {
    const all = new Uint8Array(this.output.reduce((sum, piece) => sum + piece.length, 0));
    let at = 0;
    for (const piece of this.output) {
      all.set(piece, at);
      at += piece.length;
    }
    return new TextDecoder().decode(all);
  }
}
