// A heap for the program's module. Nothing here is proved.
//
// A block's size is a power of two. Its header, 16 bytes in front of it, has the power; free blocks lie in a list for
// each power.

const PAGE = 65536;
const HEADER = 16;
const LEAST = 5;

export class Heap {
  constructor({ memory, __heap_base: base }) {
    this.memory = memory;
    this.top = (Number(base.value) + 15) & -16;
    this.free = Array.from({ length: 48 }, () => []);
    this.look();
  }

  /** Looks at the memory anew: where it has grown, what looked at it before is of no use. */
  look() {
    this.end = this.memory.buffer.byteLength;
    this.bytes = new Uint8Array(this.memory.buffer);
    this.view = new DataView(this.memory.buffer);
  }

  /** The address of a block of at least `size` bytes, or 0 where the memory can't grow. */
  take(size) {
    const whole = size + HEADER;
    const power = whole < 2 ** 31 ? 32 - Math.clz32(whole - 1) : Math.ceil(Math.log2(whole));
    const kept = Math.max(power, LEAST);
    return this.free[kept].pop() ?? this.extend(kept);
  }

  extend(power) {
    const size = 2 ** power;
    if (this.top + size > this.end && !this.grow(this.top + size - this.end)) return 0;
    const block = this.top + HEADER;
    this.bytes[this.top] = power;
    this.top += size;
    return block;
  }

  /** Makes the memory larger by so many bytes, or by an eighth where that is more. */
  grow(size) {
    const pages = Math.ceil(Math.max(size, this.end / 8) / PAGE);
    try {
      this.memory.grow(BigInt(pages));
    } catch {
      return false;
    }
    this.look();
    return true;
  }

  give(block) {
    this.free[this.bytes[block - HEADER]].push(block);
  }

  /** Moves the first `kept` bytes of a block to one of at least `size` bytes, which may be the same. */
  resize(block, kept, size) {
    if (size + HEADER <= 2 ** this.bytes[block - HEADER]) return block;
    const to = this.take(size);
    if (to) {
      this.bytes.copyWithin(to, block, block + Math.min(kept, size));
      this.give(block);
    }
    return to;
  }
}
