"use strict";

// Two results of comfy_csv_draw, with the names of comfy_table.h.
const DRAWN = 0, OUT_OF_MEMORY = 3;

// Calls of comfy_csv_draw in an instance of the WebAssembly module. Each instance has its own memory.
class Library {
  constructor(module) {
    this.called = new WebAssembly.Instance(module).exports;
  }

  // The `length` bytes of the instance's memory that begin at an address. A result can't be used after a later call of the module,
  // because the memory may then have grown.
  bytes(address, length) {
    return new Uint8Array(this.called.memory.buffer, Number(address), length);
  }

  room(length) {
    const address = this.called.malloc(BigInt(length));
    if (!address) throw new RangeError("the page's memory ran out");
    return address;
  }

  put(bytes) {
    const address = this.room(bytes.length);
    this.bytes(address, bytes.length).set(bytes);
    return address;
  }

  // Calls comfy_csv_draw with the bytes of an input and with arguments. Returns the result of comfy_csv_draw, and the bytes of the
  // drawing or of csvtable's message. Throws RangeError if memory runs out.
  draw(input, words) {
    const joined = new TextEncoder().encode(words.map((word) => word + "\0").join(""));
    const given = [this.put(input), BigInt(input.length), this.put(joined), BigInt(joined.length)];
    const needed = this.put(new Uint8Array(8));
    for (let room = 4096 + 4 * input.length; ; ) {
      const output = this.room(room);
      const result = this.called.comfy_csv_draw(...given, output, BigInt(room), needed);
      if (result === OUT_OF_MEMORY) throw new RangeError("the page's memory ran out");
      const length = Number(new DataView(this.called.memory.buffer).getBigUint64(Number(needed), true));
      const bytes = length <= room && this.bytes(output, length).slice();
      this.called.free(output);
      if (bytes) {
        for (const address of [given[0], given[2], needed]) this.called.free(address);
        return { result, bytes };
      }
      room = length;
    }
  }
}
