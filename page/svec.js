// The program in the page: a call of it takes the words of a command, files and an input, and gives its status, its texts and a file.
"use strict";

// Numbers in place of the length of an answer, which has twelve bytes at least.
const NO_ANSWER = ["memory is short", "the request has another form", "the answer has no room"];
const MOST_ROOM = 1 << 27;

class Svec {
  static async made(bytes) {
    const made = new Svec();
    made.module = await WebAssembly.compile(bytes);
    made.size = bytes.length;
    await made.begin();
    return made;
  }

  // A new machine: at first, and where one came to a trap.
  async begin() {
    const instance = await WebAssembly.instantiate(this.module, {});
    this.is = instance.exports;
    this.rooms = new Map();
  }

  // A place of so many bytes in the program's memory; one is kept for each purpose, and made anew where it is too small.
  place(purpose, bytes) {
    const kept = this.rooms.get(purpose);
    if (kept && kept.bytes >= bytes) return kept;
    if (kept) this.is.svec_done(kept.at);
    const at = this.is.svec_room(BigInt(bytes));
    if (!Number(at)) throw new Error("memory is short");
    const place = { at, bytes };
    this.rooms.set(purpose, place);
    return place;
  }

  call(words, files = {}, input = "", wanted = "", room = 1 << 22) {
    const request = Svec.request(words, files, input, wanted);
    const from = this.place("request", request.length), to = this.place("answer", room);
    new Uint8Array(this.is.memory.buffer).set(request, Number(from.at));
    const length = Number(this.is.svec_call(from.at, BigInt(request.length), to.at, BigInt(room)));
    // (an answer that has no room is asked for again, with more)
    if (length === 2 && room < MOST_ROOM) return this.call(words, files, input, wanted, room * 8);
    if (length < NO_ANSWER.length) throw new Error(NO_ANSWER[length]);
    const bytes = new Uint8Array(this.is.memory.buffer).slice(Number(to.at), Number(to.at) + length);
    return Svec.answer(bytes);
  }

  // What svec_call reads: numbers of four bytes, and fields, each after its length.
  static request(words, files, input, wanted) {
    const text = new TextEncoder(), parts = [];
    const number = (n) => parts.push(new Uint8Array(new Uint32Array([n]).buffer));
    const field = (it) => {
      const bytes = typeof it === "string" ? text.encode(it) : it;
      number(bytes.length);
      parts.push(bytes);
    };
    const names = Object.keys(files);
    number(words.length);
    words.forEach((word) => field(String(word)));
    number(names.length);
    names.forEach((name) => (field(name), field(files[name])));
    field(input);
    field(wanted);
    const all = new Uint8Array(parts.reduce((sum, it) => sum + it.length, 0));
    let at = 0;
    for (const part of parts) all.set(part, at), (at += part.length);
    return all;
  }

  static answer(bytes) {
    const view = new DataView(bytes.buffer), text = new TextDecoder();
    let at = 4;
    const field = () => {
      if (at >= bytes.length) return null;
      const length = view.getUint32(at, true);
      at += 4 + length;
      return bytes.subarray(at - length, at);
    };
    const status = view.getUint32(0, true), out = text.decode(field()), err = text.decode(field()), file = field();
    return { status, out, err, file };
  }
}

if (typeof module !== "undefined") module.exports = { Svec };
