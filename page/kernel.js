// A kernel's text as the page sees it: tokens and the places of its items. Nothing here is proved; what counts is what the program says of
// the text.
"use strict";

const TOKEN = /([ \t\r\n]+|\/\/[^\n]*)|((?:min|max)=|[A-Za-z_][A-Za-z0-9_]*)|(0x[0-9a-fA-F]+|[0-9]+)|(->|\.\.|==|!=|<=|>=|<<|>>|&&|\|\||\+=|&=|\|=|\^=|[()[\]{},;:=<>+\-*&^|~!])/y;
var RESERVED = new Set("kernel var for in let if else break return select min max abs as".split(" "));
const TYPES = new Set("i8 i16 i32 i64 u8 u16 u32 u64".split(" "));
const LEVELS = [["||"], ["&&"], ["==", "!=", "<", "<=", ">", ">="], ["|"], ["^"], ["&"], ["<<", ">>"], ["+", "-"], ["*"]];
const UPDATES = ["+=", "&=", "|=", "^=", "min=", "max="];

// The tokens, gaps among them, up to the first character that begins none.
function tokensOf(text) {
  const found = [];
  let at = 0;
  while (at < text.length) {
    TOKEN.lastIndex = at;
    const token = TOKEN.exec(text);
    if (!token) break;
    const kind = token[1] !== undefined ? (token[1].startsWith("//") ? "comment" : "gap") : token[2] !== undefined ? (RESERVED.has(token[2]) ? "word" : TYPES.has(token[2]) ? "type" : "name") : token[3] !== undefined ? "number" : "sign";
    found.push({ at, end: at + token[0].length, text: token[0], kind });
    at += token[0].length;
  }
  return found;
}

// The items of a kernel in the order in which refusals count them, as far as the text is a kernel.
class Items {
  constructor(text) {
    this.tokens = tokensOf(text).filter((it) => it.kind !== "gap" && it.kind !== "comment");
    this.at = 0;
    this.items = [];
    this.params = [];
    this.vars = [];
    this.isWhole = false;
    try {
      this.kernel();
      this.isWhole = this.at === this.tokens.length;
    } catch (fault) {
      if (fault !== Items.END) throw fault;
    }
  }

  peek(ahead = 0) {
    return this.at + ahead < this.tokens.length ? this.tokens[this.at + ahead].text : "";
  }

  take(wanted) {
    if (this.at >= this.tokens.length || (wanted && this.peek() !== wanted)) throw Items.END;
    return this.tokens[this.at++];
  }

  last() {
    return this.tokens[this.at - 1];
  }

  add(kind, token, more = {}) {
    this.items.push({ kind, at: token.at, end: token.end, from: token.at, to: this.last().end, inLoop: !!this.inLoop, ...more });
  }

  kernel() {
    this.take("kernel");
    this.name = this.take().text;
    this.parameters();
    if (this.peek() === "->") this.take("->"), (this.result = this.take().text);
    this.take("{");
    const words = this.tokens.map((it) => it.text), from = words.indexOf("for");
    this.index = from >= 0 ? words[from + 1] : null;
    while (this.peek() === "var") this.accumulator();
    if (this.peek() === "for") this.loop();
    if (this.peek() === "return") {
      const word = this.take("return");
      this.level(0);
      this.take(";");
      this.add("return", word);
    }
    this.take("}");
  }

  parameters() {
    this.take("(");
    while (this.peek() !== ")") {
      const name = this.take();
      this.add("param", name);
      this.take(":");
      const isArray = this.peek() === "[";
      if (isArray) this.take("[");
      this.params.push({ name: name.text, type: this.take().text, isArray, at: name.at, end: name.end });
      if (isArray) this.take("]");
      if (this.peek() === ",") this.take(",");
    }
    this.take(")");
  }

  accumulator() {
    this.take("var");
    const name = this.take();
    this.take(":");
    this.vars.push({ name: name.text, type: this.take().text });
    this.take("=");
    this.level(0);
    this.take(";");
    this.add("var", name, { name: name.text });
  }

  loop() {
    this.add("for", this.take("for"));
    this.take(), this.take("in"), this.take(), this.take("..");
    this.bound = this.take().text;
    this.inLoop = true;
    this.block();
    this.inLoop = false;
  }

  block() {
    this.take("{");
    while (this.peek() !== "}") this.statement();
    this.take("}");
  }

  statement() {
    const first = this.take();
    if (first.text === "break") {
      this.take("if");
      this.level(0);
      this.take(";");
      this.add("break", first);
    } else if (first.text === "if") {
      this.level(0);
      this.add("then", this.tokens[this.at] || first);
      this.block();
      if (this.peek() === "else") {
        this.add("else", this.take("else"));
        this.block();
      }
      this.add("end", this.last());
    } else {
      let place = first, kind = "update", end = first.end, offset = "";
      if (first.text === "let") (place = this.take()), (kind = "let"), (end = place.end);
      else if (this.peek() === "[") {
        kind = "store";
        this.take("[");
        const from = this.at;
        this.level(0);
        this.items.length -= this.made;
        offset = this.tokens.slice(from + 1, this.at).map((it) => it.text).join("");
        end = this.take("]").end;
      }
      while (this.peek() !== "=" && !UPDATES.includes(this.peek())) this.take();
      const sign = this.take();
      this.level(0);
      this.take(";");
      this.add(kind, place, { end, name: place.text, sign: sign.text, signAt: sign.at, offset: Number(offset) || 0 });
    }
  }

  // An expression of a level and of those that bind more; `made` is how many items it has.
  level(n) {
    const start = this.items.length, from = this.peek() && this.tokens[this.at].at;
    if (n === LEVELS.length) this.cast();
    else {
      this.level(n + 1);
      while (LEVELS[n].includes(this.peek())) {
        const sign = this.take();
        if (sign.text === "||") this.add("mark", sign);
        if (sign.text === "<<" || sign.text === ">>") this.take();
        else this.level(n + 1);
        this.add(sign.text, sign, { from });
        if (n === 2) break;
      }
    }
    this.made = this.items.length - start;
  }

  cast() {
    const from = this.peek() && this.tokens[this.at].at;
    this.unary();
    while (this.peek() === "as") {
      const word = this.take("as");
      const type = this.take();
      this.add("as", word, { end: type.end, from });
    }
  }

  unary() {
    if (this.peek() === "-" && /^[0-9]/.test(this.peek(1))) {
      const sign = this.take();
      this.add("literal", sign, { end: this.take().end });
    } else if (["-", "~", "!"].includes(this.peek())) {
      const sign = this.take();
      this.unary();
      this.add("unary" + sign.text, sign);
    } else this.primary();
  }

  primary() {
    const first = this.take();
    if (first.text === "(") {
      this.level(0);
      this.take(")");
    } else if (first.text === "select") {
      this.take("("), this.level(0);
      const condition = this.items.splice(this.items.length - this.made);
      this.take(","), this.level(0), this.take(","), this.level(0), this.take(")");
      this.items.push(...condition);
      this.add("select", first);
    } else if (["min", "max", "abs"].includes(first.text)) {
      this.take("("), this.level(0);
      if (first.text !== "abs") this.take(","), this.level(0);
      this.take(")");
      this.add(first.text, first);
    } else if (this.peek() === "[") {
      const start = this.items.length;
      this.take("[");
      const from = this.at;
      this.level(0);
      const words = this.tokens.slice(from, this.at).map((it) => it.text);
      const end = this.take("]").end;
      const isNegative = words[2] === "-";
      const isStream = words[0] === this.index && (words.length === 1 || ("+-".includes(words[1]) && (isNegative || /^[0-9]/.test(words[2])) && words.length === 3 + isNegative));
      if (isStream) this.items.length = start;
      this.add("read", first, { end, name: first.text, isStream, offset: isStream && words.length > 1 ? Number(words.slice(1).join("").replace("--", "")) : 0 });
    } else this.add(/^[0-9]/.test(first.text) ? "literal" : "name", first, { name: first.text });
  }
}
Items.END = Symbol("end");

// The line and the column of a place, from 1.
function lineOf(text, place) {
  const before = text.slice(0, place), line = before.split("\n").length;
  return { line, column: place - before.lastIndexOf("\n") };
}

// The same tokens, a statement a line.
function laidOut(text) {
  let out = "", depth = 0, isNew = true, brackets = 0;
  const tokens = tokensOf(text);
  const line = () => {
    if (!isNew) out = out.trimEnd() + "\n";
    isNew = true;
  };
  tokens.forEach((it, n) => {
    if (it.kind === "gap") {
      if (!isNew) out += " ";
      return;
    }
    if (it.kind === "comment") {
      out += it.text;
      isNew = false;
      line();
      return;
    }
    if (it.text === "}") depth--, line();
    if (isNew) out += "    ".repeat(Math.max(0, depth));
    isNew = false;
    out += it.text;
    if ("([".includes(it.text)) brackets++;
    if (")]".includes(it.text)) brackets--;
    if (it.text === "{") depth++, line();
    else if (it.text === ";" && !brackets) line();
    else if (it.text === "}") {
      const next = tokens.slice(n + 1).find((that) => that.kind !== "gap");
      if (!next || next.text !== "else") line();
    }
  });
  return out.trimEnd() + "\n";
}

if (typeof module !== "undefined") module.exports = { tokensOf, Items, lineOf, laidOut, RESERVED, TYPES, UPDATES };
