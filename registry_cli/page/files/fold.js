// Which sentences of a long refusal are seen. Each stands behind those that lead to it; where they are many, those that are
// nearest to the end are seen, and of the others how many they are and what they lead to.

export const ROOM = 24;

export class Folding {
  constructor(sentences) {
    this.sentences = sentences;
    this.sizes = [];
    this.starts = [];
    this.parents = new Map();
    sentences.forEach((it, at) => {
      this.sizes.push((it.text ? 1 : 0) + it.below.reduce((sum, other) => sum + this.sizes[other], 0));
      this.starts.push(it.below.length ? this.starts[it.below[0]] : at);
      for (const other of it.below) this.parents.set(other, at);
    });
    this.last = sentences.length - 1;
    this.opened = new Set();
    this.open(this.last, ROOM);
  }

  // Opens a sentence, and as many of those that lead to it as there is room for, the nearest first.
  open(at, room) {
    const waiting = [at];
    let seen = 1;
    for (let place = 0; place < waiting.length; place += 1) {
      const it = waiting[place];
      const { below } = this.sentences[it];
      if (this.sizes[it] > 1 && place > 0 && seen + below.length > room) continue;
      this.opened.add(it);
      seen += below.length;
      waiting.push(...below);
    }
  }

  openAll() {
    this.sentences.forEach((_, at) => this.opened.add(at));
  }

  // Opens the way to a sentence.
  reveal(at) {
    for (let it = at; it !== undefined; it = this.parents.get(it)) this.open(it, 2);
  }

  // What is seen, in order: places of sentences, folds with the place that they lead to, and breaks.
  seen() {
    const found = [];
    const waiting = [{ at: this.last }];
    while (waiting.length) {
      const it = waiting.pop();
      if (it.at === undefined || it.isSaid) found.push(it);
      else if (!this.opened.has(it.at)) found.push({ fold: it.at, count: this.sizes[it.at] });
      else {
        const parts = this.sentences[it.at].below.flatMap((at) => {
          const isApart = at !== this.sentences[it.at].below[0] && this.sentences[this.starts[at] - 1]?.text === "";
          return isApart ? [{ isBreak: true }, { at }] : [{ at }];
        });
        waiting.push({ at: it.at, isSaid: true }, ...parts.reverse());
      }
    }
    return found;
  }

  get hidden() {
    return this.seen().reduce((sum, it) => sum + (it.fold === undefined ? 0 : it.count), 0);
  }
}
