// Where the packages of a graph stand: in columns, each to the right of all that need it, so that ways lead from left to right
// but where packages need each other. In a column those stand near each other that have neighbours in common.

const LETTER = 7.3; // how wide a letter of a label is, in the font of the graph
const ACROSS = 48; // between two columns
const DOWN = 25; // between the middles of two labels
const SWEEPS = 8;

// The places by package, of labels by package and edges as pairs; with the edges that lead back.
export function layout(labels, edges) {
  const below = new Map([...labels.keys()].map((it) => [it, []]));
  const above = new Map([...labels.keys()].map((it) => [it, []]));
  for (const [from, to] of edges) below.get(from).push(to);
  const { order, back } = fromAbove(below);
  for (const [from, targets] of below) {
    const forward = targets.filter((it) => !back.has(`${from} ${it}`));
    below.set(from, forward);
    for (const it of forward) above.get(it).push(from);
  }
  const columns = columnsOf(order, below);
  const rows = rowsOf(columns, above, below);
  const places = new Map();
  let x = 0;
  for (const column of columns) {
    const wide = Math.max(...column.map((it) => labels.get(it).length)) * LETTER + 16;
    for (const it of column) places.set(it, { x, y: rows.get(it), wide: labels.get(it).length * LETTER + 16 });
    x += wide + ACROSS;
  }
  return { places, back, wide: x - ACROSS, high: Math.max(...rows.values()) };
}

// The packages, each before those that it needs; and the edges that lead back, as texts.
function fromAbove(below) {
  const order = [];
  const seen = new Set();
  const open = new Set();
  const back = new Set();
  for (const start of below.keys()) {
    if (seen.has(start)) continue;
    seen.add(start);
    open.add(start);
    const path = [[start, below.get(start).values()]];
    while (path.length) {
      const [name, rest] = path[path.length - 1];
      const { value, done } = rest.next();
      if (done) {
        path.pop();
        open.delete(name);
        order.push(name);
      } else if (open.has(value)) back.add(`${name} ${value}`);
      else if (!seen.has(value)) {
        seen.add(value);
        open.add(value);
        path.push([value, below.get(value).values()]);
      }
    }
  }
  return { order: order.reverse(), back };
}

function columnsOf(order, below) {
  const depth = new Map(order.map((it) => [it, 0]));
  for (const name of order) for (const it of below.get(name)) depth.set(it, Math.max(depth.get(it), depth.get(name) + 1));
  const columns = [];
  for (const name of order) (columns[depth.get(name)] ??= []).push(name);
  return columns;
}

// How far down each package stands: in turn by those to its left and those to its right.
function rowsOf(columns, above, below) {
  const rows = new Map();
  for (const column of columns) column.forEach((it, at) => rows.set(it, (at - (column.length - 1) / 2) * DOWN));
  for (let sweep = 0; sweep < SWEEPS; sweep += 1) {
    const isDown = sweep % 2 === 0;
    for (const column of isDown ? columns : [...columns].reverse()) settle(column, rows, isDown ? above : below);
  }
  const top = Math.min(...rows.values());
  for (const [name, y] of rows) rows.set(name, y - top);
  return rows;
}

// Orders a column by the middles of its neighbours, and keeps its labels apart with as little way as may be.
function settle(column, rows, neighbours) {
  const wanted = new Map(column.map((it) => {
    const near = neighbours.get(it).map((other) => rows.get(other));
    return [it, near.length ? near.reduce((sum, y) => sum + y, 0) / near.length : rows.get(it)];
  }));
  column.sort((one, other) => wanted.get(one) - wanted.get(other) || (one < other ? -1 : 1));
  // runs of labels that touch stand around the middle of what they want
  const runs = [];
  for (const name of column) {
    let run = { names: [name], middle: wanted.get(name) };
    while (runs.length && runs.at(-1).middle + (runs.at(-1).names.length + run.names.length) * DOWN / 2 > run.middle) {
      const before = runs.pop();
      const names = [...before.names, ...run.names];
      run = { names, middle: names.reduce((sum, it) => sum + wanted.get(it), 0) / names.length };
    }
    runs.push(run);
  }
  for (const run of runs) run.names.forEach((it, at) => rows.set(it, run.middle + (at - (run.names.length - 1) / 2) * DOWN));
}
