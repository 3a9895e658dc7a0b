// Asks the server. A page is known by a number of its own, since each has one search at a time.

export const PAGE = Array.from(crypto.getRandomValues(new Uint32Array(2)), (it) => it.toString(16)).join("");

export class Fault extends Error {
  // `field` is the number of a need and its part that is at fault, where the server knows that.
  constructor(said, field = null) {
    super(said);
    this.field = field;
  }
}

export async function ask(name, fields = {}, signal = undefined) {
  const query = new URLSearchParams();
  for (const [field, value] of Object.entries(fields)) for (const it of [value].flat()) query.append(field, it);
  let reply;
  try {
    reply = await fetch(`/api/${name}?${query}`, { signal });
  } catch (fault) {
    if (fault.name === "AbortError") throw fault;
    throw new Fault("registry page has ended: begin it again in a terminal");
  }
  const value = await reply.json().catch(() => ({ error: `${reply.status} ${reply.statusText}` }));
  if (!reply.ok) throw new Fault(value.error, value.field);
  return value;
}
