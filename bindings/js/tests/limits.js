// Where memory and the engine's stack end.
import { NotOpen, OutOfMemory } from "weoldrin";

/** Takes all memory that there is, and gives what gives it back. */
export function fill(library) {
  const taken = [];
  for (let size = 1 << 20; size >= 8; size /= 2) {
    for (;;) {
      try {
        taken.push(library.taken(size));
      } catch (error) {
        if (!(error instanceof OutOfMemory)) throw error;
        break;
      }
    }
  }
  return () => taken.splice(0).forEach((it) => library.givenBack(it));
}

/** Calls at each depth of the stack from its end on, until a call goes through, or none can any more. */
export function atTheEnd(call) {
  const found = [];
  const deeper = () => {
    try {
      deeper();
    } catch {
      // The stack ended below: here there is a little more of it.
    }
    const last = found.at(-1);
    if (last?.isDone || last?.error instanceof NotOpen) return;
    try {
      call();
      found.push({ isDone: true });
    } catch (error) {
      found.push({ error });
    }
  };
  deeper();
  return found;
}
