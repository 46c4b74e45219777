"use strict";
// What a trace shows of a genome up to its first divide, as tools/traces.py has it from the program: the machine of
// docs/MACHINE.md, alone, without errors and with the inputs and the rules of a trace.
const MACHINE = (() => {
  const TASKS = ["NOT", "NAND", "AND", "ORN", "OR", "ANDN", "NOR", "XOR", "EQU"];
  const EXPONENTS = [1, 1, 2, 2, 3, 3, 4, 4, 5];
  const INPUTS = [0x0f0f0f0f, 0x33333333, 0x55555555];
  const STEPS_A_LETTER = 20, SHARE = 50, LEAST = 8;
  const LETTERS = "abcdefghijklmnopqrstuvwxyz", NOPS = 3;
  // What follows a letter: nothing, a modifier that is a register or a head, or a template; and the default of a modifier.
  const PLAIN = 0, MODIFIER = 1, TEMPLATE = 2;
  const kinds = Uint8Array.from(LETTERS, (each) => ("dejklmnoprstuyghi".includes(each) ? MODIFIER : "fz".includes(each) ? TEMPLATE : PLAIN));
  const defaults = Uint8Array.from(LETTERS, (each) => (each === "j" ? 2 : "ghi".includes(each) ? 0 : 1));
  // Ten nops as one number, the last one lowest, each from 1 to 3.
  const TEN = 4 ** 10;
  const floorMod = (number, size) => ((number % size) + size) % size;

  // The place of the task that an output does where so many inputs were read, or -1.
  const tests = [(x) => ~x, (x, y) => ~(x & y), (x, y) => x & y, (x, y) => x | ~y, (x, y) => x | y, (x, y) => x & ~y, (x, y) => ~(x | y), (x, y) => x ^ y, (x, y) => ~(x ^ y)];
  const tried = [0, 1, 2, 3].map(() => new Map());
  function taskOf(output, count) {
    if (!tried[count].has(output)) tried[count].set(output, taskWith(output, INPUTS.slice(0, count)));
    return tried[count].get(output);
  }
  function taskWith(output, known) {
    return tests.findIndex((test) => known.some((x, at) => (test.length === 1 ? test(x) === output : known.some((y, other) => other !== at && test(x, y) === output))));
  }

  // The first place at which the template of these places stands before the end of memory, or -1.
  function found(memory, size, template, count) {
    for (let at = 0; at + count <= size; at++) {
      let place = 0;
      while (place < count && memory[at + place] === template[place]) place++;
      if (place === count) return at;
    }
    return -1;
  }

  // { step, merit, tasks } of the first viable divide, or step null where there is none.
  function trace(genome) {
    const birth = genome.length, limit = birth <= 2048 ? 2048 : 8192, room = Math.min(3 * birth, Math.max(limit, birth));
    const memory = new Uint8Array(room), executed = new Uint8Array(room), copied = new Uint8Array(room);
    for (let at = 0; at < birth; at++) memory[at] = genome.charCodeAt(at) - 97;
    const registers = new Int32Array(3), template = new Uint8Array(10), stacks = [new Array(10).fill(0), new Array(10).fill(0)], heads = new Int32Array(3);
    let size = birth, active = 0, flow = 0, pending = false, inputs = 0, done = 0, nops = 0;
    const after = (place) => (place + 1 === size ? 0 : place + 1);
    const last = STEPS_A_LETTER * birth;
    for (let step = 1; step <= last; step++) {
      let place = heads[0];
      const now = memory[place], kind = kinds[now];
      executed[place] = 1;
      if (now < NOPS) {
        heads[0] = after(place);
        continue;
      }
      // The operand that a modifier picks, or the complement of the template that follows, also as one number.
      let operand = defaults[now], count = 0, code = 0;
      if (kind === MODIFIER) {
        const behind = after(place);
        if (memory[behind] < NOPS) {
          operand = memory[behind];
          executed[behind] = 1;
          place = behind;
        }
      } else if (kind === TEMPLATE) {
        for (let at = after(place); count < 10 && memory[at] < NOPS; at = after(at)) {
          if (!count) executed[at] = 1;
          template[count] = (memory[at] + 1) % 3;
          code = 4 * code + template[count++] + 1;
          place = at;
        }
      }
      const next = (operand + 1) % 3, b = registers[1], c = registers[2];
      let stays = false, skips = false;
      heads[0] = place;
      switch (LETTERS[now]) {
        case "d": skips = registers[operand] === registers[next]; break;
        case "e": skips = registers[operand] >= registers[next]; break;
        case "f": skips = code !== nops; break;
        case "g": heads[operand] = flow; stays = operand === 0; break;
        case "h": heads[operand] = floorMod(heads[operand] + c, size); break;
        case "i": registers[2] = heads[operand]; break;
        case "j": flow = floorMod(registers[operand], size); break;
        case "k": registers[operand] >>= 1; break;
        case "l": registers[operand] <<= 1; break;
        case "m": registers[operand]++; break;
        case "n": registers[operand]--; break;
        case "o": stacks[active].unshift(registers[operand]); stacks[active].pop(); break;
        case "p": registers[operand] = stacks[active].shift(); stacks[active].push(0); break;
        case "q": active = 1 - active; break;
        case "r": {
          const kept = registers[operand];
          registers[operand] = registers[next];
          registers[next] = kept;
          break;
        }
        case "s": registers[operand] = b + c; break;
        case "t": registers[operand] = b - c; break;
        case "u": registers[operand] = ~(b & c); break;
        case "v": {
          const read = heads[1], write = heads[2];
          nops = memory[read] < NOPS ? (4 * nops + memory[read] + 1) % TEN : 0;
          memory[write] = memory[read];
          copied[write] = 1;
          heads[1] = after(read);
          heads[2] = after(write);
          break;
        }
        case "w":
          if (!pending && size < limit) {
            registers[0] = size;
            size += Math.min(2 * size, limit - size);
            pending = true;
          }
          break;
        case "x": {
          const read = heads[1], write = heads[2], end = write === 0 ? size : write, length = end - read;
          const low = Math.max(LEAST, Math.ceil(birth / 2)), high = Math.min(limit, 2 * birth);
          const counted = (marks, from, to) => marks.subarray(from, Math.max(from, to)).reduce((sum, mark) => sum + mark, 0);
          const ran = counted(executed, 0, read), made = counted(copied, read, end);
          const isViable = pending && read >= low && read <= high && length >= low && length <= high;
          if (isViable && 100 * ran >= SHARE * read && 100 * made >= SHARE * length) {
            const factor = EXPONENTS.reduce((sum, exponent, at) => sum + (done >> at & 1 ? exponent : 0), 0);
            return { step, merit: Math.min(birth, ran, made) * 2 ** factor, tasks: TASKS.filter((_, at) => done >> at & 1) };
          }
          break;
        }
        case "y": {
          const task = taskOf(registers[operand], Math.min(inputs, 3));
          if (task >= 0) done |= 1 << task;
          registers[operand] = INPUTS[inputs % 3];
          inputs++;
          break;
        }
        case "z": {
          const at = count ? found(memory, size, template, count) : -1;
          registers[1] = at < 0 ? 0 : at + count - 1 - place;
          registers[2] = count;
          flow = at < 0 ? after(place) : (at + count) % size;
          break;
        }
      }
      if (skips) heads[0] = after(heads[0]);
      if (!stays) heads[0] = after(heads[0]);
    }
    return { step: null, merit: null, tasks: TASKS.filter((_, at) => done >> at & 1) };
  }
  return { TASKS, trace };
})();
