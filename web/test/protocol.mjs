// @ts-check
// The library's module behind the conformance suite's protocol (docs/CONFORMANCE.md):
//     conformance/run.py "protocol=node web/test/protocol.mjs"

import fs from 'node:fs';
import process from 'node:process';
import readline from 'node:readline';
import { eventsOf, play } from '../src/deck.mjs';
import { Fault } from '../src/fault.mjs';
import { Subsystem } from '../src/library.mjs';
import { moduleOf } from './modules.mjs';

const module = moduleOf('library');
/** @type {{ library: Subsystem, channel: number, volumes: { address: number, paths: string[] }[] }} */
let machine;

/**
 * @param {string[]} words
 */
function begin([, channel, storage]) {
  machine = { library: new Subsystem(module, Number(storage), Number(channel)), channel: Number(channel), volumes: [] };
}

/**
 * @param {string[]} words
 */
function attach([, unit, , ...paths]) {
  const address = machine.channel << 8 | parseInt(unit, 16);
  machine.library.attach(address, paths.map(it => new Uint8Array(fs.readFileSync(it))));
  machine.volumes.push({ address, paths });
}

function end() {
  machine.library.reset(machine.channel);
  for (const { address, paths } of machine.volumes) {
    paths.forEach((path, place) => fs.writeFileSync(path, machine.library.file(address, place)));
  }
  machine.library.free();
}

/**
 * The answer to a line.
 * @param {string} line
 */
function answer(line) {
  const words = line.trim().split(/ +/);
  switch (words[0]) {
    case 'HELLO': return 'HELLO 1 sixambra-module lacks decks';
    case 'BEGIN': begin(words); return 'OK';
    case 'VOLUME': attach(words); return 'OK';
    case 'END': end(); return 'OK';
    default: return play(machine.library, eventsOf(line, machine.channel)[0]) ?? 'NO such event';
  }
}

for await (const line of readline.createInterface({ input: process.stdin })) {
  let said;
  try {
    said = answer(line);
  } catch (thrown) {
    if (!(thrown instanceof Fault)) throw thrown;
    said = `NO ${thrown.name}: ${thrown.message}`;
  }
  process.stdout.write(`${said}\n`);
}
