#!/usr/bin/env node
// @ts-check
// The program `dasd` for systems that the toolchain does not reach, over their files: node dasd.mjs WORDS..
//
// The module is program.wasm beside this file or in out/, the dasd.wasm that a checkout has in compiled/, or what DASD_MODULE names.
// docs/WEB.md says what it can't do.

import fs from 'node:fs';
import process from 'node:process';
import { fileURLToPath } from 'node:url';
import { HostFiles } from './src/host_files.mjs';
import { runOver } from './src/program.mjs';

const beside = ['program.wasm', 'out/program.wasm', '../compiled/dasd.wasm'].map(it => fileURLToPath(new URL(it, import.meta.url)));
const places = [process.env.DASD_MODULE, ...beside];
const place = places.find(it => it && fs.existsSync(it));
if (!place) {
  process.stderr.write('dasd.mjs: there is no module program.wasm: make -C web makes it\n');
  process.exit(2);
}
try {
  process.exitCode = runOver(new WebAssembly.Module(fs.readFileSync(place)), process.argv.slice(2), new HostFiles());
} catch (thrown) {
  process.stderr.write(`dasd.mjs: ${/** @type {Error} */ (thrown).message}\n`);
  process.exitCode = 1;
}
