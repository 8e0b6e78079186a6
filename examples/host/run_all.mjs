// Runs each binary of a folder under an engine of JavaScript: node run_all.mjs FOLDER
// For each, in the order of names, a line of JSON: its name, the numbers that it prints, and the value of its main or the
// engine's own words for its trap.
import { readFileSync, readdirSync } from 'node:fs';
import { join } from 'node:path';

const folder = process.argv[2];
for (const name of readdirSync(folder).sort()) {
  const printed = [];
  const rw = { print: (number) => printed.push(String(number)) };
  const line = { name, printed };
  try {
    const { instance } = await WebAssembly.instantiate(readFileSync(join(folder, name)), { rw });
    line.result = String(instance.exports.main());
  } catch (error) {
    line.trap = `${error.name}: ${error.message}`;
  }
  console.log(JSON.stringify(line));
}
