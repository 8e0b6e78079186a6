// Runs a binary of rwc under an engine of JavaScript: node run.mjs FILE.wasm
// Each number that the program prints is a line, and so is the value of its main.
import { readFileSync } from 'node:fs';

const bytes = readFileSync(process.argv[2]);
const rw = { print: (number) => console.log(String(number)) };
const { instance } = await WebAssembly.instantiate(bytes, { rw });
console.log(`result ${instance.exports.main()}`);
