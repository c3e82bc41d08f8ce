// The store of store.c.
import * as fs from 'node:fs';

let file = fs.openSync('new', 'w');
fs.writeSync(file, 'value');
fs.ftruncateSync(file, 4);
fs.fsyncSync(file);
fs.closeSync(file);
fs.renameSync('new', 'value');
const folder = fs.openSync('.', 'r');
fs.fsyncSync(folder);
fs.closeSync(folder);
const bytes = Buffer.alloc(4);
file = fs.openSync('value', 'r');
if (fs.readSync(file, bytes, 0, 4) !== 4 || bytes.toString() !== 'valu') process.exit(1);
fs.closeSync(file);
fs.linkSync('value', 'other');
fs.symlinkSync('value', 'way');
fs.unlinkSync('old');
fs.mkdirSync('made');
fs.rmdirSync('made');
