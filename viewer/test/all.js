// All tests, in one process: the reports that they look at are made once.
import { readdirSync } from "node:fs";

const files = readdirSync(new URL(".", import.meta.url)).filter((name) => name.endsWith(".test.js"));
for (const name of files.sort()) await import(`./${name}`);
