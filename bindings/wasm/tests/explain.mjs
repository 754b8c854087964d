// explain.mjs LIST: explains each file of a list, and prints each explanation as a line of JSON.
import { readFileSync } from "node:fs";
import { explain } from "iim";

for (const path of readFileSync(process.argv[2], "utf8").trim().split("\n")) {
  const explained = explain(new Uint8Array(readFileSync(path)));
  console.log(JSON.stringify(explained, (_, value) => (typeof value === "bigint" ? String(value) : value)));
}
