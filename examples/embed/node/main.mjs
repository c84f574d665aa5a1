// Coshalit from JavaScript, over the page's WebAssembly modules. A program that rules on steps and carries out commands, from standard input
// to standard output:
//
//     node main.mjs FOLDER steps              lines VERSION ROOT PROOF, in hexadecimal: a line for each, such as `leads ROOT`
//     node main.mjs FOLDER audit|run|list     as the commands of refcli, with their statuses
//
// FOLDER has step.wasm and answers.wasm, as web/build makes them: web/out, or web in a release. They have memories with 64-bit addresses, which
// node knows from version 24 on, and before with the flag --experimental-wasm-memory64. The calls are those of web/coshalit.js.
import { readFileSync } from "node:fs";
import { join } from "node:path";
import { argv, exit, stderr, stdin, stdout } from "node:process";
import vm from "node:vm";

const COMMANDS = ["audit", "run", "list"];
const USAGE = 2;

const [folder, word] = argv.slice(2);
if (argv.length !== 4 || (word !== "steps" && !COMMANDS.includes(word))) {
  stderr.write("embed: FOLDER steps|audit|run|list\n");
  exit(USAGE);
}
// The page's scripts are no modules: they are run as the browser runs them.
const calls = readFileSync(new URL("../../../web/coshalit.js", import.meta.url), "utf8");
const { Coshalit, StepReferee } = vm.runInThisContext(`${calls}\n({ Coshalit, StepReferee });`);
const parts = [];
for await (const part of stdin) parts.push(part);
const given = Buffer.concat(parts);

if (word === "steps") {
  const referee = await StepReferee.of(readFileSync(join(folder, "step.wasm")));
  for (const line of given.toString().split("\n").filter(Boolean)) {
    const [version, root, wire = ""] = line.split(" ");
    const { ruling, next } = referee.check(Number(version), root, wire);
    stdout.write(next === null ? `${ruling}\n` : `leads ${next}\n`);
  }
} else {
  const library = await Coshalit.of(readFileSync(join(folder, "answers.wasm")));
  const { status, text } = library.answer(word, given);
  stdout.write(text);
  process.exitCode = status;
}
