// Reads full texts by the page's scripts, for checks/page_reader: what it is given on standard input and what it answers is JSON.
"use strict";
const fs = require("fs"), [folder] = process.argv.slice(2);
const source = ["read.js", "draw.js"].map((name) => fs.readFileSync(`${folder}/${name}`, "utf8").replace('"use strict";\n', "")).join("\n");
const { readMatch, reportOf, drawMatches, textOfOneProof } = new Function(`${source}; return { readMatch, reportOf, drawMatches, textOfOneProof };`)();
const answers = JSON.parse(fs.readFileSync(0, "utf8")).map(({ text, proved, stake }) => {
  const match = readMatch(text), ones = [];
  for (const dispute of match.disputes) {
    for (const round of dispute.rounds.filter(({ isStep }) => isStep)) {
      round.answers.forEach((answer, side) => {
        if (answer.word !== "given") return;
        answer.isProved = proved.includes(`${dispute.number} ${dispute.sides[side]}`);
        ones.push({ isProved: answer.isProved, text: textOfOneProof(match, dispute, side) });
      });
    }
  }
  return { lines: reportOf(match, stake).map(({ words }) => words), picture: drawMatches([match], false, [stake]).text, ones };
});
process.stdout.write(JSON.stringify(answers));
