// Counts the code points on which the tables of crates/characters differ from the Unicode version that node has, class by
// class (docs/DIFFERENCES.md gives the figures). Run: node tools/unicode_versions.js
const fs = require("fs");
const path = require("path");

const found = {};
let name;
for (const line of fs.readFileSync(path.join(__dirname, "../crates/sweep/stdout"), "utf8").trim().split("\n")) {
  if (line.startsWith("is_")) {
    name = line;
    found[name] = new Set();
  } else {
    const [first, last] = line.split(" ").map((end) => parseInt(end, 16));
    for (let c = first; c <= last; c++) found[name].add(c);
  }
}

const classes = {
  is_whitespace: /^\p{White_Space}$/u,
  is_alphabetic: /^\p{Alphabetic}$/u,
  is_numeric: /^\p{N}$/u,
  is_mark: /^\p{M}$/u,
  is_punctuation_connector: /^\p{Pc}$/u,
  is_word_character: /^[\p{Alphabetic}\p{N}\p{M}\p{Pc}]$/u,
};

console.log(`Unicode ${process.versions.unicode} (node ${process.versions.node})`);
for (const [name, test] of Object.entries(classes)) {
  let theirs = 0;
  const ours = [];
  for (let c = 0; c <= 0x10ffff; c++) {
    if (c >= 0xd800 && c <= 0xdfff) continue;
    const there = test.test(String.fromCodePoint(c));
    if (there && !found[name].has(c)) theirs++;
    if (!there && found[name].has(c)) ours.push("U+" + c.toString(16).toUpperCase());
  }
  console.log(`${name}: ${theirs} only there, ${ours.length} only here ${ours.join(" ")}`);
}
