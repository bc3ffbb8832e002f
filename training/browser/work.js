// The exact working of the sheet for one choice: each row a fraction, or the words that say why it has none.

/** The rows with their ends and ticks read as fractions. */
function readSheet(text) {
  const sheet = JSON.parse(text);
  const end = (number) => number === null ? null : readFraction(number);
  for (const row of sheet.rows) {
    row.low = end(row.low);
    row.high = end(row.high);
    row.ticks = row.ticks.map(([number, place]) => ({ x: readFraction(number), place }));
  }
  return sheet;
}

/** The value of each row as { value } or { missing }; the choice holds null for an empty input. */
function workSheet(sheet, choice) {
  const results = choice.map((x) => x === null ? { missing: sheet.words.nothing } : { value: x });
  for (const row of sheet.rows.slice(sheet.inputs)) results.push(workStep(sheet, row, results));
  return results;
}

function workStep(sheet, row, results) {
  for (const operand of [row.left, row.right]) {
    if (results[operand].missing) return { missing: `skipped: ${sheet.rows[operand].name} has no value` };
  }
  const [x, y] = [results[row.left].value, results[row.right].value];
  if (row.sign === "/" && y.top === 0n) {
    return { missing: `${sheet.words.zeroDivisor}: ${sheet.rows[row.right].name} is 0` };
  }
  if (bits(x) + bits(y) > sheet.mostBits) return { missing: sheet.words.tooLong };
  return { value: { "+": plus, "-": minus, "*": times, "/": over }[row.sign](x, y) };
}
