// The page: reads the choice from its fields, works it, and shows each value on its line.

const sheet = readSheet(document.getElementById("sheet").textContent);
const fields = [...document.querySelectorAll("input[data-row]")];
const SHOWN = 40;

/** The place of x on a row's line, straight between two ticks. */
function across(row, x) {
  const after = row.ticks.findIndex((tick) => compare(tick.x, x) >= 0);
  if (after < 0) return sheet.beyond[1];
  const right = row.ticks[after];
  if (compare(right.x, x) === 0) return right.place;
  if (after === 0) return sheet.beyond[0];
  const left = row.ticks[after - 1];
  const part = over(minus(x, left.x), minus(right.x, left.x));
  const steps = 1000000n;
  return left.place + (right.place - left.place) * Number((part.top * steps) / part.bottom) / Number(steps);
}

/** The choice in the fields; null where a field holds no member, which is then said beside it. */
function readChoice() {
  const choice = sheet.rows.slice(0, sheet.inputs).map(() => null);
  let good = true;
  for (const field of fields) {
    const row = sheet.rows[field.dataset.row];
    const x = readFraction(field.value);
    const why = x === null ? "write a fraction such as 3/4, -2 or 2^24" : whyOutside(row, x);
    document.getElementById(`note${field.dataset.row}`).textContent = why;
    field.setAttribute("aria-invalid", why !== "");
    if (why !== "") good = false;
    choice[field.dataset.row] = x;
  }
  return good ? choice : null;
}

/** Shows one row's result; says whether its value is in its range. */
function showRow(number, result) {
  const row = sheet.rows[number];
  const missing = "missing" in result;
  const held = missing || (!row.empty && side(row, result.value) === 0);
  const shown = document.querySelector(`#value${number} output`);
  const verdict = document.querySelector(`#value${number} .verdict`);
  shown.textContent = missing ? "-" : shortened(result.value, SHOWN);
  shown.title = missing ? "" : whole(result.value);
  verdict.textContent = missing ? result.missing : held ? "in" : "NOT IN ITS ROW";
  verdict.classList.toggle("fault", !held);
  if (!row.empty) showMark(number, row, missing ? null : result.value);
  return held;
}

/** Moves the pointer of a row's line, or hides it. */
function showMark(number, row, x) {
  const line = document.getElementById(`line${number}`);
  const mark = line.querySelector(".mark");
  mark.style.display = x === null ? "none" : "";
  line.setAttribute("aria-label", row.said + (x === null ? "" : `; the value is ${shortened(x, SHOWN)}`));
  if (x === null) return;
  const place = across(row, x);
  const label = mark.querySelector(".at");
  mark.setAttribute("transform", `translate(${place.toFixed(2)} 0)`);
  label.textContent = written(x).length <= sheet.label.most ? written(x) : "";
  const atRight = place > sheet.width - sheet.label.room;
  label.setAttribute("text-anchor", place < sheet.label.room ? "start" : atRight ? "end" : "middle");
}

/** Works the choice in the fields and says how it went. */
function workFields() {
  const verdict = document.getElementById("verdict");
  const choice = readChoice();
  if (choice === null) {
    verdict.textContent = "This choice is refused: a number is not in its range.";
    return;
  }
  const results = workSheet(sheet, choice);
  const held = results.map((result, number) => showRow(number, result)).every(Boolean);
  const missing = results.filter((result) => "missing" in result).length;
  verdict.classList.toggle("fault", !held);
  verdict.textContent = held
    ? missing === 0 ? "Every value lies in its row's range." : `Every value lies in its row's range; rows without a value: ${missing}.`
    : "A VALUE IS NOT IN ITS ROW. The proofs exclude this, so the fault is ours: please report the sheet and the choice.";
}

function pickAll(pick) {
  for (const field of fields) field.value = written(pick(sheet.rows[field.dataset.row]));
  workFields();
}

document.querySelector(".buttons").hidden = false;
document.getElementById("new").addEventListener("click", () => pickAll(pickInside));
document.getElementById("ends").addEventListener("click", () => pickAll(pickNearEnd));
document.getElementById("controls").addEventListener("submit", (event) => {
  event.preventDefault();
  workFields();
});
workFields();
