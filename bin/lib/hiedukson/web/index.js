// Sorts and filters the table of cards. Without it the table stands as it was written.
"use strict";

const body = document.querySelector(".index tbody");
const rows = Array.from(body.rows);
const heads = Array.from(document.querySelectorAll(".index th"));
const search = document.getElementById("search");
const verdict = document.getElementById("verdict");
const state = document.getElementById("state");
const sortBy = document.getElementById("sort-by");
const shown = document.getElementById("shown");

function keyOf(row, column) {
    const cell = row.cells[column];
    return cell.dataset.key === undefined ? cell.textContent.trim().toLowerCase() : cell.dataset.key;
}

function compare(one, other) {
    return one.localeCompare(other, undefined, { numeric: true });
}

function sort(column, isDescending) {
    const sign = isDescending ? -1 : 1;
    const sorted = rows.slice().sort((a, b) => sign * compare(keyOf(a, column), keyOf(b, column)));
    body.append(...sorted);
    heads.forEach((head, at) => {
        if (at === column) {
            head.setAttribute("aria-sort", isDescending ? "descending" : "ascending");
        } else {
            head.removeAttribute("aria-sort");
        }
    });
    sortBy.value = String(column);
}

function hasVerdict(row) {
    const refusal = row.dataset.refusal;
    return verdict.value === "" || refusal === verdict.value || (verdict.value === "refused" && refusal > "0");
}

function isWanted(row) {
    const words = search.value.toLowerCase().split(/\s+/).filter(Boolean);
    const text = row.textContent.toLowerCase();
    return (
        words.every((word) => text.includes(word)) &&
        hasVerdict(row) &&
        (state.value === "" || row.dataset.state === state.value)
    );
}

function filter() {
    let count = 0;
    for (const row of rows) {
        row.hidden = !isWanted(row);
        count += row.hidden ? 0 : 1;
    }
    shown.textContent = `${count} of ${rows.length} shown`;
}

heads.forEach((head, column) => {
    head.querySelector("button").addEventListener("click", () => {
        sort(column, head.getAttribute("aria-sort") === "ascending");
    });
});
sortBy.addEventListener("change", () => sort(Number(sortBy.value), false));
for (const control of [search, verdict, state]) {
    control.addEventListener("input", filter);
}
document.querySelector(".tools").hidden = false;
filter();
