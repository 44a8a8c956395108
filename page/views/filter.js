// The bar of filters above the tasks: search, filters, order, groups.
import { oneLine } from "../core/format.js";
import { GROUPS, SORTS } from "../core/group.js";
import { listen, listenAll } from "../core/news.js";
import { MINE, NOBODYS, STATUSES } from "../core/search.js";
import { DUES } from "../core/urgency.js";
import { choices } from "../store/people.js";
import { clearFilter, isFiltered, setFilter } from "../store/route.js";
import { state } from "../store/store.js";
import { fill, find, make } from "../ui/element.js";
import { icon } from "../ui/icons.js";
import { attachPopover } from "../ui/popover.js";
import { options } from "../ui/select.js";

// What stands in the header, and the line of what is set, above the tasks.
export const HEADER = `
<span class="searching of-tasks" role="search" aria-label="Search" data-icon="search"><input id="filter-text" dir="auto" type="search" aria-label="Search" aria-keyshortcuts="/" placeholder="Search this board" title="Words, @phone, +Family, for:me, due:today, priority:H" autocomplete="off"></span>
<button id="filter-more" type="button" class="tool only of-tasks" data-icon="filter" aria-label="Filter and sort" title="Filter and sort"></button>
<div id="filter-fields" class="filter-fields" popover role="group" aria-label="Filter and sort">
    <label for="filter-status">Show</label><select id="filter-status"></select>
    <label for="filter-assignee">Person</label><select id="filter-assignee"></select>
    <label for="filter-due">Due</label><select id="filter-due"></select>
    <label for="filter-project">Project</label><select id="filter-project" aria-label="Project, with its parts"></select>
    <label for="filter-tag">Tag</label><select id="filter-tag"></select>
    <hr>
    <label for="filter-sort">Sort</label><select id="filter-sort"></select>
    <label for="filter-group">Group</label><select id="filter-group"></select>
</div>
<span class="switch of-tasks" role="group" aria-label="Layout"><button id="as-list" type="button" aria-pressed="true" aria-keyshortcuts="l" title="Show a list">List</button><button id="as-columns" type="button" aria-pressed="false" aria-keyshortcuts="c" title="Show columns">Columns</button></span>
`;

export const MARKUP = `
<div class="filters" role="group" aria-label="What is shown"><span id="filter-set" class="line"></span><span id="count" class="about" role="status"></span><button id="filter-clear" type="button" class="quiet" hidden>Show all</button></div>
`;

const FIRST = { status: "open", sort: "urgency" };
const isSet = (name) => state.filter[name] !== (FIRST[name] ?? "");

const CHOICES = {
    status: () => Object.entries(STATUSES).map(([value, [label]]) => [value, label]),
    assignee: (board) => [["", "Anyone's"], [MINE, "Mine"], [NOBODYS, "Nobody's"], ...choices(board?.assignees)],
    due: () => [["", "Any date"], ...Object.entries(DUES)],
    project: (board) => [["", "All projects"], ...(board?.projects ?? []).map((text) => [text, oneLine(text, 40)])],
    tag: (board) => [["", "All tags"], ...(board?.tags ?? []).map((text) => [text, oneLine(text, 40)])],
    sort: () => Object.entries(SORTS),
    group: () => Object.entries(GROUPS),
};

// The choices of a select are filled anew where they are others; one that the address asks for is added, though no task is so.
function drawChoices() {
    for (const name of Object.keys(CHOICES)) {
        const all = CHOICES[name](state.board?.number === state.number ? state.board : null);
        const told = all.flat().join("\n");
        const select = find(`filter-${name}`);
        if (select.told !== told) fill(select, options(all));
        select.told = told;
    }
    drawValues();
}

function drawValues() {
    const { filter } = state;
    for (const name of Object.keys(CHOICES)) {
        const select = find(`filter-${name}`);
        select.value = filter[name];
        if (select.selectedIndex < 0) select.append(...options([[filter[name], oneLine(filter[name], 40)]], filter[name]));
        select.classList.toggle("set", isSet(name));
    }
    const inColumns = filter.as === "columns";
    find("as-list").ariaPressed = !inColumns;
    find("as-columns").ariaPressed = inColumns;
    for (const id of ["filter-status", "filter-group"]) find(id).disabled = inColumns;
    find("choose").hidden = inColumns;
    if (find("filter-text").value !== filter.text) find("filter-text").value = filter.text;
    document.querySelector(".searching").classList.toggle("shown", filter.text !== "" || find("filter-text") === document.activeElement);
    find("filter-clear").hidden = !isFiltered();
    drawSet();
}

const LABELS = { status: "Show", assignee: "Person", due: "Due", project: "Project", tag: "Tag", sort: "Sort", group: "Group" };

// What is set, each with a way to take it back.
function drawSet() {
    const names = Object.keys(CHOICES).filter((name) => isSet(name) && !find(`filter-${name}`).disabled);
    const label = (name) => find(`filter-${name}`).selectedOptions[0]?.textContent ?? state.filter[name];
    const chips = names.map((name) => {
        const taken = make("button", { type: "button", class: "set-chip", "aria-label": `${LABELS[name]}: ${label(name)}. Take it back`, click: () => setFilter({ [name]: FIRST[name] ?? "" }) }, make("bdi", {}, label(name)), icon("close", "small"));
        return taken;
    });
    if (state.filter.text) chips.push(make("button", { type: "button", class: "set-chip", "aria-label": "Take the search back", click: () => setFilter({ text: "" }) }, make("bdi", {}, `“${oneLine(state.filter.text, 40)}”`), icon("close", "small")));
    fill(find("filter-set"), chips);
    document.querySelector(".filters").classList.toggle("filtered", chips.length > 0);
    find("filter-more").toggleAttribute("data-count", names.length > 0);
    if (names.length > 0) find("filter-more").dataset.count = names.length;
}

export function beginFilter() {
    for (const name of Object.keys(CHOICES)) find(`filter-${name}`).addEventListener("input", (event) => setFilter({ [name]: event.target.value }));
    find("filter-text").addEventListener("input", (event) => setFilter({ text: event.target.value }, true));
    for (const as of ["list", "columns"]) find(`as-${as}`).addEventListener("click", () => setFilter({ as }));
    find("filter-clear").addEventListener("click", () => {
        clearFilter();
        find("filter-text").focus();
    });
    find("filter-text").addEventListener("blur", drawValues);
    attachPopover(find("filter-more"), find("filter-fields"));
    listenAll(["people", "route"], drawChoices);
    listen("board", (isNew) => isNew && drawChoices());
    listen("filter", drawValues);
}
