// Moving tasks to another board: each is imported there before it is deleted here, so a stop in between loses none and is gone on with.
import { changes } from "./calls.js";
import { counted } from "./format.js";
import { newIdentifier } from "./identifier.js";
import { momentOf, now } from "./moments.js";

// A task goes behind those on which it depends, since an import knows only links to tasks that are there.
function inOrder(tasks) {
    const byId = new Map(tasks.map((task) => [task.uuid, task]));
    const ordered = new Set();
    const path = [...tasks].reverse();
    const begun = new Set();
    while (path.length > 0) {
        const task = path.at(-1);
        const ahead = begun.has(task) ? [] : task.depends.map((uuid) => byId.get(uuid)).filter((other) => other && !begun.has(other));
        begun.add(task);
        if (ahead.length > 0) path.push(...ahead);
        else ordered.add(path.pop());
    }
    return [...ordered];
}

// The line of a task with a note more.
const NOTES = /"annotations":\[(?:[^"\]]|"[^"\\]*(?:\\.[^"\\]*)*")*(?=\])/;

function withNote(line, description) {
    const note = JSON.stringify({ description, entry: momentOf(now()) });
    return NOTES.test(line) ? line.replace(NOTES, (notes) => `${notes}${notes.endsWith("[") ? "" : ","}${note}`) : line.replace("{", () => `{"annotations":[${note}],`);
}

// The task as the server tells it, byte for byte but for its name and links, and with a note of where it comes from: it has a new name, since
// the other board may have had it before. What makes it an instance stays behind with its template.
function lineFor(task, names, origin) {
    const links = task.depends.map((uuid) => names.get(uuid)).filter(Boolean);
    return withNote(task.line, origin(task))
        .replace(`"uuid":"${task.uuid}"`, `"uuid":"${names.get(task.uuid)}"`)
        .replace(/"depends":\[[^\]]*\]/, `"depends":${JSON.stringify(links)}`)
        .replace(/"imask":\d+,/, "")
        .replace(/"parent":"[0-9a-f-]{36}",/, "");
}

const linksIn = (count) => `${counted(count)} ${count === 1 ? "link" : "links"}`;

// What can't go along, in words: an import knows no link to a task that isn't there, and no instance without its template. What waits here for a
// task that moves waits no more.
export function leftBehind(tasks, all) {
    const moved = new Set(tasks.map(({ uuid }) => uuid));
    const linksOf = (some, isCut) => some.flatMap(({ depends }) => depends).filter(isCut).length;
    const out = linksOf(tasks, (uuid) => !moved.has(uuid));
    const back = linksOf(all.filter(({ uuid, isOpen }) => isOpen && !moved.has(uuid)), (uuid) => moved.has(uuid));
    const instances = tasks.filter(({ parent }) => parent).length;
    return [
        out > 0 && `${linksIn(out)} to tasks that stay here`,
        back > 0 && `${linksIn(back)} from tasks that stay here`,
        instances > 0 && `${counted(instances)} ${instances === 1 ? "place" : "places"} among the instances of a repeating task`,
    ].filter(Boolean);
}

// For each task a group of changes: its import there, and then its deletion here. `origin` says of a task where it comes from.
export function moves(board, tasks, to, origin) {
    const names = new Map(tasks.map(({ uuid }) => [uuid, newIdentifier()]));
    return inOrder(tasks).map((task) => [changes.moveIn(to, task, lineFor(task, names, origin)), changes.act(board, task, "delete")]);
}
