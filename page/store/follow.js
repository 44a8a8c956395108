// What is to follow a change once it is answered. The change stays on the device until that stands there too, so a reload or a stop in between loses
// nothing of it; and it is done once, whichever tab does it.
import { changes } from "../core/calls.js";
import { listenAll } from "../core/news.js";
import { keepGroups, settled } from "../sync/outbox.js";
import { pullBoard } from "./boards.js";
import { state } from "./store.js";

const alone = (change) => [{ ...change, isOneOfMany: true }];

// A task that was made to repeat is deleted once what takes its place is there. What waited for it waits for the first of the new tasks, which says
// what it continues: so the history of the old one is found. Where no new task has come, what waits keeps the old one.
async function takePlace({ board: number, task: template, follows: { uuid, description } }) {
    const { board } = await pullBoard(number);
    const told = board.told();
    const first = told.find((task) => task.parent === template && Number(task.told.imask) === 0);
    const waiting = told.filter((task) => task.isOpen && task.uuid !== template && !task.parent && task.depends.includes(uuid));
    if (!first && waiting.length > 0) return [];
    const moved = waiting.map((task) => [changes.depend(number, task, first.uuid), changes.undepend(number, task, uuid)].flatMap(alone));
    const named = `Continues “${description}”: ${location.origin}${location.pathname}#/${number}/tasks/${uuid}`;
    const noted = first ? [alone(changes.annotate(number, first, named))] : [];
    return [...moved, ...noted, alone(changes.act(number, { uuid, description }, "delete"))];
}

let isBusy = false;

async function goOn() {
    const answered = () => settled().find((change) => change.state === "done" && change.follows);
    if (isBusy || !state.who || !answered()) return;
    isBusy = true;
    const work = async () => {
        for (let change = answered(); change; change = answered()) await keepGroups(await takePlace(change), [change]);
    };
    try {
        await (navigator.locks ? navigator.locks.request(`taskboard follows ${state.who.name}`, work) : work());
    } finally {
        isBusy = false;
    }
}

// (without an answer it is gone on with at the next one)
export const beginFollowing = () => listenAll(["kept", "reach"], () => goOn().catch(console.warn));
