// When tasks are due, and how urgent they are.
//
// Urgency is reckoned here by its definition and not read from the listing. The listing names tasks by place alone, says nothing of tags
// and notes, and would be a second view each time, of another moment than the export.
import { seconds } from "./moments.js";

// Urgency is counted in parts, of which so many make one; then each term is whole.
const UNIT = 110376000;
// When a task is due; this week is the seven days that begin today.
export const DUES = { overdue: "Overdue", today: "Today", week: "This week", later: "Later", none: "No date" };
const WEEK = 7;
const PRIORITY_PARTS = { H: 6 * UNIT, M: 430466400, L: 198676800 };
const COUNT_PARTS = [0, 88300800, 99338400, UNIT];

function urgencyParts(task, moment) {
    const { tags, due, told, notes, status } = task;
    let parts = tags.includes("next") ? 15 * UNIT : 0;
    if (due !== undefined) parts += Math.min(1814400, Math.max(0, moment + 1209600 - due)) * 584 + 264902400;
    if (task.priority) parts += PRIORITY_PARTS[task.priority];
    if (told.scheduled && seconds(told.scheduled) < moment) parts += 5 * UNIT;
    if (told.start) parts += 4 * UNIT;
    parts += Math.min(2 * UNIT, 7 * Math.max(0, moment - task.entry));
    parts += COUNT_PARTS[Math.min(3, notes.length)] + COUNT_PARTS[Math.min(3, tags.length)];
    if (task.project) parts += UNIT;
    if (task.isBlocking) parts += 8 * UNIT;
    if (task.isBlocked) parts -= 5 * UNIT;
    return status === "waiting" ? parts - 3 * UNIT : parts;
}

export const urgencyOf = (task) => task.parts / UNIT;

function dueGroup(task, moment, day) {
    if (task.due === undefined) return "none";
    if (task.isTimed ? task.due < moment : task.dueDay < day) return "overdue";
    return task.dueDay <= day ? "today" : task.dueDay < day + WEEK ? "week" : "later";
}

export function rate(task, moment, day) {
    task.dueGroup = dueGroup(task, moment, day);
    task.parts = urgencyParts(task, moment);
    task.rank = task.isOpen ? task.parts : (seconds(task.told.end) ?? task.entry) - 1e12;
    if (!task.before) return;
    rate(task.before, moment, day);
    // A row stays at its place until the server has told of its change.
    task.rank = task.before.rank;
}
