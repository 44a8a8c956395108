// What the server would make of the tasks of an import, so that it is told before they are sent: which it refuses, each with its reason, and
// what the others lose. The server decides: where a rule here is missing, its refusal is shown. Each rule names what it foretells, by the
// number or status and the name in docs/HTTP.md.
import { seconds } from "../core/moments.js";
import { stepOf } from "../core/recurrence.js";
import { faultInCall, faultInText } from "../core/rules.js";
import { membersOf } from "./clean.js";

const STATUSES = ["pending", "waiting", "recurring", "completed", "deleted"];
const MOMENTS = ["due", "end", "entry", "modified", "scheduled", "start", "until", "wait"];
const NAMES = [...MOMENTS, "annotations", "depends", "description", "id", "imask", "mask", "parent", "priority", "project", "recur", "status", "tags", "urgency", "uuid"];
const ID = /^[0-9a-f]{8}(-[0-9a-f]{4}){3}-[0-9a-f]{12}$/i;

const isText = (value) => typeof value === "string";
const isThere = (value) => value !== undefined && value !== null && value !== "";
const isId = (value) => isText(value) && ID.test(value);

function isMoment(text) {
    if (!isText(text) || !/^\d{8}T\d{6}Z$/.test(text) || text < "1970") return false;
    const date = new Date(seconds(text) * 1000);
    return date.toISOString().replace(/[-:]|\.\d+/g, "") === text;
}

const textsOf = (value) => (isText(value) ? value.split(",") : value);
const tagsOf = ({ tags }) => (isText(tags) ? tags.split(",").filter(Boolean) : tags ?? []);
export const dependsOf = ({ depends }) => (isThere(depends) ? [...new Set(textsOf(depends).map((id) => id.toLowerCase()))] : []);
const statusOf = ({ status, recur, parent }) => (isThere(status) ? status : isThere(recur) && !isThere(parent) ? "recurring" : "pending");
const isNote = (note) => note !== null && typeof note === "object" && isMoment(note.entry) && isText(note.description);
const isRepeating = (task) => statusOf(task) === "recurring";
// Deleted tasks that repeated: they stay templates where they have all that a template has.
const hasRepeated = (task) => statusOf(task) === "deleted" && isThere(task.recur) && !isThere(task.parent);
// Whether instances find their template in a task.
export const makesInstances = (task) => isRepeating(task) || (hasRepeated(task) && isThere(task.due) && Boolean(stepOf(task.recur)));
const hasPlace = ({ imask }) => (isText(imask) || typeof imask === "number") && /^\d+$/.test(imask) && Number(imask) < 2 ** 32;
const isInstance = (task) => !isRepeating(task) && !hasRepeated(task) && (isThere(task.parent) || hasPlace(task));
const keepsRecur = (task) => isThere(task.parent) || makesInstances(task);
// (a number that the server takes for none that is whole is NaN here)
const canKeep = (value) => isText(value) || typeof value === "boolean" || value === null || Number.isInteger(value);
const ownOf = (task) => Object.entries(task).filter(([name]) => !NAMES.includes(name));
const isKept = ([name, value]) => name !== "" && canKeep(value);

// 400 BadBody with a field: a member that can't be read.
const FORMS = {
    description: [isText, "a text"],
    status: [(value) => STATUSES.includes(value), `one of ${STATUSES.join(", ")}`],
    priority: [isText, "a text"],
    project: [isText, "a text"],
    recur: [isText, "a text"],
    parent: [isId, "a uuid"],
    mask: [(value) => isText(value) && /^[-+XW?]{0,16384}$/.test(value), "made of -, +, X, W and ?, or too long"],
    tags: [(value) => isText(value) || (Array.isArray(value) && value.every(isText)), "a list of texts"],
    depends: [(value) => (isText(value) || Array.isArray(value)) && textsOf(value).every(isId), "a list of uuids"],
    annotations: [(value) => Array.isArray(value) && value.every(isNote), "a list of notes, each with its moment and its text"],
    ...Object.fromEntries(MOMENTS.map((name) => [name, [isMoment, "a moment in UTC such as 20260131T090000Z"]])),
};

function misread(task) {
    if (!isId(task.uuid)) return "it has no uuid";
    if (task.description === undefined || task.description === null) return "it has no description";
    const name = Object.keys(FORMS).find((name) => isThere(task[name]) && !FORMS[name][0](task[name]));
    return name ? `its ${name} isn't ${FORMS[name][1]}` : "";
}

// 8 BadTask, fields EmptyDescription, BadTag, BadText and BadPair.
function misfit(task) {
    const notes = (task.annotations || []).map((note) => note.description);
    const texts = [task.description, task.project, keepsRecur(task) && task.recur, ...tagsOf(task), ...notes, ...ownOf(task).filter(isKept).flat()].filter(isText);
    if (task.description === "") return "it has no description";
    if (tagsOf(task).some((tag) => tag === "" || /[ \t\n\r]/.test(tag))) return "a tag is empty or has a blank in it";
    const long = texts.map(faultInText).find(Boolean);
    if (long) return `a text of it can't be kept: ${long}`;
    if (isRepeating(task) && !isThere(task.due)) return "it repeats, and has no due date";
    if (isRepeating(task) && !stepOf(task.recur ?? "")) return `it repeats by a step that this server doesn't know: ${task.recur || "none"}`;
    return "";
}

// 400 BadBody without a field: what the server's reader of JSON refuses wherever it stands, also in members that a task drops.
const MOST_NESTED = 126;
function isReadable(value, left = MOST_NESTED) {
    if (isText(value)) return !/\p{Surrogate}/u.test(value);
    if (typeof value === "number") return Math.abs(value) !== Infinity;
    if (value === null || typeof value !== "object") return true;
    return left > 0 && Object.entries(value).every(([name, inner]) => isReadable(name) && isReadable(inner, left - 1));
}

// Of a member that comes twice JavaScript knows the last value alone, and the server reads both.
function areReadable(task, text) {
    const members = membersOf(text);
    return members.length === Object.keys(task).length || members.every(({ value }) => isReadable(JSON.parse(value), MOST_NESTED - 1));
}

const MISREAD = "its JSON can't be read by the server: it has half a character, a number that is too large, or too many lists in each other";

// Why the server refuses a task, whose JSON is this text; nothing where it takes it. 413 BodyTooLong: no call brings it.
export function faultIn(task, text) {
    if (task === null || typeof task !== "object") return "it can't be read as JSON";
    return misread(task) || misfit(task) || (isReadable(task) && areReadable(task, text) ? faultInCall(text) : MISREAD);
}

// The places in which there is room for an instance: how many a template's mask has, and which of them others have. `tasks` are the new ones.
export function placesFor(tasks, board) {
    const places = new Map();
    const known = (board?.tasks ?? []).map(({ told }) => told);
    for (const task of [...tasks, ...known].filter(makesInstances)) places.set(task.uuid.toLowerCase(), { count: (task.mask || "").length, taken: new Set() });
    for (const { parent, imask } of known) places.get(parent)?.taken.add(Number(imask));
    return places;
}

// Takes the place of an instance; why it finds none, where it doesn't.
function withoutPlace(task, places) {
    const place = Number(task.imask);
    const template = isThere(task.parent) ? places.get(task.parent.toLowerCase()) : null;
    if (!template) return "their template isn't there";
    if (!hasPlace(task)) return "it has no number (imask) among them";
    if (place >= template.count) return "their template's mask has no place for it";
    if (template.taken.has(place)) return "another instance has its place";
    template.taken.add(place);
    return "";
}

const linksLost = (count, why) => count > 0 && `${count} ${count === 1 ? "link" : "links"} to tasks that ${why}`;

// What a task loses that the server takes. `places` are those for instances, which are taken in the order in which tasks are sent; `reach` tells
// of a uuid whether there will be such a task: "there", "later" in another part, or "".
export function lossesOf(task, places, reach) {
    const repeats = isRepeating(task);
    const why = isInstance(task) ? withoutPlace(task, places) : "";
    const links = dependsOf(task).map(reach);
    const isOpen = repeats || ["pending", "waiting"].includes(statusOf(task));
    return [
        isThere(task.priority) && !["H", "M", "L"].includes(task.priority) && `its priority ${task.priority}`,
        why && `its repeat and its place among the instances, since ${why}`,
        !isInstance(task) && isThere(task.recur) && !keepsRecur(task) && "its repeat, since it is no template",
        isThere(task.mask) && !makesInstances(task) && "its mask, since it is no template",
        ((repeats && isThere(task.parent)) || ((repeats || hasRepeated(task)) && hasPlace(task))) && "its place as an instance, since it is a template",
        isOpen && isThere(task.end) && "its end, since it is open",
        linksLost(links.filter((it) => it === "").length, "aren't there"),
        linksLost(links.filter((it) => it === "later").length, "come in a later part, as they wait for each other over a template"),
        ...ownOf(task).filter((own) => !isKept(own)).map(([name]) => `its ${name}, which is neither a text nor a whole number of 64 bits`),
    ].filter(Boolean);
}
