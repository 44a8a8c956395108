// What a deed of a history did, in words.
import { isSame, labelOf, worded } from "../sync/entries.js";
import { make, said } from "../ui/element.js";

const quoted = (text) => make("q", {}, said(String(text), 300));
const shown = (name, value) => (["due", "wait", "scheduled", "until", "priority", "tags"].includes(name) || value === null ? worded(name, value) : quoted(value));

function tagsChanged(from, to) {
    const [old, now] = [from ?? [], to ?? []].map((tags) => [tags].flat());
    const [more, less] = [now.filter((tag) => !old.includes(tag)), old.filter((tag) => !now.includes(tag))];
    return [more.length > 0 && `tagged it ${worded("tags", more)}`, less.length > 0 && `took ${worded("tags", less)} off`].filter(Boolean).join(" and ");
}

// One change of a member, in words.
function changeTold({ name, from, to }) {
    const label = said(labelOf(name), 60);
    if (name === "tags" && from !== undefined && !isSame(from, to)) return [tagsChanged(from, to)];
    if (from !== undefined && isSame(from, to)) return ["left ", label, " as it was"];
    if (to === null) return ["took ", label, from === undefined ? "" : [" ", shown(name, from)], " out"].flat();
    if (from === undefined || from === null) return ["set ", label, " to ", shown(name, to)];
    return ["changed ", label, " from ", shown(name, from), " to ", shown(name, to)];
}

const joined = (parts) => parts.flatMap((part, at) => (at === 0 ? part : ["; ", ...part]));
const noted = (said) => (said?.description === undefined ? "a note" : ["the note ", quoted(said.description)]);

// What each word did to `it`, the task of its entry. `name` names another task by its uuid.
const TOLD = {
    add: (_, it) => ["added ", it],
    done: (_, it) => ["completed ", it],
    delete: (_, it) => ["deleted ", it],
    reopen: (_, it) => ["reopened ", it],
    start: (_, it) => ["started ", it],
    stop: (_, it) => ["stopped work on ", it],
    modify: ({ changes }, it) => (changes.length > 0 ? joined(changes.map(changeTold)) : ["changed ", it]),
    annotate: ({ said }) => ["added ", noted(said)].flat(),
    denotate: ({ said }) => ["removed ", noted(said)].flat(),
    depend: ({ said }, it, name) => ["made ", it, " wait for ", said ? name(said.on) : "another task"],
    undepend: ({ said }, it, name) => ["had ", it, " wait no more for ", said ? name(said.on) : "another task"],
    import: () => ["imported tasks of Taskwarrior"],
    "import-todo": () => ["imported lines of todo.txt"],
    role: ({ said: call }) => (call?.role ? [`gave the role ${call.role} to `, said(call.member ?? "")] : ["ended the role of ", said(call?.member ?? "someone")]),
    ahead: ({ said }) => [`had the board look ${said?.ahead ?? "otherwise"} ahead`],
    sweep: () => ["brought the repeating tasks up to date"],
    take: () => ["took the board over"],
    title: ({ said: call }) => ["renamed the board to ", quoted(call?.title ?? "")],
};
// The words by which a history can be filtered, with what to call them.
export const WORDS = { add: "Added", done: "Completed", delete: "Deleted", reopen: "Reopened", start: "Started", stop: "Stopped", modify: "Changed", annotate: "Notes", denotate: "Notes removed", depend: "Made to wait", undepend: "Wait no more", import: "Imports", "import-todo": "Imports of todo.txt", role: "Roles", ahead: "Looks ahead", sweep: "Repeating tasks", take: "Taken over", title: "Renamed" };

// What a deed did, as pieces of text and elements. Its task is called `it`, and named behind where nothing calls it so.
export function toldOf(deed, name, it = "it") {
    const told = TOLD[deed.what]?.(deed, it, name) ?? [deed.what];
    return it === "it" || told.includes(it) ? told : [...told, ": ", it];
}
