// The way back of each change: calls that leave a task, a role or a title as it was before, as far as nobody has changed it since. A call is a word
// with what it says; `expects` is what has to be there still, which is what the change had set.

const CLOSING = { completed: "done", deleted: "delete" };

// The members that a modify set, back to what they were.
function unmodified(content, { base }) {
    const before = Object.fromEntries(Object.keys(content).map((name) => [name, base[name] ?? null]));
    return [{ word: "modify", content: before, expects: content }];
}

// A task that is opened again has lost its start.
const reopened = (_, { told }) => [{ word: "reopen" }, ...(told?.start ? [{ word: "start" }] : [])];

const INVERSES = {
    // (what was added as done has to be open to be deleted)
    tasks: ({ status }) => [...(status === "completed" ? [{ word: "reopen" }] : []), { word: "delete" }],
    done: reopened,
    delete: reopened,
    reopen: (_, { told }) => (CLOSING[told?.status] ? [{ word: CLOSING[told.status] }] : []),
    start: () => [{ word: "stop" }],
    stop: () => [{ word: "start" }],
    modify: unmodified,
    annotate: (content) => [{ word: "denotate", content }],
    denotate: (content) => [{ word: "annotate", content }],
    depend: (content) => [{ word: "undepend", content }],
    undepend: (content) => [{ word: "depend", content }],
    title: ({ title }, { before }) => (before === undefined ? [] : [{ word: "title", content: { title: before }, expects: { title } }]),
    roles: ({ member, role }, { before }) => (before === undefined ? [] : [{ word: "roles", content: { member, role: before }, expects: { member, role } }]),
};

export const wordOf = ({ path }) => path.split("/").at(-1);

// The calls that take a change back; none where there is no way. `told` is its task before it, and `before` a title or role before it.
/** @param {any} change @param {{told?: any, before?: any}} about @returns {{word: string, content?: any, expects?: any}[]} */
export function inverseOf(change, { told, before } = {}) {
    const back = INVERSES[wordOf(change)];
    // (lines of todo.txt, of which there is no way back, are no JSON)
    if (!back) return [];
    return back(change.body ? JSON.parse(change.body) : {}, { told, before, base: change.base ?? {} });
}

const isSame = (one, other) => JSON.stringify(one ?? null) === JSON.stringify(other ?? null);

// The members that somebody has changed since they were set, each with what it is now.
export const changedSince = ({ expects = {} }, told) => Object.keys(expects).filter((name) => !isSame(expects[name] === "" ? null : expects[name], told?.[name])).map((name) => ({ name, is: told?.[name] ?? null }));
