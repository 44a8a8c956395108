// What this tab shows.
import { session } from "../sync/session.js";

export const VIEWS = ["day", "tasks", "repeating", "people", "files", "history"];
// What a board's tasks are filtered, sorted and grouped by, and whether they stand in columns. Each stands in the address under its name.
export const WHOLE = { text: "", status: "open", assignee: "", due: "", project: "", tag: "", sort: "urgency", group: "", as: "list" };


export const state = {
    // Who is signed in: name and key.
    get who() {
        return session.who;
    },
    set who(who) {
        session.who = who;
    },
    boards: [], // those on which that person has a role: board, role, title
    number: 0, // the board that is shown
    view: "tasks", // and which of its views
    chosen: "", // the uuid of the task that is open beside the list
    board: null, // the tasks of the board, once they came
    people: null, // who has a role on the board, once they came: name and role
    filter: { ...WHOLE }, // what of its tasks is shown, and how
    isMineOnly: false, // whether My day shows nobody else's
};

// What is known of the shown board before its tasks came: its number, the role on it, and its title.
export const here = () => state.boards.find((known) => known.board === state.number);
