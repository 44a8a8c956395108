// What the page's parts hand each other, as types. They are checked by tests/page/modules.py, and known everywhere; no part loads this file.

/**
 * Who is signed in.
 * @typedef {{name: string, key: string}} Who
 */

/**
 * A board of whoever is signed in.
 * @typedef {{board: number, role: string, title: string}} Known
 */

/**
 * A task as the server tells it.
 * @typedef {{uuid: string, description: string, status: string, [name: string]: any}} Told
 */

/**
 * A change, from the click that makes it until its answer was read.
 * @typedef {object} Change
 * @property {number} board 0 where it is of the server
 * @property {string} path
 * @property {string} body
 * @property {string} verb
 * @property {string} subject what it is about, in words
 * @property {string} [task]
 * @property {boolean} [adds] whether it makes its task
 * @property {number} [had] of a note: how many of its text its task had before
 * @property {string[]} [known] the descriptions by which its task is known here
 * @property {Object<string, any>} [base] what it changes, as it was
 * @property {any} [form] what opens its form anew
 * @property {boolean} [isSecret] whether it has a key in it
 * @property {boolean} [isOneOfMany] whether what is said of it is said of many at once
 * @property {{uuid: string, description: string}} [follows] the task whose place the new one takes
 * @property {boolean} [reports] whether its answer is kept until it was read
 * @property {string} [id] its identifier; the following stand on the device
 * @property {number} [order] its place there
 * @property {string} [member] who made it
 * @property {string} [group] of changes that hang together
 * @property {number} [made] when, in milliseconds
 * @property {"waiting" | "asks" | "refused" | "already" | "done" | "changed"} [state]
 * @property {any} [sealed] its body, hidden
 * @property {boolean} [isOld] whether it waited over a broken line
 * @property {boolean} [isSure] whether its person wants it sent though its task is another by now
 * @property {any} [answer]
 * @property {Change[]} [behind] those of its group that were to follow it
 * @property {string} [culprit] the task of an import that was refused
 * @property {any} [doubt] what has changed of its task meanwhile
 * @property {string} [by] who did the same before
 * @property {number} [takenBack]
 * @property {string} [file] the file of an import, of which this is one part
 * @property {number} [parts] how many parts it has
 * @property {any[]} [losses] what its tasks lose
 */

/**
 * An answer to a change.
 * @typedef {{change: Change, status: number, body: any, done?: any}} Answered
 */

/**
 * An entry of a history.
 * @typedef {{number: number, member: string, moment: string, what: string, call?: string, task?: string, content?: string}} Entry
 */

/**
 * What is announced, and what it carries.
 * @typedef {object} News
 * @property {null} signed somebody is signed in
 * @property {string} left somebody has signed out: their name
 * @property {null} unknown the server doesn't know who is signed in
 * @property {null} rekeyed whoever is signed in has another key
 * @property {null} boards the boards of whoever is signed in came
 * @property {boolean} board tasks came, or the clock made them look otherwise: whether they are others than before
 * @property {number} other tasks of another board came: its number
 * @property {null} people the people of the shown board came
 * @property {null} route another view, board or task is shown
 * @property {null} filter another filter
 * @property {null} picked other tasks are chosen
 * @property {{number: number, entries: Entry[], last: number, isFirst: boolean, isWatched: boolean}} deeds what the history of a board tells anew
 * @property {string} told what happened to the open task came: its uuid
 * @property {Change[]} made changes are made together, and not shown yet
 * @property {null} kept changes are held, or were settled
 * @property {Answered} answered a change was answered
 * @property {boolean} reach whether the server answers
 * @property {null} tick 15 s are over in sight
 * @property {null} second a second is over
 * @property {null} draft a form has a draft from elsewhere
 */
