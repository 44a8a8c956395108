// One message to the server, and what counts as its answer.

// How long an answer may take, in milliseconds; on a thin line a long message takes longer, by one for 16 bytes, and a whole board twice as long.
const PATIENCE = 30000;

// No answer came: the line broke, the server is away or has no memory, or a proxy answered in its place.
export class NoAnswer extends Error {}

// The server refuses a view.
export class Refused extends Error {}

async function ask(who, path, settings, patience, fields = {}) {
    const headers = { "x-member": who.name, "x-key": who.key, ...fields };
    try {
        const signal = /** @type {any} */ (AbortSignal).timeout(patience);
        const answer = await fetch(path, { headers, cache: "no-store", redirect: "error", signal, ...settings });
        return { status: answer.status, text: await answer.text() };
    } catch (fault) {
        throw new NoAnswer(fault.message);
    }
}

// The body of an answer by the server itself, a refusal too; else it is NoAnswer.
function bodyOf({ status, text }) {
    if (status === 413) return { name: "BodyTooLong" };
    try {
        const body = JSON.parse(text);
        if (status === 200 || (status >= 400 && status < 500 && body.name)) return body;
    } catch {} // A proxy's page is no JSON.
    throw new NoAnswer(`status ${status}`);
}

// What a view shows, as text.
export async function look(who, path, patience = 2 * PATIENCE) {
    const answer = await ask(who, path, {}, patience);
    if (answer.status === 200) return answer.text;
    throw Object.assign(new Refused(bodyOf(answer).name), { status: answer.status });
}

// Sends a change under its identifier. An answer of the server's own is given as its status and body, a refusal too; all else is NoAnswer,
// and then the change may have acted or not, and the same bytes have to be sent again under the same identifier.
export async function tell(who, change) {
    const fields = { "x-request-id": change.id, "content-type": "application/json" };
    const answer = await ask(who, change.path, { method: "POST", body: change.body }, PATIENCE + change.body.length / 16, fields);
    return { status: answer.status, body: bodyOf(answer) };
}
