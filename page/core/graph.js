// Which tasks wait for which.

// Whether a task waits for the one of that uuid, directly or over others; closed ones count too, since they may be reopened. `toldOf` gives the task
// of a uuid.
export function waitsFor(task, uuid, toldOf) {
    const seen = new Set();
    const left = [task];
    while (left.length > 0) {
        const { depends } = left.pop();
        if (depends.includes(uuid)) return true;
        for (const id of depends) {
            const next = seen.has(id) ? null : toldOf(id);
            seen.add(id);
            if (next) left.push(next);
        }
    }
    return false;
}

// Which nodes of a graph stand in a circle of its links, by Tarjan's strongly connected components.
export function inCircles(ids, linksOf) {
    const [order, lowest, done, found] = [new Map(), new Map(), new Set(), new Set()];
    const [open, path] = [[], []];
    const begin = (id) => {
        order.set(id, order.size);
        lowest.set(id, order.get(id));
        open.push(id);
        path.push({ id, links: [...linksOf(id)] });
    };
    const lower = (id, number) => lowest.set(id, Math.min(lowest.get(id), number));
    const end = (id) => {
        if (path.length > 0) lower(path.at(-1).id, lowest.get(id));
        if (lowest.get(id) !== order.get(id)) return;
        const part = open.splice(open.lastIndexOf(id));
        part.forEach((one) => done.add(one));
        if (part.length > 1 || linksOf(id).includes(id)) part.forEach((one) => found.add(one));
    };
    for (const root of ids) {
        if (!order.has(root)) begin(root);
        while (path.length > 0) {
            const { id, links } = path.at(-1);
            const next = links.pop();
            if (next === undefined) end(path.pop().id);
            else if (!order.has(next)) begin(next);
            else if (!done.has(next)) lower(id, order.get(next));
        }
    }
    return found;
}
