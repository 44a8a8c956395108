// Begins the page, and has the worker keep its files on this device. A browser has workers on https and on the loopback alone; elsewhere the
// page comes from the server each time. This file needs no other one, so that it can say where one doesn't come.
// The name and the key of a link that invites stand behind the #, which no browser sends, and are taken out of the address at once.
function takeInvitation() {
    const [, name, key] = /^#in=([a-z0-9_-]+)\.((?:[\w.~!*'()-]|%[0-9A-F]{2})+)$/.exec(location.hash) ?? [];
    if (location.hash.startsWith("#in=")) history.replaceState(null, "", location.pathname);
    return name ? { name, key: decodeURIComponent(key) } : null;
}

export const invitation = takeInvitation();

// (again.js looks for it)
document.documentElement.dataset.begun = "";

const HOUR = 3600000;
// How often a page that stays open asks whether the server has another version, in milliseconds: by the worker's file alone, which says what
// the others contain.
const OFTEN = 300000;
const LEAST = 5000;
// How often the page was loaded anew in a row since a file of it didn't come, and how often it is at most.
const TRIES = "taskboard.tries";
const MOST_TRIES = 3;
const find = (id) => document.getElementById(id);

// A file that a line or a worker fails to give once comes the next time.
function loadAnew(fault) {
    const tries = Number(sessionStorage.getItem(TRIES)) + 1;
    sessionStorage.setItem(TRIES, String(tries));
    if (tries <= MOST_TRIES) return setTimeout(() => location.reload(), 300 * tries);
    sessionStorage.removeItem(TRIES);
    document.body.append("Not all files of this page came. What you changed is kept on this device: load the page again.");
    reportError(fault);
}

function askOften(registration) {
    let last = performance.now();
    setInterval(() => {
        if (document.hidden || performance.now() - last < OFTEN) return;
        last = performance.now();
        registration.update().catch(() => (last = -Infinity));
    }, LEAST);
}

export async function beginOffline() {
    const { serviceWorker } = navigator;
    if (!serviceWorker) return;
    // (a page that was loaded past the worker, as with Shift, asks for all anew)
    const isPast = !serviceWorker.controller;
    serviceWorker.addEventListener("message", ({ data }) => data === "renewed" && (find("renewed").hidden = false));
    find("load-renewed").addEventListener("click", () => location.reload());
    try {
        const known = await serviceWorker.getRegistration();
        askOften(await serviceWorker.register("worker.js"));
        const compare = async (kind) => (await serviceWorker.ready).active.postMessage(kind);
        if (known) compare(isPast ? "whole" : "marks");
        setInterval(() => document.hidden || compare("marks"), HOUR);
    } catch (fault) {
        console.warn(`This browser keeps no files of the page: ${fault.message}`);
    }
}

import("./views/main.js").then(() => sessionStorage.removeItem(TRIES), loadAnew);
