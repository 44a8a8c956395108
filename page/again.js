// Loads the page anew where start.js doesn't come: a browser may drop what it asks while it starts the worker, and then nothing of the page runs
// that could say so. This file needs no other one, and begins nothing itself.
addEventListener("load", () => {
    const [TRIES, MOST_TRIES] = ["taskboard.tries", 3];
    if (document.documentElement.dataset.begun !== undefined) return;
    const tries = Number(sessionStorage.getItem(TRIES)) + 1;
    sessionStorage.setItem(TRIES, String(tries));
    if (tries <= MOST_TRIES) return setTimeout(() => location.reload(), 300 * tries);
    sessionStorage.removeItem(TRIES);
    document.body.append("Not all files of this page came. What you changed is kept on this device: load the page again.");
});
