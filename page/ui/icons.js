// Small pictures beside words. They are drawn in a square of 20, by lines alone, and take the colour of the text; none says anything by itself.
const SVG = "http://www.w3.org/2000/svg";
const PATHS = {
    add: "M10 4v12M4 10h12",
    alert: "M10 3.2 17.5 16h-15zM10 8v3.6M10 13.8v.1",
    back: "m12 4.5-5.5 5.5 5.5 5.5",
    board: "M4.5 3.5h11a1 1 0 0 1 1 1v11a1 1 0 0 1-1 1h-11a1 1 0 0 1-1-1v-11a1 1 0 0 1 1-1zM8 3.5v13M12.3 3.5v8",
    calendar: "M4 4.5h12a1 1 0 0 1 1 1V16a1 1 0 0 1-1 1H4a1 1 0 0 1-1-1V5.5a1 1 0 0 1 1-1zM3 8.3h14M6.7 2.5v3.5M13.3 2.5v3.5",
    check: "m4 10.5 4 4 8-9",
    clock: "M10 3a7 7 0 1 1 0 14 7 7 0 0 1 0-14zM10 6.2V10l2.6 1.7",
    close: "m5 5 10 10M15 5 5 15",
    copy: "M7.5 7.5h8a1 1 0 0 1 1 1v8a1 1 0 0 1-1 1h-8a1 1 0 0 1-1-1v-8a1 1 0 0 1 1-1zM4.5 12.5h-1a1 1 0 0 1-1-1v-8a1 1 0 0 1 1-1h8a1 1 0 0 1 1 1v1",
    day: "M10 6.7a3.3 3.3 0 1 1 0 6.6 3.3 3.3 0 0 1 0-6.6zM10 2v1.8M10 16.2V18M2 10h1.8M16.2 10H18M4.3 4.3l1.3 1.3M14.4 14.4l1.3 1.3M4.3 15.7l1.3-1.3M14.4 5.6l1.3-1.3",
    down: "m5.5 8 4.5 4.5L14.5 8",
    edit: "M4 16l.8-3.6L13.6 3.6a1.4 1.4 0 0 1 2 0l.8.8a1.4 1.4 0 0 1 0 2L7.6 15.2z",
    file: "M5.5 2.5h6l4 4v10a1 1 0 0 1-1 1h-9a1 1 0 0 1-1-1v-13a1 1 0 0 1 1-1zM11.5 2.5v4h4",
    filter: "M3 5.5h14M5.8 10h8.4M8.5 14.5h3",
    flag: "M5 17V3.5M5 4h9.5l-2.3 3.4L14.5 11H5",
    history: "M3.2 10a6.8 6.8 0 1 0 2-4.8L3 7.3M3 3.5v3.8h3.8M10 6.5V10l2.7 1.7",
    key: "M7 8.5a3.7 3.7 0 1 1 0 7.4 3.7 3.7 0 0 1 0-7.4zM9.7 9.7 16.5 3M13.5 6l2.5 2.5",
    leave: "M8 3.5H4.5a1 1 0 0 0-1 1v11a1 1 0 0 0 1 1H8M12.5 6.5 16 10l-3.5 3.5M16 10H7.5",
    link: "M8.5 11.5a3.3 3.3 0 0 0 4.7 0l2.6-2.6a3.3 3.3 0 0 0-4.7-4.7l-.8.8M11.5 8.5a3.3 3.3 0 0 0-4.7 0l-2.6 2.6a3.3 3.3 0 0 0 4.7 4.7l.8-.8",
    list: "M7.5 5.5H17M7.5 10H17M7.5 14.5H17M3.5 5.5h.1M3.5 10h.1M3.5 14.5h.1",
    menu: "M3 5.5h14M3 10h14M3 14.5h14",
    more: "M4.5 10h.1M10 10h.1M15.5 10h.1",
    next: "m8 4.5 5.5 5.5L8 15.5",
    none: "M10 3a7 7 0 1 1 0 14 7 7 0 0 1 0-14zM5 5l10 10",
    note: "M4.5 3.5h11a1 1 0 0 1 1 1v8a1 1 0 0 1-1 1H9l-3.5 3v-3h-1a1 1 0 0 1-1-1v-8a1 1 0 0 1 1-1z",
    offline: "M5.8 15h8a3.2 3.2 0 0 0 1.8-5.8M12.7 6.6A4.7 4.7 0 0 0 5.6 8.3a3.5 3.5 0 0 0-2 5.9M3 3l14 14",
    people: "M7.5 4a2.9 2.9 0 1 1 0 5.8 2.9 2.9 0 0 1 0-5.8zM2 16.5c.4-3.2 2.5-4.9 5.5-4.9s5.1 1.7 5.5 4.9M13.2 4.3a2.7 2.7 0 0 1 0 5.2M15 12c1.7.7 2.8 2.2 3 4.5",
    person: "M10 3.2a3.3 3.3 0 1 1 0 6.6 3.3 3.3 0 0 1 0-6.6zM3.8 17c.6-3.3 3-5 6.2-5s5.6 1.7 6.2 5",
    print: "M6 7V3h8v4M6 13.5H4a1 1 0 0 1-1-1V8a1 1 0 0 1 1-1h12a1 1 0 0 1 1 1v4.5a1 1 0 0 1-1 1h-2M6 11.5h8V17H6z",
    project: "M4 7.5h13M3 12.5h13M8.3 3 6.3 17M13.7 3l-2 14",
    question: "M7.3 7.5a2.8 2.8 0 1 1 4.2 2.5c-1 .6-1.5 1.2-1.5 2.3M10 15v.1",
    repeat: "M3.5 9V8a2.5 2.5 0 0 1 2.5-2.5h10M13.5 3 16 5.5 13.5 8M16.5 11v1a2.5 2.5 0 0 1-2.5 2.5H4M6.5 17 4 14.5 6.5 12",
    search: "M8.7 3a5.7 5.7 0 1 1 0 11.4 5.7 5.7 0 0 1 0-11.4zM13 13l4.2 4.2",
    star: "m10 2.8 2.2 4.6 5 .7-3.6 3.5.9 5L10 14.2l-4.5 2.4.9-5-3.6-3.5 5-.7z",
    sync: "M4 10a6 6 0 0 1 10.3-4.2L16 7.5M16 3.5v4h-4M16 10a6 6 0 0 1-10.3 4.2L4 12.5M4 16.5v-4h4",
    tag: "M3.5 3.5h6.2l7 7a1 1 0 0 1 0 1.4l-4.8 4.8a1 1 0 0 1-1.4 0l-7-7zM6.8 6.8h.1",
    undo: "M6.5 3.5 3.5 6.5l3 3M3.8 6.5h8.4a4.3 4.3 0 0 1 0 8.6H8",
    wait: "M5.5 3h9M5.5 17h9M6.5 3c0 4.5 7 4.5 7 7s-7 2.5-7 7M13.5 3c0 4.5-7 4.5-7 7s7 2.5 7 7",
    weekend: "M4 10V7.5A2.5 2.5 0 0 1 6.5 5h7A2.5 2.5 0 0 1 16 7.5V10M2.5 11a1.5 1.5 0 0 1 3 0v1.5h9V11a1.5 1.5 0 0 1 3 0v4.5h-15z",
};

// The picture of this name.
export function icon(name, kind = "") {
    const drawn = document.createElementNS(SVG, "svg");
    drawn.setAttribute("viewBox", "0 0 20 20");
    drawn.setAttribute("class", `icon ${kind}`.trim());
    drawn.setAttribute("aria-hidden", "true");
    const path = document.createElementNS(SVG, "path");
    path.setAttribute("d", PATHS[name]);
    drawn.append(path);
    return drawn;
}

// Puts pictures before the words of what names one in the markup.
export function drawIcons(place = document) {
    for (const element of /** @type {NodeListOf<HTMLElement>} */ (place.querySelectorAll("[data-icon]"))) {
        if (!element.querySelector(":scope > .icon")) element.prepend(icon(element.dataset.icon));
    }
}
