// How the parts of the page hear of news: each announces what changed, and listens for what it draws. types.js lists the news with what they carry.

const news = new EventTarget();

/**
 * @template {keyof News} Name
 * @param {Name} name
 * @param {News[Name]} [detail]
 */
export const announce = (name, detail) => news.dispatchEvent(new CustomEvent(name, { detail }));

/**
 * @template {keyof News} Name
 * @param {Name} name
 * @param {(detail: News[Name]) => unknown} act
 */
export const listen = (name, act) => news.addEventListener(name, (event) => act(/** @type {CustomEvent} */ (event).detail));

/**
 * @param {(keyof News)[]} names
 * @param {(detail: any) => unknown} act
 */
export const listenAll = (names, act) => names.forEach((name) => listen(name, act));
