// Texts and numbers as they are shown and compared.

// A text on one line, cut where it is very long: control characters become spaces, as in the listing.
export function oneLine(text, longest = 300) {
    const cut = text.length > longest ? `${text.slice(0, longest).replace(/[\uD800-\uDBFF]$/, "")}…` : text;
    return cut.replace(/[\u0000-\u001F\u007F-\u009F\u2028\u2029]/g, " ");
}

// A number with commas between its thousands.
export const counted = (number) => String(number).replace(/\B(?=(\d{3})+$)/g, ",");

// A text as it is searched: neither capitals nor accents count, so kuche finds Küche.
export const folded = (text) => text.normalize("NFD").replace(/\p{M}/gu, "").replace(/ß/g, "ss").toLowerCase();
