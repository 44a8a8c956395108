// Says beside a field what the server would refuse of it, while it is typed and again before it is sent.
import { find, make } from "./element.js";

// The rule of each field, and where its fault is told.
const rules = new WeakMap();
let made = 0;

function mark(input) {
    const { rule, place } = rules.get(input);
    const fault = input.disabled ? "" : rule(input.value);
    input.setCustomValidity(fault);
    input.ariaInvalid = fault ? "true" : null;
    place.textContent = fault;
}

// Holds a field to a rule, which gives what is wrong with a text, or nothing; it is told behind the field or another element.
export function check(input, rule, beside = input) {
    made += 1;
    const place = make("span", { class: "fault", id: `fault-${made}`, role: "alert" });
    input.setAttribute("aria-describedby", `${input.getAttribute("aria-describedby") ?? ""} ${place.id}`.trim());
    beside.after(place);
    rules.set(input, { rule, place });
    input.addEventListener("input", () => [input, ...faultyIn(input.form)].forEach(mark));
}

// The fields of a form at which a fault is told. They are judged anew whenever anything in the form changes, since a rule may read several.
const faultyIn = (form) => [...(form?.elements ?? [])].filter((input) => rules.get(input)?.place.textContent);

// Calls this with a form that is sent, where all of it may be; it never leaves the page. The browser judges nothing by itself: what it found
// at a field some time ago may be over.
export function whenSent(id, act) {
    find(id).noValidate = true;
    find(id).addEventListener("submit", (event) => {
        event.preventDefault();
        if (isWhole(event.target)) act(event.target);
    });
}

// Whether a form may be sent. The first field that is at fault has the focus, and says why.
export function isWhole(form) {
    [...form.elements].filter((input) => rules.has(input)).forEach(mark);
    return form.reportValidity();
}
