// Tells of what failed.
import { NoAnswer } from "../sync/http.js";
import { toast } from "../ui/toast.js";

// A change that couldn't be put on the device isn't sent.
export function tellFault(fault) {
    console.error(fault);
    toast(`This browser can't keep the change on this device, so it wasn't made (${fault.name}). Free some room or leave private browsing, and try again.`);
}

export function tellRefusal(fault) {
    toast(fault instanceof NoAnswer ? "The server doesn't answer. Try again when it is there." : "The server refuses this.");
}
