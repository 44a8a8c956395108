// Lets the browser draw and take what is typed; the work goes on behind that.

export const breathe = () => globalThis.scheduler?.yield?.() ?? new Promise((go) => setTimeout(go));
