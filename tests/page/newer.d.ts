// What browsers have, and this version of tsc doesn't know yet.
interface MapConstructor {
    groupBy<Item, Key>(items: Iterable<Item>, keyOf: (item: Item, at: number) => Key): Map<Key, Item[]>;
}
interface ObjectConstructor {
    groupBy<Item>(items: Iterable<Item>, keyOf: (item: Item, at: number) => PropertyKey): Record<string, Item[]>;
}
interface Array<T> {
    toReversed(): T[];
    findLast(test: (item: T, at: number) => unknown): T | undefined;
}
// An event of an element that is known to be one.
interface EventTarget {
    closest: any;
    matches: any;
    value: any;
    checked: any;
}
interface Element {
    inert: boolean;
    focus(options?: FocusOptions): void;
}
