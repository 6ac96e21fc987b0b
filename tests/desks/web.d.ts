// What browsers have, and the libraries of this TypeScript don't.
interface Array<T> {
  toReversed(): T[];
  toSorted(compare?: (one: T, other: T) => number): T[];
}

// A page has the elements that its modules ask for.
interface Document {
  getElementById(id: string): any;
}
