// Texts of games as they can be shown: a dot stands in place of each control character, and of each that turns the direction of a text.

const ORDERS = /[\u0000-\u001f\u007f-\u009f\u202a-\u202e\u2066-\u2069]/g;
const ORDERS_IN_LINES = /[\u0000-\u0009\u000b-\u001f\u007f-\u009f\u202a-\u202e\u2066-\u2069]/g;
const DOT = "\u00b7";

export function harmless(text) {
  return text.replace(ORDERS, DOT);
}

// The same for a text of several lines, whose line feeds stay.
export function harmlessLines(text) {
  return text.replace(ORDERS_IN_LINES, DOT);
}
