// Keys: what a key of the keyboard, or a button, is for the program, which reads bytes.

const OF_KEYBOARD = new Map([
  ["ArrowUp", "w"],
  ["ArrowLeft", "a"],
  ["ArrowDown", "s"],
  ["ArrowRight", "d"],
  ["Enter", "x"],
  [" ", "x"],
]);
const PLAYED = "wasdxzr";
// Elements that take all keys themselves, and those that only take what presses them.
const TAKES_KEYS = "textarea, select, input";
const IS_PRESSED = "button, summary, a";
const PRESSING = ["Enter", " "];
// The keys of which a game may say that they do nothing.
const IGNORED = { act: "x", undo: "z", restart: "r" };

export const ACT = "x";

// Calls `press(key, isRepeated)` for keys of the keyboard that are played. It tells whether the key was used.
export function listenToKeyboard(press) {
  addEventListener("keydown", (event) => {
    if (event.ctrlKey || event.metaKey || event.altKey || event.isComposing || event.target.closest?.(TAKES_KEYS)) return;
    if (PRESSING.includes(event.key) && event.target.closest?.(IS_PRESSED)) return;
    const letter = event.key.length === 1 ? event.key.toLowerCase() : "";
    const key = OF_KEYBOARD.get(event.key) ?? (letter && PLAYED.includes(letter) ? letter : null);
    if (key !== null && press(key, event.repeat)) event.preventDefault();
  });
}

// Calls `press(key)` for the buttons of a pad.
export function listenToPad(pad, press) {
  for (const button of pad.querySelectorAll("[data-key]")) button.addEventListener("click", () => press(button.dataset.key, false));
}

// Hides the buttons of keys that do nothing in a game.
export function showPadOf(pad, ignored) {
  const keys = ignored.map((name) => IGNORED[name]);
  for (const button of pad.querySelectorAll("[data-key]")) button.hidden = keys.includes(button.dataset.key);
}

