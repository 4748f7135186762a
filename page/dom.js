// @ts-check
// Small helpers for the page's elements.

/** @param {string} id @returns {any} the element, which the page has */
export function el(id) {
  return document.getElementById(id);
}

/** @param {string} tag @param {string | Node | (string | Node)[]} [inside] @param {string} [className] @returns {HTMLElement} */
export function make(tag, inside = [], className = '') {
  const made = document.createElement(tag);
  made.append(...(Array.isArray(inside) ? inside : [inside]));
  if (className) made.className = className;
  return made;
}

/**
 * Sets a text only if it changed, so that nothing is laid out or read aloud again for nothing.
 * @param {Element} element @param {string} text
 */
export function say(element, text) {
  if (element.textContent !== text) element.textContent = text;
}

/**
 * Fills a list of terms and what they are.
 * @param {Element} list @param {[string, string][]} rows
 */
export function terms(list, rows) {
  if (list.children.length !== rows.length * 2) list.replaceChildren(...rows.flatMap(([term]) => [make('dt', term), make('dd')]));
  rows.forEach(([, text], i) => say(list.children[i * 2 + 1], text));
}

/**
 * The value picked of a group of radio buttons.
 * @param {string} name @returns {string}
 */
export function picked(name) {
  return /** @type {HTMLInputElement} */ (document.querySelector(`input[name="${name}"]:checked`)).value;
}

/** @param {string} name @param {string} value @returns {HTMLInputElement} */
export function radio(name, value) {
  return /** @type {HTMLInputElement} */ (document.querySelector(`input[name="${name}"][value="${value}"]`));
}

/**
 * Hands a file to the reader.
 * @param {string} name @param {Uint8Array | string} content
 */
export function download(name, content) {
  const url = URL.createObjectURL(new Blob([/** @type {BlobPart} */ (content)], { type: 'application/octet-stream' }));
  const link = /** @type {HTMLAnchorElement} */ (make('a'));
  link.href = url;
  link.download = name;
  document.body.append(link);
  link.click();
  link.remove();
  setTimeout(() => URL.revokeObjectURL(url), 10000);
}

/**
 * Runs a function at most once in so many milliseconds, and always once more after the last call.
 * @param {number} every @param {() => void} run
 */
export function seldom(every, run) {
  let last = -Infinity;
  /** @type {ReturnType<typeof setTimeout> | undefined} */
  let later;
  const now = () => {
    clearTimeout(later);
    later = undefined;
    last = performance.now();
    run();
  };
  return () => {
    if (performance.now() - last >= every) now();
    else later ??= setTimeout(now, every);
  };
}
