// Elements of the web page and words in them: the little that its modules share.

export function element(id) {
    return document.getElementById(id);
}

/** A new element with properties, attributes (in `aria`) and children. */
export function make(tag, { aria = {}, ...properties } = {}, ...children) {
    const made = Object.assign(document.createElement(tag), properties);
    for (const [name, value] of Object.entries(aria)) made.setAttribute(name, value);
    made.append(...children);
    return made;
}

/** A new element of a picture. */
export function shape(tag, attributes) {
    const made = document.createElementNS('http://www.w3.org/2000/svg', tag);
    for (const [name, value] of Object.entries(attributes)) made.setAttribute(name, value);
    return made;
}

export function say(id, words) {
    if (element(id).textContent !== words) element(id).textContent = words;
}

export function capital(words) {
    return words[0].toUpperCase() + words.slice(1);
}
