// Making parts of the page, and texts as bytes.

export const $ = (name) => document.getElementById(name);

export const encode = (text) => new TextEncoder().encode(text);

export const decode = (bytes) => new TextDecoder().decode(bytes);

/** An element with these properties and what stands in it. */
export function element(tag, properties = {}, ...inside) {
  const node = Object.assign(document.createElement(tag), properties);
  node.append(...inside);
  return node;
}

export function button(text, action, properties = {}) {
  return element("button", { type: "button", textContent: text, onclick: action, ...properties });
}

export const paragraph = (...inside) => element("p", {}, ...inside);

export const inCode = (text) => element("code", { textContent: text });
